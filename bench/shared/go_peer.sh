#!/bin/sh
# Builds the Go program of the folder of bench/ that is given, as `shared/gofront`, and prints the path of the program, or
# says on standard error why it can't be had (status 1). Where there is no Go, go_command.sh installs it.
set -u

bench=$(dirname -- "$(dirname -- "$(readlink -f -- "$0")")")
out=${BENCH_OUT:-$bench/out}
source=$bench/$1
peer=$out/$(basename -- "$1")

go=$("$bench/shared/go_command.sh") || exit 1
if [ ! -x "$peer" ] || [ -n "$(find "$source" -type f -newer "$peer")" ]; then
    (cd "$source" && GO111MODULE=off GOFLAGS='' GOCACHE="$out/gocache" "$go" build -o "$peer" .) >&2 || {
        echo "bench: the Go program $1 did not build, so nothing is compared with it" >&2
        exit 1
    }
fi
echo "$peer"
