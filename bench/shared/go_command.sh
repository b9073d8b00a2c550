#!/bin/sh
# Prints the path of the go command, or says on standard error why it can't be had (status 1). Where there is none,
# Debian's golang-go is installed.
set -u

bench=$(dirname -- "$(dirname -- "$(readlink -f -- "$0")")")
out=${BENCH_OUT:-$bench/out}

if ! command -v go >/dev/null 2>&1; then
    as_root=
    [ "$(id -u)" -eq 0 ] || as_root='sudo -n'
    echo 'bench: there is no Go here: installing golang-go ...' >&2
    { $as_root apt-get update && $as_root apt-get install -y golang-go; } >"$out/apt.log" 2>&1 ||
        echo "bench: it could not be installed; $out/apt.log says why" >&2
fi
command -v go || {
    echo 'bench: no Go, so nothing is compared with it' >&2
    exit 1
}
