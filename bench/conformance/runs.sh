#!/bin/sh
# Compares what `govisd run` prints of generated programs, how they end, and what they panic with, with the binaries that `go build` makes of them.
#
#     bench/conformance/runs.sh                 the program crates/govisd/out/govisd
#     GOVISD=FILE bench/conformance/runs.sh     another program
#     PROGRAMS=50 bench/conformance/runs.sh     so many programs in place of 500
#
# Status 0 where none differs, 1 where one does, 2 where they could not be compared.
set -u

bench=$(dirname -- "$(dirname -- "$(readlink -f -- "$0")")")
. "$bench/shared/program.sh"
mkdir -p "$out/runs" || exit 2
go=$("$bench/shared/go_command.sh") || exit 2
GOCACHE="$out/gocache" exec python3 -B "$bench/conformance/runs.py" --govisd "$govisd" --go "$go" --folder "$out/runs" --programs "${PROGRAMS:-500}"
