#!/bin/sh
# Measures `govisd check` on whole workspaces of up to 4,096 packages, beside go/parser with go/types in the same run, and checks the bounds and the counts.
# README.md beside this file says what is measured.
#
#     bench/speed/compile.sh               the program crates/govisd/out/govisd
#     GOVISD=FILE bench/speed/compile.sh   another program
#     RUNS=2 bench/speed/compile.sh        so many runs of each in place of 5
#
# Status 0 where all bounds hold, 1 where not, 2 where something could not be measured.
set -u

bench=$(dirname -- "$(dirname -- "$(readlink -f -- "$0")")")
. "$bench/shared/program.sh"
mkdir -p "$out" && python3 -B "$bench/shared/compiled.py" "$out/compiled" || exit 2
gofront=$("$bench/shared/go_peer.sh" shared/gofront) || gofront=

set --
[ -z "$gofront" ] || set -- --peer "$gofront"
exec python3 -B "$bench/speed/compiling.py" --govisd "$govisd" "$@" --folder "$out/compiled"
