#!/bin/sh
# Measures the parser beside go/scanner and go/parser: `test_cases parse` on files of 1 MB over the whole grammar, and
# `test_cases sources` on workspaces of up to 4,096 packages, whose trees are all held at once. Checks that the times and the
# memory are within bounds. README.md beside this file says what is measured.
#
#     bench/speed/parse.sh                     the program crates/test_cases/out/test_cases
#     GOVISD_CASES=FILE bench/speed/parse.sh   another program
#
# Status 0 where all bounds hold, 1 where not, 2 where something could not be measured.
set -u

bench=$(dirname -- "$(dirname -- "$(readlink -f -- "$0")")")
. "$bench/shared/cases.sh"
python3 -B "$bench/shared/generate.py" parse "$out/parsed" && python3 -B "$bench/shared/workspaces.py" held "$out/workspaces" || exit 2
gofront=$("$bench/shared/go_peer.sh" shared/gofront) || gofront=

# The status of the program tells nothing of faults.
if "$cases" parse "$out"/parsed/*.go | grep -v '^file ' | grep -v '^tree$'; then
    echo 'FAILED: a file has no tree'
    exit 1
fi

set --
[ -z "$gofront" ] || set -- --gofront "$gofront"
python3 -B "$bench/speed/measure.py" parse --govisd "$cases" "$@" --files "$out/parsed"
parsed=$?
echo
python3 -B "$bench/speed/held.py" --probe "$cases" "$@" --files "$out/workspaces"
held=$?
if [ $parsed -eq 1 ] || [ $held -eq 1 ]; then
    exit 1
fi
[ $parsed -ne 0 ] && exit $parsed
exit $held
