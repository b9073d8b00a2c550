#!/bin/sh
# Measures the check of whole packages, from the text to what each name denotes, beside go/parser with go/types in the same run, and checks the bounds and
# the counts. README.md beside this file says what is measured.
#
#     bench/speed/check.sh                        the program crates/test_cases/out/test_cases
#     GOVISD_CASES=FILE bench/speed/check.sh   another program
#
# Status 0 where all bounds hold, 1 where not, 2 where something could not be measured.
set -u

bench=$(dirname -- "$(dirname -- "$(readlink -f -- "$0")")")
. "$bench/shared/cases.sh"
python3 -B "$bench/shared/checked.py" "$out/checked" || exit 2
gofront=$("$bench/shared/go_peer.sh" shared/gofront) || gofront=

set --
[ -z "$gofront" ] || set -- --peer "$gofront"
exec python3 -B "$bench/speed/checking.py" --program "$cases" "$@" --folder "$out/checked"
