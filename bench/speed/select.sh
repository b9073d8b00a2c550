#!/bin/sh
# Measures what selectors take, and what building the types of a workspace takes, beside go/types in the same run, and checks the bounds and
# the counts. README.md beside this file says what is measured.
#
#     bench/speed/select.sh                        the program crates/test_cases/out/test_cases
#     GOVISD_CASES=FILE bench/speed/select.sh   another program
#
# Status 0 where all bounds hold, 1 where not, 2 where nothing could be measured.
set -u

bench=$(dirname -- "$(dirname -- "$(readlink -f -- "$0")")")
. "$bench/shared/cases.sh"
peer=$("$bench/shared/go_peer.sh" conformance/goselect) || exit 2
exec python3 -B "$bench/speed/selecting.py" --program "$cases" --peer "$peer" --folder "$out/select"
