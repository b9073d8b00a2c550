#!/bin/sh
# Compares what selectors denote by govisd and by go/types: 2,000 generated workspaces of types that embed one another, each name of a field or a
# method behind values, pointers and pointers to pointers of each type, from each package. README.md in this folder says what is compared.
#
#     bench/conformance/selectors.sh                        the program crates/test_cases/out/test_cases
#     GOVISD_CASES=FILE bench/conformance/selectors.sh   another program
#
# Status 0 where no answer differs, 1 where one does, 2 where not all could be compared.
set -u

bench=$(dirname -- "$(dirname -- "$(readlink -f -- "$0")")")
. "$bench/shared/cases.sh"
peer=$("$bench/shared/go_peer.sh" conformance/goselect) || exit 2
data=$bench/../crates/test_cases/data
exec python3 -B "$bench/conformance/selector_answers.py" --program "$cases" --peer "$peer" --folder "$out/selectors" \
    "$data/paths.txt" "$data/hidden_members.txt" "$data/operands.txt" "$data/towers.txt"
