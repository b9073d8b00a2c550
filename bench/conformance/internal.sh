#!/bin/sh
# Compares which imports govisd and the go command refuse by the rule of internal directories: a table of pairs of
# importer and imported package, and 300 pairs by chance. README.md in this folder says what is compared.
#
#     bench/conformance/internal.sh                     the program crates/test_cases/out/test_cases
#     GOVISD_CASES=FILE bench/conformance/internal.sh   another program
#
# Status 0 where the two agree but for the forms that are named, 1 where not, 2 where not all could be compared.
set -u

bench=$(dirname -- "$(dirname -- "$(readlink -f -- "$0")")")
. "$bench/shared/cases.sh"
go=$("$bench/shared/go_command.sh") || exit 2
exec python3 -B "$bench/conformance/internal.py" --probe "$cases" --go "$go" --cache "$out/gocache" \
    --trees "$out/internal"
