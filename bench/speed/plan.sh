#!/bin/sh
# Measures what planning the imports of up to 4,096 packages takes, beside `go list -deps`, and checks that the time, the
# memory and the counts are right. README.md beside this file says what is measured.
#
#     bench/speed/plan.sh                     the program crates/test_cases/out/test_cases
#     GOVISD_CASES=FILE bench/speed/plan.sh   another program
#     WITHOUT_GO=1 bench/speed/plan.sh        without go list, which takes longer than all else
#
# Status 0 where all bounds hold, 1 where not, 2 where nothing could be measured.
set -u

bench=$(dirname -- "$(dirname -- "$(readlink -f -- "$0")")")
. "$bench/shared/cases.sh"
python3 -B "$bench/shared/workspaces.py" plan "$out/workspaces" || exit 2
go=
[ -n "${WITHOUT_GO:-}" ] || go=$("$bench/shared/go_command.sh") || go=

set --
[ -z "$go" ] || set -- --go "$go" --cache "$out/gocache"
exec python3 -B "$bench/speed/plan.py" --probe "$cases" "$@" --files "$out/workspaces"
