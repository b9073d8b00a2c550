#!/bin/sh
# Compares the faults that `govisd check` finds in whole workspaces with go/types and the import rules of `go list`: generated workspaces of 2 to 12 packages,
# correct ones, ones with one error put in, and ones that are changed at one place. WORKSPACES.md in this folder says what is compared.
#
#     bench/conformance/workspaces.sh                   the program crates/govisd/out/govisd
#     GOVISD=FILE bench/conformance/workspaces.sh       another program
#     WORKSPACES=100 bench/conformance/workspaces.sh    so many workspaces in place of 1,200
#
# Status 0 where nothing differs but in the ways that are named, 1 where something does, 2 where not all could be compared.
set -u

bench=$(dirname -- "$(dirname -- "$(readlink -f -- "$0")")")
. "$bench/conformance/checked_folders.sh"
folder=$out/workspaces
rm -rf "$folder"
"$peer" several "$folder/archives" "${WORKSPACES:-1200}" 7 >"$out/workspaces_forms.txt" || exit 2
find "$folder/archives" -name '*.txt' | sort >"$out/workspaces_files.txt"
all() {
    xargs -n 100000 -s 1000000 "$peer" "$@" <"$out/workspaces_files.txt"
}
GOCACHE="$out/gocache" all list "$go" "$folder/module" >"$out/workspaces_list.txt" || exit 2
all ask "$govisd" "$folder/checked" >"$out/workspaces_answers.txt" || exit 2
all compare -show 1 -refusals -list "$out/workspaces_list.txt" "$out/workspaces_answers.txt"
status=$?
case $status in
0 | 1) exit $status ;;
123) exit 1 ;; # what xargs makes of 1
esac
exit 2
