#!/bin/sh
# Compares what `govisd script` answers to `complete` and `define` with go/types, at every identifier of twice 300 generated files and of 100 generated
# workspaces, and to `doc` with each type of these; and what it answers to `list` with `go list`. README.md in this folder says what is compared, and where
# the two differ on purpose.
#
#     bench/conformance/queries.sh                     the program crates/govisd/out/govisd
#     GOVISD=FILE bench/conformance/queries.sh         another program
#     bench/conformance/queries.sh files               the files of few names alone; `members`, files of types, `workspaces` and `lists` are the other parts
#     WORKSPACES=10 FILES=30 bench/conformance/queries.sh    so many workspaces, and files of each kind
#     EVERY=10 SPARSE=1000 bench/conformance/queries.sh   names are put in the place of each so many identifiers of files, of workspaces
#
# Status 0 where nothing differs but in the ways that are named, 1 where something does, 2 where not all could be compared.
set -u

bench=$(dirname -- "$(dirname -- "$(readlink -f -- "$0")")")
. "$bench/conformance/checked_folders.sh"
folder=$out/queries
rm -rf "$folder/archives" "$folder/module"
mkdir -p "$folder" || exit 2
"$peer" several "$folder/archives" "${WORKSPACES:-100}" 7 >"$folder/forms.txt" || exit 2
find "$folder/archives" -name '*.txt' | sort | GOCACHE="$out/gocache" xargs -n 100000 -s 1000000 "$peer" list "$go" "$folder/module" >"$folder/listing.txt" || exit 2
[ $# -gt 0 ] || set -- files members workspaces lists
exec python3 -B "$bench/conformance/queries.py" --govisd "$govisd" --peer "$peer" --go "$go" --cache "$out/gocache" --folder "$folder" \
    --listing "$folder/listing.txt" --files "${FILES:-300}" --every "${EVERY:-1}" --sparse "${SPARSE:-100}" "$@"
