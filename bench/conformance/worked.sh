#!/bin/sh
# Compares the worked archives with govisd and with go/types: the answers stand in them as comments. PACKAGES.md in this folder says what is compared.
#
#     bench/conformance/worked.sh                        the program crates/test_cases/out/test_cases
#     GOVISD_CASES=FILE bench/conformance/worked.sh   another program
#
# Status 0 where nothing differs but in the ways that are named, 1 where something does, 2 where not all could be compared.
set -u

bench=$(dirname -- "$(dirname -- "$(readlink -f -- "$0")")")
. "$bench/shared/cases.sh"
peer=$("$bench/shared/go_peer.sh" conformance/gopackages) || exit 2
folder=$out/worked
data=$bench/../crates/test_cases/data
rm -rf "$folder" && mkdir -p "$folder/few" || exit 2
"$peer" table "$folder" && "$peer" table "$folder/few" || exit 2
python3 -B "$bench/conformance/operands.py" "$folder" && python3 -B "$bench/conformance/operands.py" few "$folder/few" || exit 2
for made in "$folder"/few/*.txt; do
    cmp "$made" "$data/$(basename -- "$made")" || exit 1
done
cp "$data"/aliases.txt "$data"/examples.txt "$data"/imports.txt "$data"/bounds.txt "$data"/neighbours.txt "$data"/places.txt "$folder" || exit 2
"$cases" answers "$folder"/*.txt >"$out/worked_answers.txt" || exit 2
exec "$peer" compare -show 1 "$out/worked_answers.txt" "$folder"/*.txt
