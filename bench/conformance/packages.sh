#!/bin/sh
# Compares what stands in whole packages by govisd and by go/types: generated packages of the whole grammar, correct ones, ones with one error put in,
# and ones that are changed at one place. PACKAGES.md in this folder says what is compared.
#
#     bench/conformance/packages.sh                        the program crates/test_cases/out/test_cases
#     GOVISD_CASES=FILE bench/conformance/packages.sh   another program
#     PACKAGES=400 bench/conformance/packages.sh           so many workspaces in place of 4,000
#
# Status 0 where nothing differs but in the ways that are named, 1 where something does, 2 where not all could be compared.
set -u

bench=$(dirname -- "$(dirname -- "$(readlink -f -- "$0")")")
. "$bench/shared/cases.sh"
peer=$("$bench/shared/go_peer.sh" conformance/gopackages) || exit 2
folder=$out/packages
rm -rf "$folder"
"$peer" generate "$folder" "${PACKAGES:-4000}" 7 >"$out/packages_forms.txt" || exit 2
find "$folder" -name '*.txt' | sort >"$out/packages_files.txt"
xargs "$cases" answers <"$out/packages_files.txt" >"$out/packages_answers.txt" || exit 2
xargs -n 100000 -s 1000000 "$peer" compare -show 1 "$out/packages_answers.txt" <"$out/packages_files.txt"
