#!/usr/bin/env bash
# Compares the tokens that govisd and go/scanner find in Go's own sources.
#
#     bench/conformance/scan.sh              every .go file of Debian's package golang-1.19-src
#     bench/conformance/scan.sh FILE.go ..   these files
#
# GOVISD_CASES names another program than crates/test_cases/out/test_cases. Status 0 where the two agree but for
# the forms that are named, 1 where not, 2 where not all could be compared.
set -uo pipefail

bench=$(dirname -- "$(dirname -- "$(readlink -f -- "$0")")")
. "$bench/shared/cases.sh"
goscan=$("$bench/shared/go_peer.sh" conformance/goscan) || exit 2

sources=golang-1.19-src
files=$out/scanned_files
if [ $# -gt 0 ]; then
    printf '%s\n' "$@" >"$files"
elif dpkg -L $sources >"$out/package_files" 2>/dev/null; then
    # a folder may be named so too
    grep '\.go$' "$out/package_files" | xargs -d '\n' sh -c 'find "$@" -maxdepth 0 -type f' sh >"$files"
else
    echo "scan.sh: Debian's package $sources is not installed: apt-get install $sources" >&2
    exit 2
fi
xargs -d '\n' "$cases" tokens <"$files" | "$goscan"
ended=("${PIPESTATUS[@]}")
[ "${ended[0]}" -eq 0 ] || exit 2
exit "${ended[1]}"
