#!/bin/sh
# Measures `govisd resolve` on files of 1 MB, beside Go's own front end, and checks that the times and the memory
# are within bounds. README.md beside this file says what is measured.
#
#     bench/speed/resolve.sh               the program crates/govisd/out/govisd
#     GOVISD=FILE bench/speed/resolve.sh   another program
#
# Status 0 where all bounds hold and both programs agree, 1 where not, 2 where nothing could be measured.
set -u

bench=$(dirname -- "$(dirname -- "$(readlink -f -- "$0")")")
. "$bench/shared/program.sh"
mkdir -p "$out" && python3 -B "$bench/shared/generate.py" bench "$out/files" || exit 2
gofront=$("$bench/shared/go_peer.sh" shared/gofront) || gofront=

set --
[ -z "$gofront" ] || set -- --gofront "$gofront"
python3 -B "$bench/speed/measure.py" resolve --govisd "$govisd" "$@" --files "$out/files"
measured=$?
[ -n "$gofront" ] || exit $measured
echo
GOVISD="$govisd" "$bench/conformance/conformance.sh"
conforms=$?
[ $measured -ne 0 ] && exit $measured
exit $conforms
