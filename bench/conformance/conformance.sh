#!/bin/sh
# Compares what `govisd resolve` and go/types say of the same files: which declaration each identifier denotes.
#
#     bench/conformance/conformance.sh              the benchmark files, the examples and 300 small files of few names
#     bench/conformance/conformance.sh FILE.go ..   these files
#
# GOVISD names another program than crates/govisd/out/govisd. Status 0 where the two agree wherever both name a
# declaration, 1 where not, 2 where nothing could be compared.
set -u

bench=$(dirname -- "$(dirname -- "$(readlink -f -- "$0")")")
. "$bench/shared/program.sh"
mkdir -p "$out" || exit 2
gofront=$("$bench/shared/go_peer.sh" shared/gofront) || exit 2
if [ $# -eq 0 ]; then
    python3 -B "$bench/shared/generate.py" bench "$out/files" || exit 2
    python3 -B "$bench/shared/generate.py" small "$out/small" || exit 2
    set -- "$out"/files/*.go "$bench"/../examples/*.go "$out"/small/*.go
fi
exec python3 -B "$bench/conformance/agree.py" --govisd "$govisd" --gofront "$gofront" "$@"
