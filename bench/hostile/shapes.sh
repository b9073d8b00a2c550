#!/bin/sh
# Measures `govisd resolve` on shapes of text that might take long, beside Go's own front end: bench/hostile/shapes.sh [--only NAME,..]
# GOVISD=FILE names another program than crates/govisd/out/govisd. Status 0 where all bounds hold, 1 where not, 2 where nothing could be measured.
set -u
bench=$(dirname -- "$(dirname -- "$(readlink -f -- "$0")")")
. "$bench/shared/program.sh"
gofront=$("$bench/shared/go_peer.sh" shared/gofront) || gofront=
[ -z "$gofront" ] || set -- --gofront "$gofront" "$@"
exec python3 -B "$bench/hostile/shapes.py" --govisd "$govisd" "$@"
