#!/bin/sh
# Measures what `govisd check` holds in memory for a package, for a name that it declares, for an import and for an occurrence. README.md beside this file
# says how.
#
#     bench/speed/sizes.sh               the program crates/govisd/out/govisd
#     GOVISD=FILE bench/speed/sizes.sh   another program
#
# Status 0, or 2 where something could not be measured.
set -u

bench=$(dirname -- "$(dirname -- "$(readlink -f -- "$0")")")
. "$bench/shared/program.sh"
mkdir -p "$out" && cc -O1 -shared -fPIC -o "$out/count_alloc.so" "$bench/speed/count_alloc.c" -ldl || exit 2
python3 -B "$bench/speed/sizes.py" --govisd "$govisd" --library "$out/count_alloc.so" --folder "$out/sizes" || exit 2
