#!/bin/sh
# Puts the program that the gate has just proved and built into dist/, with the sums of its sources and its own: after `rt ci`, before a change of the
# program is handed in.
# tools/ship.sh
set -eu
cd "$(dirname -- "$0")/.."
mkdir -p dist
cp crates/govisd/out/govisd dist/govisd
chmod 755 dist/govisd
{
    printf 'sources %s\n' "$(tools/sums.sh govisd)"
    printf 'program %s\n' "$(sha256sum dist/govisd | cut -d' ' -f1)"
    printf 'kit %s\n' "$(rt version)"
} >dist/govisd.sums
