#!/bin/sh
# The sum of the sources that a program is made from, as `govisd`: its crates in crates.txt, with their lists, and their files.
# tools/sums.sh PROGRAM [ROOT]
set -eu
cd "${2:-$(dirname -- "$0")/..}"
export LC_ALL=C
crates=$(awk -F: -v program="$1" '
    { sub(/#.*/, "") }
    NF > 1 { split($1, head, " "); name[++count] = head[1]; uses[head[1]] = $2 }
    END {
        wanted[program]
        for (i = count; i > 0; i--)
            if (name[i] in wanted)
                for (j = split(uses[name[i]], used, " "); j > 0; j--) wanted[used[j]]
        for (i = 1; i <= count; i++)
            if (name[i] in wanted) print name[i] ":" uses[name[i]]
    }' crates.txt)
{
    printf '%s\n' "$crates"
    printf '%s\n' "$crates" | while IFS=: read -r name _; do
        find "crates/$name/src" "crates/$name/specs" "crates/$name/proofs" -type f 2>/dev/null
    done | sort | xargs sha256sum
} | sha256sum | cut -d' ' -f1
