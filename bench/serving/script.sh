#!/bin/sh
# Serves scripts of sessions and compares their replies and exit statuses, with one worker and with eight: bench/serving/script.sh [PROGRAM [NAME]..]
# The scripts are those of the gate, crates/test_cases/data/script_NAME.txt with the replies bench/serving/scripts/NAME.replies, and those that made_scripts.py makes;
# with names it is these of the latter alone (history: as many events as a daemon takes). Their replies were worked out from docs/RULES.md and
# docs/DAEMON.md. A script whose last reply is V1 ends with status 1, and others with 0.
set -eu
cd "$(dirname -- "$0")/../.."
program=${1:-./govisd}
[ $# -eq 0 ] || shift
work=$(mktemp -d)
trap 'rm -rf "$work"' EXIT
if [ $# -eq 0 ]; then
    for replies in bench/serving/scripts/*.replies; do
        name=$(basename "$replies" .replies)
        cp "$replies" "$work"
        cp "crates/test_cases/data/script_$name.txt" "$work/$name.txt"
    done
fi
python3 bench/shared/made_scripts.py "$work" "$@"
differ=0
scripts=0
for requests in "$work"/*.txt; do
    replies=${requests%.txt}.replies
    wanted=0
    [ "$(tail -n 1 "$replies")" != '{"err":"V1"}' ] || wanted=1
    scripts=$((scripts + 1))
    for workers in 1 8; do
        status=0
        "$program" script --workers "$workers" <"$requests" >"$work/told" 2>"$work/said" || status=$?
        if ! cmp "$work/told" "$replies" || [ "$status" -ne "$wanted" ]; then
            echo "$(basename "$requests"), $workers workers: status $status: $(cat "$work/said")"
            differ=$((differ + 1))
        fi
    done
done
echo "$scripts scripts, $differ differ"
[ "$differ" -eq 0 ]
