#!/bin/sh
# Time of `govisd run` on a loop of 100 million instructions, beside the same loop by `go run`, where there is a go, and by Python.
# Ends with status 1 where an answer differs or the loop takes longer than LIMIT seconds (1.0), and 2 where there is no program.
set -u
bench=$(dirname -- "$(dirname -- "$(readlink -f -- "$0")")")
. "$bench/shared/program.sh"
out=$out/run
turns=${TURNS:-5882353}
limit=${LIMIT:-1.0}
mkdir -p "$out/loop" || exit 2

# Seventeen instructions a turn, and eleven beside.
steps=$((17 * turns + 11))
cat >"$out/loop/main.go" <<GO
package main

func main() {
	sum := 0
	for i := 0; i < $turns; i++ {
		sum = sum*3 + i%7
	}
	println(sum)
}
GO
printf 'module loop\n\ngo 1.21\n' >"$out/loop/go.mod"
cat >"$out/loop.py" <<PY
total = 0
for i in range($turns):
    total = (total * 3 + i % 7) & 0xFFFFFFFFFFFFFFFF
print(total - ((total >> 63) << 64))
PY

# Runs a command three times: the least time in seconds, and what it wrote on either output to the file $1.
least() {
    python3 - "$@" <<'PY'
import subprocess, sys, time
best = None
for _ in range(3):
    begun = time.monotonic()
    ran = subprocess.run(sys.argv[2:], stdout=subprocess.PIPE, stderr=subprocess.STDOUT)
    took = time.monotonic() - begun
    best = took if best is None else min(best, took)
open(sys.argv[1], "wb").write(ran.stdout)
print(f"{best:.3f}")
PY
}

# Tells the time of another program, and compares what it wrote.
told() {
    awk -v name="$1" -v took="$3" -v own="$own" 'BEGIN { printf "%-8s %8.3f s   %.2f times as long as govisd\n", name, took, took / own }'
    cmp "$out/govisd.txt" "$2" || status=1
}

status=0
own=$(least "$out/govisd.txt" "$govisd" run "$out/loop" --steps "$steps")
awk -v took="$own" -v steps="$steps" 'BEGIN { printf "%-8s %8.3f s   %.0f million instructions a second\n", "govisd", took, steps / took / 1000000 }'
if awk -v took="$own" -v limit="$limit" 'BEGIN { exit !(took > limit) }'; then
    echo "run.sh: that is more than $limit s" >&2
    status=1
fi
# One step fewer does not do.
"$govisd" run "$out/loop" --steps $((steps - 1)) >/dev/null 2>&1
ended=$?
if [ "$ended" -ne 3 ]; then
    echo "run.sh: with a step fewer the status is $ended, not 3" >&2
    status=1
fi
told python "$out/python.txt" "$(least "$out/python.txt" python3 "$out/loop.py")"
if command -v go >/dev/null 2>&1; then
    told 'go run' "$out/go.txt" "$(cd "$out/loop" && least "$out/go.txt" go run .)"
else
    echo "there is no go: Debian's golang-go has one"
fi
exit $status
