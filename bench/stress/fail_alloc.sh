#!/usr/bin/env bash
# Makes each allocation of `govisd resolve` fail in turn, over the source of examples/shadowing.go (or the file that is
# given), or of `govisd check` with what follows the word check: each run must end with the right report, or with none, a
# message and status 1; never with another report. With the word internal it is `govisd check` of a workspace in which one
# package may import an internal one and another may not, and what is right was worked out by hand from docs/RULES.md. With
# the word branches and an archive the program is test_cases, which GOVISD names then: no function may differ. With
# the words script or serve it is the daemon, each of whose replies must be the right one, or M0, or none where it ends or
# the connection does: fail_alloc.py says how.
#
#     bench/stress/fail_alloc.sh
#     bench/stress/fail_alloc.sh FILE.go
#     bench/stress/fail_alloc.sh check examples/shop --module ex.com/shop
#     bench/stress/fail_alloc.sh internal
#     GOVISD=crates/test_cases/out/test_cases bench/stress/fail_alloc.sh branches ARCHIVE
#     bench/stress/fail_alloc.sh [--every N] [--workers N] script FILE..
#     bench/stress/fail_alloc.sh [--every N] [--workers N] serve
set -euo pipefail

here=$(cd "$(dirname "$0")" && pwd)
govisd=${GOVISD:-$here/../../crates/govisd/out/govisd}
[ -x "$govisd" ] || { echo "fail_alloc.sh: no program $govisd: run ./govisd once, or give GOVISD" >&2; exit 2; }

work=$(mktemp -d)
trap 'rm -rf "$work"' EXIT
cc -O1 -shared -fPIC -o "$work/fail.so" "$here/fail_alloc.c" -ldl

# Writes the packages ex.com/a/b, ex.com/a/internal/x and ex.com/ab into the folder $1, and what is to be told of them,
# without what the rules mean, into the file $2.
make_internal() {
    mkdir -p "$1/a/b" "$1/a/internal/x" "$1/ab"
    printf 'package b\n\nimport "ex.com/a/internal/x"\n\nconst B = x.X\n' >"$1/a/b/b.go"
    printf 'package x\n\nconst X = 1\n' >"$1/a/internal/x/x.go"
    printf 'package ab\n\nimport "ex.com/a/internal/x"\nimport "ex.com/a/internal/y"\n\nconst B = x.X\n' >"$1/ab/ab.go"
    printf '%s\n' 'ab/ab.go:3:8: I3' 'ab/ab.go:4:8: I3' 'ab/ab.go:6:11: N9' 'ab/ab.go:6:13: S4' '4 faults' >"$2"
}

# Runs the program with the allocation $1 failing (0: none), and sets `status`.
run() {
    status=0
    FAIL_ALLOC=$1 FAIL_ALLOC_COUNT=$work/count LD_PRELOAD=$work/fail.so \
        "$govisd" "${words[@]}" <"$source" >"$work/out" 2>"$work/err" || status=$?
}

source=/dev/null
case ${1:-} in
--every | --workers | script | serve)
    python3 "$here/fail_alloc.py" "$work/fail.so" "$govisd" "$@"
    exit
    ;;
check | branches)
    words=("$@")
    ;;
internal)
    make_internal "$work/tree" "$work/right"
    words=(check "$work/tree" --module ex.com)
    ;;
*)
    source=${1:-$here/../../examples/shadowing.go}
    words=(resolve)
    ;;
esac

run 0
cp "$work/out" "$work/report"
report_status=$status
total=$(cat "$work/count")
if [ -e "$work/right" ] && ! cut -d ' ' -f 1,2 "$work/report" | cmp -s - "$work/right"; then
    echo "the report is not the right one:" && cat "$work/report"
    exit 1
fi
wrong=0
whole=0
none=0
for ((n = 1; n <= total; n++)); do
    run "$n"
    if [ "$status" -eq "$report_status" ] && cmp -s "$work/out" "$work/report"; then
        whole=$((whole + 1))
    elif [ "$status" -eq 1 ] && [ ! -s "$work/out" ] && [ -s "$work/err" ]; then
        none=$((none + 1))
    else
        wrong=$((wrong + 1))
        echo "allocation $n: status $status, $(wc -c <"$work/out") bytes: $(head -c 200 "$work/err")"
    fi
done
echo "$total allocations: $none runs without a report, $whole with the right one, $wrong with another"
[ "$total" -gt 0 ] && [ "$wrong" -eq 0 ]
