# Read by the scripts in the folders of bench/, after they set `bench` to it: `cases` is the program test_cases, which is proved and
# built where it is not there yet, and `out` the folder for what they make. Ends with status 2 where it can't be had.
cases=${GOVISD_CASES:-$bench/../crates/test_cases/out/test_cases}
out=${BENCH_OUT:-$bench/out}
export BENCH_OUT="$out"
mkdir -p "$out" || exit 2

if [ ! -x "$cases" ] && [ -z "${GOVISD_CASES:-}" ] && command -v rt >/dev/null 2>&1; then
    echo 'bench: proving and building test_cases ...' >&2
    (cd "$bench/../crates/test_cases" && rt run -- counts data/one.txt) >"$out/cases.log" 2>&1 ||
        echo "bench: that failed; $out/cases.log says why" >&2
fi
if [ ! -x "$cases" ]; then
    echo "bench: there is no program $cases: 'rt run' in crates/test_cases builds it" >&2
    exit 2
fi
cases=$(readlink -f -- "$cases")
