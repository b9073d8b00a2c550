# Read by the scripts in the folders of bench/, after they set `bench` to it: `govisd` is the program to run, and `out`
# the folder for what they make. Ends with status 2 where there is no program.
govisd=${GOVISD:-$bench/../crates/govisd/out/govisd}
out=${BENCH_OUT:-$bench/out}
export BENCH_OUT="$out"

if [ ! -x "$govisd" ]; then
    echo "bench: there is no program $govisd: ./govisd at the top of the repository builds it" >&2
    exit 2
fi
govisd=$(readlink -f -- "$govisd")
