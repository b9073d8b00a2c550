#!/bin/sh
# Tries further wrong bodies: each edit in bench/wrong_bodies/CRATE is made in a copy of the repository, and the prover must
# refuse it. The gate tries those in crates/CRATE/must-fail, which are fewer, since each costs a proof.
#
#     bench/wrong_bodies/wrong_bodies.sh            of all crates
#     bench/wrong_bodies/wrong_bodies.sh CRATE ..   of these
#     bench/wrong_bodies/wrong_bodies.sh --together CRATE ..   many in one check
#
# What was tried before on the same sources is not tried again, so a run that was stopped goes on where it stopped. README.md
# beside this file says where the results are kept. Status 0 where each edit is refused, 1 where not, 2 where nothing could be tried.
set -u

bench=$(dirname -- "$(dirname -- "$(readlink -f -- "$0")")")
out=${BENCH_OUT:-$bench/out}
command -v rt >/dev/null 2>&1 || {
    echo 'wrong_bodies.sh: the command rt is not on the PATH' >&2
    exit 2
}
exec python3 -B "$bench/wrong_bodies/wrong_bodies.py" --out "$out" "$@"
