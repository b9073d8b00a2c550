#!/bin/sh
# Compares the faults of types that govisd answers with the errors of go/types: generated workspaces of type declarations with methods, correct ones and
# ones with errors put in. README.md in this folder says what is compared, and where the two differ on purpose.
#
#     bench/conformance/type_faults.sh                        the program crates/test_cases/out/test_cases
#     GOVISD_CASES=FILE bench/conformance/type_faults.sh   another program
#
# Status 0 where no fault differs but in the ways that the script names, 1 where one does, 2 where not all could be compared.
set -u

bench=$(dirname -- "$(dirname -- "$(readlink -f -- "$0")")")
. "$bench/shared/cases.sh"
peer=$("$bench/shared/go_peer.sh" conformance/type_faults_peer) || exit 2
exec python3 -B "$bench/conformance/type_faults.py" --program "$cases" --peer "$peer" --folder "$out/type_faults"
