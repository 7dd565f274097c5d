#!/usr/bin/env bash
# Puts single scans of random programs to the interpreter, to the flat form and to the nodes: makes cases of the door `scan`, whose answers come
# from another implementation, and runs them by the program that runs the cases of the repository. Its last line counts them. Needs python3.
#
#   bench/fuzz_scans.sh N OTHER [SEED]     N programs; OTHER is the command line of the other implementation; RUNNER, if it is set, is the program that
#                                          runs cases; LEAVING=0 and WIDE=0 make programs as in bench/fuzz.sh
set -euo pipefail

top=$(dirname -- "$(dirname -- "$(readlink -f -- "${BASH_SOURCE[0]}")")")
if [ $# -lt 2 ]; then
    sed -n '5,6p' "${BASH_SOURCE[0]}" >&2
    exit 2
fi
runner=$(readlink -f -- "${RUNNER:-$top/crates/case_runner/out/case_runner}")
[ -x "$runner" ] || { echo "no program at $runner: docs/CASES.md says how to build it" >&2; exit 1; }
folder=$(mktemp -d)
trap 'rm -rf -- "$folder"' EXIT
mkdir -- "$folder/scan"
seed=${3:-$RANDOM}
echo "% seed $seed"
python3 -B "$top/bench/fuzz/make_scans.py" "$1" "$seed" "$(readlink -f -- "$2")" >"$folder/scan/made.case"
echo scan/made.case >"$folder/index"
cd -- "$folder" && "$runner"
