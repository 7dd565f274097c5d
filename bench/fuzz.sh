#!/usr/bin/env bash
# Puts random texts, relation files, traces and findings to the program and to another implementation of the same commands, for a given
# time, one run after the other, and prints each difference as a case, and at the end how many cases of each form there were. The texts of
# the repository's cases are changed: bytes, bits, tokens, numbers and lines. Pairs are made by the grammar, and short texts whose counts
# explode. What `regver-suggest` prints is verified. Needs python3.
#
#   bench/fuzz.sh SECONDS OTHER [SEED]     OTHER is the command line of the other implementation; PROGRAM and SUGGEST, if they are set, are those of
#                                          this one, and SLOW the processor seconds after which a run counts as one that does not end (20);
#                                          LEAVING=0 makes pairs without EXIT and RETURN, and WIDE=0 without the types of 64 bits; ONLY="judged .."
#                                          makes rounds of these forms alone, and COUNT=N stops after N rounds
#
# Pairs with the types of 64 bits beside the other implementation, 200 to be replayed and 200 to be verified:
#
#   COUNT=200 ONLY=made bench/fuzz.sh 3600 OTHER 1
#   COUNT=200 ONLY=made_verified bench/fuzz.sh 3600 OTHER 1
#
# `bench/fuzz_scans.sh` puts 200 programs to the interpreter, to the flat form and to the nodes.
set -euo pipefail

top=$(dirname -- "$(dirname -- "$(readlink -f -- "${BASH_SOURCE[0]}")")")
if [ $# -lt 2 ]; then
    sed -n '7,11p' "${BASH_SOURCE[0]}" >&2
    exit 2
fi
program=${PROGRAM:-$top/crates/regver_cli/out/regver_cli}
room=$(mktemp -d)
trap 'rm -rf -- "$room"' EXIT
ln -s -- "$(readlink -f -- "$program")" "$room/regver-suggest"
python3 -B "$top/bench/fuzz/fuzz.py" "$top/crates/case_runner/data" "$1" "${3:-$RANDOM}" "$program" "$2" "${SUGGEST:-$room/regver-suggest}"
