#!/usr/bin/env bash
# Refuses each allocation of the program in turn: of `verify`, `check` and `explain` on the smallest pair, related and not, of `replay`
# and of `gen 1`. Each run has to answer MEMORY or what it answers with ample memory, and to leave the files as it may. Prints how many
# runs did which, and ends with status 1 at the first that did neither. Needs python3 and rustc.
#
#   bench/refuse.sh     REGVER, if it is set, is the program to run
set -euo pipefail

top=$(dirname -- "$(dirname -- "$(readlink -f -- "${BASH_SOURCE[0]}")")")
regver=${REGVER:-$top/crates/regver_cli/out/regver_cli}
[ -x "$regver" ] || { echo "no program at $regver: build it by ./regver, or name one in REGVER" >&2; exit 1; }
command -v rustc >/dev/null || { echo 'bench: rustc is wanted' >&2; exit 1; }
folder=$(mktemp -d)
trap 'rm -rf "$folder"' EXIT

rustc --edition 2024 -O -C panic=abort --crate-type cdylib -o "$folder/librefusing.so" "$top/bench/refuse/refusing.rs"
python3 "$top/bench/refuse/refuse.py" "$regver" "$folder/librefusing.so"
