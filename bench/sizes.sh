#!/usr/bin/env bash
# Runs texts at their limits - 1 MiB of one construct, the most cells, many gates, 64 scans, findings of 1 GiB - and prints how each
# is answered, in how much processor time and memory. It needs 1 GiB of room for a file, and python3.
#
#   bench/sizes.sh [NAME..]     with names only these texts; PROGRAM, if it is set, is the program to run
set -euo pipefail

top=$(dirname -- "$(dirname -- "$(readlink -f -- "${BASH_SOURCE[0]}")")")
exec python3 "$top/bench/sizes/sizes.py" "${PROGRAM:-$top/crates/regver_cli/out/regver_cli}" "$@"
