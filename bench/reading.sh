#!/usr/bin/env bash
# Reads texts of at most 1 MiB, each of one construct, by the command `replay` of the proved program over one row, and by the program that PLAIN
# names in turn. OLD and NEW are the same text, so each is read twice. Prints the least processor times.
# Needs python3. Use: [REGVER=PROGRAM] [PLAIN=PROGRAM] bench/reading.sh [RUNS [NAME ..]]
set -euo pipefail
source "$(dirname -- "$(readlink -f -- "${BASH_SOURCE[0]}")")/beside.sh"
runs=${1:-5}
names=("${@:2}")
[ ${#names[@]} -gt 0 ] || names=(statements chain elsifs entries labels functions constants charts relates)

python3 "$top/bench/reading/make_texts.py" .
echo "[[]]" >trace
for name in "${names[@]}"; do
    echo "$name: $(wc -c <"$name.st") bytes of a program, $(wc -c <"$name.rel") of a relation"
    measure "$runs" replay "$name.st" "$name.st" "$name.rel" trace
done
