#!/usr/bin/env bash
# For each pair of bench/refactorings: the answer of verify under the relation as it stands, the lines that regver-suggest adds, the answer
# of verify with them, and seconds.
#
#   bench/refactorings.sh [PROGRAM [FOLDER]]     PROGRAM: a built program, without one that which ./regver runs; FOLDER: of pairs
set -u
top=$(cd "$(dirname "${BASH_SOURCE[0]}")/.." && pwd)
program=$(readlink -f -- "${1:-$top/crates/regver_cli/out/regver_cli}")
folder=${2:-$top/bench/refactorings}
room=$(mktemp -d)
trap 'rm -rf -- "$room"' EXIT
ln -s -- "$program" "$room/regver"
ln -s -- "$program" "$room/regver-suggest"
ulimit -s hard

# The first words of what verify answers on a pair under a relation file.
answer() {
    "$room/regver" verify "$1/old.st" "$1/new.st" "$2" "$room/finding" 2>&1 | head -n 1 | cut -c 1-40
}

printf '%-24s %-34s %6s %-34s %8s\n' pair without lines with seconds
for pair in "$folder"/*/; do
    pair=${pair%/}
    without=$(answer "$pair" "$pair/relation")
    begun=$(date +%s.%N)
    "$room/regver-suggest" "$pair/old.st" "$pair/new.st" "$pair/relation" >"$room/relation" 2>"$room/said"
    lines=$(grep -c '^INVARIANT' "$room/relation")
    with=$(answer "$pair" "$room/relation")
    ended=$(date +%s.%N)
    printf '%-24s %-34s %6s %-34s %8.1f\n' "${pair##*/}" "$without" "$lines" "$with" "$(echo "$ended - $begun" | bc)"
done
