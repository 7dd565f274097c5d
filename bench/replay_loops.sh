#!/usr/bin/env bash
# Replays two programs with themselves, and has the ordinary interpreter of bench/interpreter do the same: a FOR of 4,096
# turns in one of 16, and a CASE of 1,000 labels that is run for each of them. Prints the processor seconds of both, the
# least of three runs, and their ratio. `bench/replay_loops.sh [ROWS]`, the rows of a replay (1,000).
set -euo pipefail

top=$(dirname -- "$(dirname -- "$(readlink -f -- "${BASH_SOURCE[0]}")")")
program=$top/crates/regver_cli/out/regver_cli
rows=${1:-1000}
folder=$(mktemp -d)
trap 'rm -rf "$folder"' EXIT

command -v rustc >/dev/null || { echo 'bench: rustc is wanted' >&2; exit 1; }
rustc -O -o "$folder/interpreter" "$top/bench/interpreter/main.rs"

# Builds the program where that is due; it answers these words with its usage.
"$top/regver" >/dev/null || [ $? -ne 125 ]

declarations='PROGRAM M
VAR_INPUT a : INT; END_VAR
VAR_OUTPUT q : INT; END_VAR
VAR i : INT; j : INT; END_VAR'

for_text() {
    echo "$declarations"
    echo 'FOR i := 1 TO 16 DO FOR j := 1 TO 4096 DO q := q + j; END_FOR; END_FOR;'
    echo 'END_PROGRAM'
}

case_text() {
    echo "$declarations"
    echo 'FOR i := 0 TO 999 DO CASE i OF'
    for ((n = 0; n < 1000; n++)); do echo "$n: q := q + $n * a;"; done
    echo 'ELSE q := 0; END_CASE; END_FOR;'
    echo 'END_PROGRAM'
}

# Runs a command three times, its output into a file, and prints the least processor seconds.
measured() {
    python3 - "$@" <<'PYTHON'
import os, subprocess, sys

def seconds():
    child = subprocess.Popen(sys.argv[2:], stdout=open(sys.argv[1], "wb"))
    usage = os.wait4(child.pid, 0)[2]
    return usage.ru_utime + usage.ru_stime

print(f"{min(seconds() for _ in range(3)):.3f}")
PYTHON
}

# The figures of one program; both have to print the same lines.
compare() {
    local name=$1
    "${name}_text" >"$folder/$name.st"
    regver=$(measured "$folder/lines" "$program" replay "$folder/$name.st" "$folder/$name.st" "$top/examples/first/relation" "$folder/trace.json")
    ordinary=$(measured "$folder/ordinary_lines" "$folder/interpreter" "$name" "$rows")
    cmp "$folder/lines" "$folder/ordinary_lines"
    awk -v name="$name" -v regver="$regver" -v ordinary="$ordinary" 'BEGIN {
        printf "%6s %11s s %11s s %9.2f\n", name, regver, ordinary, regver / ordinary
    }'
}

awk -v rows="$rows" 'BEGIN {
    for (row = 0; row < rows; row++) printf "%s[%d]", (row ? "," : "["), row % 2
    printf "]"
}' >"$folder/trace.json"

printf '%6s %13s %13s %9s\n' rows replay ordinary ratio
echo "$rows"
compare for
compare case
