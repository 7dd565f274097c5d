#!/usr/bin/env bash
# Replays traces and others of half their rows, and prints time and peak memory of both, and their ratio: a trace of 1 MiB
# over a program of one statement, and 10,000 rows over one of 1,000 statements. The traces are alike but for their
# length: the rows 0 and 1 by turns, which leave related pairs.
set -euo pipefail

top=$(dirname -- "$(dirname -- "$(readlink -f -- "${BASH_SOURCE[0]}")")")
program=$top/crates/regver_cli/out/regver_cli
folder=$(mktemp -d)
trap 'rm -rf "$folder"' EXIT

# A trace of so many rows: four bytes for each, and one more.
trace_of() {
    awk -v rows="$1" 'BEGIN {
        for (row = 0; row < rows; row++) printf "%s[%d]", (row ? "," : "["), row % 2
        printf "]"
    }'
}

# Runs a command, and prints the seconds that it took and the most memory that it had, in KiB.
measured() {
    python3 - "$@" <<'PYTHON'
import os, subprocess, sys, time

start = time.monotonic()
child = subprocess.Popen(sys.argv[2:], stdout=open(sys.argv[1], "wb"))
usage = os.wait4(child.pid, 0)[2]
print(f"{time.monotonic() - start:.3f} {usage.ru_maxrss}")
PYTHON
}

# A program of so many statements over INT variables, one IF in four, with an input and an output.
statements_of() {
    awk -v count="$1" 'BEGIN {
        print "PROGRAM M VAR_INPUT a : BOOL; END_VAR VAR_OUTPUT q : BOOL; END_VAR VAR"
        for (n = 0; n < 50; n++) printf "v%d : INT := %d;\n", n, n
        print "END_VAR q := a;"
        for (n = 1; n < count; n++) {
            sum = sprintf("v%d := v%d * 3 + v%d / 7 - %d;", n % 50, n * 7 % 50, n * 11 % 50, n % 9)
            if (n % 4) print sum
            else printf "IF a AND v%d < v%d THEN %s END_IF\n", n % 50, n * 3 % 50, sum
        }
        print "END_PROGRAM"
    }'
}

# Replays so many rows of a program with itself, sees that all were replayed, and prints a line of figures.
replay_of() {
    local text=$1 relation=$2 rows=$3 lines=$folder/lines
    trace_of "$rows" >"$folder/trace.json"
    read -r seconds memory < <(measured "$lines" "$program" replay "$text" "$text" "$relation" "$folder/trace.json")
    [ "$(tail -n 1 "$lines")" = "REPLAY scans $rows related" ] || {
        printf 'bench: %s rows were not replayed: %s\n' "$rows" "$(tail -n 1 "$lines")" >&2
        exit 1
    }
    printf '%10s %10s %9s s %9s KiB\n' "$rows" "$(stat -c %s "$folder/trace.json")" "$seconds" "$memory"
}

# Builds the program where that is due; it answers these words with its usage.
"$top/regver" >/dev/null || [ $? -ne 125 ]

# The figures of half of the rows and of all of them.
compare() {
    local text=$1 relation=$2 all=$3
    printf '%10s %10s %11s %13s\n' rows bytes time memory
    replay_of "$text" "$relation" $((all / 2))
    half_seconds=$seconds half_memory=$memory
    replay_of "$text" "$relation" "$all"
    awk -v more="$seconds" -v less="$half_seconds" -v most="$memory" -v least="$half_memory" 'BEGIN {
        printf "twice the rows: %.2f times the time, %.2f times the memory\n", more / less, most / least
    }'
}

echo "one statement, a trace of 1 MiB"
compare "$top/examples/first/old.st" "$top/examples/first/relation" $(((1024 * 1024 - 1) / 4))
echo "1,000 statements, 10,000 rows"
statements_of 1000 >"$folder/long.st"
compare "$folder/long.st" "$top/examples/first/relation" 10000
