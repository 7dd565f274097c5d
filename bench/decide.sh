#!/bin/bash
# Decides formulas by the fast decider and by the plain one, and by minisat and cadical where they are installed: generated ones, or those of
# the files that are named. For each formula: the answer, entries of the log (derived clauses and deletions) and milliseconds of a decider, and how many proposals of its search
# were refused; then milliseconds and conflicts of the others. `bench/decide.sh [SECONDS [FILE ..]]`, the
# most that one run may take (60).
set -u
top=$(dirname -- "$(dirname -- "$(readlink -f -- "$0")")")
seconds=${1:-60}
(cd "$top/crates/case_runner" && rt run -- bench decide /dev/null >/dev/null 2>&1) || exit 1
program=$top/crates/case_runner/out/case_runner
formulas=$(mktemp -d)
trap 'rm -rf "$formulas"' EXIT
if [ $# -gt 1 ]; then
    cp -- "${@:2}" "$formulas"
else
    python3 "$top/bench/decide/make_formulas.py" "$formulas"
fi

ours() {
    timeout "$seconds" "$program" bench "$1" "$2" | awk '
        /^s /{answer = $2} /^c entries/{steps = $3} /^c refused/{refused = $4} / ms$/{ms = $2}
        END{if (answer == "") print "-"; else print answer, steps + 0, "entries", ms, "ms, refused", refused}'
}

minisat_of() {
    command -v minisat >/dev/null || { echo absent; return; }
    timeout "$seconds" minisat "$1" 2>/dev/null | awk '
        /^conflicts/{conflicts = $3} /^CPU time/{ms = $4 * 1000} END{print ms, "ms", conflicts}'
}

cadical_of() {
    command -v cadical >/dev/null || { echo absent; return; }
    timeout "$seconds" cadical -n "$1" 2>/dev/null | awk '
        /^c conflicts:/{conflicts = $3} /^c total process time/{ms = $7 * 1000} END{print ms, "ms", conflicts}'
}

echo "formula | fast | plain | minisat | cadical"
for file in "$formulas"/*.cnf; do
    echo "$(basename "$file" .cnf) | $(ours decide "$file") | $(ours plain "$file") | $(minisat_of "$file") | $(cadical_of "$file")"
done
