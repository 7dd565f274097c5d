#!/usr/bin/env bash
# Verifies pairs by the proved program: 341 edge detectors, 120 counters, products of SINT and sums of DINT in another order, and the
# examples. Where PLAIN names a program with the same commands it is run in turn, and where it has a command
# `dimacs OLD NEW REL QUERY FILE` cadical decides the clauses of STEP and GOAL behind the drops. Prints the least processor times.
# Needs python3. Use: [REGVER=PROGRAM] [PLAIN=PROGRAM] bench/verify.sh [RUNS [PAIR ..]]
set -euo pipefail
source "$(dirname -- "$(readlink -f -- "${BASH_SOURCE[0]}")")/beside.sh"
runs=${1:-2}
pairs=("${@:2}")
[ ${#pairs[@]} -gt 0 ] || pairs=(detectors counters sint_product dint_sum examples)

by_cadical() {
    [ -n "${PLAIN:-}" ] && command -v cadical >/dev/null || return 0
    for query in STEP GOAL; do
        "$PLAIN" dimacs "$1.old" "$1.new" "$1.rel" $query clauses.cnf >/dev/null 2>&1 || return 0
        [ -s clauses.cnf ] || return 0
        { cadical -n clauses.cnf 2>/dev/null || true; } | awk -v query=$query '
            /^s /{answer = $2} /^c conflicts:/{conflicts = $3} /^c total process time/{seconds = $7}
            END{print "  cadical, " query ": " seconds " s, " answer ", conflicts " conflicts + 0}'
    done
}

for pair in "${pairs[@]}"; do
    if [ "$pair" = examples ]; then
        for example in "$top"/examples/*/; do
            [ -f "$example/old.st" ] || continue
            echo "$(basename "$example")"
            measure "$runs" verify "$example/old.st" "$example/new.st" "$example/relation" FINDING
        done
        continue
    fi
    case $pair in detectors) n=341 ;; counters) n=${COUNTERS:-120} ;; *) n=3 ;; esac
    make "$pair" $n
    echo "$pair $n"
    measure "$runs" verify "$pair.old" "$pair.new" "$pair.rel" FINDING
    for finding in *.finding; do echo "    ${finding%.finding}"; lines_of "$finding"; done
    by_cadical "$pair"
done
