#!/usr/bin/env bash
# Makes the circuits of pairs by the command `check` of the proved program, and of the program that PLAIN names in turn. A finding that is
# empty has only the circuits made before it is refused; one that ends behind LOG STEP has the clauses of that query made too.
# First 341 edge detectors, then ten million gates: two programs with products of 16 bits in a row; then DEEP for rising depths.
# Needs python3. Use: [REGVER=PROGRAM] [PLAIN=PROGRAM] bench/pairs.sh [RUNS]
set -euo pipefail
source "$(dirname -- "$(readlink -f -- "${BASH_SOURCE[0]}")")/beside.sh"
runs=${1:-2}

: >empty
{
    printf 'REGVER FINDING 1\nSEEN'
    printf ' 0%.0s' $(seq 341)
    printf '\nLOG STEP\n'
} >step
make detectors 341
echo "341 edge detectors, circuits alone"
measure "$runs" check detectors.old detectors.new detectors.rel empty
echo "341 edge detectors, circuits and the clauses of the first STEP query"
measure "$runs" check detectors.old detectors.new detectors.rel step
for products in 5120 10240; do
    make products $products
    echo "two programs of $products products, $((products * 962)) gates"
    measure "$runs" check products.old products.new products.rel empty
done
for depth in 1 16 32 64; do
    make detectors 341 $depth
    echo "341 edge detectors, DEPTH $depth, circuits alone"
    measure "$runs" check detectors.old detectors.new detectors.rel empty
done
