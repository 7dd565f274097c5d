#!/usr/bin/env bash
# Judges findings of about 100,000 derivations by the proved program, and by the program that PLAIN names in turn: under LOG, that a sum
# of four DINT is one in another order, and half of it, a sum of three; and under QUERY, that products of SINT are spent after
# so many steps and after half as many. The findings are made by MAKER, else by PLAIN, else by the proved program.
# With SPEND=N also how long the proved program takes to write a finding that is spent after N steps, of a product of 10 bits, and to judge it.
# Needs python3. Use: [REGVER=PROGRAM] [PLAIN=PROGRAM] [MAKER=PROGRAM] [SPEND=N] bench/check.sh [RUNS [STEPS]]
set -euo pipefail
source "$(dirname -- "$(readlink -f -- "${BASH_SOURCE[0]}")")/beside.sh"
runs=${1:-2}
steps=${2:-10000}
maker=$(readlink -f -- "${MAKER:-${PLAIN:-$regver}}")

judge() {
    local seconds
    seconds=$( { TIMEFORMAT=%U; time "$maker" verify "$1.old" "$1.new" "$1.rel" "$1.fnd" >said || true; } 2>&1)
    echo "$1 $2: $(cat said), made in $seconds s, $(wc -c <"$1.fnd") bytes"
    lines_of "$1.fnd"
    measure "$runs" check "$1.old" "$1.new" "$1.rel" "$1.fnd"
}

for n in 3 4; do
    make dint_sum $n
    judge dint_sum "$n terms"
done
for share in 2 1; do
    make sint_product 3 1 $((steps / share))
    judge sint_product "spent after $((steps / share))"
done

if [ -n "${SPEND:-}" ]; then
    programs=("${programs[0]}")
    make powers 10 1 "$SPEND"
    echo "powers 10 spent after $SPEND: written and judged"
    for command in verify check; do measure "$runs" "$command" powers.old powers.new powers.rel powers.fnd; done
fi
