#!/usr/bin/env bash
# Verifies whole plants, K copies of fourteen revised sections as blocks of one program, uncoupled and coupled (bench/plants), and 40, 120 and 240
# counters of one input, by the proved program and by the one that PLAIN names, in turn. Each judges the finding that it wrote. Prints processor
# seconds, the growth from half the size, the most memory and the bytes of the finding. A run that takes more than LIMIT processor
# seconds (600) is stopped, which is told. COUNTERS names other numbers of counters, KINDS other plants: plants, coupled, or the name
# of a pair. Needs python3. Use: [REGVER=PROGRAM] [PLAIN=PROGRAM] [LIMIT=SECONDS] [RUNS=N] [KINDS=WORDS] [COUNTERS=NUMBERS] bench/plants.sh [K ..]
set -euo pipefail
source "$(dirname -- "$(readlink -f -- "${BASH_SOURCE[0]}")")/beside.sh"
sizes=("$@")
[ ${#sizes[@]} -gt 0 ] || sizes=(1 2 4 8)

# Measures a pair: by its name, its size, and what its texts are called.
one() {
    python3 "$top/bench/plants/measure_plants.py" times "${RUNS:-1}" "${LIMIT:-600}" "$1" "$2" "$1.old" "$1.new" "$1.rel" "${programs[@]}"
}

for kind in ${KINDS-plants coupled}; do
    for k in "${sizes[@]}"; do
        said=$(python3 "$top/bench/plants/make_plants.py" . "$kind" "$k" 2>&1) || { echo "$kind: $said"; continue; }
        echo "$kind, K = $k: $said"
        one "$kind" "$k"
    done
done
for n in ${COUNTERS-40 120 240}; do
    make shared_counters "$n"
    echo "counters of one input, $n"
    one shared_counters "$n"
done
