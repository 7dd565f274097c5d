# What the scripts beside it have in common: the program that `./regver` built, and a plain one with the same commands where PLAIN
# names it. Sourced, not run.
top=$(dirname -- "$(dirname -- "$(readlink -f -- "${BASH_SOURCE[0]}")")")
regver=${REGVER:-$top/crates/regver_cli/out/regver_cli}
[ -x "$regver" ] || { echo "no program at $regver: build it by ./regver, or name one in REGVER" >&2; exit 1; }
programs=("proved=$(readlink -f -- "$regver")")
[ -z "${PLAIN:-}" ] || programs+=("plain=$(readlink -f -- "$PLAIN")")
folder=$(mktemp -d)
trap 'rm -rf "$folder"' EXIT
cd "$folder"

# Writes a pair of that name: make NAME [N [DEPTH [CONFLICTS]]]
make() { python3 "$top/bench/pairs/make_pairs.py" . "$@"; }

# Runs all programs so many times: measure RUNS WORD ..
measure() { python3 "$top/bench/pairs/measure.py" "$1" "${programs[@]}" -- "${@:2}"; }

# How many lines of each form the finding of a program has.
lines_of() { cut -d' ' -f1 "$1" | sort | uniq -c | awk '{printf "%s%s %s", (NR > 1 ? ", " : "    lines: "), $1, $2} END {print ""}'; }
