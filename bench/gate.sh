#!/usr/bin/env bash
# Prints for each crate the processor seconds of its proof, of its tests and of its must-fail edits in a run of the gate,
# and the chain of crates that bounds the run. Needs python3 and rt.
#
#   bench/gate.sh                       runs `rt ci` with nothing kept from earlier runs, and prints the table
#   bench/gate.sh --watch FILE [PID..]  samples runs of `rt ci` that are under way, each one or those of these process ids,
#                                       and keeps what it saw in FILE; without a PID it goes on until it is stopped
#   bench/gate.sh --table FILE..        prints the table of what stands in such files
set -euo pipefail

top=$(dirname -- "$(dirname -- "$(readlink -f -- "${BASH_SOURCE[0]}")")")
samples=$top/bench/gate/samples.py

case ${1:-} in
--watch) exec python3 "$samples" watch "${@:2}" ;;
--table) exec python3 "$samples" table "${@:2}" ;;
esac

folder=$(mktemp -d)
trap 'rm -rf "$folder"' EXIT
cd "$top"
# A kit that keeps what it has proved has the flag --anew; any other proves all in each run.
flags=()
! rt help 2>&1 | grep -q -- --anew || flags=(--anew)
rt ci "${flags[@]}" >"$folder/log" 2>&1 &
run=$!
python3 "$samples" watch "$folder/samples" "$run"
status=0
wait "$run" || status=$?
tail -n 1 "$folder/log"
python3 "$samples" table "$folder/samples"
exit "$status"
