#!/usr/bin/env bash
# Tries the must-fail edits of bench/edits, which the gate does not try: each is a change of a body that the prover must refuse, and
# the first one of a crate costs a proof of that crate from nothing. The folder bench/edits/NAME has those of crates/NAME.
#
#   bench/edits.sh [NAME..]   tries those of the crates that are named, or all; the crates below them are proved first. The status
#                             is 0 where each is refused. Needs rt.
set -euo pipefail

top=$(dirname -- "$(dirname -- "$(readlink -f -- "${BASH_SOURCE[0]}")")")
[ $# -gt 0 ] || set -- $(ls "$top/bench/edits")
room=$(mktemp -d)
trap 'rm -rf -- "$room"' EXIT

mkdir "$room/.git" "$room/crates"
cp "$top/HANDLES" "$top/crates.txt" "$room/"
for crate in "$top"/crates/*/; do
    name=$(basename -- "$crate")
    mkdir "$room/crates/$name"
    for part in "$crate"*; do
        case ${part##*/} in
        out | must-fail) ;;
        *) cp -r -- "$part" "$room/crates/$name/" ;;
        esac
    done
done
for name in "$@"; do
    [ -d "$top/bench/edits/$name" ] || { printf 'there is no folder bench/edits/%s\n' "$name" >&2; exit 2; }
    cp -r -- "$top/bench/edits/$name" "$room/crates/$name/must-fail"
done
cd "$room"
rt must-fail "$@"
