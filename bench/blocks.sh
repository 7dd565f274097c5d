#!/usr/bin/env bash
# Replays two rows over programs with themselves, and prints the bytes of each text, the processor seconds and the most memory of the
# replay: rows of blocks that each have two instances of the one before, in a PROGRAM and in the frame of a FUNCTION, rows of FUNCTIONs that call
# one another, and rows of blocks that run one another. A frame of 2 to the power of 40 cells is answered by MEMORY. The stack keeps its
# usual limit of 8 MiB, which 12,000 FUNCTIONs overflow: there the last line of the replay is
# missing. Needs python3. Use: bench/blocks.sh
set -euo pipefail

top=$(dirname -- "$(dirname -- "$(readlink -f -- "${BASH_SOURCE[0]}")")")
program=$top/crates/regver_cli/out/regver_cli
folder=$(mktemp -d)
trap 'rm -rf "$folder"' EXIT

# Builds the program where that is due; it answers these words with its usage.
"$top/regver" >/dev/null || [ $? -ne 125 ]
ulimit -S -s 8192

python3 "$top/bench/blocks/make_programs.py" "$folder"
cat >"$folder/relation" <<'TEXT'
RELATION 1; FAULTS EQUAL; DEPTH 1; CONFLICTS 1;
INPUT c = c;
RELATE old.p = new.p;
TEXT
echo '[[0],[1]]' >"$folder/trace.json"

python3 - "$program" "$folder" <<'PYTHON'
import os, subprocess, sys
from pathlib import Path

program, folder = sys.argv[1], Path(sys.argv[2])
for text in sorted(folder.glob("*.st"), key=lambda it: it.stat().st_mtime_ns):
    with open(folder / "lines", "wb") as lines:
        words = [program, "replay", text, text, folder / "relation", folder / "trace.json"]
        usage = os.wait4(subprocess.Popen(words, stdout=lines).pid, 0)[2]
    last = (folder / "lines").read_text().splitlines()[-1:]
    time = usage.ru_utime + usage.ru_stime
    print(f"{text.stem:28} {text.stat().st_size:9} bytes {time:7.2f} s {usage.ru_maxrss:8} KiB  {''.join(last)}", flush=True)
PYTHON
