#!/usr/bin/env python3
"""Verifies a pair by programs in turn and has each judge the finding that it wrote. Prints for each the least processor time (user and
system) of some runs, the most memory, the bytes of the finding, and the first line that it put.

Times are kept in a file, by the word of the pair and its size: where half the size was measured, the growth from there is told, and for all
but the first program the ratio of the first's time to its own. A run that takes more processor seconds than the limit is stopped, which is
told in place of its time, and its finding is not judged. Memory has what this script holds itself as its floor, some 10 to 20 MiB.

A program is written NAME=PATH. Use: measure_plants.py TIMES RUNS LIMIT WORD SIZE OLD NEW REL PROGRAM ..
"""
import json
import os
import resource
import signal
import sys
import tempfile
from pathlib import Path


def run(limit, words):
    """Processor seconds, MiB and the first line of one run; None in place of the seconds where it was stopped."""
    resource.setrlimit(resource.RLIMIT_CPU, (limit, resource.getrlimit(resource.RLIMIT_CPU)[1]))
    quiet = (os.POSIX_SPAWN_OPEN, 2, os.devnull, os.O_WRONLY, 0)
    with tempfile.TemporaryFile() as out:
        child = os.posix_spawn(words[0], words, os.environ, file_actions=[(os.POSIX_SPAWN_DUP2, out.fileno(), 1), quiet])
        _, status, usage = os.wait4(child, 0)
        out.seek(0)
        said = out.readline().decode(errors="replace").strip()
    stopped = os.WIFSIGNALED(status) and os.WTERMSIG(status) == signal.SIGXCPU
    if os.WIFSIGNALED(status) and not stopped:
        said = f"ended by signal {os.WTERMSIG(status)}"
    return None if stopped else usage.ru_utime + usage.ru_stime, usage.ru_maxrss / 1024, said


def best(runs, limit, words, written=None):
    """The least seconds of all runs, the most memory, and what the last one said; a run that is stopped ends them."""
    found = []
    for _ in range(runs):
        if written:
            written.unlink(missing_ok=True)
        found.append(run(limit, words))
        if found[-1][0] is None:
            return None, found[-1][1], ""
    return min(one[0] for one in found), max(one[1] for one in found), found[-1][2]


def told(kept, key, size, seconds, first):
    """The seconds, with the growth from half the size and the ratio of the first program's time."""
    kept[f"{key} {size}"] = seconds
    half = kept.get(f"{key} {size // 2}") if size % 2 == 0 else None
    growth = f" ({seconds / half:.2f} times that of {size // 2})" if half else ""
    ratio = f", ratio {first / seconds:.2f}" if first and seconds else ""
    return f"{seconds:.3f} s{growth}{ratio}"


def main():
    times, runs, limit, word, size = Path(sys.argv[1]), *map(int, sys.argv[2:4]), sys.argv[4], int(sys.argv[5])
    texts, programs = sys.argv[6:9], [one.split("=", 1) for one in sys.argv[9:]]
    hard = resource.getrlimit(resource.RLIMIT_STACK)[1]
    resource.setrlimit(resource.RLIMIT_STACK, (hard, hard))
    kept = json.loads(times.read_text()) if times.exists() else {}
    first = {}
    for name, path in programs:
        finding = Path(f"{name}.finding")
        for command in ("verify", "check"):
            written = finding if command == "verify" else None
            seconds, memory, said = best(runs, limit, [path, command, *texts, str(finding)], written)
            if seconds is None:
                print(f"  {name} {command}: stopped after {limit} s, {memory:.0f} MiB", flush=True)
                break
            line = told(kept, f"{word} {name} {command}", size, seconds, first.get(command))
            first.setdefault(command, seconds if name == programs[0][0] else None)
            room = f", finding {finding.stat().st_size:,} bytes" if written and finding.exists() else ""
            print(f"  {name} {command}: {line}, {memory:.0f} MiB, {said}{room}", flush=True)
    times.write_text(json.dumps(kept))


if __name__ == "__main__":
    main()
