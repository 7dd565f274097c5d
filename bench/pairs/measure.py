#!/usr/bin/env python3
"""Runs programs on the same words, one after the other and some times over, and prints for each the least processor time (user and
system), the most memory, and the last line that it put but for the one on the reach; for all but the first the ratio of the first's time to its own. Memory is that
which GNU time tells, since what this script holds itself counts for each process that it starts; where there is none, no memory is told.

A program is written NAME=PATH. The word FINDING stands for a file of the program's own, which is named NAME.finding.
Use: measure.py RUNS PROGRAM .. -- WORD ..
"""
import os
import resource
import shutil
import sys
import tempfile

TIME = shutil.which("time")


def run(path, words):
    """Processor seconds, memory in MiB and the last line of one run."""
    with tempfile.TemporaryFile() as out, tempfile.NamedTemporaryFile() as told:
        called = [TIME, "-q", "-f", "%M", "-o", told.name, path, *words] if TIME else [path, *words]
        child = os.posix_spawn(called[0], called, os.environ, file_actions=[(os.POSIX_SPAWN_DUP2, out.fileno(), 1)])
        _, _, usage = os.wait4(child, 0)
        out.seek(0)
        lines = [line for line in out.read().decode(errors="replace").split("\n") if not line.startswith("REACH ")]
        memory = int(told.read().split()[-1]) / 1024 if TIME else 0.0
    return usage.ru_utime + usage.ru_stime, memory, (lines[-2] if len(lines) > 1 else "")


def main():
    split = sys.argv.index("--")
    runs, programs, words = int(sys.argv[1]), [word.split("=", 1) for word in sys.argv[2:split]], sys.argv[split + 1 :]
    hard = resource.getrlimit(resource.RLIMIT_STACK)[1]
    resource.setrlimit(resource.RLIMIT_STACK, (hard, hard))
    found = {name: [] for name, _ in programs}
    for _ in range(runs):
        for name, path in programs:
            found[name].append(run(path, [f"{name}.finding" if word == "FINDING" else word for word in words]))
    first = None
    for name, _ in programs:
        seconds, memory, said = min(found[name])[0], max(one[1] for one in found[name]), found[name][-1][2]
        ratio = f", ratio {first / seconds:.2f}" if first is not None and seconds > 0 else ""
        first = seconds if first is None else first
        held = f"{memory:.1f} MiB, " if TIME else ""
        print(f"  {name}: {seconds:.3f} s, {held}{said}{ratio}", flush=True)


if __name__ == "__main__":
    main()
