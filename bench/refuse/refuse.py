"""Runs each command of the program on the smallest pair, and refuses each of its allocations in turn.

refuse.py PROGRAM LIBRARY: LIBRARY is what refusing.rs is compiled to. Ends with status 1 at the first run that answers, or leaves
behind, what it may not.
"""

import os
import subprocess
import sys
import tempfile

PROGRAM = b"PROGRAM M VAR_INPUT a : BOOL; END_VAR VAR_OUTPUT q : BOOL; END_VAR q := a; END_PROGRAM\n"
OTHER = PROGRAM.replace(b"q := a", b"q := NOT a")
RELATION = b"RELATION 1; FAULTS EQUAL; DEPTH 3; CONFLICTS 1000; INPUT a = a; RELATE old.q = new.q;\n"
MEMORY = 9
LAST = str(2**64 - 1)
SECONDS = 60

# The files at the start of each run, and what the runs of a command are called with. A finding is the one that `verify` saves.
INPUTS = {"old": PROGRAM, "new": PROGRAM, "other": OTHER, "relation": RELATION, "trace": b"[[0],[1]]\n"}
# What stands at the start in the files that are written: a front of what the program writes there, since it writes over nothing else.
BEFORE = {"finding": b"REGVER FIND", "gen1.old": b"PROGRAM M\n", "gen1.new": b"PROGRAM", "gen1.rel": b"RELATION 1;\n", "gen1.fnd": b"REGVER"}
RUNS = (
    ("verify", "old", "new", "relation", "finding"),
    ("verify", "old", "other", "relation", "finding"),
    ("check", "old", "new", "relation", "related"),
    ("check", "old", "other", "relation", "different"),
    ("explain", "old", "new", "relation", "related"),
    ("explain", "old", "other", "relation", "different"),
    ("replay", "old", "new", "relation", "trace"),
    ("gen", "1"),
)


class Wrong(Exception):
    """What a run may not answer or leave behind."""


def shown(data):
    return repr(data if len(data) <= 200 else data[:200] + b"..")


class Runner:
    """The program, the library that refuses, and the folder in which all runs."""

    def __init__(self, program, library, folder):
        self.program, self.library, self.folder = os.path.abspath(program), os.path.abspath(library), folder
        self.told = os.path.join(folder, "told")
        self.files = dict(INPUTS)

    def put(self, files, present):
        """The folder, which has the files that are present, has these files and no other."""
        for name in present.keys() - files.keys():
            os.remove(os.path.join(self.folder, name))
        for name, data in files.items():
            if present.get(name) != data:
                with open(os.path.join(self.folder, name), "wb") as file:
                    file.write(data)

    def get(self):
        found = {}
        for name in os.listdir(self.folder):
            with open(os.path.join(self.folder, name), "rb") as file:
                found[name] = file.read()
        return found

    def run(self, words, first=None, last=None):
        """What a run answers, what it leaves behind, and what was refused: the allocations from the first to the last."""
        self.put(self.files, self.get())
        refused = {} if first is None else {"LD_PRELOAD": self.library, "REFUSE_TOLD": self.told, "REFUSE_FROM": str(first), "REFUSE_UP_TO": last or str(first)}
        try:
            done = subprocess.run([self.program, *words], cwd=self.folder, env={**os.environ, **refused}, stdin=subprocess.DEVNULL, capture_output=True, timeout=SECONDS)
        except subprocess.TimeoutExpired:
            raise Wrong(f"no answer after {SECONDS} s") from None
        files = self.get()
        told = files.pop("told", b"").decode().splitlines()
        return (done.returncode, done.stdout, done.stderr), files, told


def is_front_of_lines(lines, whole):
    return whole.startswith(lines) and lines[-1:] in (b"", b"\n")


def judge(before, whole, run):
    """Whether the run gave the whole run's answer; else it said that memory was wanting, and left files as it may."""
    (status, out, err), files, _ = run
    if err:
        raise Wrong(f"status {status}, and standard error has {shown(err)}")
    if (status, out) == whole[0][:2]:
        if files != whole[1]:
            raise Wrong("the answer is whole, and the files are not")
        return True
    if status != MEMORY:
        raise Wrong(f"status {status}, output {shown(out)}")
    if out and not (out.endswith(b"MEMORY\n") and is_front_of_lines(out[: -len(b"MEMORY\n")], whole[0][1])):
        raise Wrong(f"output {shown(out)}")
    if files.keys() != before.keys():
        raise Wrong(f"the files are {' '.join(sorted(files))}")
    for name, data in files.items():
        written = whole[1][name] != before[name] and whole[1][name].startswith(data)
        if data != before[name] and not written:
            raise Wrong(f"the file {name} has {shown(data)}")
    return False


def refused_in_turn(runner, words, whole, last):
    """Refuses the first allocation, then the second, until a run makes fewer: how many runs said MEMORY, and how many gave the whole answer."""
    counts, number = [0, 0], 1
    while True:
        run = None
        try:
            run = runner.run(words, number, last)
            if not run[2] and run[:2] != whole[:2]:
                raise Wrong(f"nothing was refused, and its answer or its files are others")
            is_whole = judge(runner.files, whole, run)
        except Wrong as wrong:
            what = f" ({run[2][0]})" if run and run[2] else ""
            raise Wrong(f"{' '.join(words)}: allocation {number}{' and all behind it' if last else ''} refused{what}: {wrong}") from None
        if not run[2]:
            return counts
        counts[is_whole] += 1
        number += 1


def prepare(runner):
    """Saves the findings of both pairs, and gives the files that are written what stands in them before."""
    for name, other in (("related", "new"), ("different", "other")):
        _, files, _ = runner.run(("verify", "old", other, "relation", name))
        runner.files[name] = files[name]
    runner.files.update(BEFORE)


def main(program, library):
    with tempfile.TemporaryDirectory() as folder:
        runner = Runner(program, library, folder)
        prepare(runner)
        print(f"{'':38}{'one refused':>24}{'it and all behind it':>28}")
        print(f"{'Command':38}{'MEMORY':>12}{'whole':>12}{'MEMORY':>16}{'whole':>12}")
        for words in RUNS:
            try:
                whole = runner.run(words)
                if whole[0][2]:
                    raise Wrong(f"{' '.join(words)}: standard error has {shown(whole[0][2])}")
                one, behind = (refused_in_turn(runner, words, whole, last) for last in (None, LAST))
                if not sum(one):
                    raise Wrong(f"{' '.join(words)}: nothing is refused: is the program linked to the C library as a shared one?")
            except Wrong as wrong:
                print(f"WRONG {wrong}", flush=True)
                return 1
            print(f"{' '.join(words):38}{one[0]:12,}{one[1]:12,}{behind[0]:16,}{behind[1]:12,}", flush=True)
    return 0


if __name__ == "__main__":
    if len(sys.argv) != 3:
        sys.exit(__doc__)
    sys.exit(main(*sys.argv[1:]))
