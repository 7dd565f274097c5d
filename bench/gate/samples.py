#!/usr/bin/env python3
"""Measures what runs of `rt ci` cost, crate by crate, from outside: it reads the processor times of their provers under
/proc twice a second, so the last half second of each process is not counted.

samples.py watch FILE [PID..]   samples these runs until they end, or without a PID each run that there is until it is
                                stopped, and keeps what it saw in FILE, which it writes anew every ten seconds
samples.py table FILE..         prints the table of what stands in such files, of the crates that crates.txt lists; of two runs
                                that did the same part of a crate it counts the later one, unless that was cut off in it
"""
import json
import os
import re
import signal
import sys
import time

TICK = os.sysconf("SC_CLK_TCK")
PAUSE, WRITE_EVERY = 0.5, 10
PROOF, TESTS, START, EDITS = "proof", "tests", "start of edits", "edits"
KINDS = (PROOF, TESTS, START, EDITS)


class Process:
    """One line of /proc: a process as it is now."""

    def __init__(self, pid):
        with open(f"/proc/{pid}/stat", encoding="utf-8", errors="replace") as stat:
            fields = stat.read().rpartition(")")[2].split()
        self.pid, self.parent, self.begun = pid, int(fields[1]), int(fields[19])
        # its own time and that of the children that it has waited for
        self.ticks = sum(int(it) for it in fields[11:15])

    def words(self):
        with open(f"/proc/{self.pid}/cmdline", "rb") as line:
            return [it.decode(errors="replace") for it in line.read().split(b"\0")[:-1]]


def processes():
    found = {}
    for name in os.listdir("/proc"):
        if name.isdigit():
            try:
                found[int(name)] = Process(int(name))
            except (OSError, IndexError, ValueError):
                pass  # it has ended meanwhile
    return found


def is_run(words):
    """Whether these are the words of a run of the gate: python3 /.../rt ci .."""
    return len(words) > 2 and "python" in words[0] and os.path.basename(words[1]) == "rt" and words[2] == "ci"


def part_of_gate(words, folder):
    """Returns the crate, the kind of work and the crates directly below, or None for another command."""
    if os.path.basename(words[0]) != "rattle" or words[1] not in ("build", "check") or "--crate-name" not in words:
        return None
    crate = words[words.index("--crate-name") + 1]
    below = [re.match(r"(\w+)=.*/crates/[^/]+/out/rlib/", it) for it in words]
    kept = words[words.index("--incremental") + 1] if "--incremental" in words else ""
    if os.path.basename(folder).startswith("rt-edit-"):
        kind = START if kept.endswith("/seed") else EDITS
    else:
        kind = TESTS if "--test" in words else PROOF
    return crate, kind, sorted({it[1] for it in below if it})


class Watch:
    """What was seen of some runs so far."""

    def __init__(self, file, wanted):
        self.file, self.wanted, self.seen, self.runs, self.written = file, wanted, {}, {}, 0

    def note_runs(self, now):
        """Notes the runs that are there, and returns their processes."""
        there = []
        for it in now.values():
            key = f"{it.pid}-{it.begun}"
            try:
                if key not in self.runs and (it.pid in self.wanted if self.wanted else is_run(it.words())):
                    self.runs[key] = {"words": " ".join(it.words()[1:]), "folder": os.readlink(f"/proc/{it.pid}/cwd")}
            except (OSError, IndexError):
                continue
            if key in self.runs:
                self.runs[key]["processor"] = it.ticks / TICK
                self.runs[key]["elapsed"] = since_boot() - it.begun / TICK
                there.append((key, it))
        return there

    def sample(self):
        now = processes()
        children = {}
        for it in now.values():
            children.setdefault(it.parent, []).append(it)
        there = self.note_runs(now)
        for run, it in there:
            for child in children.get(it.pid, []):
                self.note(run, child, children)
        return bool(there)

    def note(self, run, child, children):
        key = f"{child.pid}-{child.begun}"
        if key not in self.seen:
            try:
                part = part_of_gate(child.words(), os.readlink(f"/proc/{child.pid}/cwd"))
            except (OSError, IndexError):
                return
            if part is None:
                return
            self.seen[key] = dict(zip(("crate", "kind", "below"), part), run=run, begun=child.begun / TICK)
        ticks, left = 0, [child]
        while left:
            it = left.pop()
            ticks += it.ticks
            left += children.get(it.pid, [])
        entry = self.seen[key]
        entry["processor"] = max(entry.get("processor", 0), ticks / TICK)
        entry["elapsed"] = since_boot() - entry["begun"]

    def write(self):
        with open(f"{self.file}.new", "w", encoding="utf-8") as to:
            json.dump({"runs": self.runs, "parts": list(self.seen.values())}, to)
        os.replace(f"{self.file}.new", self.file)
        self.written = time.monotonic()

    def go_on(self):
        try:
            while self.sample() or not self.wanted:
                if time.monotonic() - self.written > WRITE_EVERY:
                    self.write()
                time.sleep(PAUSE)
        finally:
            self.write()


def since_boot():
    return time.clock_gettime(time.CLOCK_BOOTTIME)


def listed():
    """Returns the names of the repository's crates."""
    top = os.path.dirname(os.path.dirname(os.path.dirname(os.path.realpath(__file__))))
    with open(f"{top}/crates.txt", encoding="utf-8") as lines:
        return {it.split()[0].rstrip(":") for it in lines if it.strip() and not it.startswith("#")}


def is_complete(part, runs):
    """Whether the run was seen to go on after this process had ended, so that the process was not cut off with it."""
    run = runs[part["run"]]
    ended = int(part["run"].partition("-")[2]) / TICK + run["elapsed"]
    return ended - part["begun"] - part["elapsed"] > 3 * PAUSE


def read(files):
    """Returns the runs, and the parts by crate and kind: of each those of the last run that was not cut off in them."""
    runs, found, crates = {}, {}, listed()
    for file in files:
        with open(file, encoding="utf-8") as text:
            seen = json.load(text)
        runs.update(seen["runs"])
        for it in seen["parts"]:
            if it["crate"] in crates:
                it["below"] = [name for name in it["below"] if name in crates]
                found.setdefault((it["crate"], it["kind"]), {}).setdefault(it["run"], []).append(it)
    rank = lambda of_run: (all(is_complete(it, runs) for it in of_run), of_run[-1]["begun"])
    return runs, {key: max(by_run.values(), key=rank) for key, by_run in found.items()}


def chains(parts):
    """Returns for each crate the processor seconds of the longest chain of proofs that ends with its own, and that chain."""
    below = {crate: found[-1]["below"] for (crate, kind), found in parts.items() if kind == PROOF}
    made = {}

    def chain(crate):
        if crate not in made:
            longest = max([chain(it) for it in below.get(crate, [])], default=(0, []))
            made[crate] = longest[0] + seconds(parts, crate, PROOF), [*longest[1], crate]
        return made[crate]

    for crate in {crate for crate, _ in parts}:
        chain(crate)
    return made


def seconds(parts, crate, kind):
    return sum(it["processor"] for it in parts.get((crate, kind), []))


def longest(parts, crate, kind):
    return max([it["processor"] for it in parts.get((crate, kind), [])], default=0)


def table(files):
    runs, parts = read(files)
    for it in runs.values():
        print(f"run: {it['words']} in {it['folder']}, {it['elapsed']:,.0f} s, {it['processor']:,.0f} processor seconds in all")
    made = chains(parts)
    print("\n| Crate | Proof | Tests | Edits | Number of edits | Whole | Chain up to its proof |\n|---|---:|---:|---:|---:|---:|---:|")
    sums = dict.fromkeys(("proof", "tests", "edits"), 0.0)
    number = 0
    for crate in sorted(made, key=lambda it: made[it][0]):
        of = {PROOF: seconds(parts, crate, PROOF), TESTS: seconds(parts, crate, TESTS)}
        of[EDITS] = seconds(parts, crate, START) + seconds(parts, crate, EDITS)
        edits = len(parts.get((crate, EDITS), []))
        number += edits
        for kind in sums:
            sums[kind] += of[kind]
        row = [of[PROOF], of[TESTS], of[EDITS], edits, sum(of.values()), made[crate][0]]
        print(f"| `{crate}` | " + " | ".join(f"{it:,.0f}" for it in row) + " |")
    row = [sums["proof"], sums["tests"], sums["edits"], number, sum(sums.values())]
    print("| all | " + " | ".join(f"{it:,.0f}" for it in row) + " | |")
    tell_bound(parts, made)


def tell_bound(parts, made):
    """Prints the chain that bounds a run: proofs one above the other, and behind the last of them what its edits take."""

    def end_of(crate):
        under = made[crate][0] - seconds(parts, crate, PROOF)
        first = max(longest(parts, crate, it) for it in (PROOF, TESTS, START))
        return under + first + longest(parts, crate, EDITS)

    if made:
        last = max(made, key=end_of)
        print(f"\nThe chain that bounds a run, {end_of(last):,.0f} processor seconds with the longest edit of its last crate:")
        print(", ".join(f"{it} {seconds(parts, it, PROOF):,.0f}" for it in made[last][1]))


def main(words):
    signal.signal(signal.SIGTERM, lambda *_: sys.exit(0))
    if len(words) > 1 and words[0] == "watch":
        Watch(words[1], {int(it) for it in words[2:]}).go_on()
    elif len(words) > 1 and words[0] == "table":
        table(words[1:])
    else:
        sys.exit(__doc__)


if __name__ == "__main__":
    try:
        main(sys.argv[1:])
    except KeyboardInterrupt:
        pass
