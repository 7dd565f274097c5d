"""Puts random texts to two programs that take the command lines of `regver`, and prints each difference as a case.

fuzz.py CASES SECONDS SEED PROGRAM OTHER [SUGGEST]: CASES is a folder of case files, whose texts are what is changed; PROGRAM,
OTHER and SUGGEST, the program that suggests INVARIANT lines, are command lines, parted by spaces.
"""

import itertools
import os
import random
import re
import resource
import signal
import subprocess
import sys
import tempfile
import time

from texts import blown_up, made_pair

SECTIONS = ("old", "new", "relation", "trace", "accept", "finding")
TOKEN = re.compile(r"[A-Za-z_][A-Za-z_0-9]*#?|[0-9][0-9A-F_#]*|:=|=>|<=|>=|<>|\*\*|\.\.|\(\*|\*\)|\s+|.", re.S)
EDGES = (0, 1, 2, 3, 7, 127, 128, 255, 256, 4095, 4096, 4097, 32767, 32768, 65535, 2147483647, 4294967295, 2**63 - 1, 2**63, 2**64 - 1, 2**64)
SLOW = int(os.environ.get("SLOW", 20))
COUNT = int(os.environ.get("COUNT", 0))
STATUSES = range(0, 12)
SOON = 1_000_000


def plain(text):
    """A section's text without its marks: rules go, bytes and repeats are written out."""

    def written(mark):
        inner = mark.group(1)
        if inner.startswith("x:"):
            return chr(int(inner[2:], 16))
        if "*" in inner:
            count, part = inner.split("*", 1)
            return part * min(int(count), 200) if count.isdigit() else ""
        return ""

    return re.sub("«([^»]*)»", written, text)


def cases_of(path):
    """The cases of a file: dictionaries of sections, each with the file's own for those that it leaves out."""
    head, cases, current, name, lines = {}, [], None, None, []
    current = head

    def close():
        if name in SECTIONS:
            text = plain("\n".join(lines).rstrip("\n"))
            current[name] = text

    with open(path, encoding="utf-8") as file:
        for line in file.read().split("\n"):
            if line.startswith("%"):
                continue
            if line.startswith("== "):
                close()
                current, name, lines = dict(head), None, []
                cases.append(current)
            elif line.startswith("-- "):
                close()
                words = line.split()
                name, lines = words[1], []
                if words[1:] == ["new", "same"] and "old" in current:
                    current["new"] = current["old"]
                    name = None
            else:
                lines.append(line)
    close()
    return cases


def corpus(folder):
    found = []
    for base, _, files in sorted(os.walk(folder)):
        for file in sorted(files):
            if file.endswith(".case"):
                found += cases_of(os.path.join(base, file))
    pairs = [c for c in found if all(w in c for w in ("old", "new", "relation"))]
    texts = [c["accept"] for c in found if "accept" in c] + [c["old"] for c in pairs] + [c["new"] for c in pairs]
    traces = [c["trace"] for c in pairs if "trace" in c] or ["[]"]
    return pairs, sorted(set(texts)), sorted(set(traces))


class Changes:
    """Random changes of texts, from one seed."""

    def __init__(self, seed, texts):
        self.random = random.Random(seed)
        self.tokens = sorted({t for text in texts for t in TOKEN.findall(text) if not t.isspace()})

    def bytes(self, text):
        data = bytearray(text.encode("utf-8"))
        for _ in range(self.random.randint(1, 4)):
            at = self.random.randint(0, len(data))
            change = self.random.randrange(3)
            if change == 0:
                data[at:at] = bytes([self.random.randrange(256)])
            elif change == 1 and at < len(data):
                del data[at : at + self.random.randint(1, 8)]
            elif at < len(data):
                data[at] = self.random.randrange(256)
        return bytes(data)

    def token_soup(self, text):
        parts = TOKEN.findall(text)
        for _ in range(self.random.randint(1, 5)):
            if not parts:
                break
            at = self.random.randrange(len(parts))
            change = self.random.randrange(6)
            if change == 0:
                del parts[at]
            elif change == 1:
                parts.insert(at, " " + self.random.choice(self.tokens) + " ")
            elif change == 2:
                parts[at] = self.random.choice(self.tokens)
            elif change == 3:
                other = self.random.randrange(len(parts))
                parts[at], parts[other] = parts[other], parts[at]
            elif change == 4:
                end = min(len(parts), at + self.random.randint(1, 12))
                parts[at:at] = parts[at:end]
            else:
                numbers = [i for i, p in enumerate(parts) if p.isdigit()]
                if numbers:
                    parts[self.random.choice(numbers)] = str(self.random.choice(EDGES))
        return "".join(parts).encode("utf-8")

    def lines(self, text):
        lines = text.split("\n")
        for _ in range(self.random.randint(1, 3)):
            if not lines:
                break
            at = self.random.randrange(len(lines))
            change = self.random.randrange(5)
            if change == 0:
                del lines[at]
            elif change == 1:
                lines.insert(at, lines[at])
            elif change == 2:
                other = self.random.randrange(len(lines))
                lines[at], lines[other] = lines[other], lines[at]
            else:
                words = lines[at].split(" ")
                where = self.random.randrange(len(words))
                words[where] = str(self.random.choice((-1, 0, 1, 2, self.random.randint(0, 40), self.random.choice(EDGES))))
                lines[at] = " ".join(words)
        return "\n".join(lines).encode("utf-8")

    def bits(self, text):
        data = bytearray(text.encode("utf-8"))
        for _ in range(self.random.randint(1, 2) if data else 0):
            data[self.random.randrange(len(data))] ^= 1 << self.random.randrange(8)
        return bytes(data)

    def text(self, text):
        """What was changed, and the text."""
        what = self.random.choice(("tokens", "tokens", "tokens", "bytes"))
        return what, {"tokens": self.token_soup, "bytes": self.bytes}[what](text)

    def deletions(self, text):
        """Puts X lines with numbers that stand in the text, or with the numbers behind these, in front of lines."""
        lines, numbers = text.split("\n"), [int(word) for word in text.split() if word.isdigit()] or [1]
        for _ in range(self.random.randint(1, 2)):
            clauses = sorted({self.random.choice(numbers) + self.random.randint(0, 2) for _ in range(self.random.randint(1, 3))})
            lines.insert(self.random.randint(1, len(lines)), " ".join(["X", *map(str, clauses), "0"]))
        return "\n".join(lines).encode("utf-8")

    def finding(self, text):
        what = self.random.choice(("lines", "lines", "lines", "deletions", "bits", "bytes"))
        return what, {"lines": self.lines, "deletions": self.deletions, "bits": self.bits, "bytes": self.bytes}[what](text)


class Over(Exception):
    """The time is over."""


class Programs:
    """The programs, and the folder in which all are run, one after the other."""

    def __init__(self, folder, end, *programs):
        self.commands, self.folder, self.end = [program.split() for program in programs], folder, end

    def put(self, name, data):
        with open(os.path.join(self.folder, name), "wb") as file:
            file.write(data)

    def run(self, which, *words):
        """What a program prints, its status, and how long it took. It is stopped after SLOW seconds of processor time, and at the end."""
        start = time.monotonic()
        if start >= self.end:
            raise Over("nothing was cut off")
        try:
            done = subprocess.run(
                [*self.commands[which], *words],
                cwd=self.folder,
                capture_output=True,
                preexec_fn=lambda: resource.setrlimit(resource.RLIMIT_CPU, (SLOW, SLOW)),
                timeout=self.end - start,
            )
        except subprocess.TimeoutExpired:
            raise Over(f"{' '.join([*self.commands[which], *words])}, cut off after {time.monotonic() - start:.0f} s") from None
        if done.returncode in (-signal.SIGKILL, -signal.SIGXCPU):
            return b"TIMEOUT", None, time.monotonic() - start
        # The program that suggests puts a relation on standard output, and what else it answers on standard error.
        printed = done.stderr if which == 2 and done.returncode not in (0, 1) else done.stdout
        return printed, done.returncode, time.monotonic() - start

    def finding(self):
        path = os.path.join(self.folder, "finding")
        try:
            with open(path, "rb") as file:
                return file.read()
        except FileNotFoundError:
            return None

    def no_finding(self):
        try:
            os.remove(os.path.join(self.folder, "finding"))
        except FileNotFoundError:
            pass


def spelled(data):
    """A text as a section of a case file holds it."""
    lines = []
    for line in data.decode("utf-8", "surrogateescape").split("\n"):
        line = "".join(f"«x:{ord(c) & 0xFF:02X}»" if ord(c) < 32 or 0xDC80 <= ord(c) <= 0xDCFF else c for c in line)
        lines.append(f"«x:{ord(line[0]):02X}»{line[1:]}" if line[:1] in ("%", "=", "-") else line)
    return "\n".join(lines)


def report(title, sections, first, second):
    print(f"== {title}")
    for name, data in sections:
        print(f"-- {name}\n{spelled(data)}")
    print(f"-- answer {second[1]}\n{spelled(second[0]).rstrip()}")
    print(f"% the program answers with status {first[1]} after {first[2]:.2f} s:")
    print("".join(f"% {line}\n" for line in first[0].decode("utf-8", "replace").split("\n")), flush=True)


def is_same(first, second):
    return first[:2] == second[:2]


def is_spent(run):
    return run[0].startswith(b"SPENT")


def is_decided_so(first, second):
    """Whether both say the same of a pair; how far the rows go may be open in one of them."""
    verdicts = [run[0].split(b"\n")[0] for run in (first, second)]
    return is_same(first, second) or first[1] == second[1] and verdicts[0] == verdicts[1] and any(b" spent\n" in run[0] for run in (first, second))


class Round:
    """One random case after the other, counted by its form."""

    def __init__(self, programs, pairs, texts, traces, changes):
        self.programs, self.pairs, self.texts, self.traces, self.changes = programs, pairs, texts, traces, changes
        self.counts, self.slowest, self.differences = {}, {}, 0

    def count(self, form, run):
        """Counts a case, and keeps the longest time that the program took for one of its form."""
        self.counts[form] = self.counts.get(form, 0) + 1
        self.slowest[form] = max(self.slowest.get(form, 0.0), run[2])

    def differ(self, form, files, first, second):
        self.differences += 1
        report(f"A difference: {form}", files, first, second)

    def compare(self, form, files, *words):
        """Both programs run, and answer the same, unless the other one takes too long."""
        first, second = self.programs.run(0, *words), self.programs.run(1, *words)
        self.count(form, first)
        if first[1] is not None and second[1] is None:
            self.count("answered by this program alone, while the other one was stopped", first)
        elif not is_same(first, second):
            self.differ(form, files, first, second)

    def files(self, pair, **changed):
        files = [(name, changed.get(name) or pair[name].encode("utf-8")) for name in ("old", "new", "relation")]
        for name, data in files:
            self.programs.put(name, data)
        return files

    def pair(self):
        """A pair of the cases, or one that is made."""
        if self.changes.random.randrange(2):
            return "stored", self.changes.random.choice(self.pairs)
        return "made", made_pair(self.changes.random)

    def replayed(self, form, files, trace):
        self.programs.put("trace", trace)
        self.compare(form, [*files, ("trace", trace)], "replay", "old", "new", "relation", "trace")

    def program(self):
        """A program's text is changed, and replayed over a row without numbers."""
        what, text = self.changes.text(self.changes.random.choice(self.texts))
        pair = {"old": "", "new": "", "relation": "RELATION 1; FAULTS EQUAL; DEPTH 3; CONFLICTS 1000;"}
        self.replayed(f"programs with changed {what}", self.files(pair, old=text, new=text), b"[[]]")

    def blown_up(self):
        """Two short texts whose counts explode are verified, and replayed, if a scan of them ends soon."""
        (old, steps), (new, others) = blown_up(self.changes.random), blown_up(self.changes.random)
        pair = {"old": old, "new": new, "relation": "RELATION 1; FAULTS EQUAL; DEPTH 2; CONFLICTS 100; RELATE TRUE;"}
        if max(steps, others) < SOON:
            self.replayed("counts that explode, replayed", self.files(pair), b"[[]]")
        self.decided("counts that explode, verified", self.files(pair))

    def rows(self):
        """A relation or a trace is changed."""
        pick = self.changes.random
        _, pair = self.pair()
        trace = pair.get("trace", pick.choice(self.traces))
        if pick.randrange(2):
            what, text = self.changes.text(pair["relation"])
            self.replayed(f"relations with changed {what}", self.files(pair, relation=text), trace.encode("utf-8"))
        else:
            what, text = self.changes.text(trace)
            self.replayed(f"traces with changed {what}", self.files(pair), text)

    def made(self):
        pair = made_pair(self.changes.random)
        self.replayed("made pairs, replayed", self.files(pair), pair["trace"].encode("utf-8"))

    def judged(self):
        """A pair is verified by the other program; its finding is judged by both, whole and changed."""
        origin, pair = self.pair()
        files = self.files(pair)
        self.programs.no_finding()
        answer = self.programs.run(1, "verify", "old", "new", "relation", "finding")
        found = self.programs.finding()
        if answer[1] is None or found is None or len(found) > 200_000:
            return
        command = self.changes.random.choice(("check", "explain"))
        self.compare(f"findings on {origin} pairs, {command}", [*files, ("finding", found)], command, "old", "new", "relation", "finding")
        for command in ("check", "check", "check", "explain"):
            what, data = self.changes.finding(found.decode("utf-8"))
            self.programs.put("finding", data)
            self.compare(f"findings with changed {what}, {command}", [*files, ("finding", data)], command, "old", "new", "relation", "finding")

    def decided(self, form, files):
        """Both verify: the verdicts are the same, but where one is SPENT; the other judges the program's finding."""
        self.programs.no_finding()
        second = self.programs.run(1, "verify", "old", "new", "relation", "finding")
        self.programs.no_finding()
        first = self.programs.run(0, "verify", "old", "new", "relation", "finding")
        self.count(form, first)
        if second[1] is None and first[1] is None:
            return
        if first[1] not in STATUSES or second[1] is not None and not is_spent(first) and not is_spent(second) and not is_decided_so(first, second):
            self.differ(form, files, first, second)
        elif self.programs.finding() is not None:
            judged = self.programs.run(1, "check", "old", "new", "relation", "finding")
            if judged[1] is not None and judged[0] != b"VALID " + first[0]:
                self.differ(f"{form}, judged", files, first, judged)

    def verified(self):
        origin, pair = self.pair()
        self.decided(f"{origin} pairs, verified", self.files(pair))

    def made_verified(self):
        self.decided("made pairs, verified", self.files(made_pair(self.changes.random)))

    def suggested(self):
        """What is suggested for a pair is accepted by both, with the same verdict; what is refused, the other refuses too."""
        if len(self.programs.commands) < 3:
            return
        origin, pair = self.pair()
        form = f"suggestions on {origin} pairs"
        files = self.files(pair)
        told = self.programs.run(2, "old", "new", "relation")
        if told[1] in (0, 1):
            self.decided(form, self.files(pair, relation=told[0]))
            return
        self.count(form, told)
        self.programs.put("trace", b"[]")
        second = self.programs.run(1, "replay", "old", "new", "relation", "trace")
        if told[1] is not None and not is_same(told, second):
            self.differ(form, files, told, second)


# How often each form of round comes.
ROUNDS = ("program",) * 6 + ("made",) * 3 + ("rows",) * 3 + ("judged",) * 2 + ("verified",) * 2 + ("blown_up", "suggested")
ROUNDS = tuple(os.environ.get("ONLY", "").split()) or ROUNDS


def tell(fuzz, out):
    for form in sorted(fuzz.counts):
        print(f"% {fuzz.counts[form]:7,} {form}, {fuzz.slowest[form]:.1f} s at most", file=out)
    print(f"% {sum(fuzz.counts.values()):7,} cases, {fuzz.differences} differences", file=out, flush=True)


def main(folder, seconds, seed, *programs):
    end = time.monotonic() + float(seconds)
    pairs, texts, traces = corpus(folder)
    changes = Changes(int(seed), texts)
    print(f"% seed {seed}", flush=True)
    with tempfile.TemporaryDirectory() as place:
        fuzz = Round(Programs(place, end, *programs), pairs, texts, traces, changes)
        said = time.monotonic()
        try:
            for _ in range(COUNT) if COUNT else itertools.repeat(None):
                getattr(fuzz, changes.random.choice(ROUNDS))()
                if time.monotonic() > said + 60:
                    said = time.monotonic()
                    tell(fuzz, sys.stderr)
        except Over as over:
            print(f"% at the end: {over}")
        tell(fuzz, sys.stdout)
    return 1 if fuzz.differences else 0


if __name__ == "__main__":
    if len(sys.argv) not in (6, 7):
        sys.exit(__doc__)
    sys.exit(main(*sys.argv[1:]))
