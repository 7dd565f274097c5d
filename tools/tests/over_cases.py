#!/usr/bin/env python3
"""Tries tools/start-relation on the programs of case files.

    python3 tools/tests/over_cases.py PROGRAM FILE.case ..

PROGRAM is a regression verifier, as the program that ./regver built or another implementation of it. Each program text of
the cases that it accepts is taken as OLD and as NEW: with itself, with its neighbour and with some other. Under the
relation that tools/start-relation prints, PROGRAM must answer an empty trace with `REPLAY scans 0 related`, and so it must
where all lines that stand in comments are taken out of them. The pairs run side by side on all processors.
"""

import concurrent.futures
import functools
import importlib.machinery
import importlib.util
import os
import random
import re
import resource
import subprocess
import sys
import tempfile

TOOLS = os.path.join(os.path.dirname(os.path.realpath(__file__)), "..")
TOOL = os.path.join(TOOLS, "start-relation")
sys.dont_write_bytecode = True
sys.path.insert(0, TOOLS)
from program_text import program_of
# The bytes of memory that each process may have: some cases declare more than any machine holds.
MOST_MEMORY = 4 << 30
EMPTY = "RELATION 1; FAULTS EQUAL; DEPTH 1; CONFLICTS 1; RELATE TRUE;"
MARK = re.compile(r"«(?:x:([0-9A-F]{2})|([0-9]+)\*(.*?)|[A-Z][0-9]+)»", re.DOTALL)
COMMENTED = re.compile(r"\(\* ((?:ENV|RELATE) [^;]*;) \*\)")


def tool():
    loader = importlib.machinery.SourceFileLoader("start_relation", TOOL)
    module = importlib.util.module_from_spec(importlib.util.spec_from_loader("start_relation", loader))
    loader.exec_module(module)
    return module


def bytes_of(text):
    """The bytes of a section, its marks written out."""
    parts, end = [], 0
    for mark in MARK.finditer(text):
        parts.append(text[end:mark.start()].encode())
        byte, count, repeated = mark.groups()
        parts.append(bytes([int(byte, 16)]) if byte else (repeated * int(count)).encode() if count else b"")
        end = mark.end()
    return b"".join(parts) + text[end:].encode()


def sections_of(path):
    """The sections of a case file, each with its first line and its lines."""
    with open(path, encoding="utf-8", newline="\n") as file:
        lines = [line for line in file.read().split("\n") if not line.startswith("%")]
    sections, shared, alone = [], "", False
    for line in lines:
        if line.startswith("== "):
            alone = False
        if line.startswith("== ") or line.startswith("-- "):
            sections.append([line, []])
        elif sections:
            sections[-1][1].append(line)
    for head, lines in sections:
        alone = head == "-- shared none" or alone and not head.startswith("== ")
        text = "\n".join(lines).rstrip("\n")
        if head == "-- shared":
            shared = text + "\n"
        elif head in ("-- accept", "-- scan", "-- old", "-- new", "-- flat"):
            yield bytes_of(text if alone else shared + text)


def answer(program, *texts):
    with tempfile.TemporaryDirectory() as folder:
        names = []
        for name, text in zip(("old", "new", "relation", "trace"), texts):
            names.append(os.path.join(folder, name))
            with open(names[-1], "wb") as file:
                file.write(text)
        run = subprocess.run([program, "replay", *names], stdout=subprocess.PIPE, check=False)
    return run.stdout.decode()


def accepted(program, text):
    """Whether a text is an accepted program: its inputs may be missing in the relation, which is read after it."""
    return answer(program, text, text, EMPTY.encode(), b"[]").startswith(("REPLAY", "REFUSED REL"))


@functools.lru_cache(maxsize=None)
def declared(text):
    return program_of(text)


def fault_of(program, start, old, new):
    """What the program answers to a relation of this pair other than it must, with the texts; None where there is nothing."""
    relation = start.relation(declared(old), declared(new))
    for text in dict.fromkeys((relation, COMMENTED.sub(r"\1", relation))):
        said = answer(program, old, new, text.encode(), b"[]")
        if said != "REPLAY scans 0 related\n":
            return said.strip() + "\n" + text + "--- of\n" + old.decode("latin-1") + "\n--- and\n" + new.decode("latin-1")
    return None


def main(program, paths):
    resource.setrlimit(resource.RLIMIT_AS, (MOST_MEMORY, MOST_MEMORY))
    start, chance = tool(), random.Random(1)
    texts = list(dict.fromkeys(text for path in paths for text in sections_of(path)))
    with concurrent.futures.ThreadPoolExecutor(os.cpu_count()) as threads:
        known = list(threads.map(lambda text: accepted(program, text), texts))
        texts = [text for text, taken in zip(texts, known) if taken]
        pairs = [(text, text) for text in texts] + list(zip(texts, texts[1:]))
        pairs += [(chance.choice(texts), chance.choice(texts)) for _ in texts]
        failed = [fault for fault in threads.map(lambda pair: fault_of(program, start, *pair), pairs) if fault]
    for fault in failed:
        print("FAILED: " + fault[:20_000])
    print("relations to begin with: {} programs, {} pairs, {} failed".format(len(texts), len(pairs), len(failed)))
    return 1 if failed or not pairs else 0


if __name__ == "__main__":
    sys.exit(main(sys.argv[1], sys.argv[2:]))
