"""Runs rows by replay on a program, and row by row on copies that begin where the last row ended; says where they differ."""

import glob
import json
import os
import random
import subprocess
import sys
import tempfile

TOOLS = os.environ["TOOLS"]
sys.dont_write_bytecode = True
sys.path[:0] = [TOOLS, os.path.join(TOOLS, "tests")]
import pair_scan
from over_cases import accepted, sections_of
from program_cells import Units, prelude
from program_text import count_of, text_of
from relation_text import relation_of
from row_lists import numbers_of
from verifier import built

REGVER = os.environ["REGVER"] = built()
CASES = os.path.join(TOOLS, "..", "crates", "case_runner", "data", "replay", "*.case")
# So many programs, each with so many rows; longer texts are left out, and so are programs with more cells than a copy may show.
PROGRAMS, ROWS, MOST_BYTES, MOST_CELLS = 60, 5, 3000, 500
HEAD = "RELATION 1; FAULTS FREE; DEPTH 1; CONFLICTS 1; {} RELATE TRUE;"


def numbers(kind, chance):
    values = numbers_of(kind)
    small = [number for number in (0, 1, 2, 3) if number in values]
    return chance.choice(small + [values[0], values[-1], values[chance.randrange(count_of(values))]])


def replayed(text, relation, rows):
    """The numbers behind OLD of each SCAN line."""
    with tempfile.TemporaryDirectory() as room:
        names = [os.path.join(room, name) for name in ("program", "relation", "trace")]
        for name, content in zip(names, (text, relation, json.dumps(rows).encode())):
            with open(name, "wb") as file:
                file.write(content)
        ran = subprocess.run([REGVER, "replay", names[0], *names], stdout=subprocess.PIPE, check=False)
    lines = [pair_scan.SCAN.fullmatch(line) for line in ran.stdout.decode().splitlines()]
    return [list(map(int, line[1].split())) for line in lines if line]


def fault_of(text, units, chance):
    """Where the copies differ, None where they do not."""
    lines = " ".join("INPUT {0} = {0};".format(one.name) for one in units.inputs)
    relation = HEAD.format(lines).encode()
    rows = [[numbers(one.type, chance) for one in units.inputs] for _ in range(ROWS)]
    states = [{cell.path: cell.start for cell in units.cells()}] * 2
    for row, wanted in zip(rows, replayed(text, relation, rows)):
        states = pair_scan.after([units, units], relation_of(relation), states, row)
        if not states or [states[0][name] for name in ["FAULT"] + [one.name.upper() for one in units.outputs]] != wanted:
            return "differs on the row {} of {}: {}".format(row, rows, text.decode("latin-1"))
    return None


def main():
    chance, blocks, count, faults = random.Random(1), prelude(), 0, 0
    texts = list(dict.fromkeys(text for path in sorted(glob.glob(CASES)) for text in sections_of(path) if len(text) < MOST_BYTES))
    chance.shuffle(texts)
    for text in texts:
        if count == PROGRAMS:
            break
        if not accepted(REGVER, text):
            continue
        units = Units(text_of(text), blocks)
        if len(units.cells()) <= MOST_CELLS:
            count += 1
            fault = fault_of(text, units, chance)
            faults += fault is not None
            print(fault + "\n" if fault else "", end="")
    print("copies of {} programs: {} run otherwise".format(count, faults))


if __name__ == "__main__":
    main()
