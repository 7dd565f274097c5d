"""How far the rows of a relation go: the line that stands behind a verdict, and what a finding shows of it.

`verify`, `gen` and `check` put it behind the verdict's line. REACH r of DEPTH: the longest list of allowed rows has r rows, where lists of
up to DEPTH rows are asked for. REACH r spent: there is one of r rows, and whether there is one of r + 1 took too many derivations.
"""

import re
from collections import namedtuple

from program_text import Trouble

LINE = re.compile(r"REACH ([1-9][0-9]*) (?:of ([1-9][0-9]*)|(spent))")
# So many rows are allowed one after the other, of how many that were asked for; None where it was not found out.
Reach = namedtuple("Reach", "rows depth")
# The lines of a finding up to its set of candidates that are no derivations are no longer.
MOST_BYTES = 1_048_576
HEADER = b"REGVER FINDING 2\n"


def reach_of(line):
    """What a line says of the reach, None where it is another line."""
    found = LINE.fullmatch(line)
    return Reach(int(found[1]), None if found[3] else int(found[2])) if found else None


def parted(said):
    """The last line of an answer but for the one on the reach, and that one, empty where there is none."""
    lines = said.splitlines()
    reach = lines.pop() if lines and reach_of(lines[-1]) else ""
    return lines[-1] if lines else "", reach


def is_short(reach):
    """Whether no list of rows is as long as DEPTH."""
    return reach is not None and reach.depth is not None and reach.rows < reach.depth


def count(rows):
    return "1 row" if rows == 1 else "{} rows".format(rows)


def scans(rows):
    return "1 scan" if rows == 1 else "{} scans".format(rows)


def meaning(reach):
    """What it means, in sentences."""
    if reach.depth is None:
        return ["the relation allows a list of {}. Whether it allows one of {} was not found out: that took all the steps of CONFLICTS.".format(
                    count(reach.rows), count(reach.rows + 1)),
                "The verdict stands all the same."]
    if reach.rows < reach.depth:
        return ["no list of allowed rows has more than {}: behind {} the relation allows no further row, whatever came before.".format(
                    count(reach.rows), scans(reach.rows)),
                "So the answer speaks of runs of at most {}, and DEPTH {} searches no more than DEPTH {} would.".format(
                    scans(reach.rows), reach.depth, reach.rows)]
    return ["the relation allows a list of {}, as long as DEPTH.".format(count(reach.rows))]


# What to do next where no list of rows is as long as DEPTH.
MEND = ["an ENV line is asked before each scan, on what the scans before have left. If the plant runs on, mend the line so that it holds then",
        "too; as a rule an ENV line names inputs alone. If all runs of the plant end there, nothing is amiss."]


def lines_of(path):
    """The lines of a finding, each as far as it may go."""
    try:
        with open(path, "rb") as file:
            begins = True
            while True:
                text = file.readline(MOST_BYTES)
                if not text:
                    return
                if begins:
                    yield text
                begins = text.endswith(b"\n")
    except OSError as error:
        raise Trouble("cannot read {}: {}".format(path, error.strerror)) from error


def reach_in(path, depth):
    """What a finding shows of the reach, None where it shows nothing: where it is of version 1, or no first row is allowed or found."""
    rows, spent = 0, False
    for number, line in enumerate(lines_of(path)):
        word = line.split(b" ", 1)[0].rstrip(b"\n")
        if number == 0 and line != HEADER or word in (b"LOG", b"QUERY") and b" WALK " not in line:
            break
        if word == b"WALK":
            rows += 1
        elif word == b"QUERY":
            spent = True
        elif number > 1 and word not in (b"LOG", b"D", b"X"):
            break
    return Reach(rows, None if spent else depth) if rows else None


def shown(reach):
    """The line on it, as the verifier puts it."""
    return "REACH {} spent".format(reach.rows) if reach.depth is None else "REACH {} of {}".format(*reach)
