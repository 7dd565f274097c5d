"""Finds the ENV lines that exclude each other, or that stop all runs, by asking ./regver verify what others allow."""

import os
import subprocess
import tempfile

from pair_scan import input_line
from row_reach import parted, reach_of
from verifier import run

# With more ENV lines they are not tried one by one.
MOST_LINES = 40
# So many seconds a trial may take.
MOST_SECONDS = 60


class Trials:
    """Tries whether ENV lines allow a first row, by ./regver verify on programs without statements."""

    def __init__(self, units, relation, room):
        self.relation, self.room = relation, room
        self.names = [os.path.join(room, name) for name in ("old", "new")]
        for name, one in zip(self.names, units):
            end = next(token.place for token in one.tokens if token.upper == "END_PROGRAM")
            body = 0 if one.program.steps else len(one.program.body)
            with open(name, "w", encoding="latin-1") as file:
                file.write(one.text[:end - body] + one.text[end:])

    def excludes(self, clauses):
        """Whether verify says VACUOUS under these ENV lines, None where it does not say."""
        lines = [input_line(one) for one in self.relation.inputs] + ["ENV {};".format(clause.text) for clause in clauses]
        path = os.path.join(self.room, "relation")
        with open(path, "w", encoding="latin-1") as file:
            file.write("RELATION 1; FAULTS FREE; DEPTH 1; CONFLICTS 100000; {} RELATE TRUE;".format(" ".join(lines)))
        try:
            said = run("verify", *self.names, path, os.path.join(self.room, "finding"), seconds=MOST_SECONDS)[1]
        except subprocess.TimeoutExpired:
            return None
        return {"VACUOUS": True, "RELATED": False}.get(said.split(" ")[0].strip())


def needed_of(clauses, holds):
    """Of these clauses ones none of which can be left out where `holds` is to say so of the rest, and whether that was tried; else all."""
    if len(clauses) > MOST_LINES or not holds(clauses):
        return clauses, False
    needed = list(clauses)
    for clause in clauses:
        fewer = [one for one in needed if one is not clause]
        answer = holds(fewer)
        if answer is None:
            return clauses, False
        needed = fewer if answer else needed
    return needed, True


def excluding(units, relation):
    """ENV lines none of which can be left out where no first row is to be allowed, and whether that was tried; else all of them."""
    with tempfile.TemporaryDirectory() as room:
        return needed_of(relation.environments, Trials(units, relation, room).excludes)


class Runs:
    """Tries whether ENV lines let a run go on behind so many rows, by ./regver verify on the programs themselves."""

    def __init__(self, paths, relation, rows, room):
        self.paths, self.relation, self.rows, self.room = paths, relation, rows, room

    def stop(self, clauses):
        """Whether under these ENV lines no list of allowed rows is longer, None where verify does not say."""
        lines = [input_line(one) for one in self.relation.inputs] + ["ENV {};".format(clause.text) for clause in clauses]
        path = os.path.join(self.room, "relation")
        with open(path, "w", encoding="latin-1") as file:
            file.write("RELATION 1; FAULTS FREE; DEPTH {}; CONFLICTS {}; {} RELATE TRUE;".format(
                self.rows + 1, self.relation.conflicts or 100000, " ".join(lines)))
        try:
            said = run("verify", *self.paths, path, os.path.join(self.room, "finding"), seconds=MOST_SECONDS)[1]
        except subprocess.TimeoutExpired:
            return None
        reach = reach_of(parted(said)[1])
        return None if reach is None or reach.depth is None else reach.rows <= self.rows


def stopping(paths, relation, rows):
    """ENV lines none of which can be left out where no list of more rows is to be allowed, and whether that was tried; else all of them."""
    with tempfile.TemporaryDirectory() as room:
        return needed_of(relation.environments, Runs(paths, relation, rows, room).stop)
