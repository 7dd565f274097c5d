#!/usr/bin/env python3
"""Writes a whole plant in two revisions and its relation into a folder, as KIND.old, KIND.new and KIND.rel.

plants: K copies of each pair, as FUNCTION_BLOCKs that one PROGRAM calls. A copy has inputs of the PROGRAM of its own.
coupled: the same, and each section is released by the one before it; sections of the conveyor give their pieces to the next.
A name of a pair: K copies of that pair alone.
The pairs are those of examples/ that are RELATED and those of the folders beside this file. Prints how many cells and candidates there
are. Where K is too large nothing is written; the status is 2, and the largest K is told.
Use: make_plants.py FOLDER KIND [K [DEPTH [CONFLICTS]]]
"""
import re
import sys
from pathlib import Path

sys.dont_write_bytecode = True
HERE = Path(__file__).resolve().parent
TOP = HERE.parent.parent
sys.path.insert(0, str(TOP / "tools"))
from program_cells import Units, prelude
from relation_text import relation_of

MOST = 4096
# Of each pair: its folder, the input that releases it, and what it tells the section behind it.
PAIRS = {
    "alarms": (TOP / "examples", "start", "outlet"),
    "chart": (TOP / "examples", "truck", "green"),
    "counter": (TOP / "examples", "away", "enough"),
    "first": (TOP / "examples", "a", "q"),
    "flush": (TOP / "examples", "ask", "flush"),
    "interlock": (TOP / "examples", "start", "motor"),
    "search": (TOP / "examples", "ready", "send"),
    "states": (TOP / "examples", "ask", "left > 0"),
    "motor": (HERE, "run", "contactor"),
    "valve": (HERE, "open", "coil"),
    "dosing": (HERE, "start", "valve_a"),
    "latch": (HERE, "ack", "horn"),
    "conveyor": (HERE, "offered", "offer"),
    "ramp": (HERE, "enable", "reached"),
}
# Inputs that are AND what the next copy of the same pair told in the scan before: by the pair, the input and the output.
NEXT = {"conveyor": ("free", "ready")}
COMMENT = re.compile(r"\(\*.*?\*\)|//[^\n]*", re.DOTALL)


class Revision:
    """One program of a pair, as a block."""

    def __init__(self, path):
        text = COMMENT.sub(" ", path.read_text())
        units = Units(text, prelude())
        self.name = units.program.name
        self.types = units.types
        self.inputs = [one for one in units.program.declarations if one.section == "VAR_INPUT"]
        self.own = {name.upper() for one in units.program.declarations for name in one.names}
        self.block = re.sub(r"\n\s*\n+", "\n", re.sub(r"\b(END_)?PROGRAM\b", r"\1FUNCTION_BLOCK", text)).strip()

    def input_names(self):
        return [name for one in self.inputs for name in one.names]

    def values(self):
        """The values of enumerations that no variable hides."""
        return {value for kind in self.types.values() if isinstance(kind.base, tuple) for value in kind.base} - self.own


class Pair:
    def __init__(self, name):
        folder, self.release, self.told = PAIRS[name]
        self.name = name
        self.sides = {side: Revision(folder / name / f"{side}.st") for side in ("old", "new")}
        self.relation = relation_of((folder / name / "relation").read_bytes())

    def clause(self, text, copy, of_row):
        """A clause on a copy: of a row the inputs are those of the PROGRAM, behind a scan those of the block."""

        def path(found):
            side, name = found[1].lower(), found[2]
            if name.upper() == "FAULT" or name.upper() in self.sides[side].values():
                return found[0]
            names = {one.upper() for one in self.sides[side].input_names()}
            return f"{side}.{copy}_{name}" if of_row and name.upper() in names else f"{side}.{copy}.{name}"

        return re.sub(r"\b(old|new)\.(\w+)", path, text, flags=re.IGNORECASE)

    def lines(self, copy):
        """The lines of the relation on a copy, by their words."""
        inputs = []
        for one in self.relation.inputs:
            words = [f"{copy}_{name.lower()}" if name else None for name in (one.old, one.new)]
            inputs.append(f"{words[0]} = {words[1]}" if all(words) else f"OLD {words[0]}" if words[0] else f"NEW {words[1]}")
        clauses = {"ENV": self.relation.environments, "RELATE": self.relation.clauses, "INVARIANT": self.relation.invariants}
        return {"INPUT": inputs, **{word: [self.clause(one.text, copy, word == "ENV") for one in found] for word, found in clauses.items()}}


def conditions(pair, copies, place, count):
    """What inputs of a copy are AND in a coupled plant, by the input: what the section before tells, and for sections that shake hands
    what those of the copies before and behind tell."""
    number, _ = copies[place]
    asked = {}
    if place > 0:
        before, other = copies[place - 1]
        asked[pair.release] = f"{other.name}_{before}.{other.told}"
    if pair.name in NEXT:
        shaken, answer = NEXT[pair.name]
        if number > 1:
            asked[pair.release] = f"{pair.name}_{number - 1}.{pair.told}"
        if number < count:
            asked[shaken] = f"{pair.name}_{number + 1}.{answer}"
    return asked


def bracketed(text):
    return f"({text})" if " " in text else text


def program(pairs, count, side, coupled):
    copies = [(number, pair) for number in range(1, count + 1) for pair in pairs]
    blocks = [pair.sides[side].block for pair in pairs]
    inputs, instances, calls = [], [], []
    for place, (number, pair) in enumerate(copies):
        copy, revision = f"{pair.name}_{number}", pair.sides[side]
        inputs += [f"    {', '.join(f'{copy}_{name}' for name in one.names)} : {one.written};" for one in revision.inputs]
        instances.append(f"    {copy} : {revision.name};")
        asked = conditions(pair, copies, place, count) if coupled else {}
        given = [f"{name} := {copy}_{name}" + (f" AND {bracketed(asked[name])}" if name in asked else "") for name in revision.input_names()]
        calls.append(f"{copy}({', '.join(given)});")
    parts = [*blocks, "PROGRAM Plant", "VAR_INPUT", *inputs, "END_VAR", "VAR", *instances, "END_VAR", *calls, "END_PROGRAM"]
    return "\n".join(parts) + "\n"


def relation(pairs, count, depth, conflicts):
    found = {"INPUT": [], "ENV": [], "RELATE": [], "INVARIANT": []}
    for number in range(1, count + 1):
        for pair in pairs:
            for word, lines in pair.lines(f"{pair.name}_{number}").items():
                found[word] += [f"{word} {line};" for line in lines]
    head = ["RELATION 1;", "FAULTS EQUAL;", f"DEPTH {depth};", f"CONFLICTS {conflicts};"]
    return "\n".join(head + [line for lines in found.values() for line in lines]) + "\n"


def pairs_of_steps(units, unit):
    """How many candidates the charts of a unit and of its instances have."""
    steps = len(unit.steps) if len(unit.steps) <= 16 else 0
    blocks = [(units.block_of(one), len(one.names)) for one in unit.declarations]
    return steps * (steps - 1) // 2 + sum(number * pairs_of_steps(units, block) for block, number in blocks if block)


def sizes(old, new, lines):
    """The most cells of a program, and the number of candidates."""
    sides = [Units(text, prelude()) for text in (old, new)]
    cells = [side.cells() for side in sides]
    types = {one.path: one.type.base for one in cells[1]}
    same = sum(types.get(one.path) == one.type.base for one in cells[0])
    clauses = len(re.findall(r"^(?:RELATE|INVARIANT) ", lines, re.MULTILINE))
    charts = sum(pairs_of_steps(side, side.program) for side in sides)
    return max(map(len, cells)), clauses + 1 + same + sum(map(len, cells)) + charts


def main():
    folder, kind = Path(sys.argv[1]), sys.argv[2]
    count, depth, conflicts = [int(word) for word in sys.argv[3:]] + [1, 1, 1_000_000][len(sys.argv) - 3 :]
    pairs = [Pair(name) for name in (PAIRS if kind in ("plants", "coupled") else [kind])]

    def texts(number):
        return *(program(pairs, number, side, kind == "coupled") for side in ("old", "new")), relation(pairs, number, depth, conflicts)

    cells, candidates = sizes(*texts(count))
    if max(cells, candidates) > MOST:
        one, two = sizes(*texts(1)), sizes(*texts(2))
        largest = min((MOST - first) // (second - first) + 1 for first, second in zip(one, two))
        print(f"K = {count} is too large: {cells:,} cells and {candidates:,} candidates, of at most {MOST:,} each; the largest K is {largest}", file=sys.stderr)
        sys.exit(2)
    for form, text in zip(("old", "new", "rel"), texts(count)):
        (folder / f"{kind}.{form}").write_text(text)
    print(f"{len(pairs) * count} sections, {cells:,} cells, {candidates:,} candidates")


if __name__ == "__main__":
    main()
