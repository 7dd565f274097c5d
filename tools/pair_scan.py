"""Runs scans from a pair of states, by ./regver replay on copies of both programs that begin in that pair.

The copies are the programs' texts with other initial values; a chart is written as statements, and all variables are outputs, so
that they are shown. Replay says what the scan leaves; that the copies are the programs is not proved, so this is help for a
reader and decides nothing.
"""

import json
import os
import re
import tempfile

from chart_text import PREFIX, flag, statements
from clause_value import Value
from program_text import Type, written
from verifier import run

SIDES = ("OLD", "NEW")
SCAN = re.compile(r"SCAN [0-9]+ OLD((?: -?[0-9]+)+) NEW((?: -?[0-9]+)+)")


class Copy:
    """A copy of a program that begins in a state, from paths to numbers."""

    def __init__(self, units, state):
        self.units, self.state, self.blocks = units, state, []
        program, self.shown = self.unit(units.program, "", units.program.name)
        starts = [token.place for token in units.tokens if token.upper in ("PROGRAM", "END_PROGRAM")]
        rest = units.text[:starts[0]] + units.text[starts[1] + len("END_PROGRAM"):]
        self.text = "\n".join([rest, *self.blocks, program])

    def value(self, cell_type, written, path):
        """The number of a cell as an initial value."""
        number = self.state[path]
        if isinstance(cell_type.base, tuple):
            return "{}#{}".format(written, cell_type.base[number])
        return ("FALSE", "TRUE")[number] if cell_type.base == "BOOL" else str(number)

    def unit(self, unit, prefix, name):
        """The text of a PROGRAM or a block, and the paths of the cells that its outputs show, each with the output's name."""
        head, body, shown = [], unit.body, []
        probes = []
        for one in unit.declarations:
            for variable in one.names:
                self.variable(unit, one, variable, prefix, head, shown, probes)
        if unit.steps:
            body, temporary = statements(unit.body)
            head += ["VAR_TEMP {} : BOOL; END_VAR".format(one) for one in temporary]
            self.flags(unit, prefix, head, shown)
        for number, (path, source, written) in enumerate(probes):
            probe = "{}PROBE_{}".format(PREFIX, number)
            head.append("VAR_OUTPUT {} : {}; END_VAR".format(probe, written))
            body += "\n{} := {};".format(probe, source)
            shown.append((path, probe, written))
        return "{} {}\n{}\n{}\nEND_{}\n".format(unit.word, name, "\n".join(head), body, unit.word), shown

    def variable(self, unit, one, variable, prefix, head, shown, probes):
        """Declares a variable of the copy; what is no output is shown by a probe."""
        path, block = prefix + variable.upper(), self.units.block_of(one)
        if block:
            name = "{}BLOCK_{}".format(PREFIX, len(self.blocks))
            self.blocks.append("")
            number = len(self.blocks) - 1
            self.blocks[number], inner = self.unit(block, path + ".", name)
            head.append("VAR {} : {}; END_VAR".format(variable, name))
            probes.extend((cell, "{}.{}".format(variable, output), written) for cell, output, written in inner)
        elif one.constant or one.section == "VAR_TEMP" or one.section == "VAR_INPUT" and unit.word == "PROGRAM":
            head.append("{}{} {} : {}{}; END_VAR".format(one.section, " CONSTANT" if one.constant else "", variable, one.written,
                                                         " := " + one.initial if one.initial.strip() else ""))
            if one.section == "VAR_TEMP":
                probes.append((path, variable, one.written))
        else:
            section = "VAR_INPUT" if one.section == "VAR_INPUT" else "VAR_OUTPUT"
            start = self.value(self.units.type_of(one.kind), one.written, path)
            head.append("{} {} : {} := {}; END_VAR".format(section, variable, one.written, start))
            shown.append((path, variable, one.written))

    def flags(self, unit, prefix, head, shown):
        """Declares the flags of a chart."""
        cells = [(kind, step) for step in unit.steps for kind in "XL"] + [("S", action) for action in unit.stored]
        for kind, name in cells:
            path = "{}{}.{}".format(prefix, name, kind)
            head.append("VAR_OUTPUT {} : BOOL := {}; END_VAR".format(flag(kind, name), ("FALSE", "TRUE")[self.state[path]]))
            shown.append((path, flag(kind, name), "BOOL"))


def input_line(one):
    return "INPUT {} = {};".format(one.old, one.new) if one.old and one.new else "INPUT {};".format(one.name)


def loaded(relation, states, row):
    """Both states with the row's numbers in their inputs."""
    states = [dict(state) for state in states]
    for one, number in zip(relation.inputs, row):
        for state, name in zip(states, (one.old, one.new)):
            if name:
                state[name] = number
    return states


def after_each(units, relation, states, rows):
    """Both states after each of these rows, as far as they are known: none where replay does not take the copies."""
    try:
        copies = [Copy(one, state) for one, state in zip(units, states)]
    except IndexError:  # a text that ends within a chart is no program's
        return []
    lines = " ".join(input_line(one) for one in relation.inputs)
    texts = [copy.text for copy in copies] + ["RELATION 1; FAULTS FREE; DEPTH 1; CONFLICTS 1; {} RELATE TRUE;".format(lines),
                                             json.dumps(rows)]
    with tempfile.TemporaryDirectory() as room:
        names = [os.path.join(room, name) for name in ("old", "new", "relation", "trace")]
        for name, text in zip(names, texts):
            with open(name, "w", encoding="latin-1") as file:
                file.write(text)
        said_lines = run("replay", *names)[1].splitlines()
    ends = []
    for row, found in zip(rows, map(SCAN.fullmatch, said_lines)):
        if not found:
            return []
        states = loaded(relation, states, row)
        for copy, state, numbers in zip(copies, states, found.groups()):
            state.update(zip(["FAULT"] + [path for path, _, _ in copy.shown], map(int, numbers.split())))
        ends.append(states)
    return ends


def after(units, relation, states, *rows):
    """Both states after these rows, None where replay does not take the copies."""
    return (after_each(units, relation, states, rows) or [None])[-1]


def reader(units, states):
    """Gives the value of a cell, or of a value of an enumeration; a cell that is not known has no number."""
    known = [{} for _ in SIDES]
    for side, program in enumerate(units):
        for kind in program.types.values():
            if isinstance(kind, Type) and isinstance(kind.base, tuple):
                known[side].update((name, Value(number, kind.base)) for number, name in enumerate(kind.base))
        known[side].update((cell.path, Value(states[side].get(cell.path), cell.type.base)) for cell in program.cells())
    return lambda side, path: known[SIDES.index(side)].get(path, Value(None, None))


def said(cell_type, number):
    """A number as a reader wants it: the name of an enumeration's value, TRUE or FALSE."""
    base = cell_type.base if isinstance(cell_type, Type) else cell_type
    if isinstance(base, tuple) and 0 <= number < len(base):
        return written(base[number])
    return ("FALSE", "TRUE")[number] if base == "BOOL" and number in (0, 1) else str(number)
