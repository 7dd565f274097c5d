"""Shows pairs of states, rows and clauses as lines that are not long."""

import re
import textwrap
from collections import namedtuple

from clause_value import Judged, judged
from pair_scan import SIDES, said
from program_text import Trouble, VALUES, written

# Stands for a space at which no line ends.
WHOLE = "\u00a0"
# A clause as reports name it: RELATE 2, and its text and tokens.
Line = namedtuple("Line", "name text tokens")
ROW_LINE = re.compile(rb"(SEEN|WALK|DROP|PAIR|SCAN)((?: -?[0-9]{1,20})*)\n")
# The lines of a finding that hold rows are no longer.
MOST_BYTES = 1_048_576


def listed(head, parts):
    """A head, and what belongs to it in lines that are not long."""
    text = ", ".join(part.replace(" ", WHOLE) for part in parts) if parts else "none"
    lines = textwrap.wrap(text, 100, initial_indent="    ", subsequent_indent="    ", break_long_words=False,
                          break_on_hyphens=False)
    return [head] + [line.replace(WHOLE, " ") for line in lines]


def cell_of(name, old, new):
    """A cell with its number, or with those that it has in OLD and in NEW."""
    if name in old and name in new and old[name] == new[name]:
        return "{} {}".format(written(name), old[name])
    sides = [(side, cells[name]) for side, cells in zip(SIDES, (old, new)) if name in cells]
    return "{} {}".format(written(name), " and ".join("{} in {}".format(number, side) for side, number in sides))


def apart(old, new):
    """The names of all cells, and of those that one side alone has or that differ."""
    names = list(old) + [name for name in new if name not in old]
    return names, [name for name in names if name not in old or name not in new or old[name] != new[name]]


def input_of(name, number):
    """An input with its number; one that both revisions call alike has one name."""
    one, sign, other = name.partition("=")
    return "{} {}".format(one if sign and one.upper() == other.upper() else name, number)


def named_state(units, state):
    """A state with the names of values in place of the numbers of enumerations and BOOL."""
    cells = {cell.path: cell for cell in units.cells()}
    known = {path: cells[path] for path in state if path in cells}
    return {known[path].path if path in known else path: said(known[path].type, number) if path in known else str(number)
            for path, number in state.items()}


def named_row(units, relation, row):
    """The inputs of a row by the names of reports, with the names of values."""
    cells = [{cell.path: cell for cell in one.cells()} for one in units]
    for one, number in zip(relation.inputs, row):
        known = [own[name] for own, name in zip(cells, (one.old, one.new)) if name in own]
        name = "=".join(written(cell.path) for cell in known) if one.old and one.new else one.name
        yield name, said(known[0].type, number) if known else str(number)


def related_lines(relation):
    """The RELATE clauses with the names that reports give them, FAULTS EQUAL among them."""
    lines = [Line("RELATE {}".format(number), clause.text, clause.tokens) for number, clause in enumerate(relation.clauses, 1)]
    return lines + ([Line("RELATE FAULTS", "old.FAULT = new.FAULT", None)] if relation.faults_equal else [])


def judged_line(line, cell):
    """Whether a line holds, as clause_value says it."""
    if line.tokens is not None:
        return judged(line.tokens, cell)
    cells = [(side, "FAULT") for side in SIDES]
    numbers = [cell(*place).number for place in cells]
    return Judged(None if None in numbers else numbers[0] == numbers[1], False, cells)


def read_cells(answer, cell, units):
    """The cells that a judged clause reads, each with its value."""
    own = [{one.path: one for one in program.cells()} for program in units]
    for side, path in answer.cells:
        known, number = own[SIDES.index(side)].get(path) if side in SIDES else None, cell(side, path).number
        if known:
            yield "{}.{} is {}".format(side.lower(), written(known.path), "not known" if number is None else said(known.type, number))


def states_of(units, numbers, source):
    """Both states and the row of a DROP or PAIR line's numbers."""
    cells = [[cell.path for cell in one.cells()] for one in units]
    first, both = len(cells[0]), len(cells[0]) + len(cells[1])
    if len(numbers) < both:
        raise Trouble("{} has rows of {} numbers, and the programs have {} cells: it is on other texts".format(
            source, len(numbers), both))
    return [dict(zip(cells[0], numbers)), dict(zip(cells[1], numbers[first:]))], numbers[both:]


def row_lines(path):
    """The lines of a finding that hold rows: the number of each, its word and its numbers."""
    try:
        with open(path, "rb") as file:
            number, begins = 0, True
            while True:
                text = file.readline(MOST_BYTES)
                if not text:
                    return
                number += begins
                found = ROW_LINE.fullmatch(text) if begins else None
                begins = text.endswith(b"\n")
                if found:
                    yield number, found[1].decode(), [int(word) for word in found[2].split()]
    except OSError as error:
        raise Trouble("cannot read {}: {}".format(path, error.strerror)) from error


def fitting_number(kind, number):
    """Whether a number is one of the type."""
    if isinstance(kind.base, tuple):
        return 0 <= number < len(kind.base)
    return kind.bounds[0] <= number <= kind.bounds[1] if kind.bounds else number in VALUES[kind.base]


def range_of(kind):
    """The range of a type in words."""
    if isinstance(kind.base, tuple):
        return "0 to {} ({})".format(len(kind.base) - 1, ", ".join(map(written, kind.base)))
    low, high = kind.bounds or (VALUES[kind.base][0], VALUES[kind.base][-1])
    return "{} to {}".format(low, high)
