"""Tells which variables of two revisions part first where rows are run from the start, those inside among them."""

from collections import namedtuple

from pair_scan import after_each, said
from program_text import written

# A variable that both revisions have by one name and that parts: the name, whether no output shows it, the first scan after which it
# differs, what it is then in OLD and in NEW, and for each side its type and its numbers after all scans.
Parting = namedtuple("Parting", "name inside scan old new types numbers")
# So many variables of one scan are named.
MOST_NAMES = 12
UNKNOWN = "What comes apart inside cannot be told: ./regver replay does not take copies of the programs whose variables are all outputs."
NONE = "No variable inside comes apart that both revisions have by one name."


def states_after(units, relation, rows):
    """Both states after each row from the start, none where they are not known."""
    return after_each(units, relation, [{cell.path: cell.start for cell in one.cells()} for one in units], rows)


def partings(units, states):
    """The variables that part, in the order of the scans; inputs and FAULT are no variables inside."""
    cells, others = [{cell.path: cell for cell in one.cells()} for one in units]
    shown = {output.name.upper() for one in units for output in one.outputs} | {"FAULT"}
    inputs = {one.name.upper() for unit in units for one in unit.inputs}
    found = []
    for path, cell in cells.items():
        if path not in others or path in inputs:
            continue
        scan = next((number for number, (old, new) in enumerate(states, 1) if old[path] != new[path]), None)
        if scan:
            old, new = states[scan - 1]
            found.append(Parting(written(cell.path), path not in shown, scan, said(cell.type, old[path]), said(others[path].type, new[path]),
                                 (cell.type, others[path].type), list(zip(*((one[path], other[path]) for one, other in states)))))
    return sorted(found, key=lambda one: (one.scan, not one.inside))


def found_apart(units, relation, rows):
    """The variables that part while the rows are run, None where that cannot be told."""
    states = states_after(units, relation, rows)
    return partings(units, states) if len(states) == len(rows) else None


def told(found):
    """The lines that say what parts, scan by scan."""
    if found is None:
        return [UNKNOWN]
    lines = [] if any(one.inside for one in found) else [NONE]
    for scan in sorted({one.scan for one in found}):
        ones = [one for one in found if one.scan == scan]
        more = ", and {} more".format(len(ones) - MOST_NAMES) if len(ones) > MOST_NAMES else ""
        lines.append("After scan {}: {}{}.".format(scan, ", ".join(
            "{}{} is {} in OLD and {} in NEW".format(one.name, " (inside)" if one.inside else "", one.old, one.new)
            for one in ones[:MOST_NAMES]), more))
    return lines
