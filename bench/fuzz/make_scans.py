"""Makes cases of the door `scan`: random programs, each with a random state and the state that another implementation says a scan leaves.

make_scans.py N SEED OTHER: prints N cases. OTHER is the command line of an implementation of `replay`. A state is begun in by a copy of
the program whose variables have it as initial values (tools/pair_scan.py).
"""

import os
import random
import sys

HERE = os.path.dirname(os.path.abspath(__file__))
sys.dont_write_bytecode = True
sys.path[:0] = [os.path.join(HERE, "..", "..", "tools"), HERE]
from pair_scan import after
from program_cells import Units, prelude
from program_text import count_of
from relation_text import relation_of
from row_lists import numbers_of
from texts import Program

# So many states of each program are tried.
STATES = 2


def state_of(units, pick):
    """A number for each cell: an end of its type, a small one, or any."""
    state = {}
    for cell in units.cells():
        numbers = numbers_of(cell.type)
        small = [number for number in (0, 1, 2, 3) if number in numbers]
        state[cell.path] = pick.choice((*small, numbers[0], numbers[-1], numbers[pick.randrange(count_of(numbers))]))
    # The scan sets FAULT and the variables of VAR_TEMP at its head, and the state of a copy has FAULT at its start.
    return {**state, "FAULT": 0}


def case_of(pick, blocks):
    """The sections of a case, None where the copies of the program are not taken."""
    text = Program(pick).text()
    units = Units(text, blocks)
    relation = relation_of(("RELATION 1; " + " ".join(f"INPUT {one.name} = {one.name};" for one in units.inputs) + " RELATE TRUE;").encode())
    lines = ["-- scan", text.rstrip("\n")]
    for _ in range(STATES):
        before = state_of(units, pick)
        row = [before[one.name.upper()] for one in units.inputs]
        states = after([units, units], relation, [before, before], row)
        if states is None:
            return None
        for word, state in (("before", before), ("after", states[0])):
            lines += ["-- " + word, " ".join(str(state[cell.path]) for cell in units.cells())]
    return lines


def main(count, seed, other):
    os.environ["REGVER"] = other
    pick, blocks, made = random.Random(int(seed)), prelude(), 0
    while made < int(count):
        lines = case_of(pick, blocks)
        if lines:
            made += 1
            print("\n".join([f"== A made program, number {made}", *lines]))


if __name__ == "__main__":
    if len(sys.argv) != 4:
        sys.exit(__doc__)
    main(*sys.argv[1:])
