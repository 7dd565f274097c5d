"""Compares what is told of clauses with what `regver replay` said of them.

A line of `clauses` is what replay said of a pair after one scan, the row of inputs, and the clause; program.st is OLD and
NEW. Its inputs and its output are known here, and the cells z and p are not.
"""

import os
import sys

sys.dont_write_bytecode = True
sys.path.insert(0, os.environ["TOOLS"])
from clause_value import Value, judged
from program_text import read_program
from relation_text import relation_of

program = read_program("program.st")
told = {True: 0, False: 0, None: 0}
with open("clauses", encoding="ascii") as file:
    for line in file:
        said, row, text = line.rstrip("\n").split(" ", 2)
        numbers = [int(number) for number in row.split(",")]
        known = {one.name.upper(): Value(number, one.type.base) for one, number in zip(program.inputs, numbers)}
        known["H"] = known["S"]
        known["FAULT"] = Value(0, "BOOL")
        clause = relation_of("RELATION 1; RELATE {};".format(text).encode()).clauses[0]
        holds = judged(clause.tokens, lambda side, path, known=known: known.get(path, Value(None, None))).holds
        told[holds] += 1
        if holds is not None and holds != (said == "holds"):
            print("FAILED: {} is told where it {}: {}".format(holds, said, line), end="")
print("{} hold, {} fail, {} are open".format(told[True], told[False], told[None]))
