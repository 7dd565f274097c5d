"""Prints the rules that tools/where has no sentence for."""

import importlib.machinery
import importlib.util
import os
import sys

sys.dont_write_bytecode = True
sys.path.insert(0, os.path.dirname(sys.argv[1]))
loader = importlib.machinery.SourceFileLoader("where", sys.argv[1])
where = importlib.util.module_from_spec(importlib.util.spec_from_loader("where", loader))
loader.exec_module(where)

TEXT = "M1 L1 L2 L3 L4 L5 X1 G1 G2 "
PROGRAM = TEXT + "N1 N2 N3 N4 N5 C1 C2 C3 C4 C5 Y1 Y2 Y3 Y4 Y5 K1 F1 F2 F3 F4 F5 M2 M3 M5 M6"
RULES = {"OLD": PROGRAM, "NEW": PROGRAM, "REL": TEXT + "R1 R2 R3 R4 N2 N4 P1 P2 Y1 Y3 Y5 M4 M7", "TRACE": "M1 J1",
         "FINDING": "M8"}

for role, rules in RULES.items():
    found = [where.find_rule(role, rule) for rule in rules.split()]
    assert all(cell and cell != "as above" for cells in found for cell in cells), role
    print(role, len(found), "rules")
print(where.find_rule("OLD", "N2")[0][:17] + "; " + where.find_rule("REL", "N2")[0][:24])
