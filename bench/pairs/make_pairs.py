#!/usr/bin/env python3
"""Writes a pair of programs and its relation into a folder, as NAME.old, NEW.new and NAME.rel.

detectors N: N edge detectors, written out and by R_TRIG.
counters N: N counters to 100, written out and by CTU.
shared_counters N: the same to 101, 102 and so on, that all count one input; with 240 there are 3,130 candidates, and 4,564 of the others.
sint_product: a product of two SINT, and its factors in the other order.
dint_sum N: a sum of N DINT, and its terms in the other order.
products N: N products of INT in a row on both sides, each of the one before and an input: 481 gates for each.
powers B: a product of two numbers below 2 to the power of B in INT, and its factors in the other order.
Use: make_pairs.py FOLDER KIND [N [DEPTH [CONFLICTS]]]
"""
import sys
from pathlib import Path


def relation(depth, conflicts, lines):
    return f"RELATION 1;\nFAULTS EQUAL;\nDEPTH {depth};\nCONFLICTS {conflicts};\n" + "".join(line + "\n" for line in lines)


def program(name, lines):
    return f"PROGRAM {name}\n" + "".join(line + "\n" for line in lines) + "END_PROGRAM\n"


def detectors(n):
    each = range(1, n + 1)
    cells = "VAR_INPUT a{0} : BOOL; END_VAR VAR_OUTPUT q{0} : BOOL; END_VAR "
    old = [(cells + "VAR m{0} : BOOL; END_VAR").format(i) for i in each]
    old += [f"q{i} := a{i} AND NOT m{i}; m{i} := a{i};" for i in each]
    new = [(cells + "VAR t{0} : R_TRIG; END_VAR").format(i) for i in each]
    new += [f"t{i}(CLK := a{i}, Q => q{i});" for i in each]
    lines = [f"INPUT a{i} = a{i};" for i in each] + [f"RELATE old.q{i} = new.q{i};" for i in each]
    return old, new, lines + [f"INVARIANT old.m{i} = new.t{i}.M;" for i in each]


def counters(n):
    each = range(1, n + 1)
    cells = "VAR_INPUT u{0}, r{0} : BOOL; END_VAR VAR_OUTPUT q{0} : BOOL; END_VAR "
    old = [(cells + "VAR m{0} : BOOL; c{0} : INT; END_VAR").format(i) for i in each]
    old += [
        f"IF r{i} THEN c{i} := 0; ELSIF u{i} AND NOT m{i} AND c{i} < 32767 THEN c{i} := c{i} + 1; END_IF;"
        f" m{i} := u{i}; q{i} := c{i} >= 100;"
        for i in each
    ]
    new = [(cells + "VAR t{0} : CTU; END_VAR").format(i) for i in each]
    new += [f"t{i}(CU := u{i}, R := r{i}, PV := 100, Q => q{i});" for i in each]
    lines = [f"INPUT {name}{i} = {name}{i};" for i in each for name in "ur"] + [f"RELATE old.q{i} = new.q{i};" for i in each]
    return old, new, lines + [f"INVARIANT old.m{i} = new.t{i}.M AND old.c{i} = new.t{i}.CV;" for i in each]


def shared_counters(n):
    each = range(1, n + 1)
    inputs = "VAR_INPUT u, r : BOOL; END_VAR"
    old = [inputs] + ["VAR_OUTPUT q{0} : BOOL; END_VAR VAR m{0} : BOOL; c{0} : INT; END_VAR".format(i) for i in each]
    old += [
        f"IF r THEN c{i} := 0; ELSIF u AND NOT m{i} AND c{i} < 32767 THEN c{i} := c{i} + 1; END_IF; m{i} := u; q{i} := c{i} >= {100 + i};"
        for i in each
    ]
    new = [inputs] + ["VAR_OUTPUT q{0} : BOOL; END_VAR VAR t{0} : CTU; END_VAR".format(i) for i in each]
    new += [f"t{i}(CU := u, R := r, PV := {100 + i}, Q => q{i});" for i in each]
    lines = ["INPUT u = u;", "INPUT r = r;"] + [f"RELATE old.q{i} = new.q{i};" for i in each]
    return old, new, lines + [f"INVARIANT old.m{i} = new.t{i}.M AND old.c{i} = new.t{i}.CV;" for i in each]


def of_inputs(kind, names, old, new):
    cells = f"VAR_INPUT {', '.join(names)} : {kind}; END_VAR VAR_OUTPUT q : {kind}; END_VAR"
    lines = [f"INPUT {name} = {name};" for name in names] + ["RELATE old.q = new.q;"]
    return [cells, f"q := {old};"], [cells, f"q := {new};"], lines


def sint_product(_):
    return of_inputs("SINT", ["x", "y"], "x * y", "y * x")


def dint_sum(n):
    names = [f"a{i}" for i in range(1, n + 1)]
    return of_inputs("DINT", names, " + ".join(names), " + ".join(reversed(names)))


def products(n):
    cells = "VAR_INPUT y : INT; END_VAR VAR_OUTPUT x : INT; END_VAR VAR i : INT; END_VAR"
    body = [cells, f"FOR i := 1 TO {n // 5} DO x := x * y * y * y * y * y; END_FOR;"]
    return body, body, ["INPUT y = y;", "RELATE old.x = new.x;"]


def powers(b):
    return of_inputs(f"INT (0..{2 ** b - 1})", ["x", "y"], "x * y", "y * x")


KINDS = {kind.__name__: kind for kind in [detectors, counters, shared_counters, sint_product, dint_sum, products, powers]}


def main():
    folder, kind = Path(sys.argv[1]), sys.argv[2]
    n, depth, conflicts = [int(word) for word in sys.argv[3:]] + [3, 1, 1_000_000][len(sys.argv) - 3 :]
    old, new, lines = KINDS[kind](n)
    (folder / f"{kind}.old").write_text(program("Old", old))
    (folder / f"{kind}.new").write_text(program("New", new))
    (folder / f"{kind}.rel").write_text(relation(depth, conflicts, lines))


if __name__ == "__main__":
    main()
