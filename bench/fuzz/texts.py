"""Texts that the fuzzer makes: pairs of programs by the grammar, and short texts whose counts explode."""

import math
import os
import re
import sys

sys.path.append(os.path.join(os.path.dirname(os.path.abspath(__file__)), "..", "..", "tools"))
from program_text import ELEMENTARY, VALUES

LEAVING = os.environ.get("LEAVING", "1") != "0"
WIDE = os.environ.get("WIDE", "1") != "0"
KNOWN = tuple(one for one in ELEMENTARY if WIDE or one.bits < 64)
RANGES = {one.name: (VALUES[one.name][0], VALUES[one.name][-1]) for one in KNOWN}
RANGES.update({"Level": (0, 9), "Light": (0, 2)})
INTEGERS = tuple(one.name for one in KNOWN if one.sort == "integer")
BITS = tuple(one.name for one in KNOWN if one.sort == "bit string")
# The types of 64 bits, and what is told apart in one: the ends of the types of 32 bits, and of the range that has a sign.
WIDEST = tuple(one.name for one in KNOWN if one.bits == 64)
TELLING = (2**31 - 1, 2**31, 2**32 - 1, 2**32, 2**63 - 1, 2**63, -(2**31), -(2**32))
LIGHTS = ("Red", "Amber", "Green")
TYPES = "TYPE Light : (Red, Amber, Green); Level : INT (0..9); END_TYPE"
LIBRARY = (
    "FUNCTION twice : INT VAR_INPUT x, y : INT; END_VAR VAR t : R_TRIG; END_VAR t(CLK := x > y); twice := x + y; IF t.Q THEN twice := twice + x; END_IF; END_FUNCTION",
    "FUNCTION_BLOCK Delay VAR_INPUT x : INT; on : BOOL; END_VAR VAR_OUTPUT y : INT; END_VAR VAR last : INT; c : CTU; END_VAR c(CU := on, PV := 3); y := last; IF c.Q THEN last := x; END_IF; END_FUNCTION_BLOCK",
)
if LEAVING:
    LIBRARY = (
        "FUNCTION twice : INT VAR_INPUT x, y : INT; END_VAR VAR t : R_TRIG; END_VAR t(CLK := x > y); twice := x + y; IF NOT t.Q THEN RETURN; END_IF; twice := twice + x; END_FUNCTION",
        "FUNCTION_BLOCK Delay VAR_INPUT x : INT; on : BOOL; END_VAR VAR_OUTPUT y : INT; END_VAR VAR last, i : INT; c : CTU; END_VAR c(CU := on, PV := 3); y := last; FOR i := 0 TO 2 DO IF c.Q THEN last := x; EXIT; ELSIF x = i THEN RETURN; END_IF; last := last - i; END_FOR; y := y + i; END_FUNCTION_BLOCK",
    )


def own(kind):
    """The type that an expression over a variable of this kind has."""
    return "INT" if kind == "Level" else kind


class Program:
    """A program by the grammar, with its variables known, so that most are accepted."""

    def __init__(self, pick):
        self.pick, self.variables, self.loops, self.around = pick, {}, 0, 0
        kinds = ("BOOL", "BOOL", "INT", "SINT", pick.choice(tuple(RANGES)))
        kinds += (pick.choice(WIDEST),) if WIDE else ()
        self.inputs = self.declared("i", kinds, pick.randint(0, 3))
        self.outputs = self.declared("o", kinds, pick.randint(1, 3))
        self.inner = self.declared("v", kinds, pick.randint(0, 3))
        self.temporary = self.declared("t", kinds, pick.randint(0, 1))
        self.steps = pick.randint(2, 5) if pick.randrange(4) == 0 else 0

    def declared(self, letter, kinds, count):
        found = {f"{letter}{number}": self.pick.choice(kinds) for number in range(count)}
        self.variables.update(found)
        return found

    def literal(self, kind):
        low, high = RANGES[kind]
        if kind == "BOOL":
            return self.pick.choice(("TRUE", "FALSE"))
        if kind == "Light":
            return self.pick.choice((*LIGHTS, "Light#Red"))
        number = self.pick.choice((0, 1, 2, 3, 7, low, high, self.pick.randint(low, high)))
        if kind in WIDEST and self.pick.randrange(3) == 0:
            number = self.pick.choice([one for one in TELLING if low <= one <= high])
        return f"{own(kind)}#{number}"

    def product(self, kind, depth):
        """A product, quotient or rest in a type of 64 bits. One side has 8 bits, so that verify decides it with few derivations."""
        narrow = self.pick.choice(("SINT", "USINT", "BYTE"))
        sides = [f"{narrow}_TO_{kind}({self.expression(narrow, depth - 1)})", self.literal(kind)]
        self.pick.shuffle(sides)
        return f"({sides[0]} {self.pick.choice(('*', '/', 'MOD'))} {sides[1]})"

    def condition(self, depth):
        pick = self.pick
        form = pick.randrange(7)
        if form == 0:
            return f"NOT ({self.expression('BOOL', depth - 1)})"
        if form == 1:
            return f"({self.expression('Light', depth - 1)} {pick.choice(('=', '<>'))} {self.expression('Light', 0)})"
        if form == 2 and self.steps:
            return f"S{pick.randrange(self.steps)}.X"
        if form == 3:
            return pick.choice(("edge.Q", "count.Q", "delay.y > INT#2"))
        if form == 4:
            return f"({self.expression('BOOL', depth - 1)} {pick.choice(('AND', 'OR', 'XOR', '&'))} {self.expression('BOOL', depth - 1)})"
        kind = pick.choice((*INTEGERS, *BITS))
        return f"({self.expression(kind, depth - 1)} {pick.choice(('=', '<>', '<', '>', '<=', '>='))} {self.expression(kind, depth - 1)})"

    def number(self, kind, depth):
        pick = self.pick
        one, other = self.expression(kind, depth - 1), self.expression(kind, depth - 1)
        form = pick.randrange(9)
        if form == 0:
            source = pick.choice([t for t in ("BOOL", *INTEGERS, *BITS) if t != kind])
            return f"{source}_TO_{kind}({self.expression(source, depth - 1)})"
        if form == 1:
            return f"{pick.choice(('MIN', 'MAX'))}({one}, {other})"
        if form == 2:
            return f"SEL({self.expression('BOOL', depth - 1)}, {one}, {other})"
        if form == 3:
            return f"LIMIT({self.literal(kind)}, {one}, {other})"
        if kind in BITS:
            if form == 4:
                amounts = (0, 1, 3, 8, 31, 64) + ((32, 33, 63) if kind in WIDEST else ())
                return f"{pick.choice(('SHL', 'SHR', 'ROL', 'ROR'))}({one}, {pick.choice(amounts)})"
            return f"({one} {pick.choice(('AND', 'OR', 'XOR'))} {other})" if form < 8 else f"NOT ({one})"
        if form == 4 and kind == "INT":
            return pick.choice((f"twice({one}, {other})", f"twice(y := {one}, x := {other})", "count.CV", "delay.y"))
        if form == 5:
            return f"ABS({one})"
        if form == 6:
            return f"-({one})"
        if form == 7 and kind in WIDEST:
            return self.product(kind, depth)
        if form == 8 and kind in WIDEST:
            return f"({one} {pick.choice('+-')} {other})"
        return f"({one} {pick.choice(('+', '+', '-', '-', '*', '/', 'MOD'))} {other})"

    def expression(self, kind, depth):
        kind, pick = own(kind), self.pick
        known = [name for name, declared in self.variables.items() if own(declared) == kind]
        if depth <= 0 or pick.randrange(3) == 0:
            return pick.choice(known) if known and pick.randrange(4) else self.literal(kind)
        if kind == "BOOL":
            return self.condition(depth)
        if kind == "Light":
            return f"SEL({self.expression('BOOL', depth - 1)}, {self.expression(kind, 0)}, {self.expression(kind, 0)})"
        return self.number(kind, depth)

    def assignment(self):
        target = self.pick.choice((*self.outputs, *self.inner, *self.temporary))
        return f"{target} := {self.expression(self.variables[target], 3)};"

    def selection(self, depth):
        kind = self.pick.choice(("INT", "SINT", "Light", *(("LINT", "ULINT") if WIDE else ())))
        if kind == "Light":
            labels = self.pick.choice((("Red", "Amber"), ("Red..Amber",), ("Light#Green", "Red")))
        elif kind in WIDEST:
            low, high = RANGES[kind]
            labels = self.pick.choice((("0", f"1, 3..{high}"), (f"{low}", "2147483648..4294967296"), (f"1..{2**63 - 1}", f"{low}")))
        else:
            labels = self.pick.choice((("0", "1, 3..5"), ("-1", "2"), ("0..100", "-128..-1")))
        entries = " ".join(f"{label}: {self.statements(depth - 1)}" for label in labels)
        return f"CASE {self.expression(kind, 2)} OF {entries} ELSE {self.statements(depth - 1)} END_CASE;"

    def iteration(self, depth):
        variable = f"n{self.loops}"
        self.loops += 1
        head = self.pick.choice((f"0 TO {self.pick.randint(0, 4)}", "5 TO 1 BY -2", "3 TO 1"))
        self.around += 1
        body = self.statements(depth - 1)
        self.around -= 1
        return f"FOR {variable} := {head} DO {body} END_FOR;"

    def leaving(self, depth):
        """An EXIT, where a FOR is around, or a RETURN; most often behind a condition."""
        word = "EXIT;" if self.around and self.pick.randrange(3) else "RETURN;"
        if depth == 0 or self.pick.randrange(5) == 0:
            return word
        before = self.statements(0) + " " if self.pick.randrange(2) else ""
        return f"IF {self.expression('BOOL', 1)} THEN {before}{word} END_IF;"

    def statement(self, depth):
        form = self.pick.randrange(12)
        if depth > 0 and form < 3:
            other = f" ELSE {self.statements(depth - 1)}" if self.pick.randrange(2) else ""
            return f"IF {self.expression('BOOL', 2)} THEN {self.statements(depth - 1)}{other} END_IF;"
        if depth > 0 and form == 3:
            return self.selection(depth)
        if depth > 0 and form == 4:
            return self.iteration(depth)
        if LEAVING and self.pick.randrange(8) == 0:
            return self.leaving(depth)
        if form == 5:
            return f"edge(CLK := {self.expression('BOOL', 2)});"
        if form == 6:
            return f"count(CU := {self.expression('BOOL', 1)}, R := {self.expression('BOOL', 1)}, PV := {self.expression('INT', 1)});"
        if form == 7:
            return f"delay(x := {self.expression('INT', 2)}, on := {self.expression('BOOL', 1)});"
        return self.assignment()

    def statements(self, depth):
        return " ".join(self.statement(depth) for _ in range(self.pick.randint(1, 3)))

    def chart(self):
        pick, parts = self.pick, []
        for step in range(self.steps):
            qualifier = pick.choice(("N", "S", "R", "P", "P1", "P0"))
            parts.append(f"{'INITIAL_STEP' if step == 0 else 'STEP'} S{step}: act{pick.randrange(2)}({qualifier}); END_STEP")
        for step in range(self.steps):
            priority = f" (PRIORITY := {pick.randint(1, 3)})" if pick.randrange(3) == 0 else ""
            parts.append(f"TRANSITION{priority} FROM S{step} TO S{(step + pick.randint(1, 2)) % self.steps} := {self.expression('BOOL', 2)}; END_TRANSITION")
        parts += [f"ACTION act{number}: {self.statements(1)} END_ACTION" for number in range(2)]
        return "\n".join(parts)

    def text(self):
        """The program's text, with another body each time."""
        self.loops = 0
        body = self.chart() if self.steps else self.statements(3)
        parts = [TYPES, *LIBRARY, "PROGRAM M"]
        for word, variables in (("VAR_INPUT", self.inputs), ("VAR_OUTPUT", self.outputs), ("VAR", self.inner), ("VAR_TEMP", self.temporary)):
            if variables:
                parts.append(f"{word} {' '.join(f'{name} : {kind};' for name, kind in variables.items())} END_VAR")
        loops = "".join(f" n{number} : {'LINT' if WIDE and number % 2 else 'INT'};" for number in range(self.loops))
        parts.append(f"VAR edge : R_TRIG; count : CTU; delay : Delay;{loops} END_VAR")
        return "\n".join([*parts, body, "END_PROGRAM\n"])


CHANGES = {"AND": "OR", "OR": "AND", "+": "-", "-": "+", "<": "<=", "<=": "<", ">": ">=", "=": "<>", "<>": "=", "TRUE": "FALSE", "FALSE": "TRUE", "MIN": "MAX", "Red": "Amber"}
SPOT = re.compile(r"(?<= )(?:AND|OR|\+|-|<=|<>|<|>|=)(?= )|\b(?:TRUE|FALSE|MIN)\b|(?<==> )Red|(?<=#)\d+")


def varied(pick, text):
    """The text with an operator, a truth value or a number of its PROGRAM changed."""
    start = text.index("PROGRAM M")
    spots = list(SPOT.finditer(text, start))
    if not spots:
        return text
    spot = pick.choice(spots)
    old = spot.group(0)
    new = str(max(0, int(old) - 1)) if old.isdigit() else CHANGES[old]
    return text[: spot.start()] + new + text[spot.end() :]


def made_pair(pick):
    """Two programs with the same variables, a relation between them, and a trace."""
    program = Program(pick)
    old = program.text()
    new = program.text() if pick.randrange(4) == 0 else old
    for _ in range(pick.randint(0, 3)):
        new = varied(pick, new)
    lines = [f"RELATION 1; FAULTS {pick.choice(('EQUAL', 'EQUAL', 'FREE'))}; DEPTH {pick.randint(1, 4)}; CONFLICTS {pick.choice((10, 1000, 1000))};"]
    lines += [f"INPUT {name} = {name};" for name in program.inputs]
    if program.inputs and pick.randrange(3) == 0:
        name, kind = pick.choice(list(program.inputs.items()))
        value = f"old.{pick.choice(LIGHTS)}" if kind == "Light" else program.literal(kind).replace("Light#", "old.")
        lines.append(f"ENV old.{name} {pick.choice(('=', '<>'))} {value};")
    lines += [f"RELATE old.{name} = new.{name};" for name in program.outputs]
    if program.inner and pick.randrange(2):
        name = pick.choice(list(program.inner))
        lines.append(f"INVARIANT old.{name} = new.{name} OR NOT old.FAULT;")
    rows = []
    for _ in range(pick.randint(0, 6)):
        rows.append([pick.choice((*RANGES[kind], 0, 1, pick.randint(*RANGES[kind]))) for kind in program.inputs.values()])
    return {"old": old, "new": new, "relation": "\n".join(lines) + "\n", "trace": str(rows)}


def doubling_blocks(pick, n):
    """Blocks that hold two of the block before them, which has cells, and one that is called twice."""
    called = pick.choice(("", "a(); b();"))
    blocks = ["FUNCTION_BLOCK B0 VAR x : BOOL; END_VAR x := NOT x; END_FUNCTION_BLOCK"]
    blocks += [f"FUNCTION_BLOCK B{i} VAR a, b : B{i - 1}; END_VAR {called} END_FUNCTION_BLOCK" for i in range(1, n)]
    return "\n".join(blocks)


def blown_up(pick):
    """A short text whose counts explode, and how many statements a scan runs: it must be refused, or answered, at once."""
    n = pick.choice((3, 8, 10, 11, 12, 20, 33, 60))
    kind = pick.randrange(8)
    if kind == 0:
        return doubling_blocks(pick, n) + f"\nPROGRAM M VAR q : BOOL; x : B{n - 1}; END_VAR x(); q := TRUE; END_PROGRAM", 2**12
    if kind == 1:
        depth = min(n, 12)
        turns = [pick.choice((1, 3, 9, 4095)) for _ in range(depth)]
        names = ", ".join(f"i{k}" for k in range(depth))
        opened = " ".join(f"FOR i{k} := 0 TO {turns[k]} DO" for k in range(depth))
        return f"PROGRAM M VAR q : BOOL; {names} : INT; END_VAR {opened} q := NOT q; {'END_FOR; ' * depth}END_PROGRAM", math.prod(t + 1 for t in turns)
    if kind == 2:
        calls = ["FUNCTION F0 : INT VAR_INPUT a : INT; END_VAR F0 := a + 1; END_FUNCTION"]
        calls += [f"FUNCTION F{i} : INT VAR_INPUT a : INT; END_VAR F{i} := F{i - 1}(a) + F{i - 1}(a := a); END_FUNCTION" for i in range(1, n)]
        return "\n".join(calls) + f"\nPROGRAM M VAR q : INT; END_VAR q := F{n - 1}(q); END_PROGRAM", 2**n
    if kind == 3:
        count = pick.choice((1, 255, 256, 257, 4096))
        return f"TYPE E : ({', '.join(f'v{i}' for i in range(count))}); END_TYPE PROGRAM M VAR q : E; END_VAR CASE q OF v0..v{count - 1}: ; END_CASE; END_PROGRAM", 1
    if kind == 4:
        labels = ", ".join(str(i) for i in range(pick.choice((1, 100, 4096, 9000))))
        return f"PROGRAM M VAR q : INT; END_VAR CASE q OF {labels}: q := 0; END_CASE; END_PROGRAM", 1
    if kind == 5:
        count = pick.choice((1, 2, 50))
        held = f"FUNCTION F : INT VAR_INPUT a : INT; END_VAR VAR x : B{n - 1}; END_VAR x(); F := a; END_FUNCTION"
        called = " + ".join(["F(q)"] * count)
        return doubling_blocks(pick, n) + f"\n{held}\nPROGRAM M VAR q : INT; END_VAR q := {called}; END_PROGRAM", 2**n * count
    if kind == 6:
        turns, other = pick.choice(((199, 497), (199, 500), (63, 63), (4095, 0), (4096, 0)))
        return f"PROGRAM M VAR i, j, x : INT; END_VAR FOR i := 0 TO {turns} DO FOR j := 1 TO {other} DO x := x + i; END_FOR; END_FOR; END_PROGRAM", turns * other
    bounds = pick.choice(("-32768..32767", "0..32767", "-32768..32767, 5", "5, -32768..32767", "-1..-32768"))
    return f"PROGRAM M VAR q : INT; END_VAR CASE q OF {bounds}: q := 1; END_CASE; END_PROGRAM", 1
