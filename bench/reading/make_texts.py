#!/usr/bin/env python3
"""Writes texts of at most 1 MiB into a folder, each of one construct: NAME.st, a program, and NAME.rel, a relation of it with itself.

statements, chain: assignments, and the operands of one. elsifs: the tests of one IF. entries, labels: 32,768 entries of one CASE,
and as many labels of one entry. functions: 9,000 FUNCTIONs, each of which calls the one before. constants: FUNCTIONs whose constants begin
with values of an enumeration. charts: blocks with charts of 900 steps. relates: RELATE lines.
Use: make_texts.py FOLDER
"""
import sys
from pathlib import Path

sys.dont_write_bytecode = True
sys.path.insert(0, str(Path(__file__).resolve().parent.parent / "sizes"))
from sizes import HEAD, PROGRAMS, SMALL, filled, one_program


def labels():
    head, body, tail = one_program("CASE n OF\n" + ", ".join(map(str, range(32768))) + ": q := TRUE;\nEND_CASE;")
    return head + body + tail


def functions():
    each = [f"FUNCTION F{k} : INT VAR_INPUT a : INT; END_VAR F{k} := F{k - 1}(a); END_FUNCTION\n" for k in range(1, 9000)]
    first = "FUNCTION F0 : INT VAR_INPUT a : INT; END_VAR F0 := a; END_FUNCTION\n"
    return first + "".join(each) + "PROGRAM M VAR_OUTPUT n : INT; END_VAR n := F8999(n); END_PROGRAM\n"


def constants():
    values = ", ".join(f"e{k}" for k in range(200))
    each = lambda k: (
        f"FUNCTION F{k} : INT VAR CONSTANT c, d, f : E := e{k % 200}; g : E := E#e{(k + 1) % 200}; END_VAR END_FUNCTION\n"
    )
    return filled(f"TYPE E : ({values}); END_TYPE\n", each, "PROGRAM M VAR_OUTPUT n : INT; END_VAR END_PROGRAM\n")


def chart(count):
    steps = [f"STEP step{k}: act{k}(N); act{(k + 1) % count}(P); END_STEP\n" for k in range(count)]
    moves = [f"TRANSITION FROM step{k} TO step{(k + 1) % count} := i; END_TRANSITION\n" for k in range(count)]
    actions = [f"ACTION act{k}: q := i; END_ACTION\n" for k in range(count)]
    return "INITIAL_" + "".join(steps + moves + actions)


def charts():
    body = chart(900)
    each = lambda k: f"FUNCTION_BLOCK B{k} VAR_INPUT i : BOOL; END_VAR VAR_OUTPUT q : BOOL; END_VAR\n{body}END_FUNCTION_BLOCK\n"
    return filled("", each, "PROGRAM M VAR_OUTPUT n : INT; END_VAR END_PROGRAM\n")


PLAIN = HEAD + "RELATE TRUE;\n"
TEXTS = {
    "statements": lambda: (PROGRAMS["statements"](), PLAIN),
    "chain": lambda: (PROGRAMS["an operator chain"](), PLAIN),
    "elsifs": lambda: (PROGRAMS["ELSIFs"](), PLAIN),
    "entries": lambda: (PROGRAMS["labels of a CASE"](), PLAIN),
    "labels": lambda: (labels(), PLAIN),
    "functions": lambda: (functions(), PLAIN),
    "constants": lambda: (constants(), PLAIN),
    "charts": lambda: (charts(), PLAIN),
    "relates": lambda: (SMALL, filled(HEAD, lambda k: f"RELATE old.n = new.n OR old.n > {k};\n", "")),
}


def main():
    folder = Path(sys.argv[1])
    for name, made in TEXTS.items():
        program, relation = made()
        (folder / f"{name}.st").write_text(program)
        (folder / f"{name}.rel").write_text(relation)


if __name__ == "__main__":
    main()
