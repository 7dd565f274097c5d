"""Runs texts at their limits, and prints for each how it is answered, in how much processor time and memory.

sizes.py PROGRAM [NAME..]: PROGRAM is the program to run; with names only the texts of these names.
"""

import os
import resource
import subprocess
import sys
import tempfile

MIB = 1_048_576
HEAD = "RELATION 1; FAULTS EQUAL; DEPTH 3; CONFLICTS 1000;\n"
LIMIT_SECONDS = 600


def filled(before, part, after, size=MIB):
    """A text of at most so many bytes: parts, numbered from 0, between two others."""
    parts, length, number = [], len(before) + len(after), 0
    while True:
        text = part(number)
        if length + len(text) > size:
            return before + "".join(parts) + after
        parts.append(text)
        length += len(text)
        number += 1


def one_program(body, variables="q : BOOL; n, i : INT;"):
    return f"PROGRAM M VAR_OUTPUT {variables} END_VAR\n", body, "\nEND_PROGRAM\n"


def in_program(part, variables="q : BOOL; n, i : INT;", before="", after=""):
    head, _, tail = one_program("", variables)
    return filled(head + before, part, after + tail)


def ring_of_steps():
    def part(k):
        return f"TRANSITION FROM S{k} TO S{k + 1} := TRUE; END_TRANSITION\nSTEP S{k + 1}: END_STEP\n"

    parts = "".join(part(k) for k in range(2000))
    return f"PROGRAM M VAR_OUTPUT q : BOOL; END_VAR\nINITIAL_STEP S0: END_STEP\n{parts}TRANSITION FROM S2000 TO S0 := TRUE; END_TRANSITION\nEND_PROGRAM\n"


def blocks_in_a_circle(count):
    """Blocks of which each has an instance of the next, and the last one of the first: N3 at the first."""
    return "".join(f"FUNCTION_BLOCK B{k} VAR a : B{(k + 1) % count}; END_VAR END_FUNCTION_BLOCK\n" for k in range(count)) + "PROGRAM M END_PROGRAM\n"


def circle_behind_blocks(count):
    """Blocks of which each has an instance of the next, and the last one of itself: N3 at the last."""
    return "".join(f"FUNCTION_BLOCK B{k} VAR a : B{min(k + 1, count - 1)}; END_VAR END_FUNCTION_BLOCK\n" for k in range(count)) + "PROGRAM M END_PROGRAM\n"


PROGRAMS = {
    "an operator chain": lambda: in_program(lambda k: " + n", before="n := n", after=";"),
    "statements": lambda: in_program(lambda k: "n := n + 1;\n"),
    "ELSIFs": lambda: in_program(lambda k: f"ELSIF n = {k % 32768} THEN q := TRUE;\n", before="IF q THEN ;\n", after="END_IF;"),
    "labels of a CASE": lambda: in_program(lambda k: f"{k}: q := TRUE;\n" if k < 32768 else " " * MIB, before="CASE n OF\n", after="END_CASE;"),
    "FORs": lambda: in_program(lambda k: "FOR i := 0 TO 1 DO ; END_FOR;\n"),
    "FUNCTIONs in a row": lambda: filled("", lambda k: f"FUNCTION F{k} : INT VAR_INPUT a : INT; END_VAR F{k} := a; END_FUNCTION\n", "PROGRAM M VAR_OUTPUT n : INT; END_VAR n := F0(n); END_PROGRAM\n"),
    "blocks in blocks": lambda: filled(
        "FUNCTION_BLOCK B0 VAR x : BOOL; END_VAR END_FUNCTION_BLOCK\n",
        lambda k: f"FUNCTION_BLOCK B{k + 1} VAR a : B{k}; END_VAR a(); END_FUNCTION_BLOCK\n",
        "PROGRAM M VAR_OUTPUT q : BOOL; END_VAR VAR b : B9; END_VAR b(); END_PROGRAM\n",
    ),
    "blocks in a circle": lambda: blocks_in_a_circle(15_500),
    "blocks that lead to a circle": lambda: circle_behind_blocks(15_500),
    "steps of a chart": ring_of_steps,
    "TYPE blocks": lambda: filled("", lambda k: f"TYPE T{k} : (v{k}, w{k}); END_TYPE\n", "PROGRAM M VAR_OUTPUT q : T0; END_VAR END_PROGRAM\n"),
    "cells": lambda: f"PROGRAM M VAR_OUTPUT {', '.join(f'v{k}' for k in range(4095))} : BOOL; END_VAR v0 := NOT v4094; END_PROGRAM\n",
    "comments": lambda: in_program(lambda k: "(* x *)"),
}


def with_inputs(count):
    names = ", ".join(f"a{k}" for k in range(count))
    return f"PROGRAM M VAR_INPUT {names} : BOOL; END_VAR VAR_OUTPUT q : BOOL; END_VAR q := a0; END_PROGRAM\n"


SMALL = "PROGRAM M VAR_OUTPUT q : BOOL; n : INT; END_VAR n := n; END_PROGRAM\n"
RELATIONS = {
    "INPUT lines": lambda: (with_inputs(4000), HEAD + "".join(f"INPUT a{k} = a{k};\n" for k in range(4000)) + "RELATE TRUE;\n"),
    "RELATE clauses": lambda: (SMALL, HEAD + "".join(f"RELATE old.n = new.n OR old.n > {k};\n" for k in range(4000))),
    "one long clause": lambda: (SMALL, HEAD + "RELATE old.n = new.n" + " OR old.q" * 100_000 + ";\n"),
}


def chained_products(count):
    return "PROGRAM M VAR_INPUT a : INT; END_VAR VAR_OUTPUT n : INT; END_VAR\n" + "n := n * a + 1;\n" * count + "END_PROGRAM\n"


VERIFIED = {
    "1,000 BOOLs, each a candidate": lambda: (f"PROGRAM M VAR_OUTPUT {', '.join(f'v{k}' for k in range(1000))} : BOOL; END_VAR v0 := NOT v999; END_PROGRAM\n", HEAD + "RELATE old.v0 = new.v0;\n"),
    "many gates": lambda: (chained_products(20_000), HEAD + "INPUT a = a; RELATE old.n = new.n;\n"),
    "DEPTH 64": lambda: (
        "PROGRAM M VAR_OUTPUT q : BOOL; END_VAR VAR n : USINT; END_VAR IF n < 100 THEN n := n + 1; END_IF; q := n >= 100; END_PROGRAM\n",
        "RELATION 1; FAULTS EQUAL; DEPTH 64; CONFLICTS 100000;\nRELATE old.q = FALSE OR new.q;\nRELATE NOT old.q;\n",
    ),
}

FINDINGS = {
    "one line of 100 MiB": lambda file: (file.write("REGVER FINDING 1\nSEEN 0\nLOG STEP\nD"), [file.write(" 1" * 1000) for _ in range(50_000)], file.write(" 0 1 0\n")),
    "100,000,000 short lines": lambda file: (file.write("REGVER FINDING 1\nSEEN 0\nLOG STEP\n"), [file.write("D 2 0 0\n" * 1000) for _ in range(100_000)]),
    "1 GiB of steps that pass": lambda file: (file.write("REGVER FINDING 1\nSEEN 0\nDROP 0 0 0 0 0 0 1\nQUERY STEP\n"), [file.write("D 2 3 0 1 21 0\n" * 1000) for _ in range(60_000)]),
}
ROW_1 = "PROGRAM M VAR_INPUT a : BOOL; END_VAR VAR_OUTPUT q : BOOL; END_VAR q := a; END_PROGRAM\n"
ROW_1_RELATION = "RELATION 1; FAULTS EQUAL; DEPTH 64; CONFLICTS 100000;\nINPUT a = a;\nRELATE old.q = new.q;\n"


def measured(words, folder):
    """What a run prints and its status, its processor seconds and the most memory that it had, in KiB."""
    child = subprocess.Popen(words, cwd=folder, stdout=subprocess.PIPE, stderr=subprocess.DEVNULL, preexec_fn=limits)
    out = child.stdout.read()
    _, status, usage = os.wait4(child.pid, 0)
    child.returncode = status
    return out, os.waitstatus_to_exitcode(status), usage.ru_utime + usage.ru_stime, usage.ru_maxrss


def limits():
    resource.setrlimit(resource.RLIMIT_CPU, (LIMIT_SECONDS, LIMIT_SECONDS))
    hard = resource.getrlimit(resource.RLIMIT_STACK)[1]
    resource.setrlimit(resource.RLIMIT_STACK, (hard, hard))


def line(name, size, answer):
    out, status, seconds, memory = answer
    last = (out.decode("utf-8", "replace").rstrip("\n").split("\n") or [""])[-1]
    print(f"| {name} | {size:,} | {last[:60]} | {status} | {seconds:.2f} s | {memory:,} KiB |", flush=True)


def put(folder, name, text):
    with open(os.path.join(folder, name), "w", encoding="utf-8") as file:
        file.write(text)


def main(program, names):
    wanted = lambda name: not names or name in names
    print("| Text | Bytes | Last line put | Status | Processor time | Peak memory |\n|---|---:|---|---:|---:|---:|")
    with tempfile.TemporaryDirectory() as folder:
        put(folder, "trace", "[[]]")
        put(folder, "relation", HEAD + "RELATE TRUE;\n")
        for name, made in PROGRAMS.items():
            if wanted(name):
                text = made()
                put(folder, "old", text)
                line(name, len(text), measured([program, "replay", "old", "old", "relation", "trace"], folder))
        for name, made in RELATIONS.items():
            if wanted(name):
                text, relation = made()
                put(folder, "old", text), put(folder, "relation", relation)
                put(folder, "trace", str([[0] * relation.count("INPUT")]))
                line(name, len(relation), measured([program, "replay", "old", "old", "relation", "trace"], folder))
        for name, made in VERIFIED.items():
            if wanted(name):
                text, relation = made()
                put(folder, "old", text), put(folder, "relation", relation)
                if os.path.exists(os.path.join(folder, "finding")):
                    os.remove(os.path.join(folder, "finding"))
                line(name, len(text), measured([program, "verify", "old", "old", "relation", "finding"], folder))
        for name, write in FINDINGS.items():
            if wanted(name):
                put(folder, "old", ROW_1), put(folder, "relation", ROW_1_RELATION)
                with open(os.path.join(folder, "finding"), "w", encoding="utf-8") as file:
                    write(file)
                line(name, os.path.getsize(os.path.join(folder, "finding")), measured([program, "check", "old", "old", "relation", "finding"], folder))
    return 0


if __name__ == "__main__":
    if len(sys.argv) < 2:
        sys.exit(__doc__)
    sys.exit(main(sys.argv[1], sys.argv[2:]))
