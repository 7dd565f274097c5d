#!/usr/bin/env python3
"""Writes programs whose blocks stand in each other 2 to the power of n times, and rows of FUNCTIONs and blocks, into a folder.

Use: make_programs.py FOLDER"""
import sys
from pathlib import Path


def doubling(levels, calls, runs):
    """Blocks without variables but two instances of the block before. `calls`: each runs both; `runs`: the PROGRAM runs the last one."""
    yield "FUNCTION_BLOCK B0 ; END_FUNCTION_BLOCK"
    for level in range(1, levels + 1):
        body = "a(); b();" if calls else ";"
        yield f"FUNCTION_BLOCK B{level} VAR a, b : B{level - 1}; END_VAR {body} END_FUNCTION_BLOCK"
    yield f"PROGRAM M VAR_INPUT c : BOOL; END_VAR VAR_OUTPUT p : BOOL; END_VAR VAR k : B{levels}; END_VAR {'k();' if runs else ''} p := c; END_PROGRAM"


def framed(levels):
    """Blocks of which each but the first has two of the block before, and a FUNCTION that is called and has an instance of the last one."""
    yield "FUNCTION_BLOCK B0 VAR x : BOOL; END_VAR ; END_FUNCTION_BLOCK"
    for level in range(1, levels + 1):
        yield f"FUNCTION_BLOCK B{level} VAR a, b : B{level - 1}; END_VAR ; END_FUNCTION_BLOCK"
    yield f"FUNCTION F : BOOL VAR_INPUT c : BOOL; END_VAR VAR k : B{levels}; END_VAR F := c; END_FUNCTION"
    yield "PROGRAM M VAR_INPUT c : BOOL; END_VAR VAR_OUTPUT p : BOOL; END_VAR p := F(c); END_PROGRAM"


def functions(count):
    """FUNCTIONs each of which calls the one before it."""
    yield "FUNCTION F0 : INT VAR_INPUT x : INT; END_VAR F0 := x + 1; END_FUNCTION"
    for number in range(1, count):
        yield f"FUNCTION F{number} : INT VAR_INPUT x : INT; END_VAR F{number} := F{number - 1}(x) + 1; END_FUNCTION"
    yield f"PROGRAM M VAR_INPUT c : BOOL; END_VAR VAR_OUTPUT p : BOOL; n : INT; END_VAR p := c; n := F{count - 1}(n); END_PROGRAM"


def blocks(count):
    """Blocks each of which has and runs one instance of the one before it."""
    yield "FUNCTION_BLOCK B0 VAR n : INT; END_VAR n := n + 1; END_FUNCTION_BLOCK"
    for number in range(1, count):
        yield f"FUNCTION_BLOCK B{number} VAR n : INT; k : B{number - 1}; END_VAR k(); END_FUNCTION_BLOCK"
    yield f"PROGRAM M VAR_INPUT c : BOOL; END_VAR VAR_OUTPUT p : BOOL; END_VAR VAR k : B{count - 1}; END_VAR k(); p := c; END_PROGRAM"


def main():
    programs = {
        "40_levels_without_calls": doubling(40, False, False),
        "40_levels_that_are_not_run": doubling(40, True, False),
        "16_levels": doubling(16, True, True),
        "18_levels": doubling(18, True, True),
        "20_levels": doubling(20, True, True),
        "12_levels_in_a_frame": framed(12),
        "20_levels_in_a_frame": framed(20),
        "40_levels_in_a_frame": framed(40),
        "1000_functions": functions(1000),
        "5000_functions": functions(5000),
        "9000_functions": functions(9000),
        "12000_functions": functions(12000),
        "500_blocks": blocks(500),
        "1300_blocks": blocks(1300),
    }
    for name, lines in programs.items():
        Path(sys.argv[1], f"{name}.st").write_text("\n".join(lines) + "\n")


if __name__ == "__main__":
    main()
