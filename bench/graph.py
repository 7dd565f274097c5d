#!/usr/bin/env python3
"""Prints the graph of the crates of a tree: its levels, its longest chain by lines, its largest crates, and those above the
bounds of docs/DECISIONS.md. Needs python3 alone.

  bench/graph.py [FOLDER]   the tree in a folder that has crates.txt and crates/; without one, this tree

A crate stands one level above the highest crate that it uses. Lines are those of its files *.rt and *.antt in src, specs and
proofs, source those of *.rt alone."""
import re
import sys
from pathlib import Path

FUNCTIONS, SOURCE, LINES = 100, 1500, 4000
FUNCTION = re.compile(r"^\s*(?:pub(?:\([a-z]+\))? )?(?:const )?(?:unsafe )?fn \w", re.MULTILINE)


def read_uses(top):
    """For each crate of crates.txt the crates that it uses, in the order of the file."""
    listed = {}
    for line in (top / "crates.txt").read_text().splitlines():
        if line.strip() and not line.startswith("#"):
            name, used = line.split(":")
            listed[name] = used.split()
    return {name: [used for used in uses if used in listed] for name, uses in listed.items()}


def count(folder):
    """Lines of a crate, those of its source, and its functions."""
    parts = [folder / part for part in ("src", "specs", "proofs")]
    source = [path.read_text() for part in parts for path in sorted(part.rglob("*.rt"))]
    others = [path.read_text() for part in parts for path in sorted(part.rglob("*.antt"))]
    rows = sum(text.count("\n") for text in source)
    return rows + sum(text.count("\n") for text in others), rows, sum(len(FUNCTION.findall(text)) for text in source)


def main():
    top = Path(sys.argv[1]) if len(sys.argv) > 1 else Path(__file__).resolve().parent.parent
    uses = read_uses(top)
    counts = {name: count(top / "crates" / name) for name in uses}
    levels, chains = {}, {}

    def visit(name):
        if name not in levels:
            for used in uses[name]:
                visit(used)
            levels[name] = 1 + max((levels[used] for used in uses[name]), default=0)
            below = max((chains[used] for used in uses[name]), default=(0, []))
            chains[name] = (below[0] + counts[name][0], below[1] + [name])

    for name in uses:
        visit(name)
    print(f"{len(uses)} crates, {sum(lines for lines, _, _ in counts.values()):,} lines")
    for level in range(1, max(levels.values()) + 1):
        print(f"level {level}: {' '.join(name for name in uses if levels[name] == level)}")
    lines, chain = max(chains.values())
    print(f"longest chain, {lines:,} lines in {len(chain)} crates: {', '.join(f'{name} {counts[name][0]:,}' for name in chain)}")
    for name in sorted(uses, key=lambda name: -counts[name][0])[:10]:
        print(f"{name}: {counts[name][0]:,} lines, {counts[name][1]:,} of source, {counts[name][2]} functions")
    for name in uses:
        lines, source, functions = counts[name]
        if lines > LINES or source > SOURCE or functions > FUNCTIONS:
            print(f"above a bound: {name}: {lines:,} lines, {source:,} of source, {functions} functions")


main()
