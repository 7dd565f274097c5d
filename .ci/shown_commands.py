"""Reads the commands that a file shows, and what stands below them; .ci/transcript says how they are written."""

import re
import sys
from collections import namedtuple

# The number of the line that a command stands in, its text, what it prints, and its status.
Command = namedtuple("Command", "line text printed status")


def blocks_of(path):
    """The lines of each block of a file, each with its number."""
    with open(path, encoding="utf-8") as file:
        numbered = list(enumerate(file.read().splitlines(), 1))
    if not path.endswith(".md"):
        return [numbered]
    blocks, inside = [], False
    for number, line in numbered:
        if line == "```console":
            blocks.append([])
            inside = True
        elif line == "```":
            inside = False
        elif inside:
            blocks[-1].append((number, line))
    return blocks


def command_of(lines):
    """The command that these lines show, of which the first begins with `$ `."""
    number, first = lines.pop(0)
    text, status = [first[2:]], 0
    while lines and lines[0][1].startswith("> "):
        text.append(lines.pop(0)[1][2:])
    told = re.fullmatch(r"\[status ([0-9]+)\]", lines[-1][1]) if lines else None
    if told:
        lines.pop()
        status = int(told[1])
    return Command(number, "\n".join(text), "".join(line + "\n" for _, line in lines), status)


def commands_of(path):
    parts = []
    for block in blocks_of(path):
        while block and not block[-1][1]:  # blank lines at the end of a block
            block.pop()
        if block and not block[0][1].startswith("$ "):
            sys.exit("{}:{}: a block begins with a command".format(path, block[0][0]))
        for place in block:
            if place[1].startswith("$ "):
                parts.append([])
            parts[-1].append(place)
    return [command_of(part) for part in parts]
