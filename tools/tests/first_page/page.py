"""Tests what README.md says: prints what is not so, and a count of the words that are refused as it says."""

import os
import re
import subprocess
import sys
import tempfile

TOOLS = os.environ["TOOLS"]
sys.dont_write_bytecode = True
sys.path.insert(0, TOOLS)
from verifier import built

REGVER = built()
# So many lines are the top of the page, which has these commands.
TOP = 32
COMMANDS = ("./regver verify OLD NEW REL FINDING", ".ci/run", "./regver-compare old.st new.st", "./make-package")
SAID = ("scan", "row", "candidate", "kept")
VARIABLE = "PROGRAM M VAR x : {}; END_VAR END_PROGRAM"
STATEMENT = "PROGRAM M VAR x : INT; END_VAR {} END_PROGRAM"
# Each word that the page names as refused, in a text that has it where it belongs.
TEXTS = {
    "STRUCT": "TYPE T : STRUCT a : INT; END_STRUCT; END_TYPE PROGRAM M END_PROGRAM",
    "WHILE": STATEMENT.format("WHILE x < 3 DO x := x + 1; END_WHILE"),
    "REPEAT": STATEMENT.format("REPEAT x := x + 1; UNTIL x > 3 END_REPEAT"),
    "RETAIN": "PROGRAM M VAR RETAIN x : INT; END_VAR END_PROGRAM",
    "R_EDGE": "PROGRAM M VAR_INPUT a : BOOL R_EDGE; END_VAR END_PROGRAM",
    "CONFIGURATION": "CONFIGURATION C END_CONFIGURATION",
    "TASK": "TASK fast (INTERVAL := 5); PROGRAM M END_PROGRAM",
    "ARRAY": VARIABLE.format("ARRAY [1..3] OF INT"),
    "AT": "PROGRAM M VAR x AT %QX0.0 : BOOL; END_VAR END_PROGRAM",
    "an address by itself": STATEMENT.format("x := %IW0;"),
    "text in quotes": STATEMENT.format("x := 'a';"),
    "T#5s": STATEMENT.format("x := T#5s;"),
    "D#2020-01-01": STATEMENT.format("x := D#2020-01-01;"),
    "a number with a point": STATEMENT.format("x := 1.5;"),
    "SQRT": STATEMENT.format("x := SQRT(x);"),
}
SECTIONS = ("VAR_IN_OUT", "VAR_GLOBAL", "VAR_EXTERNAL")
# What the item on other rules names, each with the next rule behind it.
OTHERS = re.compile(r"ARRAY|\bAT\b|an address by itself|text in quotes|T#5s|D#2020-01-01|a number with a point|\bT(?:ON|OF|P)\b|SQRT|[A-Z][0-9](?= at|\)|:)")


def text_of(word):
    if word in SECTIONS:
        return "PROGRAM M {} x : INT; END_VAR END_PROGRAM".format(word)
    return TEXTS.get(word, VARIABLE.format(word))


def rule_of(room, text):
    path = os.path.join(room, "program.st")
    with open(path, "w", encoding="ascii") as file:
        file.write(text)
    said = subprocess.run([REGVER, "replay", path, path, path, path], stdout=subprocess.PIPE, check=False).stdout.decode("ascii")
    found = re.fullmatch(r"REFUSED OLD (\w+) at [0-9]+", said.strip())
    return found[1] if found else said.strip()


def refused(page):
    """The words that are refused, each with the rule that the page gives."""
    item = re.search(r"- Refused, by the rule X1 at the word: (.*?)\.\n", page, re.DOTALL)[1]
    for word in re.findall(r"[A-Z][A-Z_]+", item):
        yield word, "X1"
    waiting = []
    others = re.search(r"- Refused by other rules.*?broken: (.*?)\n\n", page, re.DOTALL)[1]
    for word in OTHERS.findall(" ".join(others.split())):
        if re.fullmatch(r"[A-Z][0-9]", word):
            yield from ((one, word) for one in waiting)
            waiting = []
        else:
            waiting.append(word)


def main():
    with open(os.path.join(TOOLS, "..", "README.md"), encoding="utf-8") as file:
        page = file.read()
    top = "\n".join(page.splitlines()[:TOP])
    for command in COMMANDS:
        if command not in top:
            print("not at the top of README.md: " + command)
    for word in SAID:
        first = re.search(r"\*{0,2}\b%ss?\b" % word, page)
        if not first or not first[0].startswith("**"):
            print("README.md uses a word before it says what it is: " + word)
    count = 0
    with tempfile.TemporaryDirectory() as room:
        for word, rule in refused(page):
            came, count = rule_of(room, text_of(word)), count + 1
            if came != rule:
                print("README.md says that {} is refused by {}, and what comes is {}".format(word, rule, came))
    print("words that are refused: {}".format(count))


main()
