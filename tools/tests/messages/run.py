"""Asks the program about each text of cases.txt, and the hints of tools/where about its answer; prints what is said otherwise, and a count."""

import os
import re
import subprocess
import sys
import tempfile

TOOLS = os.environ["TOOLS"]
sys.dont_write_bytecode = True
sys.path.insert(0, TOOLS)
from hints import sentence as hint
from verifier import built

REGVER = built()
BODY = "PROGRAM M\nVAR_INPUT a : BOOL; n : INT; END_VAR\nVAR_OUTPUT q : BOOL; m : INT; END_VAR\n{}\nEND_PROGRAM\n"
RELATION = "RELATION 1; FAULTS EQUAL; DEPTH 3; CONFLICTS 10; INPUT a = a; INPUT n = n; RELATE old.q = new.q;\n"
ROLES = {"body": "OLD", "text": "OLD", "relation": "REL", "trace": "TRACE"}


def cases():
    with open("cases.txt", encoding="utf-8") as file:
        lines = [line.rstrip("\n") for line in file if line.strip() and not line.startswith("#")]
    for asked, said in zip(lines[::2], lines[1::2]):
        kind, _, text = asked.partition(" ")
        rule, _, sentence = said[len("says "):].partition(" ")
        yield kind, text.replace("\\n", "\n"), rule, sentence


def files_of(room, kind, text):
    """Writes the four files and gives their names by role."""
    texts = {"OLD": BODY.format("q := a;"), "REL": RELATION, "TRACE": "[]"}
    texts[ROLES[kind]] = BODY.format(text) if kind == "body" else text
    texts["NEW"] = texts["OLD"]
    for role, content in texts.items():
        with open(os.path.join(room, role), "w", encoding="utf-8", newline="") as file:
            file.write(content)
    return {role: os.path.join(room, role) for role in texts}


def said_of(room, kind, text):
    """The rule that the program names, and the sentence on it."""
    names = files_of(room, kind, text)
    ran = subprocess.run([REGVER, "replay", *(names[role] for role in ("OLD", "NEW", "REL", "TRACE"))], stdout=subprocess.PIPE, check=False)
    answer = ran.stdout.decode("ascii").splitlines()[-1]
    found = re.fullmatch(r"REFUSED (\w+) (\w+) at (\d+)", answer)
    if not found or found[1] != ROLES[kind]:
        return answer, ""
    texts = {}
    for role, name in names.items():
        with open(name, "rb") as file:
            texts[role] = file.read()
    refused = texts.pop(found[1])
    return found[2], hint(found[2], refused, int(found[3]), texts if kind in ("relation", "trace") else {})


def main():
    count = others = 0
    with tempfile.TemporaryDirectory() as room:
        for kind, text, rule, sentence in cases():
            count += 1
            came = said_of(room, kind, text)
            if came != (rule, sentence):
                others += 1
                print("{} {!r}\n  wanted {} {}\n  came   {} {}".format(kind, text, rule, sentence, *came))
    print("{} messages, {} otherwise".format(count, others))


main()
