"""Asks the program about each example of docs/BRINGING-IN.md, beside itself, under the relation that tools/start-relation prints."""

import os
import re
import subprocess
import sys
import tempfile

TOOLS = os.environ["TOOLS"]
sys.dont_write_bytecode = True
sys.path.insert(0, TOOLS)
from verifier import built

REGVER = built()


def answer(room, text):
    program, relation, trace = (os.path.join(room, name) for name in ("program.st", "relation", "trace.json"))
    with open(program, "w", encoding="utf-8") as file:
        file.write(text)
    with open(trace, "w", encoding="ascii") as file:
        file.write("[]")
    with open(relation, "wb") as file:
        subprocess.run([sys.executable, os.path.join(TOOLS, "start-relation"), program, program], stdout=file, check=False)
    ran = subprocess.run([REGVER, "replay", program, program, relation, trace], stdout=subprocess.PIPE, check=False)
    return ran.stdout.decode("ascii", "replace").strip()


with open(os.path.join(TOOLS, "..", "docs", "BRINGING-IN.md"), encoding="utf-8") as page:
    examples = re.findall(r"(?:^    .*\n)+", page.read(), re.MULTILINE)
with tempfile.TemporaryDirectory() as room:
    for example in examples:
        text = "".join(line[4:] + "\n" for line in example.splitlines())
        print("{}: {}".format(text.split("\n")[0][:40], answer(room, text)))
