"""Prints of the first picture of a page each lane: its place and height, the lines of its name and its role; then the lines of its values."""

import re
import sys

page = open(sys.argv[1], encoding="utf-8").read()
picture = re.search(r"<svg.*?</svg>", page, re.S)[0]
texts = re.findall(r'<text x="([0-9.]+)" y="([0-9.]+)" class="(name|role|value)">([^<]*)</text>', picture)
roles = [(float(y), text) for _, y, kind, text in texts if kind == "role" and text != "scan"]
bottom = float(re.search(r'viewBox="0 0 [0-9]+ ([0-9]+)"', picture)[1]) - 4
tops = [y - 17 for y, _ in roles] + [bottom]
for (_, role), top, end in zip(roles, tops, tops[1:]):
    inside = [(kind, text) for _, y, kind, text in texts if top < float(y) < end and kind != "role"]
    for kind in ("name", "value"):
        print("{} at {:.0f}, {:.0f} high, {}: {}".format(role, top, end - top, kind, " / ".join(text for one, text in inside if one == kind)))
print("cut" if "\u2026" in page else "nothing is cut")
