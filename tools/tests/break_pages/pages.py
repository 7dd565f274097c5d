"""Tests that a page is whole: each element that begins ends, in order, nothing is fetched from elsewhere, and no picture is wider than a
printed page or has anything outside of it."""

import sys
from html.parser import HTMLParser

# Elements without an end.
BARE = {"meta", "br"}
# Attributes that would fetch something.
FETCHING = {"src", "href", "srcset", "data", "action", "xlink:href"}
# How wide a page of A4 is between margins of a centimeter, and how wide a character of a picture is, in pixels.
PAGE_WIDTH, LETTER = 718, 7.3


class Page(HTMLParser):
    def __init__(self):
        super().__init__(convert_charrefs=False)
        self.open, self.said, self.count, self.declared = [], [], 0, None
        self.width, self.text, self.marks = 0, None, 0

    def handle_decl(self, decl):
        self.declared = decl

    def handle_starttag(self, tag, attrs):
        self.count += 1
        self.said += ["{} fetches {}".format(tag, value) for name, value in attrs if name in FETCHING]
        self.place(tag, dict(attrs))
        if tag not in BARE:
            self.open.append(tag)

    def place(self, tag, attrs):
        """Sees where the parts of a picture stand."""
        if tag == "svg":
            self.width = float(attrs["width"])
            self.reaches(0, self.width, PAGE_WIDTH)
        elif tag == "rect":
            self.reaches(float(attrs["x"]), float(attrs["x"]) + float(attrs["width"]), self.width)
            self.marks += attrs["class"] == "last"
        elif tag == "line":
            self.reaches(float(attrs["x1"]), float(attrs["x2"]), self.width)
        elif tag == "path":
            places = [float(word.partition(",")[0]) for word in attrs["d"].split() if "," in word]
            self.reaches(min(places), max(places), self.width)
        self.text = attrs if tag == "text" else None

    def reaches(self, left, right, width):
        if left < 0 or right > width:
            self.said.append("line {}: from {:.0f} to {:.0f}, and {:.0f} is wide".format(
                self.getpos()[0], left, right, width))

    def handle_startendtag(self, tag, attrs):
        self.handle_starttag(tag, attrs)
        if tag not in BARE:
            self.open.pop()

    def handle_endtag(self, tag):
        if not self.open or self.open.pop() != tag:
            self.said.append("line {}: </{}> ends nothing".format(self.getpos()[0], tag))

    def handle_data(self, data):
        if self.text:
            length = len(data) * LETTER
            left = float(self.text["x"]) - (length / 2 if self.text["class"] in ("value", "mark", "fault-text") else 0)
            self.reaches(left, left + length, self.width)
            self.text = None
        if self.open[-1:] == ["style"] and ("url(" in data or "@import" in data):
            self.said.append("the style fetches something")
        if "<" in data:
            self.said.append("line {}: a < in a text".format(self.getpos()[0]))


for path in sys.argv[1:]:
    page = Page()
    with open(path, encoding="utf-8") as file:
        page.feed(file.read())
    page.close()
    page.said += [] if page.declared == "DOCTYPE html" else ["no DOCTYPE"]
    page.said += [] if page.marks == 1 else ["{} red columns".format(page.marks)]
    page.said += ["{} does not end".format(tag) for tag in page.open] + ([] if page.count > 20 else ["hardly a page"])
    print("{}: {}".format(path, "; ".join(page.said) or "whole"))
