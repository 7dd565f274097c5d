"""Lists the cells of a program in the order of findings, with the values that they begin with.

The cells are FAULT, the variables of the PROGRAM as declared, with those of an instance in its place, and those of its chart
(docs/LANGUAGE.md). The blocks of the prelude are read from that page.
"""

import os
import re
from collections import namedtuple

from program_text import MOST_BYTES, Named, Program, Token, Trouble, Type, Unreadable, read_bytes, text_of, tokens_of, written

LANGUAGE = os.path.join(os.path.dirname(os.path.realpath(__file__)), "..", "docs", "LANGUAGE.md")
BOOL = Type("BOOL", None)
SECTIONS = ("VAR", "VAR_INPUT", "VAR_OUTPUT", "VAR_TEMP")
# Instances that stand deeper in one another are in a circle.
MOST_DEEP = 200
ENDS = {"PROGRAM": "END_PROGRAM", "FUNCTION_BLOCK": "END_FUNCTION_BLOCK"}
# A cell: its path, which knows how the text writes it, its type, and the number that it begins with.
Cell = namedtuple("Cell", "path type start")
# The variables of one colon: the word of the section, whether they are constants, their names, what stands behind the colon
# as it was read and as it is written, and the text of the initial value.
Declaration = namedtuple("Declaration", "section constant names kind written initial")
# A PROGRAM or a block: its name, its declarations, the text of its body, the steps (True where initial) and the stored actions.
Unit = namedtuple("Unit", "word name declarations body steps stored")


class Units(Program):
    """A program with all of its blocks."""

    def __init__(self, text, blocks=None):
        self.text, self.units = text, dict(blocks or {})
        super().__init__(text)

    def read_variables(self):
        self.read_unit("PROGRAM", self.take("word").text, sections=self.sections)

    def takes(self, upper):
        """As before, but a block that is met is read on the way."""
        if upper == "TYPE" and super().takes("FUNCTION_BLOCK"):
            self.read_unit("FUNCTION_BLOCK", self.take("word").text, sections={})
        return super().takes(upper)

    def read_unit(self, word, name, sections):
        declarations = []
        while self.tokens[self.next].upper in SECTIONS:
            section, constant = self.take("word").upper, self.takes("CONSTANT")
            while not self.takes("END_VAR"):
                declarations.append(self.read_declaration(section, constant))
                sections.get(section, []).extend(Declared(one, declarations[-1].kind) for one in declarations[-1].names)
        first = self.next
        while self.tokens[self.next].upper not in (ENDS[word], ""):
            self.next += 1
        body = self.tokens[first:self.next]
        steps, stored = chart_of(body)
        text = self.text[self.tokens[first].place:self.tokens[self.next].place]
        self.units[name.upper()] = Unit(word, name.upper(), declarations, text, steps, stored)
        if word == "PROGRAM":
            self.program = self.units[name.upper()]

    def read_declaration(self, section, constant):
        names = self.names()
        self.wants(":")
        first = self.tokens[self.next].place
        kind = self.kind()
        behind = self.next
        while self.tokens[self.next].upper not in (";", ""):
            self.next += 1
        self.initials.update((name.upper(), self.tokens[behind + 1:self.next]) for name in names if self.next > behind)
        ends = [self.tokens[place].place for place in (behind, self.next)]
        self.wants(";")
        return Declaration(section, bool(constant), names, kind, self.text[first:ends[0]].strip(), self.text[ends[0] + 2:ends[1]])

    def number_of(self, declaration):
        """The number that the variables of a declaration begin with."""
        initial = [token.upper for token in tokens_of(declaration.initial)[:-1]]
        return self.start_by(self.type_of(declaration.kind), initial)

    def cells_of(self, unit, prefix=""):
        if prefix.count(".") > MOST_DEEP:
            raise Trouble("instances of {} stand in one another without an end".format(unit.name))
        for one in unit.declarations:
            block = self.block_of(one)
            for name in one.names if not one.constant else ():
                if block:
                    yield from self.cells_of(block, prefix + name + ".")
                else:
                    yield Cell(Named(prefix + name), self.type_of(one.kind), self.number_of(one))
        for step, initial in unit.steps.items():
            yield Cell(Named("{}{}.X".format(prefix, written(step))), BOOL, int(initial))
            yield Cell(Named("{}{}.L".format(prefix, written(step))), BOOL, 0)
        for action in unit.stored:
            yield Cell(Named("{}{}.S".format(prefix, written(action))), BOOL, 0)

    def block_of(self, declaration):
        """The block that a declaration has instances of, None where it has none."""
        if not isinstance(declaration.kind, Token) or declaration.kind.upper in self.types:
            return None
        return self.units.get(declaration.kind.upper)

    def cells(self):
        return [Cell("FAULT", BOOL, 0), *self.cells_of(self.program)]


Declared = namedtuple("Declared", "name type")


def chart_of(body):
    """The steps of a chart, each with whether it is initial, and the actions that some step sets or resets."""
    steps, set_ones, actions, inside = {}, set(), [], False
    for place, token in enumerate(body[:-1]):
        following = Named(body[place + 1].text)
        if token.upper in ("STEP", "INITIAL_STEP"):
            steps[following], inside = token.upper == "INITIAL_STEP", True
        elif token.upper == "END_STEP":
            inside = False
        elif token.upper == "ACTION":
            actions.append(following)
        elif inside and token.text == "(" and following in ("S", "R"):
            set_ones.add(body[place - 1].upper)
    return steps, [action for action in actions if action in set_ones]


def prelude():
    """The blocks that each file has, from the text of docs/LANGUAGE.md."""
    try:
        with open(LANGUAGE, encoding="utf-8") as file:
            found = re.search(r"(?ms)^    FUNCTION_BLOCK R_TRIG .*?^    [^\n]*END_FUNCTION_BLOCK\n\n", file.read())
    except OSError as error:
        raise Trouble("cannot read {}: {}".format(LANGUAGE, error.strerror)) from error
    return Units(found[0] + "PROGRAM M END_PROGRAM").units if found else {}


def read_units(path):
    """The program of a file with its cells."""
    try:
        return Units(text_of(read_bytes(path, MOST_BYTES, "a program")), prelude())
    except Unreadable as error:
        raise Trouble("{}:{}; ./regver replay says which rule the text breaks".format(path, error)) from error
