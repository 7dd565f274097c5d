"""Reads what a program text declares: its types, and the inputs and outputs of its PROGRAM.

Only the declarations are read, and what they say is believed: `regver replay` says whether a program is accepted. It judges its files in
their order, so where there is no relation yet the program may stand for all four.
"""

import re
import shlex
from collections import namedtuple

# A file with more bytes is refused.
MOST_BYTES = 1_048_576
# The elementary types: the name of each, the number of its bits, whether some values are below 0, and what it is.
Elementary = namedtuple("Elementary", "name bits signed sort")
ELEMENTARY = (
    Elementary("BOOL", 1, False, "BOOL"),
    Elementary("SINT", 8, True, "integer"),
    Elementary("INT", 16, True, "integer"),
    Elementary("DINT", 32, True, "integer"),
    Elementary("LINT", 64, True, "integer"),
    Elementary("USINT", 8, False, "integer"),
    Elementary("UINT", 16, False, "integer"),
    Elementary("UDINT", 32, False, "integer"),
    Elementary("ULINT", 64, False, "integer"),
    Elementary("BYTE", 8, False, "bit string"),
    Elementary("WORD", 16, False, "bit string"),
    Elementary("DWORD", 32, False, "bit string"),
    Elementary("LWORD", 64, False, "bit string"),
)
# The values of each. The range of a type of 64 bits has more numbers than len tells of: ask count_of.
VALUES = {one.name: range(-2 ** (one.bits - 1), 2 ** (one.bits - 1)) if one.signed else range(2 ** one.bits)
          for one in ELEMENTARY}
TOKEN = re.compile(
    r"""(?P<gap> [\t\n\f\r ]+ | \(\*.*?\*\) | //[^\n]* )
      | (?P<word> [A-Za-z_][A-Za-z0-9_]* )
      | (?P<number> [0-9][A-Za-z0-9_#]* )
      | (?P<sign> := | => | <> | <= | >= | \.\. | [(),;:.+*/&=<>#-] )""",
    re.VERBOSE | re.DOTALL)

# A token's form, its text in upper case, its text as it stands, the number of its line, and where it begins.
Token = namedtuple("Token", "form upper text line place")
# What a variable is declared as. The base is the name of an elementary type or the tuple of an enumeration's values.
Type = namedtuple("Type", "base bounds")
Variable = namedtuple("Variable", "name type")


def count_of(numbers):
    """How many numbers a range of step 1 has, which may be more than len tells of."""
    return numbers.stop - numbers.start


class Named(str):
    """A name in upper case, by which names are compared, that knows how the text writes it."""

    def __new__(cls, text):
        name = super().__new__(cls, text.upper())
        name.written = text
        return name


def written(name):
    """A name as the text writes it, where that is known."""
    return getattr(name, "written", name)


class Unreadable(Exception):
    """The text is not as the language wants it, at this line."""

    def __init__(self, line, message):
        super().__init__("{}: {}".format(line, message))


class Trouble(Exception):
    """What keeps a script from its work, as it tells it."""


def tokens_of(text):
    """The tokens of a text, and one of the form `end` behind them."""
    place, line, tokens = 0, 1, []
    while place < len(text):
        found = TOKEN.match(text, place)
        if not found:
            raise Unreadable(line, "no token begins with " + ascii(text[place]))
        if found.lastgroup != "gap":
            tokens.append(Token(found.lastgroup, found.group().upper(), found.group(), line, place))
        line += found.group().count("\n")
        place = found.end()
    return tokens + [Token("end", "", "the end of the file", line, place)]


def value_of(number, line):
    base, _, digits = number.rpartition("#")
    try:
        return int(digits.replace("_", ""), int(base or 10))
    except ValueError:
        raise Unreadable(line, "this is no number: " + number)


class Program:
    """What a file declares: its types, and the inputs and outputs of its PROGRAM in the order of the text."""

    def __init__(self, text):
        self.tokens = tokens_of(text)
        self.next = 0
        self.types = {}
        self.sections = {"VAR_INPUT": [], "VAR_OUTPUT": []}
        self.initials = {}  # by the name of a variable: the tokens of its initial value
        programs = 0
        while self.tokens[self.next].form != "end":
            if self.takes("TYPE"):
                self.read_types()
            elif self.takes("PROGRAM"):
                programs += 1
                self.read_variables()
            else:
                self.next += 1
        if programs != 1:
            raise Unreadable(self.tokens[-1].line, "there are {} PROGRAMs, not one".format(programs))
        self.inputs = self.resolved("VAR_INPUT")
        self.outputs = self.resolved("VAR_OUTPUT")

    def takes(self, upper):
        """Goes behind the next token where it is this one."""
        taken = self.tokens[self.next].upper == upper
        self.next += taken
        return taken

    def wants(self, upper):
        token = self.tokens[self.next]
        if not self.takes(upper):
            raise Unreadable(token.line, "{} is wanted before {}".format(upper, token.text))

    def take(self, form):
        token = self.tokens[self.next]
        if token.form != form:
            raise Unreadable(token.line, "a {} is wanted before {}".format(form, token.text))
        self.next += 1
        return token

    def names(self):
        names = [self.take("word").text]
        while self.takes(","):
            names.append(self.take("word").text)
        return names

    def bound(self):
        """A bound of a subrange: a number with or without a sign, or one with its type before it."""
        negative = self.takes("-")
        if self.tokens[self.next].form == "word":
            word = self.take("word")
            if not self.takes("#"):
                raise Unreadable(word.line, "a bound of a subrange is a number, and this is a name: " + word.text)
            negative ^= self.takes("-")
        token = self.take("number")
        value = value_of(token.upper, token.line)
        return -value if negative else value

    def kind(self):
        """What stands behind the colon of a declaration: a type, or the token of a type's name."""
        token = self.take("word")
        if token.upper not in VALUES:
            return token
        if not self.takes("("):
            return Type(token.upper, None)
        low = self.bound()
        self.wants("..")
        high = self.bound()
        self.wants(")")
        return Type(token.upper, (low, high))

    def read_types(self):
        while not self.takes("END_TYPE"):
            name = self.take("word").upper
            self.wants(":")
            if self.takes("("):
                self.types[name] = Type(tuple(map(Named, self.names())), None)
                self.wants(")")
            else:
                self.types[name] = self.kind()
            self.wants(";")

    def read_variables(self):
        self.take("word")
        while self.tokens[self.next].upper in ("VAR", "VAR_INPUT", "VAR_OUTPUT", "VAR_TEMP"):
            section = self.sections.get(self.take("word").upper, [])
            self.takes("CONSTANT")
            while not self.takes("END_VAR"):
                names = self.names()
                self.wants(":")
                kind = self.kind()
                section.extend(Variable(name, kind) for name in names)
                first = self.next
                while self.tokens[self.next].upper not in (";", ""):  # an initial value
                    self.next += 1
                self.initials.update((name.upper(), self.tokens[first + 1:self.next]) for name in names if self.next > first)
                self.wants(";")

    def resolved(self, section):
        return [Variable(name, self.type_of(kind)) for name, kind in self.sections[section]]

    def start_of(self, variable):
        """The number that a variable has at the start."""
        words = [token.upper for token in self.initials.get(variable.name.upper(), [])]
        return self.start_by(variable.type, words)

    @staticmethod
    def start_by(kind, words):
        """The number that a variable of this type begins with: its initial value where that is written as a number or a value of
        an enumeration, else its lower bound, or 0 where it has none."""
        base, bounds = kind.base, kind.bounds
        if not words:
            return bounds[0] if bounds else 0
        if isinstance(base, tuple):
            return base.index(words[-1]) if words[-1] in base else 0
        if words[-1:] in (["TRUE"], ["FALSE"]):
            return int(words[-1] == "TRUE")
        try:
            number = value_of(words[-1], 0)
        except Unreadable:
            number = 0
        return -number if "-" in words[:-1] else number

    def type_of(self, kind):
        """The type that a name stands for, at the end of its way of other names."""
        seen = set()
        while isinstance(kind, Token):
            if kind.upper in seen or kind.upper not in self.types:
                raise Unreadable(kind.line, "this is no type of the file: " + kind.text)
            seen.add(kind.upper)
            kind = self.types[kind.upper]
        self.types.update(dict.fromkeys(seen, kind))
        return kind


def read_bytes(path, most, what):
    try:
        with open(path, "rb") as file:
            text = file.read(most + 1)
    except OSError as error:
        raise Trouble("cannot read {}: {}".format(path, error.strerror)) from error
    if len(text) > most:
        raise Trouble("{}: {} has at most {:,} bytes".format(path, what, most))
    return text


def text_of(text):
    """The characters of a file's bytes; all bytes beyond ASCII stand in comments."""
    mark = b"\xef\xbb\xbf"
    return text[len(mark) if text.startswith(mark) else 0:].decode("latin-1")


def program_of(text):
    """The program that a file's bytes state."""
    return Program(text_of(text))


def read_program(path):
    text = read_bytes(path, MOST_BYTES, "a program")
    try:
        return program_of(text)
    except Unreadable as error:
        words = " ".join([shlex.quote(path)] * 4)
        raise Trouble("{}:{}; ./regver replay {} says which rule the text breaks".format(path, error, words)) from error
