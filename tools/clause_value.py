"""Tells whether a clause of a relation file holds on a pair of which some cells are known.

A clause holds where its value is TRUE and its evaluation meets no fault (docs/LANGUAGE.md). A number that is not known
is None, and what depends on one is told only where it is the same for all its values.
"""

import re
from collections import namedtuple

from program_text import VALUES, Unreadable, count_of, value_of

# A number, None where it is not known, and the name of its type or the names of its enumeration, None likewise.
Value = namedtuple("Value", "number base")
# Whether the clause holds, None where that cannot be told; whether a fault was met; the cells that it names.
Judged = namedtuple("Judged", "holds fault cells")
# The operators, loosest first; those of one level run left to right.
LEVELS = [("OR",), ("XOR",), ("AND", "&"), ("=", "<>"), ("<", ">", "<=", ">="), ("+", "-"), ("*", "/", "MOD")]
COMPARED = {"=": lambda a, b: a == b, "<>": lambda a, b: a != b, "<": lambda a, b: a < b,
            ">": lambda a, b: a > b, "<=": lambda a, b: a <= b, ">=": lambda a, b: a >= b}
COMPUTED = {"+": lambda a, b: a + b, "-": lambda a, b: a - b, "*": lambda a, b: a * b,
            "AND": lambda a, b: a & b, "&": lambda a, b: a & b, "OR": lambda a, b: a | b, "XOR": lambda a, b: a ^ b}
FOLDED = {"MIN": min, "MAX": max, "LIMIT": lambda low, value, high: min(max(low, value), high)}
CONVERSION = re.compile(r"([A-Z]+)_TO_([A-Z]+)")


def wrapped(number, base):
    """The number in its type; where the type is not known, only a number that every type of numbers has."""
    values = VALUES.get(base) if isinstance(base, str) else None
    if values is None:
        return number if number in range(128) else None
    return (number - values[0]) % count_of(values) + values[0]


def quotient(one, other):
    """The quotient cut toward 0."""
    whole = abs(one) // abs(other)
    return whole if (one < 0) == (other < 0) else -whole


class Evaluation:
    """One evaluation of a clause: reads its tokens once, from left to right."""

    def __init__(self, tokens, cell):
        # Behind the clause stand words that end it, so that one that is cut is read to its end.
        self.words = [token.upper for token in tokens] + [""] * 4
        self.forms = [token.form for token in tokens] + ["end"] * 4
        self.cell = cell
        self.next = 0
        self.fault = False
        self.unsure = False  # whether there may be a fault that is not known
        self.cells = {}  # as a set that keeps its order

    def take(self):
        self.next += 1
        return self.words[self.next - 1]

    def level(self, level=0):
        if level == len(LEVELS):
            return self.unary()
        value = self.level(level + 1)
        while self.words[self.next] in LEVELS[level]:
            value = self.binary(self.take(), value, self.level(level + 1))
        return value

    def binary(self, sign, one, other):
        numbers, base = (one.number, other.number), one.base or other.base
        if sign in COMPARED:
            return Value(None if None in numbers else int(COMPARED[sign](*numbers)), "BOOL")
        if sign in ("/", "MOD"):
            return Value(self.divided(sign, *numbers, base), base)
        if sign in ("AND", "&") and 0 in numbers:
            return Value(0, base)
        if sign == "OR" and base == "BOOL" and 1 in numbers:
            return Value(1, base)
        return Value(None if None in numbers else wrapped(COMPUTED[sign](*numbers), base), base)

    def divided(self, sign, one, other, base):
        self.fault |= other == 0
        self.unsure |= other is None
        if other == 0 or one is None or other is None:
            # By 0 the quotient is 0, so that the rest is the dividend.
            return None if other != 0 or one is None and sign == "MOD" else 0 if sign == "/" else one
        return wrapped(quotient(one, other) if sign == "/" else one - quotient(one, other) * other, base)

    def unary(self):
        if self.words[self.next] not in ("-", "NOT"):
            return self.primary()
        sign, literal = self.take(), self.forms[self.next] == "number"
        number, base = self.primary()
        if number is None or sign == "NOT" and base not in VALUES:
            return Value(None, base)
        if sign == "NOT":
            return Value(VALUES[base][-1] - number, base)
        return Value(-number if literal else wrapped(-number, base), base)

    def primary(self):
        form, word = self.forms[self.next], self.take()
        if form == "number":
            return Value(value_of(word, 0), None)
        if word == "(":
            value = self.level()
            self.take()
            return value
        if word in ("TRUE", "FALSE"):
            return Value(int(word == "TRUE"), "BOOL")
        if self.words[self.next] == "#":
            return self.typed(word)
        if self.words[self.next] == "(":
            return self.called(word)
        while self.words[self.next] == ".":
            word += self.take() + self.take()
        side, _, path = word.partition(".")
        self.cells[side, path] = None
        return self.cell(side, path)

    def typed(self, base):
        self.take()
        negative = self.words[self.next] == "-" and bool(self.take())
        word = self.take()
        number = int(word == "TRUE") if word in ("TRUE", "FALSE") else value_of(word, 0)
        return Value(-number if negative else number, base)

    def called(self, name):
        self.take()
        arguments = []
        while self.words[self.next] not in (")", ""):
            arguments.append(self.level())
            if self.words[self.next] == ",":
                self.take()
        self.take()
        return self.applied(name, arguments)

    def applied(self, name, arguments):
        numbers = [argument.number for argument in arguments]
        if name == "SEL":
            chosen = None if numbers[0] is None else numbers[1:][numbers[0]]
            return Value(chosen, arguments[1].base or arguments[2].base)
        base = next((argument.base for argument in arguments if argument.base), None)
        to = CONVERSION.fullmatch(name)
        if to:
            return self.converted(numbers[0], to.group(2))
        if None in numbers:
            return Value(None, base)
        if name in FOLDED:
            return Value(FOLDED[name](*numbers) if name == "LIMIT" else FOLDED[name](numbers), base)
        if name == "ABS":
            return Value(wrapped(abs(numbers[0]), base), base)
        return Value(shifted(name, numbers[0], numbers[1], arguments[0].base), arguments[0].base)

    @staticmethod
    def converted(number, base):
        if number is None:
            return Value(None, base)
        return Value(int(number != 0) if base == "BOOL" else wrapped(number, base), base)


def shifted(name, number, amount, base):
    """What SHL, SHR, ROL and ROR give of a bit string of a known type."""
    if base not in VALUES or amount not in range(65):
        return None
    width = (count_of(VALUES[base]) - 1).bit_length()
    if name in ("ROL", "ROR"):
        left = (amount if name == "ROL" else -amount) % width
        return wrapped(number << left | number >> width - left, base)
    return wrapped(number << amount if name == "SHL" else number >> amount, base)


def judged(tokens, cell):
    """Whether a clause holds, where cell(side, path) is the value of a cell or of a value of an enumeration."""
    evaluation = Evaluation(tokens, cell)
    try:
        number = evaluation.level().number
    except (IndexError, KeyError, TypeError, ValueError, RecursionError, Unreadable):
        evaluation.next = None
    if evaluation.next != len(tokens):
        raise Unreadable(tokens[0].line if tokens else 0, "this is no clause")
    fails = evaluation.fault or number == 0
    holds = number is not None and not evaluation.unsure
    return Judged(False if fails else True if holds else None, evaluation.fault, list(evaluation.cells))
