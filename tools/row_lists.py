"""Looks for a list of allowed rows behind which no row is allowed, by trying.

Such a list can be where ENV lines read what the programs set. RELATED says nothing of what comes behind it, since nothing may.
Rows are drawn at random, each scan is run by pair_scan, and the seed is always the same.
"""

import itertools
import random
from collections import namedtuple

from clause_value import judged
from pair_scan import after_each, loaded, reader
from program_text import VALUES, Unreadable, count_of, value_of

# So many lists are tried, each of so many rows, and behind each so many rows.
LISTS, ROWS, TRIES = 6, 12, 4096
# Of an input with more numbers than this some are tried.
MOST_NUMBERS = 256
# The rows of a list that stops, how many rows were tried behind it, and whether these are all that matter.
Stop = namedtuple("Stop", "rows tries all")


def numbers_of(kind):
    if isinstance(kind.base, tuple):
        return range(len(kind.base))
    return range(kind.bounds[0], kind.bounds[1] + 1) if kind.bounds else VALUES[kind.base]


def constants(relation):
    """The numbers that stand in ENV lines."""
    for clause in relation.environments:
        for token in clause.tokens:
            if token.form == "number":
                try:
                    yield value_of(token.upper, token.line)
                except Unreadable:
                    continue


def telling(numbers, relation, states):
    """Numbers of a large range that may matter: its ends, those of ENV lines and of cells, and those beside them."""
    found = {0, 1, numbers[0], numbers[-1], *constants(relation), *(-number for number in constants(relation))}
    found |= {number for state in states for number in state.values()}
    return [number for number in sorted({number + step for number in found for step in (-1, 0, 1)}) if number in numbers]


class Search:
    """One search: the programs, the relation, and which inputs ENV lines read."""

    def __init__(self, units, relation, read):
        self.units, self.relation, self.read, self.chance = units, relation, read, random.Random(1)
        types = [{one.name.upper(): one.type for one in program.inputs} for program in units]
        self.numbers = [numbers_of(types[0][one.old] if one.old else types[1][one.new]) for one in relation.inputs]

    def rows(self, states):
        """The rows that are tried on a pair, and whether they are all that matter."""
        lists, whole = [], True
        for one, numbers in zip(self.relation.inputs, self.numbers):
            if ("OLD", one.old) not in self.read and ("NEW", one.new) not in self.read:
                lists.append([numbers[self.chance.randrange(count_of(numbers))]])
            elif count_of(numbers) <= MOST_NUMBERS:
                lists.append(list(numbers))
            else:
                lists.append(telling(numbers, self.relation, states))
                whole = False
            self.chance.shuffle(lists[-1])
        tried = list(itertools.islice(itertools.product(*lists), TRIES + 1))
        self.chance.shuffle(tried)
        return tried[:TRIES], whole and len(tried) <= TRIES

    def allowed(self, states, row):
        cell = reader(self.units, loaded(self.relation, states, row))
        return all(judged(clause.tokens, cell).holds for clause in self.relation.environments)

    def stop(self):
        """Where one list of rows stops, None where it goes on. The list is drawn first, and mended where a row is not allowed."""
        start = [{cell.path: cell.start for cell in one.cells()} for one in self.units]
        rows = [list(row) for row in self.chance.choices(self.rows(start)[0], k=ROWS)]
        place = 0
        while place < len(rows):
            pairs = [start, *after_each(self.units, self.relation, start, rows)]
            if len(pairs) <= len(rows):
                return None
            place = next((number for number in range(place, ROWS) if not self.allowed(pairs[number], rows[number])), ROWS)
            tried, whole = self.rows(pairs[place])
            row = next((one for one in tried if self.allowed(pairs[place], one)), None)
            if row is None:
                return Stop(rows[:place], len(tried), whole) if place else None
            if place < ROWS:
                rows[place] = list(row)
        return None


    def ends(self, rows):
        """Where these rows stop, None where one is not allowed or another row may follow."""
        start = [{cell.path: cell.start for cell in one.cells()} for one in self.units]
        pairs = [start, *after_each(self.units, self.relation, start, rows)]
        if len(pairs) <= len(rows) or not all(map(self.allowed, pairs, rows)):
            return None
        tried, whole = self.rows(pairs[-1])
        return None if any(self.allowed(pairs[-1], row) for row in tried) else Stop(rows, len(tried), whole)

    def shorter(self, stop):
        """The list without the rows that it does not need."""
        place = len(stop.rows)
        while place > 0 and len(stop.rows) > 1:
            place -= 1
            stop = self.ends(stop.rows[:place] + stop.rows[place + 1:]) or stop
            place = min(place, len(stop.rows))
        return stop


def stops(units, relation, read):
    """A list that stops, the shortest of those that were tried without the rows that it does not need; None where none is found."""
    search = Search(units, relation, read)
    found = [stop for stop in (search.stop() for _ in range(LISTS)) if stop]
    return search.shorter(min(found, key=lambda stop: len(stop.rows))) if found else None
