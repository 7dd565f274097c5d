"""Reads the rows of a trace, and says in words what is wrong with one."""

import json
import re

# What is said of a trace in which no fault is found.
AS_WANTED = "Each row has as many whole numbers as there are INPUT lines: is this the trace that was refused?"


def rows_of(text):
    """The rows of a trace that is accepted."""
    return json.loads(text.decode("utf-8-sig"))


def fault_of(text, count):
    """The first fault of a trace, in words. A number stands as its text, so that 1.0 and -0 are seen. The count of INPUT lines may be None, where
    it is not known."""
    try:
        rows = json.loads(text.decode("utf-8-sig"), parse_int=lambda word: ("number", word), parse_float=lambda word: ("number", word))
    except UnicodeDecodeError:
        return "The trace is no text in UTF-8."
    except (ValueError, RecursionError) as error:
        place = "; it breaks off in line {}, column {}".format(error.lineno, error.colno) if hasattr(error, "colno") else ""
        return "The trace is no JSON" + place + "."
    if not isinstance(rows, list):
        return "The trace is JSON, but no list."
    for number, row in enumerate(rows, 1):
        if not isinstance(row, list):
            return "Row {} is no list: write [..] around its numbers.".format(number)
        for place, one in enumerate(row, 1):
            whole = isinstance(one, tuple) and re.fullmatch(r"0|-?[1-9][0-9]*", one[1]) and -2 ** 63 <= int(one[1]) < 2 ** 64
            if not whole:
                shown = one[1] if isinstance(one, tuple) else {list: "a list", dict: "an object"}.get(type(one)) or json.dumps(one)
                hint = "; write 1 for TRUE and 0 for FALSE" if isinstance(one, bool) else ""
                return "Number {} of row {} is no whole number of 64 bits: {}{}.".format(place, number, shown, hint)
        if count is not None and len(row) != count:
            return "Row {} has {} number{}, and the relation has {} INPUT line{}.".format(
                number, len(row), "s" * (len(row) != 1), count, "s" * (count != 1))
    return AS_WANTED
