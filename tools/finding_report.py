"""Reads the report on a finding, the JSON that `regver explain` prints."""

import json
import re
from collections import namedtuple

from program_text import Trouble

# A report with more bytes is refused.
MOST_BYTES = 64 * 1_048_576
# The members of the report: the cells of the pair that leads out of the relation, and the rows of the break.
Report = namedtuple("Report", "verdict pair scans kept")
MEMBERS = ["break", "kept", "scans", "verdict"]
ANSWER = re.compile(rb"(INVALID|REFUSED|USAGE|VALID|READ FAULT|WRITE FAULT|MEMORY)\b[^\n]*\n?")
# What the answers that are no report say of it.
EMPTY = "is empty; ./regver explain OLD NEW REL FINDING prints the report"
FINDING = "is a finding and no report on one; ./regver explain OLD NEW REL FINDING prints the report"


def read_text(path):
    try:
        with open(path, "rb") as file:
            text = file.read(MOST_BYTES + 1)
    except OSError as error:
        raise Trouble("cannot read {}: {}".format(path, error.strerror)) from error
    if len(text) > MOST_BYTES:
        raise Trouble("{}: a report on a break has no more than {:,} bytes".format(path, MOST_BYTES))
    return text


def are_numbers(value):
    """Whether this is an object from names to whole numbers."""
    return isinstance(value, dict) and all(type(number) is int for number in value.values())


def is_report(value):
    """Whether this has the members of a report, each of its shape."""
    if not isinstance(value, dict) or sorted(value) != MEMBERS:
        return False
    pair = value["break"]
    return (isinstance(value["verdict"], str)
            and isinstance(value["kept"], list) and all(isinstance(name, str) for name in value["kept"])
            and isinstance(value["scans"], list) and all(map(are_numbers, value["scans"]))
            and (pair is None or isinstance(pair, dict) and sorted(pair) == ["inputs", "new", "old"]
                 and all(map(are_numbers, pair.values()))))


def report_of(text, path):
    """The report that a file's bytes state."""
    if not text.strip():
        raise Trouble("{} {}".format(path, EMPTY))
    if text.startswith(b"REGVER FINDING"):
        raise Trouble("{} {}".format(path, FINDING))
    answer = ANSWER.fullmatch(text)
    if answer:
        raise Trouble("{} is no report; it says: {}".format(path, text.decode("ascii", "replace").strip()))
    try:
        value = json.loads(text.decode("utf-8"))
    except (ValueError, RecursionError) as error:
        raise Trouble("{} is no JSON: {}".format(path, error)) from error
    if not is_report(value):
        raise Trouble("{} is JSON, but no report of ./regver explain on a finding".format(path))
    return Report(value["verdict"], value["break"], value["scans"], value["kept"])


def read_break(path):
    """The report of a file, which must be on a break."""
    report = report_of(read_text(path), path)
    if report.verdict != "DIFFERENT scans {}".format(len(report.scans)) or not report.scans or report.pair is None:
        raise Trouble("{} has no break: its verdict is {}".format(path, report.verdict))
    if any(scan.keys() != report.pair["inputs"].keys() for scan in report.scans):
        raise Trouble("{}: the rows have not all the same inputs".format(path))
    return report


def ordered_inputs(report, relation, path):
    """The names of the report's inputs in the order of the INPUT lines."""
    names = [one.name for one in relation.inputs]
    if sorted(names) != sorted(report.pair["inputs"]):
        raise Trouble("the report has the inputs {}, and {} has {}: it is another relation's".format(
            listed(sorted(report.pair["inputs"])), path, listed(names)))
    return names


def listed(names):
    return ", ".join(names) if names else "none"
