"""Draws lanes of numbers, one a scan, as a timing diagram in SVG: pictures one below the other, none wider than a printed page."""

import re
from collections import namedtuple
from html import escape

from program_text import written

# A row of the diagram: its name, what it is, its type or None, its numbers, and those that it is compared with or None.
Lane = namedtuple("Lane", "name role type numbers other")
# Sizes of the diagram: the width of a character, the height of a lane, of each further line of its name, of a signal in it and of the head.
LETTER, LANE, LINE, SIGNAL, HEAD = 7.3, 26, 14, 16, 44
# How wide a picture is at most, and the room on its right: a page of A4 or letter has some 700 between margins of a centimeter.
WIDEST, MARGIN = 680, 36
# A name or a value with more characters goes on in a further line.
MOST_CHARACTERS = 32
# A part of a name, behind which a line may end: up to a point, a blank or a line below; and of a long one up to a capital.
PART, WORD = re.compile(r"[^._ ]*[._ ]+|[^._ ]+"), re.compile(r"[A-Z]*[^A-Z]*")
# How the parts of the diagram look; a page takes this into its style.
STYLE = """
svg { display: block; margin-bottom: 1em; break-inside: avoid; print-color-adjust: exact; -webkit-print-color-adjust: exact; }
svg text { font: 12px monospace; fill: #222; }
svg .grid { stroke: #ddd; } svg .rule { stroke: #999; } svg .signal { stroke: #204a87; stroke-width: 2; fill: none; }
svg .value { text-anchor: middle; } svg .role { fill: #666; } svg .differ { fill: #fce94f; fill-opacity: .55; }
svg .last { fill: #ef2929; fill-opacity: .12; } svg .fault { fill: #cc0000; }
svg .fault-text { fill: #fff; text-anchor: middle; }
svg .mark { fill: #a40000; font-weight: bold; text-anchor: middle; }
"""


def shown(number, kind):
    """A value as the page prints it: of an enumeration its name."""
    if kind and isinstance(kind.base, tuple) and 0 <= number < len(kind.base):
        return written(kind.base[number])
    return str(number)


def lines_of(name):
    """A name in lines of at most so many characters, which end behind whole parts where they can."""
    lines = [""]
    parts = [word for part in PART.findall(name) for word in ([part] if len(part.rstrip()) <= MOST_CHARACTERS else WORD.findall(part))]
    for part in parts:
        for start in range(0, len(part), MOST_CHARACTERS):
            piece = part[start:start + MOST_CHARACTERS]
            if len(lines[-1] + piece.rstrip()) > MOST_CHARACTERS and lines[-1]:
                lines.append("")
            lines[-1] += piece
    return [line.rstrip() for line in lines]


def signal_of(lane):
    """How high the signal of a lane is: a value has as many lines as it needs."""
    return SIGNAL + LINE * (max(len(lines_of(shown(number, lane.type))) for number in set(lane.numbers)) - 1)


def height_of(lane):
    """How high a lane is: its name and its values have as many lines as they need."""
    return LANE + max(LINE * (len(lines_of(lane.name)) - 1), signal_of(lane) - SIGNAL)


def text_at(x, y, style, text):
    return '<text x="{:.1f}" y="{:.1f}" class="{}">{}</text>'.format(x, y, style, escape(text))


def box_at(x, y, width, height, style, title=""):
    inside = "<title>{}</title>".format(escape(title)) if title else ""
    return '<rect x="{:.1f}" y="{:.1f}" width="{:.1f}" height="{:.1f}" class="{}">{}</rect>'.format(
        x, y, width, height, style, inside)


def is_bool(lane):
    return lane.type.base == "BOOL" if lane.type else set(lane.numbers) <= {0, 1}


def bool_path(numbers, left, top, width):
    """The line of a BOOL lane, high or low."""
    points = []
    for place, number in enumerate(numbers):
        y = top if number else top + SIGNAL
        points += ["{:.1f},{:.1f}".format(left + (place + step) * width, y) for step in (0, 1)]
    return '<path class="signal" d="M {}"/>'.format(" L ".join(points))


def number_path(numbers, left, top, width, height):
    """The two lines of a lane of numbers, which meet where the number changes."""
    parts, start, middle = [], 0, top + height // 2
    for place in range(1, len(numbers) + 1):
        if place == len(numbers) or numbers[place] != numbers[start]:
            x, end = left + start * width, left + place * width
            form = "M {:.1f},{middle} L {:.1f},{top} H {:.1f} L {:.1f},{middle} L {:.1f},{low} H {:.1f} Z"
            parts.append(form.format(x, x + 4, end - 4, end, end - 4, x + 4, top=top, middle=middle, low=top + height))
            start = place
    return '<path class="signal" d="{}"/>'.format(" ".join(parts))


def lane_marks(lane, part, left, top, width):
    """What differs, what is a fault, and the values, scan by scan."""
    for place in part:
        number, x = lane.numbers[place], left + (place - part.start) * width
        if lane.other and lane.other[place] != number:
            yield box_at(x, top - 5, width, height_of(lane), "differ", "scan {}: OLD and NEW differ".format(place + 1))
        if lane.name == "FAULT" and number and lane.role in ("OLD", "NEW"):
            title = "scan {}: {} meets a fault".format(place + 1, lane.role)
            yield box_at(x + 2, top, width - 4, SIGNAL, "fault", title)
            yield text_at(x + width / 2, top + 12, "fault-text", "FAULT")
        else:
            for step, line in enumerate(lines_of(shown(number, lane.type))):
                yield text_at(x + width / 2, top + 12 + LINE * step, "value", line)


def signal_path(lane, part, left, top, width):
    numbers = [lane.numbers[place] for place in part]
    return bool_path(numbers, left, top, width) if is_bool(lane) else number_path(numbers, left, top, width, signal_of(lane))


def head_parts(part, scans, left, width, bottom):
    """The numbers of the scans and the lines between them; the last scan of all stands out."""
    right = left + len(part) * width
    if part.stop == scans:
        yield box_at(right - width, 0, width, bottom, "last", "the first scan after which the pair is not related")
        yield text_at(right - width / 2, 16, "mark", "not related")
    yield text_at(4, 36, "role", "scan")
    for place in part:
        x = left + (place - part.start) * width
        yield text_at(x + width / 2, 36, "mark" if place + 1 == scans else "value", str(place + 1))
    for step in range(len(part) + 1):
        yield '<line x1="{0:.1f}" x2="{0:.1f}" y1="{1}" y2="{2}" class="grid"/>'.format(left + step * width, HEAD, bottom)


def picture(lanes, part, scans, left, width):
    """A part of the scans as one picture."""
    right, bottom = left + len(part) * width, HEAD + sum(map(height_of, lanes))
    parts, below = [*head_parts(part, scans, left, width, bottom)], HEAD
    for number, lane in enumerate(lanes):
        top, role, below = below + 5, lane.role, below + height_of(lane)
        if number == 0 or lane.name != lanes[number - 1].name:
            parts.append('<line x1="0" x2="{0:.1f}" y1="{1}" y2="{1}" class="rule"/>'.format(right, top - 5))
        parts += [*(text_at(4, top + 12 + LINE * place, "name", line) for place, line in enumerate(lines_of(lane.name))),
                  text_at(left - 12 - LETTER * len(role), top + 12, "role", role),
                  *lane_marks(lane, part, left, top, width),
                  signal_path(lane, part, left, top, width)]
    size = 'width="{0:.0f}" height="{1:.0f}" viewBox="0 0 {0:.0f} {1:.0f}"'.format(right + MARGIN, bottom + 4)
    label = "timing diagram, scans {} to {}".format(part.start + 1, part.stop)
    return '<svg xmlns="http://www.w3.org/2000/svg" {} role="img" aria-label="{}">\n{}\n</svg>'.format(
        size, label, "\n".join(parts))


def diagram(lanes, scans):
    """The timing diagram as SVG: a picture for as many scans as a printed page has room for, and the next below it."""
    left = 24 + LETTER * (max(len(line) for lane in lanes for line in lines_of(lane.name)) + max(len(lane.role) for lane in lanes))
    widest = max(len(line) for lane in lanes for number in set(lane.numbers) for line in lines_of(shown(number, lane.type)))
    width = max(56, widest * LETTER + 20)
    count = max(1, int((WIDEST - MARGIN - left) // width))
    return "\n".join(picture(lanes, range(start, min(start + count, scans)), scans, left, width)
                     for start in range(0, scans, count))
