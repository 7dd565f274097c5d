"""Writes the chart of a PROGRAM or a block as statements over variables for its flags (docs/LANGUAGE.md, "A run of a chart").

A script writes the statements, and nothing proves that they are the chart: they serve to show what a scan does, not to decide.
"""

from collections import namedtuple

from program_text import tokens_of, value_of

# A step's associations are pairs of an action and a qualifier; a transition has a rank, two lists of steps and a condition.
Chart = namedtuple("Chart", "steps associations transitions actions")
Transition = namedtuple("Transition", "rank sources targets condition")
PREFIX = "REGVER_"


class Parts:
    """Reads the parts of a chart."""

    def __init__(self, text):
        self.tokens, self.next = tokens_of(text), 0
        self.chart = Chart([], [], [], {})
        while self.tokens[self.next].form != "end":
            self.part(self.take().upper)

    def take(self):
        self.next += 1
        return self.tokens[self.next - 1]

    def takes(self, upper):
        taken = self.tokens[self.next].upper == upper
        self.next += taken
        return taken

    def until(self, upper):
        first = self.next
        while self.tokens[self.next].upper not in (upper, ""):
            self.next += 1
        self.next += 1
        return self.tokens[first:self.next - 1]

    def part(self, word):
        if word in ("STEP", "INITIAL_STEP"):
            self.step()
        elif word == "ACTION":
            name = self.take().upper
            self.take()
            self.chart.actions[name] = self.until("END_ACTION")
        elif word == "TRANSITION":
            self.transition()

    def step(self):
        step = self.take().upper
        self.take()
        self.chart.steps.append(step)
        while not self.takes("END_STEP"):
            words = [token.upper for token in self.until(";")] or [""]
            self.chart.associations.append((step, words[0], words[2] if len(words) > 3 else "N"))

    def transition(self):
        rank = (1, 0)
        while not self.takes("FROM"):
            if self.takes("PRIORITY"):
                self.take()
                number = self.take()
                rank = (0, value_of(number.upper, number.line))
            else:
                self.take()
        sources, targets = [[token.upper for token in self.until(end) if token.form == "word"] for end in ("TO", ":=")]
        self.chart.transitions.append(Transition(rank, sources, targets, self.until(";")))
        self.takes("END_TRANSITION")


def flag(kind, name):
    """The variable of a flag: X, L and S as in the cells, and LEFT for a step that a transition left."""
    return "{}{}_{}".format(PREFIX, kind, name)


def any_of(terms):
    return " OR ".join(terms) if terms else "FALSE"


def with_flags(tokens, steps):
    """Tokens as text, with the variable of a step's flag in place of the flag."""
    out, place = [], 0
    while place < len(tokens):
        one = tokens[place]
        is_flag = one.upper in steps and [token.upper for token in tokens[place + 1:place + 3]] == [".", "X"]
        if is_flag and (place == 0 or tokens[place - 1].text != "."):
            out.append(flag("X", one.upper))
            place += 3
        else:
            out.append(one.text)
            place += 1
    return " ".join(out).replace(" . ", ".").replace(" # ", "#")


def runs_when(chart, action):
    """When an action runs, None where it never does."""
    wanted = [(step, qualifier) for step, name, qualifier in chart.associations if name == action]
    if not wanted:
        return None
    ways = {"N": "{x}", "P": "({x} AND NOT {l})", "P1": "({x} AND NOT {l})", "P0": "({l} AND NOT {x})"}
    terms = [ways[qualifier].format(x=flag("X", step), l=flag("L", step)) for step, qualifier in wanted if qualifier in ways]
    terms += [flag("S", action)] if any(qualifier in ("S", "R") for _, qualifier in wanted) else []
    resets = [flag("X", step) for step, qualifier in wanted if qualifier == "R"]
    return "({}) AND NOT ({})".format(any_of(terms), any_of(resets))


def statements(text):
    """The statements of a chart, and the names of the BOOL variables that begin FALSE in each run."""
    chart = Parts(text).chart
    lines = []
    for action in chart.actions:
        sets, resets = [[flag("X", step) for step, name, one in chart.associations if (name, one) == (action, qualifier)]
                        for qualifier in ("S", "R")]
        if sets or resets:
            lines.append("{0} := ({1}) AND NOT ({2});".format(flag("S", action), any_of([flag("S", action)] + sets), any_of(resets)))
    for action, body in chart.actions.items():
        when = runs_when(chart, action)
        lines += ["IF {} THEN {} END_IF;".format(when, with_flags(body, chart.steps))] if when else []
    fired = []
    for number, one in enumerate(sorted(chart.transitions, key=lambda one: one.rank)):
        fired.append(("{}FIRED_{}".format(PREFIX, number), one.targets))
        lines.append("IF {} THEN IF {} THEN {} := TRUE; {} END_IF; END_IF;".format(
            " AND ".join("{} AND NOT {}".format(flag("X", step), flag("LEFT", step)) for step in one.sources),
            with_flags(one.condition, chart.steps), fired[-1][0], " ".join(flag("LEFT", step) + " := TRUE;" for step in one.sources)))
    for step in chart.steps:
        lines.append("{} := {};".format(flag("L", step), flag("X", step)))
        lines.append("{0} := {0} AND NOT {1} OR {2};".format(flag("X", step), flag("LEFT", step),
                                                             any_of([name for name, targets in fired if step in targets])))
    return "\n".join(lines) + "\n", [name for name, _ in fired] + [flag("LEFT", step) for step in chart.steps]
