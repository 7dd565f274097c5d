"""Reads what a relation file lists: its INPUT lines, its clauses, and whether FAULT has to agree.

The lines are believed to keep the rules: `regver replay` says whether a relation file is accepted.
"""

from collections import namedtuple

from program_text import MOST_BYTES, Trouble, Unreadable, read_bytes, text_of, tokens_of

# The name that reports give to the input, and the names that it has in OLD and in NEW, None where it has none.
Input = namedtuple("Input", "name old new")
# A clause as it stands in the text, without comments, and its tokens.
Clause = namedtuple("Clause", "text tokens")
# The clauses of the RELATE lines, of the ENV lines and of the INVARIANT lines, each in the order of the text, and the numbers of DEPTH and
# CONFLICTS, None where there is no such line.
Relation = namedtuple("Relation", "inputs clauses faults_equal environments invariants depth conflicts")


def lines_of(tokens):
    """The lines of the file: lists of tokens, each without the semicolon that ends it."""
    line = []
    for token in tokens[:-1]:
        if token.upper == ";":
            yield line
            line = []
        else:
            line.append(token)
    if line:
        raise Unreadable(line[0].line, "no ; ends the line that begins with " + line[0].text)


def printed(tokens):
    """The tokens as they stand in the text, with one space in place of each gap."""
    text, end = "", tokens[0].place if tokens else 0
    for token in tokens:
        text += (" " if token.place > end else "") + token.text
        end = token.place + len(token.text)
    return text


def input_of(line):
    """The input that the words behind INPUT name."""
    words = [token.upper for token in line]
    if len(words) == 3 and words[1] == "=":
        return Input("{}={}".format(words[0], words[2]), words[0], words[2])
    if len(words) == 2 and words[0] in ("OLD", "NEW"):
        return Input(" ".join(words), *((words[1], None) if words[0] == "OLD" else (None, words[1])))
    raise Unreadable(line[0].line if line else 0, "this is no INPUT line: INPUT " + printed(line))


def number_of(lines, wanted):
    """The number of a line that begins with this word, None where there is none."""
    return next((int(line[0].text) for word, line in lines if word == wanted and len(line) == 1 and line[0].text.isdigit()), None)


def relation_of(text):
    """The relation that a file's bytes state."""
    lines = [line for line in lines_of(tokens_of(text_of(text))) if line]
    if not lines or lines[0][0].upper != "RELATION":
        raise Unreadable(lines[0][0].line if lines else 1, "a relation file begins with RELATION 1;")
    behind = [(line[0].upper, line[1:]) for line in lines]
    clauses = {word: [] for word in ("RELATE", "ENV", "INVARIANT")}
    for word, line in behind:
        if word in clauses:
            clauses[word].append(Clause(printed(line), line))
    return Relation([input_of(line) for word, line in behind if word == "INPUT"], clauses["RELATE"],
                    any(word == "FAULTS" and line and line[0].upper == "EQUAL" for word, line in behind),
                    clauses["ENV"], clauses["INVARIANT"], number_of(behind, "DEPTH"), number_of(behind, "CONFLICTS"))


def read_relation(path):
    text = read_bytes(path, MOST_BYTES, "a relation file")
    try:
        return relation_of(text)
    except Unreadable as error:
        raise Trouble("{}:{}; ./regver replay says which rule the text breaks".format(path, error)) from error
