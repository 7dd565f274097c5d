"""Writes what .TcPOU and .TcDUT files of TwinCAT 3 declare as Structured Text. Tags have no namespaces here."""

import re

GAP = re.compile(r"(?:\s|\(\*.*?\*\)|//[^\n]*|\{[^{}]*\})*", re.DOTALL)
WORDS = ("PROGRAM", "FUNCTION_BLOCK", "FUNCTION")
# An enumeration: its name, its values, the type of its numbers, and its initial value.
ENUMERATION = re.compile(r"(\w+)\s*:\s*\(([^()]*)\)\s*(\w+)?\s*(:=\s*[\w#.]+)?\s*;", re.DOTALL)
PARTS = {"Action": "action", "Method": "method", "Property": "property", "Transition": "transition"}
COMMENT = re.compile(r"\(\*.*?\*\)|//[^\n]*|\{[^{}]*\}", re.DOTALL)


def first_word(text):
    """The word that a declaration begins with, behind comments and pragmas."""
    found = re.match(r"\w+", text[GAP.match(text).end():])
    return found[0].upper() if found else ""


def child_text(element, path):
    found = element.find(path)
    return (found.text or "") if found is not None else ""


def with_end(text, word):
    """The text with its END word, where it has none."""
    end = "END_" + word
    bare = COMMENT.sub(" ", text)
    return text.rstrip() + ("\n" if re.search(r"\b{}\b".format(end), bare, re.IGNORECASE) else "\n" + end + "\n")


def body_of(element, name, notes):
    part = element.find("Implementation")
    kinds = [one.tag for one in part] if part is not None else []
    if "ST" in kinds:
        return child_text(element, "Implementation/ST")
    notes.append("the body of {}, which is {} and no Structured Text".format(name, kinds[0] if kinds else "empty"))
    return ""


def pou_text(element, notes):
    """A POU as text."""
    name, declared = element.get("Name", ""), child_text(element, "Declaration")
    word = first_word(declared)
    for tag, said in PARTS.items():
        for one in element.findall(tag):
            notes.append("the {} {} of {}".format(said, one.get("Name"), name))
    if word not in WORDS:
        notes.append("{}, which is no PROGRAM, FUNCTION_BLOCK or FUNCTION".format(name))
        return None
    return with_end(declared.rstrip() + "\n" + body_of(element, name, notes).rstrip(), word)


def plain_enumeration(found, notes):
    """An enumeration without numbers, without a type for them and without an initial value."""
    name, values, base, initial = found.groups()
    parts = [part.strip() for part in COMMENT.sub(" ", values).split(",") if part.strip()]
    numbers = [part.partition(":=")[2].strip() for part in parts]
    if any(number not in ("", str(place)) for place, number in enumerate(numbers)):
        notes.append("the numbers of the values of {}, which begin at 0 here".format(name))
    if base:
        notes.append("the type {} of the numbers of {}".format(base, name))
    if initial:
        notes.append("the initial value of the type " + name)
    return "{} : ({});".format(name, ", ".join(part.partition(":=")[0].strip() for part in parts))


def type_text(element, notes):
    """A type as text, None where it is left out."""
    text, name = child_text(element, "Declaration"), element.get("Name", "")
    bare = COMMENT.sub(" ", text)
    left_out = re.search(r":\s*(?:EXTENDS\s+\w+\s*)?(STRUCT|UNION)\b|\bEXTENDS\b", bare, re.IGNORECASE)
    if left_out or first_word(text) != "TYPE":
        notes.append("the type {}, which is: {}".format(name, (left_out[1] or "EXTENDS").lower() if left_out else "no TYPE"))
        return None
    pragmas = re.findall(r"\{[^{}]*\}", text)
    if pragmas:
        notes.append("of the type {} the pragmas {}".format(name, ", ".join(pragmas)))
    plain = ENUMERATION.sub(lambda one: plain_enumeration(one, notes), bare.strip())
    return with_end(text if plain == bare.strip() and not pragmas else plain, "TYPE")


def declared_of(root, notes):
    """The types and the POUs of a file, as texts."""
    for tag, said in (("GVL", "the global variables of"), ("Itf", "the interface")):
        for one in root.findall(tag):
            notes.append("{} {}".format(said, one.get("Name")))
    types = [type_text(one, notes) for one in root.findall("DUT")]
    pous = [pou_text(one, notes) for one in root.findall("POU")]
    return [one for one in types if one], [one for one in pous if one]
