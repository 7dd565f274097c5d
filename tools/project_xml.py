"""Writes the types and POUs of PLCopen XML (TC6, version 2) as Structured Text. Tags have no namespaces here."""

import re

SECTIONS = {"inputVars": "VAR_INPUT", "outputVars": "VAR_OUTPUT", "localVars": "VAR", "tempVars": "VAR_TEMP"}
OTHER_SECTIONS = {"inOutVars": "VAR_IN_OUT", "externalVars": "VAR_EXTERNAL", "globalVars": "VAR_GLOBAL", "accessVars": "VAR_ACCESS"}
WORDS = {"program": "PROGRAM", "functionBlock": "FUNCTION_BLOCK", "function": "FUNCTION"}
# Elements of XHTML that begin and end a line.
BLOCKS = {"p", "div", "li", "pre"}
# Types that have a name and no parts, beside those of program_text: what is refused of them is named with its rule by regver.
ELEMENTARY = re.compile(r"[A-Z][A-Z0-9_]*")


def text_in(element):
    """The text of a body, each block of XHTML and each br on a line of its own."""
    text = element.text or ""
    for child in element:
        inner = text_in(child)
        line = "\n" if child.tag in BLOCKS and not text.endswith("\n") else ""
        text += line + inner + ("\n" if child.tag == "br" or child.tag in BLOCKS and not inner.endswith("\n") else "")
        text += child.tail or ""
    return text


def kind_of(element):
    """A type as it is written, or None with the word for what it is where it is left out."""
    inner = next(iter(element), None) if element is not None else None
    if inner is None:
        return None, "type without a name"
    if inner.tag == "derived":
        return inner.get("name"), None
    if inner.tag in ("subrangeSigned", "subrangeUnsigned"):
        base, why = kind_of(inner.find("baseType"))
        bounds = inner.find("range")
        return ("{} ({}..{})".format(base, bounds.get("lower"), bounds.get("upper")), None) if base and bounds is not None else (None, why)
    if inner.tag == "enum":
        return "({})".format(", ".join(value.get("name") for value in inner.findall("./values/value"))), None
    if inner.tag in ("string", "wstring"):
        return inner.tag.upper(), None
    return (inner.tag, None) if ELEMENTARY.fullmatch(inner.tag) else (None, inner.tag)


def initial_of(element, who, notes):
    """An initial value as it is written."""
    value = element.find("initialValue")
    if value is None:
        return ""
    simple = value.find("simpleValue")
    if simple is None:
        notes.append("the initial value of " + who + ", which is no single value")
        return ""
    return " := " + simple.get("value", "").strip()


def remark(element):
    """The documentation of a variable as a comment behind it."""
    found = element.find("documentation")
    words = " ".join(text_in(found).split()) if found is not None else ""
    return "  // " + words if words else ""


def declaration(element, pou, notes):
    """The line that declares a variable, None where it is left out."""
    who = "{}.{}".format(pou, element.get("name"))
    kind, why = kind_of(element.find("type"))
    if kind is None:
        notes.append("the variable {}, whose type is: {}".format(who, why))
        return None
    if element.get("address"):
        notes.append("the address {} of {}".format(element.get("address"), who))
    return "    {} : {}{};{}".format(element.get("name"), kind, initial_of(element, who, notes), remark(element))


def sections_of(interface, pou, notes):
    """The VAR sections of a POU."""
    for part in interface if interface is not None else ():
        names = ", ".join(one.get("name") for one in part.findall("variable"))
        if part.tag in OTHER_SECTIONS:
            notes.append("the variables of {} in {}: {}".format(pou, OTHER_SECTIONS[part.tag], names))
        if part.tag not in SECTIONS:
            continue
        for word in ("retain", "persistent"):
            if part.get(word) == "true":
                notes.append("the word {} of {}: {}".format(word.upper(), pou, names))
        constant = " CONSTANT" if part.get("constant") == "true" and part.tag == "localVars" else ""
        lines = [line for line in (declaration(one, pou, notes) for one in part.findall("variable")) if line]
        yield "\n".join([SECTIONS[part.tag] + constant, *lines, "END_VAR"])


def body_of(element, name, notes):
    """The Structured Text of a body; of other bodies it is empty."""
    bodies = element.findall("body")
    kinds = [part for body in bodies for part in body if part.tag in ("ST", "IL", "FBD", "LD", "SFC")]
    for part in kinds:
        if part.tag == "ST":
            return text_in(part).strip("\n").rstrip()
    notes.append("the body of {}, which is {} and no Structured Text".format(name, kinds[0].tag if kinds else "empty"))
    return ""


def pou_of(element, notes):
    """A PROGRAM, a FUNCTION_BLOCK or a FUNCTION as text."""
    name, word = element.get("name"), WORDS.get(element.get("pouType"), "PROGRAM")
    interface = element.find("interface")
    result = interface.find("returnType") if interface is not None else None
    head = "{} {}".format(word, name) + (" : {}".format(kind_of(result)[0]) if result is not None else "")
    for kind in ("action", "transition"):
        for one in element.findall("./{0}s/{0}".format(kind)):
            notes.append("the {} {} of {}".format(kind, one.get("name"), name))
    for kind in ("Method", "Property"):
        for one in element.findall("./addData/data/" + kind):
            notes.append("the {} {} of {}".format(kind.lower(), one.get("name"), name))
    return "\n".join([head, *sections_of(interface, name, notes), body_of(element, name, notes), "END_" + word, ""])


def types_of(root, notes):
    """The types of a project as one TYPE text, in a list that is empty where there are none."""
    lines = []
    for one in root.findall("./types/dataTypes/dataType"):
        kind, why = kind_of(one.find("baseType"))
        if kind is None:
            notes.append("the type {}, which is: {}".format(one.get("name"), why))
            continue
        numbers = [value.get("value") for value in one.findall("./baseType/enum/values/value")]
        if any(number not in (None, str(place)) for place, number in enumerate(numbers)):
            notes.append("the numbers of the values of {}, which begin at 0 here".format(one.get("name")))
        if one.find("initialValue") is not None:
            notes.append("the initial value of the type " + one.get("name"))
        lines.append("    {} : {};".format(one.get("name"), kind))
    return ["\n".join(["TYPE", *lines, "END_TYPE", ""])] if lines else []
