"""Says in one sentence what stands at the place of a refusal, and what to write instead.

A sentence is chosen by the rule, by the token at the place and by those beside it. It is help for a reader and decides
nothing: where no sentence fits there is none, and the rule's own words stand.
"""

import re
from collections import namedtuple

from program_text import VALUES, Trouble, Unreadable, text_of
from relation_text import relation_of
from trace_rows import AS_WANTED, fault_of

TOKEN = re.compile(
    r"""(?P<gap> [\t\n\f\r ]+ | \(\*.*?\*\) | //[^\n]* )
      | (?P<word> [A-Za-z_][A-Za-z0-9_]* )
      | (?P<number> [0-9][A-Za-z0-9_]* (?: \#[A-Za-z0-9_]* )? )
      | (?P<sign> := | => | <> | <= | >= | \.\. | . )""",
    re.VERBOSE | re.DOTALL)
Token = namedtuple("Token", "form text upper place end")
NOTHING = Token("end", "", "", -1, -1)
# The token at the place, those before it and behind it, the file's text and bytes, the place, and the bytes of the other files by their roles.
Spot = namedtuple("Spot", "token before behind text bytes place beside")
COMPARISONS = ("=", "<>", "<", "<=", ">", ">=")
# The types of what a standard block's instance has behind a point.
MEMBERS = {"Q": "BOOL", "Q1": "BOOL", "QU": "BOOL", "QD": "BOOL", "CV": "INT"}
# What functions of the library take.
TAKEN = {"ABS": "a number", "SEL": "a BOOL first, and then two values of one type", "LIMIT": "three values of one type",
         "MIN": "values of one type", "MAX": "values of one type",
         **dict.fromkeys(("SHL", "SHR", "ROL", "ROR"), "a word of bits first, as BYTE or WORD, and then a number")}

STARTS = {"", ";", "THEN", "ELSE", "DO", "OF", "END_VAR", ":", "END_IF", "END_CASE", "END_FOR"}
STATEMENT_WORDS = {"IF", "CASE", "FOR", "ELSE", "ELSIF", "END_IF", "END_CASE", "END_FOR", "END_PROGRAM", "END_FUNCTION",
                   "END_FUNCTION_BLOCK", "END_ACTION", "END_TRANSITION", "END_VAR"}
RESERVED = set("""TYPE END_TYPE PROGRAM END_PROGRAM FUNCTION END_FUNCTION FUNCTION_BLOCK END_FUNCTION_BLOCK VAR VAR_INPUT VAR_OUTPUT
    VAR_TEMP CONSTANT END_VAR IF THEN ELSIF ELSE END_IF CASE END_CASE OF TO BY DO END_FOR FROM END_STEP END_TRANSITION END_ACTION
    INITIAL_STEP STEP TRANSITION ACTION AND OR XOR MOD NOT FOR EXIT RETURN TRUE FALSE""".split()) | set(VALUES)

BYTES = {
    "[": "`[` is not read: there are no arrays; write a variable for each element, and a CASE on the index.",
    "]": "`]` is not read: there are no arrays; write a variable for each element, and a CASE on the index.",
    "%": "`%` is not read: hardware addresses, as %IX0.0, are left out; declare the signal as a VAR_INPUT or VAR_OUTPUT.",
    "'": "Quotes are not read: strings are left out; write a number or a value of an enumeration.",
    '"': "Names in quotes are not read: write the name without them, of letters, digits and _.",
    "{": "Braces are not read: take pragmas and attributes out, or put them into a comment (* .. *).",
    "}": "Braces are not read: take pragmas and attributes out, or put them into a comment (* .. *).",
    "!": "`!` is not read: write NOT for a negation, and <> for !=.",
    "|": "`|` is not read: write OR.",
    "~": "`~` is not read: write NOT.",
    "^": "`^` is not read: pointers are left out; write XOR for an exclusive or.",
    "?": "`?` is not read: write SEL(condition, value if FALSE, value if TRUE), or an IF.",
    "@": "`@` is not read here: a name has letters, digits and _.",
    "$": "`$` is not read here: a name has letters, digits and _.",
    "\\": "`\\` is not read: a comment begins with // or (*.",
    "`": "A backquote is not read: take it out.",
    "\0": "The file has bytes of the value 0: it is no plain text, or is saved as UTF-16; save it as UTF-8.",
}
LEFT_OUT = {
    "REAL": "There are no REAL numbers: scale to whole numbers, as tenths of a degree in an INT or a DINT.",
    "STRING": "There are no strings: write a number or a value of an enumeration.",
    "TIME": "There are no times: count scans, with a counter that the PROGRAM sets or with CTU.",
    "ARRAY": "There are no arrays: write a variable for each element, and a CASE on the index.",
    "STRUCT": "There are no structures: write a variable for each member.",
    "WHILE": "There is no WHILE and no REPEAT: write a FOR with constant bounds and an IF inside of it.",
    "VAR_IN_OUT": "There is no VAR_IN_OUT: write a VAR_INPUT and a VAR_OUTPUT, and copy behind the call.",
    "VAR_GLOBAL": "There are no global variables: declare them in the PROGRAM, and hand them to blocks as inputs.",
    "RETAIN": "RETAIN is left out: take the word out; every run begins with the initial values.",
    "AT": "AT is left out, as are hardware addresses: take AT and the address out, and declare signals as VAR_INPUT or VAR_OUTPUT.",
    "CONFIGURATION": "Configurations, resources and tasks are left out: a file has types, functions, blocks and one PROGRAM.",
    "R_EDGE": "R_EDGE and F_EDGE are left out: write an instance of R_TRIG or F_TRIG.",
}
LEFT_OUT.update({word: LEFT_OUT[other] for other, words in {
    "REAL": "LREAL", "STRING": "WSTRING", "TIME": "DATE TIME_OF_DAY TOD DATE_AND_TIME DT", "WHILE": "REPEAT",
    "VAR_GLOBAL": "VAR_EXTERNAL VAR_ACCESS VAR_CONFIG", "RETAIN": "NON_RETAIN", "CONFIGURATION": "RESOURCE TASK",
    "R_EDGE": "F_EDGE"}.items() for word in words.split()})
UNKNOWN = {
    "TON": "TON is not read: timers are left out; count scans, with CTU or a counter of your own.",
    "SQRT": "There is no SQRT: the standard functions are ABS, MIN, MAX, LIMIT, SEL, SHL, SHR, ROL, ROR and the conversions A_TO_B.",
    "MUX": "There is no MUX: write a CASE.",
    "MOVE": "There is no MOVE: write an assignment.",
    "STRING_TO_INT": "There is no conversion from or to this type: REAL, strings and times are left out.",
}
UNKNOWN.update({word: UNKNOWN[other].replace(other, word, 1) for other, words in {
    "TON": "TOF TP RTC", "SQRT": "LN LOG EXP SIN COS TAN ASIN ACOS ATAN EXPT TRUNC ROUND", "MUX": "", "MOVE": ""}.items()
    for word in words.split()})


def tokens_of(text):
    found = (TOKEN.match(text, place) for place in iter_places(text))
    return [Token(one.lastgroup, one.group(), one.group().upper(), one.start(), one.end()) for one in found if one.lastgroup != "gap"]


def iter_places(text):
    place = 0
    while place < len(text):
        yield place
        place = TOKEN.match(text, place).end()


def spot_of(text, place, beside):
    """What stands at the place and beside it."""
    mark = b"\xef\xbb\xbf"
    shift = len(mark) if text.startswith(mark) else 0
    characters = text[shift:].decode("latin-1")
    place -= shift
    tokens = tokens_of(characters)
    before = [token for token in tokens if token.end <= place]
    behind = [token for token in tokens if token.end > place]
    return Spot(behind[0] if behind else NOTHING, before, behind[1:], characters, text, place, beside)


def last(tokens, number=1):
    return tokens[-number] if len(tokens) >= number else NOTHING


def first(tokens, number=1):
    return tokens[number - 1] if len(tokens) >= number else NOTHING


def declared(spot, name, text=None):
    """What a variable or a FUNCTION is declared as, None where that is not to be seen."""
    pattern = r"\b{}\b\s*(?:,\s*\w+\s*)*:\s*([A-Za-z_]\w*(?:\s*\([^()]*\))?)".format(re.escape(name))
    found = re.search(pattern, re.sub(r"\(\*.*?\*\)|//[^\n]*", " ", text or spot.text, flags=re.DOTALL), re.IGNORECASE)
    return found[1].upper() if found else None


def value_before(spot):
    """The tokens of the value that ends before the place: a name with its points, a number or what stands in parentheses."""
    tokens = list(spot.before)
    start = len(tokens)
    if last(tokens).text == ")":
        depth = 0
        while start > 0:
            start -= 1
            depth += (tokens[start].text == ")") - (tokens[start].text == "(")
            if depth == 0:
                break
    else:
        start -= 1
    while start > 1 and tokens[start - 1].text in (".", "#"):
        start -= 2
    if start > 0 and tokens[start].text == "(" and tokens[start - 1].form == "word" and tokens[start - 1].upper not in RESERVED:
        start -= 1
    return tokens[max(start, 0):]


def value_behind(tokens):
    """The tokens of the value that begins here."""
    taken, depth = [], 0
    for place, token in enumerate(tokens):
        if depth == 0 and taken and not (token.text in (".", "#") or last(taken).text in (".", "#") or token.text == "(" and last(taken).form == "word"):
            break
        if depth == 0 and place == 0 and not (token.form in ("word", "number") or token.text == "("):
            break
        depth += (token.text == "(") - (token.text == ")")
        taken.append(token)
    return taken


def inside_of(tokens):
    """The parts between the commas of what stands in these tokens' parentheses."""
    parts, depth = [[]], 0
    for token in tokens:
        depth += (token.text == "(") - (token.text == ")")
        if depth < 0:
            break
        if token.text == "," and depth == 0:
            parts.append([])
        else:
            parts[-1].append(token)
    return [part[2:] if last(part[:2]).text == ":=" else part for part in parts]


def kind_of(spot, tokens):
    """The type of a value, None where that is not to be seen."""
    if not tokens:
        return None
    words, depth = [token.upper for token in tokens], 0
    for token in tokens:
        depth += (token.text == "(") - (token.text == ")")
        if depth == 0 and token.text in COMPARISONS:
            return "BOOL"
    if words[0] in ("TRUE", "FALSE"):
        return "BOOL"
    if words[0] in ("OLD", "NEW") and len(words) >= 3:
        text = text_of(spot.beside[words[0]]) if words[0] in spot.beside else None
        return declared(spot, words[2], text) if text and len(words) == 3 else None
    if words[0] in ("(", "NOT", "-"):
        return kind_of(spot, [token for token in tokens[1:] if token.text != ")"])
    if tokens[0].form != "word":
        return kind_of(spot, tokens[2:])
    if words[1:2] == ["#"]:
        return words[0]
    if words[1:2] == ["."]:
        return MEMBERS.get(words[2]) if len(words) == 3 else None
    if words[1:2] == ["("]:
        converted = re.fullmatch(r"[A-Z]+_TO_([A-Z]+)", words[0])
        return converted[1] if converted else declared(spot, "FUNCTION " + tokens[0].text)
    return declared(spot, tokens[0].text)


def text_at(spot, tokens):
    return " ".join(spot.text[tokens[0].place:tokens[-1].end].split())


def said_of_value(spot, tokens):
    """A value and its type, None where that is not to be seen."""
    kind = kind_of(spot, tokens)
    return "{} is {}".format(text_at(spot, tokens), kind) if kind else None


def said_of(spot, token):
    return said_of_value(spot, [token]) if token.form == "word" else None


def of_byte(spot):
    """A byte that begins no token."""
    if spot.bytes[:2] in (b"\xff\xfe", b"\xfe\xff") or b"\0" in spot.bytes[:200]:
        return "The file is saved as UTF-16: save it as UTF-8."
    if re.match(r"\s*<\?xml|\s*<[A-Za-z]", spot.text):
        return "This is an XML file: tools/st-from takes the Structured Text out of PLCopen XML and of TwinCAT files; a program begins with TYPE, FUNCTION, FUNCTION_BLOCK or PROGRAM."
    character = spot.text[spot.place:spot.place + 1]
    if character == "!" and spot.text[spot.place + 1:spot.place + 2] == "=":
        return "`!=` is not read: write <>."
    if character == "%" and re.match(r"%\s*[0-9A-Za-z_(]", spot.text[spot.place:]) and not re.match(r"%[IQM]", spot.text[spot.place:].upper()):
        return "`%` is not read: write MOD for the rest of a division."
    if character in BYTES:
        return BYTES[character]
    if ord(character or "a") >= 128:
        whole = spot.bytes[len(spot.bytes) - len(spot.text) + spot.place:][:4].decode("utf-8", "ignore")[:1]
        if whole in ("\u2013", "\u2014", "\u2212"):
            return "This dash is none of the keyboard: write - for a minus sign."
        if whole in ("\u201c", "\u201d", "\u201e", "\u2018", "\u2019"):
            return "Quotes are not read, and these are a word processor's: strings are left out."
        if whole in ("\u00a0", "\u200b", "\u202f"):
            return "This is a space that is none of the keyboard (U+{:04X}): write a plain one.".format(ord(whole))
        return "Letters beyond a to z may stand in comments alone: write the name with a to z, 0 to 9 and _."
    return None


def of_number(spot):
    text, before = spot.token.text, last(spot.before)
    if before.text == "#" and re.fullmatch(r"T|TIME|D|DATE|TOD|DT|LT|LTIME", last(spot.before, 2).upper):
        return "Times and dates, as {}#{}, are not read: count scans.".format(last(spot.before, 2).text, text)
    if re.match(r"0[xX]", text):
        return "A number to the base 16 is written 16#{}.".format(text[2:] or "1F")
    if re.match(r"0[bB]", text):
        return "A number to the base 2 is written 2#{}.".format(text[2:] or "1")
    if re.fullmatch(r"[0-9]+[eE][0-9]*", text):
        return "There are no REAL numbers: write {} as a whole number.".format(text)
    if "__" in text or text.endswith("_"):
        return "In a number _ stands between two digits: {} has it otherwise.".format(text)
    if "#" in text:
        return "{} is no number: 2#, 8# and 16# come before digits of that base.".format(text)
    if re.fullmatch(r"[0-9]+(ms|s|m|h|d|us)", text.lower()):
        return "Times, as {}, are not read: count scans.".format(text)
    return "{} is no number, and a name begins with a letter.".format(text)


def of_left_out(spot):
    return LEFT_OUT.get(spot.token.upper)


def of_reserved(spot):
    """A word of the language where a name is wanted, or None."""
    token, before = spot.token, last(spot.before)
    is_named = before.upper in ("VAR", "VAR_INPUT", "VAR_OUTPUT", "VAR_TEMP", "CONSTANT", "PROGRAM", "FUNCTION", "FUNCTION_BLOCK", "TYPE",
                                "STEP", "INITIAL_STEP", "ACTION", ":=", "(", "+", "-", "*", "/", "=", "<>", "AND", "OR", "NOT", ".")
    is_target = before.upper in STARTS and first(spot.behind).text in (":=", ":", ",")
    if token.upper in ("THEN", "DO", "OF", "BY") or token.upper == "TO" and any(one.upper == "FOR" for one in spot.before[-6:]):
        return "A value is missing before {}.".format(token.text)
    if before.upper in ("PROGRAM", "FUNCTION", "FUNCTION_BLOCK") and token.upper.startswith("VAR"):
        return "A name is missing behind {}.".format(before.text)
    if token.upper in RESERVED - STATEMENT_WORDS - {"NOT", "TRUE", "FALSE"} and (is_named or is_target):
        return "{} is a word of the language and cannot be a name: write another, as {}_1.".format(token.text, token.text)
    return None


def ends_value(token):
    return token.form in ("word", "number") and token.upper not in RESERVED - {"TRUE", "FALSE"} or token.text == ")"


def begins_statement(spot):
    return spot.token.upper in STATEMENT_WORDS or (spot.token.form == "word" and spot.token.upper not in RESERVED
                                                   and first(spot.behind).text in (":=", "("))


def of_sign(spot):
    """A sign of another language, or None."""
    token, before, after = spot.token, last(spot.before), first(spot.behind)
    pairs = {"==": "One = compares: write = for ==.", "&&": "One & is AND: write AND for &&.", "++": "There is no ++: write x := x + 1.",
             "--": "There is no --: write x := x - 1.", "**": "There is no ** for a power: write products.", "::=": "Write := to assign."}
    for sign, sentence in pairs.items():
        place = spot.place - len(sign) + 1
        if sign in (spot.text[max(place, 0):spot.place + len(sign)], spot.text[spot.place:spot.place + len(sign)],
                    spot.text[max(spot.place - 1, 0):spot.place + len(sign) - 1]):
            return sentence
    if token.text in "+-*/" and token.text and after.text == "=":
        return "There is no {0}=: write x := x {0} value.".format(token.text)
    if token.text == "=" and last(spot.before, 2).upper == "FOR":
        return "A FOR is written FOR {} := first TO last DO.".format(before.text)
    if token.text == "=" and any(one.upper == "TRANSITION" for one in spot.before[-8:]):
        return "The condition of a transition stands behind :=."
    if token.text == "=" and before.form == "word" and last(spot.before, 2).upper in STARTS | {")"}:
        return "`=` compares: write := to assign."
    if last(spot.before, 2).text == "#" and re.fullmatch(r"D|DATE|TOD|DT", last(spot.before, 3).upper) or (
            before.text == "#" and re.fullmatch(r"D|DATE|TOD|DT|T|TIME", last(spot.before, 2).upper)):
        return "Times and dates are not read: count scans."
    if token.text == ":=" and any(one.upper in ("IF", "ELSIF") for one in spot.before[-3:]):
        return "`:=` assigns: write = to compare."
    if token.text == ":=" and any(one.upper == "TYPE" for one in spot.before) and not any(one.upper == "END_TYPE" for one in spot.before):
        return "The values of an enumeration have no numbers of their own: write their names alone."
    if token.text == ":" and before.form == "word" and last(spot.before, 2).upper in STARTS - {":"}:
        return "Write := to assign." if before.upper != "ELSE" else "No : stands behind ELSE."
    if token.text == ":=":
        return "One statement assigns to one target: write a second statement for the other."
    if token.text == "." and before.form == "number" and after.form == "number":
        return "There are no REAL numbers: write {}.{} as a whole number, as {}{} tenths.".format(before.text, after.text, before.text, after.text[:1])
    if before.text == "." and token.form == "number":
        return "Single bits of a word, as {}.{}, are not read: write SHR and AND, or a BOOL for each.".format(last(spot.before, 2).text, token.text)
    return None


def of_leaving(spot):
    """What is wrong behind EXIT or RETURN as statements, or None."""
    before = last(spot.before)
    if before.upper not in ("EXIT", "RETURN") or last(spot.before, 2).upper not in STARTS:
        return None
    if before.upper == "RETURN" and (spot.token.form == "number" or spot.token.text in ("(", "-")):
        return "A RETURN has no value: what a FUNCTION answers is assigned to its name before."
    return "A ; is missing behind {}.".format(before.text)


def of_grammar(spot):
    token, before = spot.token, last(spot.before)
    if not spot.before and re.match(r"\s*<", spot.text):
        return "This is an XML file: tools/st-from takes the Structured Text out of PLCopen XML and of TwinCAT files; a program begins with TYPE, FUNCTION, FUNCTION_BLOCK or PROGRAM."
    if token.form == "end":
        return of_end(spot)
    if token.upper in ("ELSEIF", "ELIF"):
        return "{} is no word of the language: write ELSIF.".format(token.text)
    if token.form == "word" and before.upper in ("ELSEIF", "ELIF"):
        return "{} is no word of the language: write ELSIF.".format(before.text)
    leaving = of_leaving(spot)
    if leaving:
        return leaving
    reserved = of_reserved(spot)
    if reserved:
        return reserved
    sign = of_sign(spot)
    if sign:
        return sign
    declaration = of_declaration(spot)
    if declaration:
        return declaration
    if ends_value(before) and begins_statement(spot):
        return of_missing(spot)
    if before.upper in ("END_IF", "END_FOR", "END_CASE") and token.upper not in STATEMENT_WORDS:
        return "Behind {} a ; is wanted.".format(before.text)
    return of_other_words(spot)


def of_declaration(spot):
    """What is missing in a declaration, or None."""
    token, before = spot.token, last(spot.before)
    still = [one.upper for one in open_words(spot.before)]
    inside = still[-1] if still else ""
    if inside.startswith("VAR") or inside == "TYPE":
        ends_type = before.upper in VALUES or before.text == ")" or last(spot.before, 2).text in (":", ":=")
        if ends_type and (token.form == "word"):
            return "A ; is missing behind {}.".format(before.text)
        if before.form == "word" and token.form == "word" and last(spot.before, 2).text in (";", inside, ","):
            return "A : is missing behind {}.".format(before.text)
        if before.form == "word" and token.text in ("-", "+", "*", "/"):
            return "A name has letters, digits and _ alone: {}{}{} is none.".format(before.text, token.text, first(spot.behind).text)
        if token.upper in OPENERS.values() or token.upper in OPENERS:
            return "END_VAR is missing before {}.".format(token.text) if inside != "TYPE" else "END_TYPE is missing before {}.".format(token.text)
    if inside in ("STEP", "INITIAL_STEP") and token.text == ";":
        return "Behind the name of a step stands a :, as INITIAL_STEP A: END_STEP."
    if inside == "FUNCTION" and last(spot.before, 2).upper == "FUNCTION" and token.text != ":":
        return "The type of what the FUNCTION answers is missing: write FUNCTION {} : INT.".format(before.text)
    if before.text == "(" and first(spot.behind).text in (")", ",") and last(spot.before, 3).upper in STARTS:
        return "{} is called as a statement, where inputs have names, as c(CU := x); the value of a FUNCTION stands in an expression.".format(
            last(spot.before, 2).text)
    return None


def of_missing(spot):
    """A value is followed by what begins a statement."""
    words = [token.upper for token in spot.before]
    opener = next((word for word in reversed(words) if word in ("IF", "ELSIF", "THEN", "FOR", "DO", "CASE", "OF", ";")), "")
    if spot.token.upper in ("END_PROGRAM", "END_FUNCTION", "END_FUNCTION_BLOCK", "END_ACTION") or opener not in ("IF", "ELSIF", "FOR", "CASE"):
        return "A ; is missing behind {}.".format(last(spot.before).text)
    return "{} is missing behind {}.".format({"IF": "THEN", "ELSIF": "THEN", "FOR": "DO", "CASE": "OF"}[opener], last(spot.before).text)


OPENERS = {"PROGRAM": "END_PROGRAM", "FUNCTION": "END_FUNCTION", "FUNCTION_BLOCK": "END_FUNCTION_BLOCK", "IF": "END_IF", "CASE": "END_CASE",
           "FOR": "END_FOR", "VAR": "END_VAR", "VAR_INPUT": "END_VAR", "VAR_OUTPUT": "END_VAR", "VAR_TEMP": "END_VAR", "TYPE": "END_TYPE",
           "STEP": "END_STEP", "INITIAL_STEP": "END_STEP", "TRANSITION": "END_TRANSITION", "ACTION": "END_ACTION"}


def open_words(tokens):
    """The words that are open behind the tokens, the last one last."""
    found = []
    for token in tokens:
        if token.upper in OPENERS:
            found.append(token)
        elif found and token.upper == OPENERS[found[-1].upper]:
            found.pop()
    return found


def of_end(spot):
    if not spot.before:
        return "The file is empty: a program begins with TYPE, FUNCTION, FUNCTION_BLOCK or PROGRAM."
    still = open_words(spot.before)
    if still:
        word = still[-1]
        line = spot.text.count("\n", 0, word.place) + 1
        return "The file ends before {} of line {} is closed: write {}.".format(word.text, line, OPENERS[word.upper])
    return "The file ends too early: something is missing behind {}.".format(last(spot.before).text)


def of_other_words(spot):
    token, before = spot.token, last(spot.before)
    closing = [word.upper for word in open_words(spot.before)]
    if token.upper in OPENERS.values() and any(OPENERS[word] == token.upper for word in closing):
        return "{} comes before {} is closed: write {}.".format(token.text, closing[-1], OPENERS[closing[-1]])
    if token.upper in OPENERS.values() and closing:
        return "{} closes nothing here: {} is open, and {} closes it.".format(token.text, closing[-1], OPENERS[closing[-1]])
    if token.upper in ("PROGRAM", "FUNCTION", "FUNCTION_BLOCK") and closing:
        return "{} begins before {} is closed: write {}.".format(token.text, closing[-1], OPENERS[closing[-1]])
    words = [word.upper for word in (before, token)]
    for word in ("METHOD", "INTERFACE", "CLASS", "NAMESPACE", "EXTENDS", "PROPERTY"):
        if word in words:
            return "{} is of the third edition of the standard: there are no classes, methods and interfaces.".format(word)
    if token.upper in OPENERS.values() and not closing:
        return "{} closes nothing here.".format(token.text)
    if not closing and token.upper not in ("TYPE", "FUNCTION", "FUNCTION_BLOCK", "PROGRAM"):
        return "Outside of a PROGRAM, FUNCTION or FUNCTION_BLOCK no statement stands: {} is one too much, or belongs inside.".format(token.text)
    if token.upper == "VAR" or token.upper.startswith("VAR_"):
        return "Declarations stand before the first statement: move this section up."
    if before.text == "*)" or token.text == "*" and first(spot.behind).text == ")":
        return "Comments do not nest: the first *) ends one."
    if before.upper in ("GOTO", "JMP", "CAL", "LD", "ST"):
        return "{} is no statement of Structured Text.".format(before.text)
    if token.text == ")":
        return "This `)` closes nothing here."
    if before.text in (",", "(") and token.text in (")", ";", ","):
        return "A value is missing before {}.".format(token.text)
    if token.text == ";":
        return "Something is missing before ;, behind {}.".format(before.text)
    if last(spot.before, 2).upper == "CASE" and ends_value(before):
        return "OF is missing behind {}.".format(before.text)
    if ends_value(before) and ends_value(token):
        return "Between {} and {} an operator or a ; is missing.".format(before.text, token.text)
    return None


def of_unknown(spot):
    name, word = spot.token.text, spot.token.upper
    if word in UNKNOWN:
        return UNKNOWN[word]
    if re.fullmatch(r"(\w+)_TO_(\w+)", word):
        return "There is no conversion {}: both types are of {}.".format(name, ", ".join(VALUES))
    if first(spot.behind).text == "(" and last(spot.before).upper in STARTS:
        return "{} is no instance of a block: declare it, as {} : CTU; in a VAR section.".format(name, name)
    if first(spot.behind).text == "(" and declared(spot, name):
        return "{0} is an instance: call it by itself, as {0}(..);, and read its outputs, as {0}.Q.".format(name)
    if first(spot.behind).text == "(":
        return "{} is no FUNCTION of this file and no standard function.".format(name)
    if last(spot.before).text == ":":
        return "{} is no type of this file: the elementary types are {}.".format(name, ", ".join(VALUES))
    if last(spot.before).text == "." and last(spot.before, 2).upper in ("OLD", "NEW"):
        return "{} has no variable and no value {}.".format(last(spot.before, 2).upper, name)
    if last(spot.before).text == ".":
        return "{} has no {} that can be seen here.".format(last(spot.before, 2).text, name)
    if last(spot.before).text == "#":
        return "{} has no value {}.".format(last(spot.before, 2).text, name)
    return "{} is not declared here: declare it in a VAR section, or look at how it is spelled.".format(name)


def of_wrong_use(spot):
    token, before, after = spot.token, last(spot.before), first(spot.behind)
    if last(spot.before).upper in ("INPUT", "OLD", "NEW") or last(spot.before, 3).upper == "INPUT":
        return "{} is no VAR_INPUT, and an INPUT line names inputs alone.".format(token.text)
    if token.upper == "FAULT":
        return "FAULT is the verifier's own: it says whether the scan met a fault, and no program sets or reads it."
    if before.text == ".":
        return "{0} has no members: a value of an enumeration is written {0}#{1}.".format(last(spot.before, 2).text, token.text)
    if after.text == "." or after.text == "#":
        return "A value of an enumeration is written {}#{}.".format(token.text, first(spot.behind, 2).text)
    words = [one.upper for one in spot.before]
    if "CASE" in words and after.text in (":", ",", "..") and before.text in (";", "OF", ",", ":", ".."):
        return "A label of a CASE is a number or a value of an enumeration: {} is a variable or a constant by name; write its value.".format(token.text)
    if after.text == "(":
        return "{} cannot be called here.".format(token.text)
    return "{} cannot stand here: it names something else than a variable.".format(token.text)


def of_twice(spot):
    if spot.token.upper == "FAULT":
        return "FAULT is the verifier's own name: give the variable another, as FAULT_OUT."
    if spot.token.upper in ("CTU", "CTD", "CTUD", "SR", "RS", "R_TRIG", "F_TRIG", "ABS", "MIN", "MAX", "LIMIT", "SEL"):
        return "{} is a name of the library: give this another.".format(spot.token.text)
    return "{} is declared twice: give one of them another name.".format(spot.token.text)


def of_operands(spot):
    """Operands of two types."""
    token, before = spot.token, last(spot.before)
    sides = [value_before(spot), value_behind(spot.behind)]
    said = [part for part in (said_of_value(spot, side) for side in sides) if part]
    kinds = [kind_of(spot, side) for side in sides]
    tail = ": " + " and ".join(said) if said else ""
    if len(said) == 2 and kinds[0] == kinds[1] in VALUES and token.upper in ("+", "-", "*", "/", "MOD"):
        return "`{}` takes two numbers{}; convert them, as {}_TO_INT(x).".format(token.text, tail, kinds[0])
    if token.upper in ("AND", "OR", "XOR", "NOT", "&"):
        return "{} takes BOOLs, or words of bits of one type{}; compare a number, as n <> 0.".format(token.text, tail)
    if token.form == "sign" and token.text != "(" and not ends_value(before):
        return "`{}` takes a number{}.".format(token.text, tail)
    if token.form == "sign" and token.text != "(" or token.upper == "MOD":
        return "`{}` takes two values of one type{}; convert one, as INT_TO_DINT(x).".format(token.text, tail)
    if any(one.upper == "CASE" for one in spot.before[-2:]):
        return "A CASE selects by an integer or an enumeration{}.".format(": " + said_of(spot, token) if said_of(spot, token) else "")
    if first(spot.behind).text == "(":
        return of_inputs(spot)
    if before.upper in ("IF", "ELSIF"):
        kind = said_of(spot, token)
        return "A condition is BOOL{}: compare, as {} <> 0.".format(", and " + kind if kind else "", token.text)
    return None


def of_inputs(spot):
    """A function that is given values of other types."""
    name = spot.token.upper
    said = [part for part in (said_of_value(spot, value) for value in inside_of(spot.behind[1:])) if part]
    converted = re.fullmatch(r"([A-Z]+)_TO_([A-Z]+)", name)
    tail = ": " + " and ".join(said) if said else ""
    if converted:
        kind = said[0].rpartition(" ")[2] if said else None
        instead = "; leave it out" if kind == converted[2] else "; write {}_TO_{}".format(kind, converted[2]) if kind in VALUES else ""
        return "{} takes a value of {}{}{}.".format(spot.token.text, converted[1], tail, instead)
    if name in TAKEN:
        return "{} takes {}{}; convert what is another, as INT_TO_DINT(x).".format(spot.token.text, TAKEN[name], tail)
    return "{} is not given values of the types that it takes{}; convert them, as INT_TO_DINT(x).".format(spot.token.text, tail)


def of_target(spot):
    token = spot.token
    target = said_of_value(spot, [token]) if first(spot.behind).text != "." else said_of_value(spot, [token, *spot.behind[:2]])
    place = next((number for number, one in enumerate(spot.behind) if one.text == ":="), None)
    value, depth = [], 0
    for one in spot.behind[place + 1:] if place is not None else []:
        depth += (one.text == "(") - (one.text == ")")
        if depth < 0 or depth == 0 and one.upper in (";", ",", "TO", "BY", "DO"):
            break
        value.append(one)
    other = said_of_value(spot, value)
    if target and other and target.rpartition(" ")[2] != other.rpartition(" ")[2]:
        return "{}, and {}: convert the value, as A_TO_B(x), or compare it.".format(target, other)
    if target:
        return "{}, and the value has another type: convert it, as A_TO_B(x).".format(target)
    return None


def of_protected(spot):
    kind = re.search(r"VAR_INPUT(?:(?!END_VAR).)*\b{}\b".format(re.escape(spot.token.text)), spot.text, re.IGNORECASE | re.DOTALL)
    if last(spot.before).upper == "FOR":
        return "A FOR counts with a VAR, VAR_OUTPUT or VAR_TEMP of an integer type: {} is none.".format(spot.token.text)
    if first(spot.behind).text == ".":
        return "{}.{} is an output of the instance, which its block alone sets.".format(spot.token.text, first(spot.behind, 2).text)
    if kind:
        return "{} is a VAR_INPUT, which its own body cannot set: write into a variable of your own.".format(spot.token.text)
    return "{} cannot be set here: it is a constant, a FOR's own variable, a step's flag or an output of an instance.".format(spot.token.text)


def of_no_program(spot):
    if not spot.before and spot.token.form == "end":
        return "The file is empty: a file has exactly one PROGRAM."
    programs = len(re.findall(r"(?<![A-Za-z_0-9])PROGRAM(?![A-Za-z_0-9])", spot.text, re.IGNORECASE))
    if programs > 1:
        return "The file has {} PROGRAMs: compare one at a time.".format(programs)
    if re.search(r"\bFUNCTION_BLOCK\b", spot.text, re.IGNORECASE):
        return "The file has a block and no PROGRAM: write one that has an instance of it, calls it and has its inputs and outputs."
    return "The file has no PROGRAM: a file has exactly one."


def of_rows(spot):
    """What is wrong with a trace: the row where that is to be seen."""
    wanted = "A trace is a list of rows, each with one whole number for each INPUT line, as [[1,0],[0,0]]."
    try:
        count = len(relation_of(spot.beside["REL"]).inputs) if "REL" in spot.beside else None
    except (Trouble, Unreadable):
        count = None
    said = fault_of(spot.bytes, count)
    return wanted if said == AS_WANTED else said + " " + wanted


def unlisted(spot):
    """The inputs that no INPUT line names."""
    try:
        listed = relation_of(spot.bytes).inputs
    except (Trouble, Unreadable):
        listed = None
    names = []
    for side, place in (("OLD", 0), ("NEW", 1)) if listed is not None and {"OLD", "NEW"} <= set(spot.beside) else ():
        named = {one[1 + place] for one in listed}
        inputs = re.findall(r"\bVAR_INPUT\b(.*?)\bEND_VAR\b", re.sub(r"\(\*.*?\*\)|//[^\n]*", " ", of_program(text_of(spot.beside[side])), flags=re.DOTALL),
                            re.IGNORECASE | re.DOTALL)
        found = [name.strip() for part in inputs for line in part.split(";") if ":" in line for name in line.split(":")[0].split(",")]
        names += ["{} of {}".format(name, side) for name in found if name.upper() not in named]
    return ("{} is" if len(names) == 1 else "{} are").format(" and ".join(names)) if names else "one is"


def of_program(text):
    """The part of a text from its PROGRAM on."""
    found = re.search(r"(?<![A-Za-z_0-9])PROGRAM(?![A-Za-z_0-9])", text, re.IGNORECASE)
    return text[found.start():] if found else ""


RULES = {
    "L1": of_byte, "L5": of_number, "X1": of_left_out, "G1": of_grammar, "N1": of_twice, "N2": of_unknown, "N4": of_wrong_use, "N5": of_no_program,
    "Y1": of_operands, "Y2": of_target, "Y4": of_protected,
    "L2": lambda spot: "This comment is never closed: write *) behind it.",
    "L3": lambda spot: "The number {} is larger than any type holds.".format(spot.token.text),
    "L4": lambda spot: "A name has at most 64 characters, and this one has {}.".format(len(spot.token.text)),
    "N3": lambda spot: "{} is declared in terms of itself: there is no recursion.".format(spot.token.text),
    "K1": lambda spot: "This label has a value that an earlier label of the CASE has: take one of them out.",
    "F1": lambda spot: "A bound of a FOR is a constant: write the largest number of turns, and an IF inside of the FOR.",
    "F2": lambda spot: "The step of this FOR is 0: it would never end.",
    "F3": lambda spot: "This FOR has more than 4,096 turns.",
    "F4": lambda spot: "The variable of this FOR cannot hold the value behind the last turn: declare it with a wider type.",
    "F5": lambda spot: "This EXIT stands in no FOR, and an EXIT leaves a FOR: write RETURN to leave the whole body, or take it out.",
    "G2": lambda spot: "More than 64 parentheses, IF, CASE or FOR are open here: split the statement.",
    "M2": lambda spot: "The PROGRAM has more than 4,096 cells: compare parts of it by themselves.",
    "C1": lambda spot: "A chart has exactly one INITIAL_STEP.",
    "C2": lambda spot: "{} is no step of this chart.".format(spot.token.text),
    "C3": lambda spot: "{} is no ACTION of this chart.".format(spot.token.text),
    "C4": lambda spot: "The step {} is named twice in this transition.".format(spot.token.text),
    "C5": lambda spot: "{} is no qualifier that is read: N, S, R, P, P1 and P0 are.".format(spot.token.text),
    "Y3": lambda spot: "This value is outside of its type or its subrange.",
    "Y5": lambda spot: "{} is not given each of its inputs once.".format(spot.token.text),
    "P1": lambda spot: "The two inputs have not one type with the same bounds: write INPUT OLD {0}; and INPUT NEW ..; apart.".format(spot.token.text),
    "P2": lambda spot: "Each input of both programs stands in exactly one INPUT line" + (
        ": {} stands in two.".format(spot.token.text) if spot.token.form == "word" else ", and {} not listed.".format(unlisted(spot))),
    "R1": lambda spot: "The lines stand in the order RELATION, FAULTS, DEPTH, CONFLICTS, INPUT, ENV, RELATE, INVARIANT" + (
        "." if spot.token.form == "word" else ", and one that is needed is missing."),
    "R2": lambda spot: "The version is 1, DEPTH is from 1 to 64, and CONFLICTS from 1 to 1000000.",
    "R3": lambda spot: "{} says not of which revision: write old.{} or new.{}.".format(spot.token.text, spot.token.text, spot.token.text),
    "R4": lambda spot: "A clause is a condition: compare, as old.n = new.n.",
    "J1": lambda spot: of_rows(spot),
}


def sentence(rule, text, place, beside=None):
    """The sentence on a refusal, or None. The bytes of other files by their roles say more, as the types of what a relation names."""
    maker = RULES.get(rule)
    return maker(spot_of(text, place, beside or {})) if maker else None
