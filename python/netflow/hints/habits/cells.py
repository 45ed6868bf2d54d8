"""Hints for the cells of data as accountants, spreadsheets and article numbers write them: signs after the number,
parentheses, blanks between digits, codes that are read as numbers, a ; after each row."""
from __future__ import annotations

import re
import unicodedata

from ...exact import parse_numeral
from ...reading.text import Token, tokens
from ..data import declared
from ..diagnostic import Diagnostic
from ..hint import Hints, HintTable
from ..values import misspelt_statement

BLANKS = "\u00a0\u2007\u2009\u202f"
CODE = re.compile(r"\d+[EeDd]\d+")
# A & between words, with the words around it and at most a blank on each side.
BEFORE_SIGN, AFTER_SIGN = re.compile(r"[^\s,;:=()'\"]*(?:(?<=[^\s,;:=]) )?$"), re.compile(
    r"[&@]+(?: (?=[^\W\d]))?[\w.-]*"
)


def semicolon_each_row(diagnostic: Diagnostic) -> Hints:
    """`north 4 6 9;` and, on the next line, `south 7 5 3;`."""
    rows: dict[int, list[str]] = {}
    for token in tokens(diagnostic.texts.get("data", "")) if diagnostic.text == "data" else ():
        rows.setdefault(token.row, []).append(token.text)
    here, above = rows.get(diagnostic.row, []), max((row for row in rows if row < diagnostic.row), default=0)
    last = rows.get(above, [])
    last = last[len(last) - last[::-1].index(":=") :] if ":=" in last else last
    is_row = diagnostic.before.strip() == "" and here[:1] != [";"] and not {":=", ":", "set", "param"} & set(here)
    is_row = is_row and here[0] not in declared(diagnostic)
    statement = previous_statement(diagnostic)
    if (
        is_row
        and last[-1:] == [";"]
        and cells(here) == cells(last) > 1
        and statement[:1] in (["param"], ["set"])
        and not list(misspelt_statement(diagnostic))
    ):
        lines = f"{diagnostic.line_text(above)} ends with ;, and {diagnostic.line_text(diagnostic.row)}"
        yield f"{lines} goes on with {statement[1]}: only the last row has a ;", True


def cells(row: list[str]) -> int:
    return sum(word not in (",", ";") for word in row)


def previous_statement(diagnostic: Diagnostic) -> list[str]:
    """Returns the first two words of the statement that ends before the place, without a colon."""
    found: list[list[Token]] = [[]]
    for token in diagnostic.tokens_before():
        if found[-1] and found[-1][-1].text == ";":
            found.append([])
        found[-1].append(token)
    words = [token.bare() for token in found[-1] if token.text != ":"]
    return words[:2] if words[-1:] == [";"] and len(words) > 2 else []


def blank_in_number(diagnostic: Diagnostic) -> Hints:
    """`1 080` with a blank that is none of ASCII."""
    mark, first = diagnostic.at()[:1], re.search(r"(?<![\w.,])[+-]?\d{1,3}$", diagnostic.before)
    rest = re.match(rf"(?:[{BLANKS}]\d{{3}})+(?!\w)", diagnostic.at())
    if first and rest:
        digits = re.sub(f"[{BLANKS}]", "", first[0] + rest[0])
        said = f"the blank is {unicodedata.name(mark)} (U+{ord(mark):04X})"
        yield f"{first[0]}{rest[0]}: is {digits} meant? Digits are not grouped; {said}", True


def parenthesised(diagnostic: Diagnostic) -> Hints:
    """`(4)` for -4."""
    words = [token.text for token in diagnostic.statement_before()]
    opened = "" if diagnostic.at().startswith("(") else "("
    match = re.match(r"\(\s*(\d+(?:\.\d+)?)\s*\)", opened + diagnostic.at())
    is_open = not opened or diagnostic.before.rstrip().endswith("(")
    if diagnostic.text != "data" or words[:1] != ["param"] or ":=" not in words or not match or not is_open:
        return
    # A number in parentheses that begins a row is a key.
    before = [word for word in words if word != "("][-1]
    is_key = before in (":=", ",") and not (opened + diagnostic.at())[match.end() :].lstrip().startswith(";")
    if not is_key:
        yield f"({match[1]}): is -{match[1]} meant? A negative number has a - before it, and no parentheses", True


def sign_after(diagnostic: Diagnostic) -> Hints:
    """`4-` for -4."""
    word = diagnostic.word().rstrip(",;")
    match = re.fullmatch(r"(\d+(?:\.\d+)?)-", word)
    if diagnostic.text == "data" and match and not diagnostic.is_change():
        yield f"{word}: is -{match[1]} meant? The sign comes before the number", True


def sign_in_name(diagnostic: Diagnostic) -> Hints:
    """`H&M`."""
    before, after = BEFORE_SIGN.search(diagnostic.before), AFTER_SIGN.match(diagnostic.at())
    if diagnostic.text == "data" and before and after and not diagnostic.is_change():
        name = f"{before[0]}{after[0]}".strip()
        if re.search(r"[^\W\d]", name):
            yield f"quote the name: '{name}'", True


def member_number(diagnostic: Diagnostic) -> Hints:
    """`4006381333931` as a member."""
    words, word = diagnostic.statement_before(), re.match(r"\d+(?![\w.])", diagnostic.at())
    texts = [token.text for token in words]
    if diagnostic.text != "data" or not word or len(word[0]) < 13 or diagnostic.is_change():
        return
    is_heading = texts[:1] == ["param"] and ":" in texts and ":=" not in texts
    is_first = texts[-1:] in ([":="], [","]) or bool(words) and words[-1].row < diagnostic.row
    has_value = re.match(r"\s*[\w'\"+-]", diagnostic.at()[len(word[0]) :]) is not None
    if texts[:1] == ["set"] or is_heading or texts[:1] == ["param"] and is_first and has_value:
        said = "a number of more than 12 digits is too large"
        yield f"{word[0]} is a member here: quote it everywhere, '{word[0]}', as {said}", True


def codes(diagnostic: Diagnostic) -> Hints:
    """`3E2` and `3D2` as members, which are the same number."""
    word = diagnostic.word()
    if diagnostic.text != "data" or not CODE.fullmatch(word) or diagnostic.is_change():
        return
    number = parse_numeral(word)
    known = [token.text for token in tokens(diagnostic.texts["data"]) if CODE.fullmatch(token.text)]
    names = [text for text in dict.fromkeys(known) if parse_numeral(text) == number]
    both = (
        f"{' and '.join(names[:2])} are numbers, both {number}" if len(names) > 1 else f"{word} is the number {number}"
    )
    yield f"{both}: quote codes, '{names[0]}'", True


# As in hints_tables.
ALONE: HintTable = (
    (("E20",), semicolon_each_row),
    (("E01",), blank_in_number),
    (("E20", "E36", "E37"), parenthesised),
    (("E36", "E37", "E33"), sign_after),
    (("E01",), sign_in_name),
    (("E05",), member_number),
    (("E31", "E33"), codes),
)
