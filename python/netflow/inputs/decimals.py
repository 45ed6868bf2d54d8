"""The first error of a model or its data besides their decimals.

The program reports a decimal (E04) before parsing. Copies that have a whole numeral of the same length for
each decimal show the error that comes next, at its own position.
"""
from __future__ import annotations

import math
import re

from ..errors import ProgramError
from ..exact import parse_numeral
from ..program import REJECTED, Session, call
from ..reading.text import read

SKIPPED = r"#[^\n]*|/\*.*?\*/|'(?:[^'\n]|'')*'|\"(?:[^\"\n]|\"\")*\"|"
NUMERALS = {
    "model": re.compile(
        SKIPPED + r"[^\W\d]\w*|\.\.|(?P<numeral>(?:[0-9]+(?:\.[0-9]+)?|\.[0-9]+)(?:[eEdD][+-]?[0-9]+)?)", re.S
    ),
    "data": re.compile(SKIPPED + r"(?P<numeral>[\w.+\-\u00b7]+)", re.S),
}
# Errors of tokens and grammar, and others that do not depend on the values of numbers: names, doubled values, keys and
# kinds.
GRAMMAR = re.compile(r"E(?!04)[012]\d ")
CERTAIN = re.compile(r"E(?!04)(?:[012]\d|30|31|33|36|37) ")


def whole_copy(text: str, kind: str) -> str:
    """Returns the text with each numeral that is not whole replaced by the next whole number, at the same length."""

    def whole(found: re.Match[str]) -> str:
        number = parse_numeral(found["numeral"]) if found["numeral"] else None
        if number is None or number.denominator == 1:
            return found[0]
        # A blank for a first point: `x.5` is two tokens.
        sign = {".": " "}.get(found[0][0], found[0][0] if found[0][0] in "+-" else "")
        return sign + str(math.ceil(abs(number))).rjust(len(found[0]) - len(sign), "0")

    return NUMERALS[kind].sub(whole, text)


def is_decimal(problem: ProgramError) -> bool:
    return problem.status == REJECTED and problem.message.startswith("E04 ")


def next_error(session: Session, kinds: re.Pattern[str] = CERTAIN) -> ProgramError | None:
    """Returns the program's error for the files of a session besides their decimals; None without an error of these
    kinds."""
    copies = [session.write(whole_copy(read(path), kind)) for path, kind in zip(session.files, ("model", "data"))]
    try:
        call(["compile", *copies, *session.options])
    except ProgramError as problem:
        return problem if kinds.match(problem.message) else None
    return None
