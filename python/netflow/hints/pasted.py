"""Hints for what is pasted into data from sheets: cells between semicolons, corners, units, dates, grouped digits; and
for costs that depend on flows."""
from __future__ import annotations

import re

from .data import bare, declared_as, listed
from .diagnostic import Diagnostic
from .habits import outputs
from .hint import Hints, HintTable
from .tables import columns_of, head_of

# A ; between cells: what follows begins no statement and no comment.
SEMICOLON = re.compile(r"[^\s;#];\s*(?!(?:set|param|end|data)\b)[^\s;#]|:\s*;")
GROUPED = re.compile(r"(?<![\w.'])[+-]?[0-9]{1,3}(?:['\u2019][0-9]{3})+(?![\w'])")
DATE = re.compile(r"[0-9]{1,4}/[0-9]{1,2}/[0-9]{1,4}")


def statement_name(diagnostic: Diagnostic) -> str:
    words = [token.bare() for token in diagnostic.statement()][:2]
    return words[1] if len(words) == 2 and words[0] == "param" and re.fullmatch(r"\w+", words[1]) else ""


def semicolons(diagnostic: Diagnostic) -> Hints:
    """`Linz;4;6` in a table; a whole file of CSV has a hint of its own."""
    text = diagnostic.texts.get("data", "")
    lines = text.split("\n") if ":=" in text else [""]
    for row in range(max(1, diagnostic.row - 1), min(len(lines), diagnostic.row + 1) + 1):
        cells = re.sub(r"#.*|'[^']*'|\"[^\"]*\"", "", lines[row - 1])
        if diagnostic.text == "data" and not diagnostic.is_change() and SEMICOLON.search(cells):
            yield (
                f"{diagnostic.line_text(row)} looks like CSV, with ; between its cells, and ; ends a statement:"
                f" `netflow-sheet grid {statement_name(diagnostic) or 'NAME'} FILE.csv` makes data of a CSV file"
            ), True
            return


def corner(diagnostic: Diagnostic) -> Hints:
    """`param cost: Plant Wien Linz := Graz 4 6;`, with the title of the corner of a sheet."""
    columns = [bare(column) for column in columns_of(head_of(diagnostic))]
    known = {token.bare() for row in listed(diagnostic).values() for token in row}
    if len(columns) > 1 and columns[0] not in known and set(columns[1:]) <= known:
        yield (
            f"is {columns[0]} the title of the corner? The heading has the columns alone:"
            f" {' '.join(columns_of(head_of(diagnostic))[1:])} := .."
        ), True


def column_twice(diagnostic: Diagnostic) -> Hints:
    columns = columns_of(head_of(diagnostic))
    twice = [column for column in dict.fromkeys(columns) if columns.count(column) > 1]
    if twice and diagnostic.text == "data":
        row = next((token.row for token in diagnostic.statement() if token.text == twice[0]), diagnostic.row)
        yield f"the heading in {diagnostic.line_text(row)} has {twice[0]} twice: remove one of the two columns", True


def unit_in_heading(diagnostic: Diagnostic) -> Hints:
    """`param cost (EUR): ..`"""
    words = [token.text for token in diagnostic.statement_before()]
    # Only (tr) can be there, so that the place can be the word in the parentheses.
    opened = "" if diagnostic.at().startswith("(") else "("
    match = re.match(r"\(\s*([^()]*?)\s*\)", opened + diagnostic.at())
    is_open = not opened or diagnostic.before.rstrip().endswith("(")
    if (
        is_open
        and diagnostic.text == "data"
        and words[:1] == ["param"]
        and ":=" not in words
        and match
        and match[1] != "tr"
    ):
        yield f"is ({match[1]}) a unit? A heading has none: write it in a comment, # {match[1]}", True


def grouped(diagnostic: Diagnostic) -> Hints:
    """`1'080`."""
    match = GROUPED.search(diagnostic.shown)
    if diagnostic.text == "data" and match and not diagnostic.is_change():
        meant = re.sub("['\u2019]", "", match[0])
        yield f"{match[0]}: is {meant} meant? Digits are not grouped", True


def date(diagnostic: Diagnostic) -> Hints:
    """`1/12/2026`."""
    place = len(diagnostic.before)
    match = next((item for item in DATE.finditer(diagnostic.shown) if item.start() <= place <= item.end()), None)
    if diagnostic.text == "data" and match:
        yield f"is {match[0]} a date? As a name it needs quotes: '{match[0]}'", True


def asks_flow(diagnostic: Diagnostic) -> Hints:
    """A cost or a bound that depends on the flow of an arc."""
    words = [token.text for token in diagnostic.statement_before()]
    if diagnostic.text == "model" and words[:1] == ["arc"] and diagnostic.detail in declared_as(diagnostic, "arc"):
        what = "a cost" if "obj" in words else "an arc"
        yield (
            f"{what} cannot depend on a flow, and {diagnostic.detail} is an arc: a flow is what the plan decides; steps"
            " of a cost are several arcs"
        ), True


# As in hints_tables.
ALONE: HintTable = (
    *outputs.ALONE,
    (("E20", "E21", "E31", "E33", "E36"), semicolons),
    (("E21",), corner),
    (("E31",), column_twice),
    (("E20",), unit_in_heading),
    (("E01",), grouped),
    (("E01",), date),
    (("E12",), asks_flow),
)
