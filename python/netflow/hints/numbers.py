"""Hints for numbers in data as spreadsheets and people write them: error values, quotes, and marks between groups of
digits."""
from __future__ import annotations

import re

from ..reading.model import Shapes, Unparsed, parse
from ..sheets.files import ERROR_VALUE
from .diagnostic import Diagnostic
from .hint import Hints, HintTable

# A line up to an error value of a spreadsheet, whose # begins a comment.
ERROR_LINE = re.compile(rf"(?m)^[^'\"#\n]*({ERROR_VALUE.pattern})")
COMMA, BLANK = r"(?<![\w.,+-])[+-]?\d+,\d+(?![\w.]|,\S)", r"(?<![\w.,+-])[+-]?[1-9]\d{0,2}(?: \d{3})+(?![\w.]|,\S)"
POINTS = re.compile(r"[+-]?\d{1,3}(?:\.\d{3}){2,}")


def error_value(diagnostic: Diagnostic) -> Hints:
    """`#N/A` and `#DIV/0!` in data."""
    text = diagnostic.texts.get("data", "")
    for found in ERROR_LINE.finditer(text) if diagnostic.text == "data" else ():
        row = text.count("\n", 0, found.start(1)) + 1
        said = f"{found[1]} in {diagnostic.rows_text([row])} is an error value of a spreadsheet, and # begins a comment"
        yield f"{said}: write the number, or a point if there is none", True
        return


def quoted_number(diagnostic: Diagnostic) -> Hints:
    """`hill "30"`."""
    match = re.match(r"(['\"])([+-]?\d+(?:\.\d+)?)\1", diagnostic.at())
    if diagnostic.text == "data" and match and not diagnostic.is_change():
        yield f"{match[0]} is a text: write {match[2]}", True


def number_of(text: str) -> str:
    """Returns what is meant by a number with a comma or blanks in words."""
    if re.fullmatch(r"[+-]?[1-9]\d{0,2}(?:[, ]\d{3})+", text):
        return f"is {re.sub('[, ]', '', text)} meant? Digits are not grouped"
    return f"is {text.replace(',', '.')} meant? Decimals have a point"


def grouped_in_list(diagnostic: Diagnostic) -> Hints:
    """`hill 30,5` and `hill 1 030` in a list: with them as one number its cells fit, and without they do not."""
    if diagnostic.text != "data" or diagnostic.is_change():
        return
    words = diagnostic.statement()
    head = [token.text for token in words[:3]]
    lines = diagnostic.texts["data"].split("\n")
    if head[:1] != ["param"] or head[2:] != [":="]:
        return
    try:
        model = diagnostic.texts.get("model", "")
        size = Shapes(parse(model), model).keys[head[1]] + 1
    except (Unparsed, ValueError, KeyError):
        return
    body = "\n".join(lines[words[0].row - 1 : words[-1].row])
    body = re.sub(r"#[^\n]*", "", body.partition(head[1])[2].partition(":=")[2].partition(";")[0])
    for pattern in (COMMA, BLANK):
        match = re.search(pattern, body)
        if match and size > 1 and has_values(re.sub(pattern, "0", body), size) and not has_values(body, size):
            row = next(row for row in range(words[0].row, words[-1].row + 1) if match[0] in lines[row - 1])
            yield f"{match[0]} in {diagnostic.rows_text([row])}: {number_of(match[0])}", True
            return


def has_values(body: str, size: int) -> bool:
    """Whether a list has whole rows with a number as the last cell of each."""
    cells = body.replace(",", " ").split()
    return len(cells) % size == 0 and all(re.match(r"[+-]?[.\d]", cell) for cell in cells[size - 1 :: size])


def many_points(diagnostic: Diagnostic) -> Hints:
    """`1.200.000`."""
    word = diagnostic.word().rstrip(";,")
    if diagnostic.text == "data" and POINTS.fullmatch(word):
        yield f"{word}: is {word.replace('.', '')} meant? A point begins decimals", True


# As in hints_tables.
ALONE: HintTable = (
    (("E20", "E21", "E32", "E36", "E37"), error_value),
    (("E36",), quoted_number),
    (("E36",), many_points),
    (("E31", "E33", "E36", "E37"), grouped_in_list),
)
