"""Looks at the keys of a sheet: rows with the same key, and rows of totals, which are no members."""
from __future__ import annotations

import re
import sys
from typing import Sequence

from ..exact import parse_numeral
from .files import Cell

# What spreadsheets call a row or column of sums.
TOTALS = re.compile(
    "(?:(?:grand[ -]|sub-?)?totals?|sum|summe|zwischensumme|gesamt(?:summe)?|insgesamt|somme|totale|suma|totaal) *:?",
    re.IGNORECASE,
)


def require_keys_once(titles: Sequence[Cell], rows: Sequence[Sequence[Cell]], values: Sequence[Sequence[str]]) -> None:
    """Rejects a row that gives a value to a key that has one, with the number of key columns that is probably meant.
    `titles` are those of all columns, and `values` the cells after the keys."""
    keys = len(titles) - len(values[0]) if values else 0
    seen: dict[tuple[tuple[str, ...], int], Cell] = {}
    for row, cells in zip(rows, values):
        key = tuple(cell.member() for cell in row[:keys])
        for column, value in enumerate(cells):
            if value != "." and (key, column) in seen:
                before = seen[key, column].row + 1
                if not keys:
                    row[0].reject(f"is a second row of values after row {before}: --keys 0 takes one row")
                row[0].reject(f"has the key of row {before}{more_keys(titles, rows, keys)}")
            if value != ".":
                seen[key, column] = row[0]


def more_keys(titles: Sequence[Cell], rows: Sequence[Sequence[Cell]], keys: int) -> str:
    """Returns which columns are probably parts of the key too: the fewest with which no key occurs twice."""
    for count in range(keys + 1, len(titles)):
        if len({tuple(cell.text for cell in row[:count]) for row in rows}) == len(rows):
            names = " and ".join(cell.text for cell in titles[keys:count])
            is_one = count == keys + 1
            return f": {'is' if is_one else 'are'} {names} a part of the key? Use --keys {count}"
    return ", and each key has one row: remove one of the two"


def note_totals(keys: Sequence[Cell], values: Sequence[Sequence[str]], what: str) -> None:
    """Reports the first key that is named as totals are. `values` are the numbers at each key, and `what` says what the
    key becomes."""
    for place, cell in enumerate(keys):
        if TOTALS.fullmatch(cell.text):
            columns = [sum_of(column[: place + 1]) for column in zip(*values)]
            found = next((total for total in columns if total), "")
            sums = f", with {found}, the sum of the values before" if found else ""
            sys.stderr.write(
                f"netflow-sheet: {cell.place()}: {cell.text!r} becomes {what}{sums}: leave it out if it is a total\n"
            )
            return


def sum_of(column: Sequence[str]) -> str:
    """Returns the last number of a column if it is the sum of the others; else an empty text."""
    numbers = [parse_numeral(value) for value in column if value != "."]
    known = [number for number in numbers if number is not None]
    is_sum = len(known) == len(numbers) > 2 and column[-1] != "." and known[-1] == sum(known[:-1])
    return column[-1] if is_sum and known[-1] else ""
