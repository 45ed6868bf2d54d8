"""Reads sheets of CSV and .xlsx files as cells with their places."""
from __future__ import annotations

import csv
import io
import os
import re
import sys
from typing import Iterable, NoReturn, Sequence

from ..errors import ProgramError
from ..exact import LARGEST, NUMERAL, decimal_text, parse_numeral
from ..program import REJECTED, UNREADABLE_FILE
from ..reading.data import KEY_NUMBER, PLAIN_NAME
from ..reading.text import MOST_BYTES
from .numerals import misread_numeral, plain_numeral
from .workbooks import DateText, NumberText, xlsx_rows

ERROR_VALUE = re.compile(r"#(?:N/A|REF!|DIV/0!|VALUE!|NAME\?|NUM!|NULL!)")


class Cell:
    """The text of a cell, and its place. `mark` is what is between the cells of its file; empty in a workbook."""

    def __init__(self, text: str, path: str, row: int, column: int, mark: str = "") -> None:
        self.text, self.path, self.row, self.column, self.mark = text.strip(), path, row, column, mark
        self.is_number, self.is_date = isinstance(text, NumberText), isinstance(text, DateText)

    def place(self) -> str:
        return f"{self.path}:{column_letters(self.column)}{self.row + 1}"

    def reject(self, why: str) -> NoReturn:
        raise ProgramError(REJECTED, f"{self.place()}: {self.text!r} {why}\n")

    def member(self) -> str:
        """Returns the cell as a member: a whole number as one, all else as a text, with quotes if necessary."""
        if not self.text:
            self.reject("is no member: the cell is empty")
        if PLAIN_NAME.fullmatch(self.text) or KEY_NUMBER.fullmatch(self.text):
            return self.text
        if any(ord(character) < 32 or ord(character) == 127 for character in self.text):
            self.reject("has a line end or another character that no name can have")
        return "'" + self.text.replace("'", "''") + "'"

    def value(self, factor: int = 1, has_comma: bool = False) -> str:
        """Returns the cell as a value: a point for an empty one, a number times the factor, or a text."""
        if not self.text:
            return "."
        if ERROR_VALUE.fullmatch(self.text):
            self.reject("is an error value of the spreadsheet: write the number, or leave the cell empty")
        # A number of a workbook is one, whatever texts look like.
        has_comma = has_comma and not self.is_number
        text = plain_numeral(self.text, has_comma)
        if has_comma and text == self.text and misread_numeral(text, True):
            self.reject(misread_numeral(text, True))
        if NUMERAL.fullmatch(text):
            number = parse_numeral(text)
            if number is None or abs(number * factor) > LARGEST:
                self.reject(f"is past {LARGEST}: use a larger unit")
            scaled = number * factor
            if factor != 1 and scaled.denominator != 1:
                self.reject(f"times {factor} is not whole: use a larger factor")
            if scaled.denominator == 1:
                return str(scaled)
            return text if text == self.text else decimal_text(number)
        misread = misread_numeral(self.text, has_comma)
        if misread:
            self.reject(misread)
        return self.member()

    def name(self) -> str:
        if PLAIN_NAME.fullmatch(self.text):
            return self.text
        unit = re.fullmatch(rf"({PLAIN_NAME.pattern})\s*[(\[]([^()\[\]]*)[)\]]", self.text)
        if unit:
            self.reject(f"is no name of a set or parameter: is {unit[1]} meant? Leave the unit {unit[2]} out")
        self.reject("is no name of a set or parameter")


def column_letters(column: int) -> str:
    letters, column = "", column + 1
    while column:
        column, letter = divmod(column - 1, 26)
        letters = chr(ord("A") + letter) + letters
    return letters


def column_number(letters: str) -> int:
    number = 0
    for letter in letters:
        number = 26 * number + ord(letter) - ord("A") + 1
    return number - 1


def read_sheet(source: str) -> list[list[Cell]]:
    """Returns the rows that have something in them: of a CSV file, of standard input (`-`), or of a sheet,
    `FILE.xlsx:SHEET`."""
    path, _, sheet = source.partition(".xlsx")
    try:
        if source.lower().endswith(".xlsx") or sheet.startswith(":"):
            texts: Iterable[Sequence[str]] = xlsx_rows(
                source if not sheet.startswith(":") else f"{path}.xlsx", sheet[1:]
            )
            mark = ""
        else:
            texts, mark = csv_rows(source)
    except OSError as problem:
        raise ProgramError(UNREADABLE_FILE, f"netflow-sheet: {source}: {problem.strerror or problem}\n") from None
    rows = [
        trimmed([Cell(text, source, row, column, mark) for column, text in enumerate(line)])
        for row, line in enumerate(texts)
    ]
    rows = [line for line in rows if line]
    if not rows:
        emptied = is_standard_output(source) and ", as the output goes to the same file, which the shell empties first:"
        said = f"{emptied} send it to another file" if emptied else ""
        raise ProgramError(REJECTED, f"netflow-sheet: {source}: the sheet is empty{said}\n")
    return rows


def is_standard_output(path: str) -> bool:
    """Whether a path is that of the file to which standard output goes."""
    try:
        return os.path.samestat(os.stat(path), os.fstat(1))
    except OSError:
        return False


def csv_rows(path: str) -> tuple[Iterable[Sequence[str]], str]:
    """Returns the rows of a CSV file and the mark between cells: the one of comma, semicolon and tab that the first row
    has most of. A workbook has no mark."""
    if path == "-":
        raw = sys.stdin.buffer.read(MOST_BYTES + 1)
    else:
        with open(path, "rb") as file:
            raw = file.read(MOST_BYTES + 1)
    if len(raw) > MOST_BYTES:
        raise ProgramError(REJECTED, f"netflow-sheet: {path}: more than 16 MiB, which no data file can have\n")
    if raw[:4] == b"PK\x03\x04":
        return xlsx_rows(path, ""), ""
    if raw[:4] == b"\xd0\xcf\x11\xe0":
        said = "a workbook of an old form (.xls): save it as .xlsx, or as CSV in UTF-8"
        raise ProgramError(REJECTED, f"netflow-sheet: {path}: {said}\n")
    encoding = "utf-16" if raw[:2] in (b"\xff\xfe", b"\xfe\xff") else "utf-8-sig"
    try:
        text = raw.decode(encoding)
    except UnicodeDecodeError:
        raise ProgramError(
            REJECTED, f"netflow-sheet: {path}: not UTF-8: save it as CSV in UTF-8, or use iconv -f latin1 -t utf-8\n"
        ) from None
    first = next((line for line in text.splitlines() if line.strip()), "")
    mark = max(",;\t", key=first.count)
    return csv.reader(io.StringIO(text, newline=""), delimiter=mark), mark


def trimmed(line: list[Cell]) -> list[Cell]:
    """Returns a row without the empty cells at its end."""
    while line and not line[-1].text:
        line = line[:-1]
    return line


def filled(line: list[Cell], width: int) -> list[Cell]:
    """Returns a row with as many cells as the heading has."""
    if len(line) > width:
        line[width].reject(f"is to the right of the heading{decimal_advice(line, width)}")
    return line + [Cell("", line[0].path, line[0].row, column) for column in range(len(line), width)]


def decimal_advice(line: list[Cell], width: int) -> str:
    """Returns which two cells of a row that is too long are probably one number with a decimal comma."""
    pairs = [
        f"{first.text},{second.text}"
        for first, second in zip(line, line[1:])
        if second.mark == "," and re.fullmatch("[+-]?[0-9]+", first.text) and re.fullmatch("[0-9]+", second.text)
    ]
    if len(line) != width + 1 or len(pairs) != 1:
        return ""
    quoted = f'write "{pairs[0]}" in quotes'
    return f": is {pairs[0]} one number? Commas are between the cells: {quoted}, or save with semicolons"


def stem(path: str) -> str:
    return os.path.splitext(os.path.basename(path))[0]
