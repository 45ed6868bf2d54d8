"""Further errors of a data text after its first one.

The program reports the first error alone. A copy of the data in which the wrong cell is empty shows the next one, at
its own position. This works for errors of names, keys, and kinds of values, which do not depend on other values.
"""
from __future__ import annotations

import re
import time
from typing import Sequence

from ..errors import ProgramError, Unreadable
from ..inputs.decimals import whole_copy
from ..program import Session, call
from ..reading.data import Cell, DataText, Statement
from ..reading.keys import reference
from ..reading.model import Shapes, Unparsed, parse
from .diagnostic import LINE, Diagnostic

# The errors that are skipped, how many further ones are looked for, at most, and for how many seconds; how many of one
# name are reported.
SKIPPED = re.compile(r"E3[0136]")
MOST, SECONDS, OF_ONE_NAME = 20, 5.0, 3
# The longest data, in characters, of which copies are made.
LONGEST = 2_000_000


def further_errors(first: Diagnostic, options: Sequence[str] = ()) -> list[Diagnostic]:
    """Returns the diagnostics of the errors after the first one, apart from those with a hint that an error before them
    has; none if they cannot be found."""
    instance = first.instance
    is_joined = instance is not None and (len(instance.data) > 1 or bool(instance.changes))
    if (
        first.text != "data"
        or not first.row
        or is_joined
        or not SKIPPED.match(first.number)
        or len(first.texts["data"]) > LONGEST
    ):
        return []
    model, data = (whole_copy(first.texts[kind], kind) for kind in ("model", "data"))
    try:
        cells = Places(model, data)
    except Unparsed:
        return []
    result: list[Diagnostic] = []
    last, end = first, time.monotonic() + SECONDS
    hints, names = set(first.hints()), [name_of(first)]
    with Session([]) as session:
        path = session.write(model)
        while len(names) <= MOST and time.monotonic() < end and cells.clear(last):
            try:
                call(["compile", path, session.write(cells.text()), *options])
                break
            except ProgramError as problem:
                line = problem.message.rstrip("\n")
            match = LINE.fullmatch(line)
            if (
                match is None
                or match[3] != "data"
                or not SKIPPED.match(match[1])
                or (int(match[4] or 0), int(match[5] or 0)) in cells.seen
            ):
                break
            last = first.another(line)
            names.append(name_of(last))
            new = [hint for hint in last.hints() if hint not in hints]
            if names.count(name_of(last)) <= OF_ONE_NAME and (new or not last.hints()):
                result.append(last)
            hints.update(new)
    return result


def name_of(error: Diagnostic) -> str:
    """Returns the name of the set or parameter that an error is about, or its place without a name."""
    return error.detail.partition("[")[0] or f"{error.row}:{error.column}"


class Places:
    """The statements and cells of a data text by their places. `clear` empties the place of an error; the others do not
    move."""

    def __init__(self, model: str, data: str) -> None:
        decls = parse(model)
        shapes = Shapes(decls)
        self.data = DataText(
            data, {decl.name: shapes.keys[decl.name] for decl in decls if decl.kind == "param"}, shapes.sets
        )
        self.letters: list[str] = list(data)
        self.seen: set[tuple[int, int]] = set()
        self.starts = [0]
        for line in data.split("\n"):
            self.starts.append(self.starts[-1] + len(line) + 1)

    def text(self) -> str:
        return "".join(self.letters)

    def clear(self, error: Diagnostic) -> bool:
        """Empties the cell, the member or the statement that has the error; returns whether one was found."""
        self.seen.add((error.row, error.column))
        at = self.starts[error.row - 1] + len(error.before)
        statement = next(
            (statement for statement in self.data.statements if statement.start <= at < statement.end), None
        )
        if statement is None:
            return False
        if error.number == "E30" or statement.kind == "set":
            return self.clear_name(error, statement, at)
        cell = next((cell for cell in statement.cells if cell.token.start >= at and is_of(error, cell)), None)
        if cell is None:
            return False
        self.put(cell.token.start, cell.token.end, ".")
        return True

    def clear_name(self, error: Diagnostic, statement: Statement, at: int) -> bool:
        """Empties a statement whose name has the error, or a member of a set."""
        if error.number == "E30" and error.detail == statement.name:
            self.put(statement.start, statement.end, "")
            return True
        if error.number != "E31" or statement.kind != "set" or not error.at()[:1].strip():
            return False
        end = self.text().index(")", at) + 1 if error.at().startswith("(") else at + len(error.word())
        self.put(at, end, "")
        return True

    def put(self, start: int, end: int, text: str) -> None:
        """Writes a text in a place, and blanks in the rest; line ends stay."""
        for here in range(start, end):
            self.letters[here] = "\n" if self.letters[here] == "\n" else text[here - start : here - start + 1] or " "


def is_of(error: Diagnostic, cell: Cell) -> bool:
    """Whether a cell has the name and key of an error, if any."""
    try:
        name, key = reference(error.detail)
    except Unreadable:
        return True
    return (cell.name, list(cell.key)) == (name, key)


def further_lines(first: Diagnostic, options: Sequence[str] = ()) -> list[str]:
    """Returns a line for each further error, in the form of editors: the place, the error, and the best hint."""
    found = further_errors(first, options)
    lines = []
    for error in found:
        hint = next(iter(error.hints()), "")
        lines.append(
            f"{error.place()}: {error.number} {error.name} {error.detail}".rstrip() + (f": {hint}" if hint else "")
        )
    return ["More errors in the data:", *lines] if found else []
