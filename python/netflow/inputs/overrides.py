"""What later data replace in earlier ones, as edits of their texts."""
from __future__ import annotations

import os
from typing import Hashable, Sequence

from ..reading.data import Cell, DataText
from ..types import Edit
from .python_data import PythonData


def numbered_cells(piece: DataText) -> list[tuple[Cell, bool]]:
    """Returns the cells of a data text that can be numbers, and the defaults as cells, each with whether it is one."""
    result: list[tuple[Cell, bool]] = []
    for statement in piece.statements:
        result += [(cell, False) for cell in statement.cells if cell.token.kind == "word"]
        if statement.default is not None:
            result.append((Cell(statement.name, (), statement.default), True))
    return result


class Overrides:
    """What later data replace: cells by name and key, sets and defaults by name."""

    def __init__(self, pieces: list[DataText], changes: PythonData) -> None:
        self.pieces, self.changes = pieces, changes

    def edits(self, piece: DataText) -> list[Edit]:
        """Returns the edits that take out of a data text what later ones say, and its frame, `data;` and `end;`."""
        cells, sets, defaults = set(), set(self.changes.sets), set()
        cells |= {(name, key) for name, rows in self.changes.params.items() for key in rows}
        for later in self.pieces[self.pieces.index(piece) + 1 :]:
            cells |= {(cell.name, cell.key) for cell in later.cells()}
            sets |= {st.name if st.kind == "set" else st.set_name for st in later.statements}
            defaults |= {st.name for st in later.statements if st.default is not None}
        result = [blank(piece.text, token.start, token.end) for token in piece.frame]
        for statement in piece.statements:
            if statement.kind == "set" and statement.name in sets:
                result += blanks(piece.text, statement.start, statement.end)
                continue
            if statement.set_name and statement.set_name in sets:
                result += [blank(piece.text, token.start, token.end) for token in statement.set_tokens]
            if statement.default is not None and statement.name in defaults:
                result += [
                    blank(piece.text, token.start, token.end)
                    for token in (statement.default_word, statement.default)
                    if token is not None
                ]
            result += [
                (cell.token.start, cell.token.end, ".") for cell in statement.cells if (cell.name, cell.key) in cells
            ]
        return result


def contents(piece: DataText) -> set[Hashable]:
    """Returns what a data text gives: values by name and key, sets and defaults by name."""
    result: set[Hashable] = {(cell.name, cell.key) for cell in piece.cells()}
    for statement in piece.statements:
        set_name = statement.name if statement.kind == "set" else statement.set_name
        result |= {("set", set_name)} if set_name else set()
        result |= {("default", statement.name)} if statement.default is not None else set()
    return result


def lines_without_effect(names: Sequence[str | None], pieces: Sequence[DataText]) -> list[str]:
    """Returns a line for each data text that later ones override as a whole, and that has less than they have: it was
    probably meant to come last. A text with the same contents is another version of the later one."""
    titles = [os.path.basename(name) if name else f"data text {index}" for index, name in enumerate(names, 1)]
    given, result = [contents(piece) for piece in pieces], []
    for index, mine in enumerate(given[:-1]):
        later: set[Hashable] = set().union(*given[index + 1 :])
        if mine and mine < later:
            after = [title for title, other in zip(titles[index + 1 :], given[index + 1 :]) if mine & other]
            result.append(
                f"{titles[index]} has no effect: {' and '.join(after)} {'gives' if len(after) == 1 else 'give'} all its"
                f" values again, and later data override earlier ones: is {titles[index]} meant to come last?"
            )
    return result


def blank(text: str, start: int, end: int) -> Edit:
    return start, end, " " * (end - start)


def blanks(text: str, start: int, end: int) -> list[Edit]:
    """Blanks in place of a part of a text, line by line."""
    found, at = [], start
    for line in text[start:end].split("\n"):
        if line:
            found.append(blank(text, at, at + len(line)))
        at += len(line) + 1
    return found
