"""What a conversion cannot express: each problem with its position in the original text."""
from __future__ import annotations

from typing import Sequence


class Inexpressible(Exception):
    """A part of a model or its data that a network cannot express; `offset` is its position in the text."""

    def __init__(self, offset: int, message: str) -> None:
        super().__init__(message)
        self.offset, self.message = offset, message


class Rejected(Exception):
    """A text that is not converted: `lines` name each problem with the file, the line and the column."""

    def __init__(self, lines: Sequence[str]) -> None:
        super().__init__("\n".join(lines))
        self.lines = list(lines)


def place_of(text: str, offset: int) -> str:
    """Returns the line and the column, in bytes, of a position."""
    start = text.rfind("\n", 0, offset) + 1
    column = len(text[start:offset].encode("utf-8", "surrogateescape")) + 1
    return f"{text.count(chr(10), 0, offset) + 1}:{column}"


def problem_lines(name: str, text: str, problems: Sequence[Inexpressible]) -> list[str]:
    """Returns a line for each problem, in the order of the text, each once."""
    ordered = sorted(problems, key=lambda problem: problem.offset)
    return list(dict.fromkeys(f"{name}:{place_of(text, item.offset)}: {item.message}" for item in ordered))
