"""The texts of a model and its data: files, or texts in memory."""
from __future__ import annotations

from ..reading.data import DataText
from ..reading.model import tokens_of
from ..reading.text import read
from ..types import Member


class Input:
    """A model or data text: a file, or a text in memory. `name` is the user's name for the text; `path` can be a
    copy of a pipe."""

    def __init__(self, path: str | None = None, text: str | None = None, name: str | None = None) -> None:
        self.path, self.name, self.given = path, path if name is None else name, text

    def text(self) -> str:
        return self.given if self.given is not None else read(self.path)


def unreadable(path: str) -> str:
    """Returns why a file cannot be read; an empty text for a readable one."""
    try:
        with open(path, "rb") as file:
            file.read(1)
    except OSError as problem:
        return problem.strerror or str(problem)
    return ""


def texts_of(model: str, pieces: list[DataText]) -> set[Member]:
    """Returns the texts that a model and its data have as members."""
    texts: set[Member] = {
        token.text[1:-1].replace(token.text[0] * 2, token.text[0])
        for token in tokens_of(model)
        if token.text[0] in "'\""
    }
    return texts | {part for piece in pieces for statement in piece.statements for part in statement.members}
