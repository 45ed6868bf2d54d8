"""The words of models and data without the grammar, each with its row, and the texts of files."""
from __future__ import annotations

import os
import re
from typing import Iterator, Sequence

TOKEN = re.compile(r"#[^\n]*|/\*.*?\*/|'(?:[^'\n]|'')*'|\"(?:[^\"\n]|\"\")*\"|:=|[\w.+-]+|\S", re.S)


# The most bytes of a file that netflow takes. The tools read one more, so that netflow rejects a longer file.
MOST_BYTES = 16 * 2**20


class Token:
    def __init__(self, text: str, row: int) -> None:
        self.text, self.row = text, row

    def bare(self) -> str:
        quote = self.text[:1]
        return self.text[1:-1].replace(quote * 2, quote) if quote in ("'", '"') and len(self.text) > 1 else self.text


def few(names: Sequence[str], most: int) -> str:
    """Returns the first names as a text, with how many more there are."""
    return ", ".join(names[:most]) + (f" and {len(names) - most} more" if len(names) > most else "")


def tokens(text: str) -> Iterator[Token]:
    """Yields the words of a text, without comments, each with its row."""
    row, last = 1, 0
    for match in TOKEN.finditer(text):
        row, last = row + text.count("\n", last, match.start()), match.start()
        if not match[0].startswith(("#", "/*")):
            yield Token(match[0], row)


def decoded(raw: bytes) -> str:
    """Returns bytes as a text; bytes that are no characters are kept."""
    return raw.decode("utf-8", "surrogateescape")


def read(path: str | None) -> str:
    """Returns a file's text; an empty one if the file cannot be read."""
    if path is None:
        return ""
    try:
        with open(path, "rb") as file:
            return decoded(file.read(MOST_BYTES + 1)) if os.path.isfile(path) else ""
    except OSError:
        return ""


def lines_of(text: str) -> list[str]:
    """Returns the lines of printed text; a name can have characters that `splitlines` takes for line ends."""
    return text.split("\n")[:-1] if text.endswith("\n") else text.split("\n")
