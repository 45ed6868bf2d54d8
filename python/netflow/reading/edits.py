"""Edits of a text that keep its lines, and the way back from a place in the edited text to the original."""
from __future__ import annotations

import bisect
from typing import Iterable

from ..types import Edit


class EditedText:
    """A text with replacements `(start, end, new text)`, none of which has a line end or overlaps another."""

    def __init__(self, text: str, edits: Iterable[Edit], path: str | None = None) -> None:
        self.original, self.path = text, path
        self.edits = sorted(edits, key=lambda edit: (edit[0], edit[1]))
        parts, at = [], 0
        for start, end, new in self.edits:
            parts += [text[at:start], new]
            at = end
        self.text = "".join([*parts, text[at:]])
        self.starts = [0]
        for line in self.original.split("\n")[:-1]:
            self.starts.append(self.starts[-1] + len(line) + 1)

    def original_place(self, row: int, column: int) -> tuple[int, int]:
        """Returns the row and the byte column in the original of a place in the edited text."""
        lines = self.text.split("\n")
        if not (1 <= row <= len(lines)) or not column:
            return row, column
        before = lines[row - 1].encode("utf-8", "surrogateescape")[: column - 1].decode("utf-8", "surrogateescape")
        wanted, start = len(before), self.starts[row - 1] if row <= len(self.starts) else len(self.original)
        shift = 0
        for first, last, new in self.edits[bisect.bisect_left(self.edits, (start,)) :]:
            if first - start + shift >= wanted and first != last:
                break
            if first - start + shift > wanted:
                break
            if wanted < first - start + shift + len(new):
                wanted = first - start + shift
                break
            shift += len(new) - (last - first)
        end = start + wanted - shift
        return row, len(self.original[start:end].encode("utf-8", "surrogateescape")) + 1
