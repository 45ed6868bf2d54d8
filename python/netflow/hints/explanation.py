"""What a person reads of an error: its place and the hint, the line of the input, what the code means in general."""
from __future__ import annotations

import textwrap
import unicodedata
from typing import Sequence

from .diagnostic import Diagnostic
from .later_errors import further_lines

WIDTH, AROUND = 100, 60


def width(text: str) -> int:
    """Returns the columns of a terminal that a text takes."""
    return sum(
        0 if unicodedata.combining(letter) else 2 if unicodedata.east_asian_width(letter) in "WF" else 1
        for letter in text
    )


def source_lines(diagnostic: Diagnostic) -> list[str]:
    """Returns the line of the input, of a long one the part around the place, and the mark below."""
    before, after = diagnostic.before, diagnostic.at()
    if len(before) > AROUND:
        before = ".. " + before[-AROUND:]
    if len(after) > 2 * AROUND:
        after = after[: 2 * AROUND] + " .."
    # A tab stays one, so that the mark is below its place in any terminal.
    under = "".join(letter if letter == "\t" else " " * width(letter) for letter in before)
    return [f"    {before}{after}", *([f"    {under}^"] if diagnostic.column else [])]


def lines_of(diagnostic: Diagnostic) -> list[str]:
    """Returns the explanation: hints, then what the code means. A sure hint comes alone; without one, what to do
    in general comes last."""
    place = diagnostic.place() if diagnostic.called or diagnostic.is_change() else ""
    means, remedy = diagnostic.catalogue()
    hints = diagnostic.hints()
    first = f"Hint: {hints[0]}" if hints else means
    lines = [f"{place}: {first}"] if place else [first]
    if not hints:
        lines = textwrap.wrap(lines[0], WIDTH, break_long_words=False, break_on_hyphens=False)
    is_text = "\0" not in diagnostic.shown and not diagnostic.shown.startswith("PK\x03\x04")
    lines += source_lines(diagnostic) if diagnostic.shown.strip() and is_text and not diagnostic.is_change() else []
    lines += [f"  Hint: {hint}" for hint in hints[1:]]
    lines += indented(f"{diagnostic.number}: {means}") if hints and means else []
    return lines + (indented(f"To fix: {remedy}") if remedy and not diagnostic.has_sure_hint() else [])


def indented(text: str) -> list[str]:
    return textwrap.wrap(text, WIDTH, initial_indent="  ", subsequent_indent="  ", break_long_words=False)


def explanation(diagnostic: Diagnostic, options: Sequence[str] = ()) -> list[str]:
    """Returns the explanation of an error, with a line for each further error of the data."""
    return [*lines_of(diagnostic), *further_lines(diagnostic, options)]
