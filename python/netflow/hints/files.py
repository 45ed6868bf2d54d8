"""Hints for whole files: one that cannot be read, is a spreadsheet, has another encoding, or is the other file."""
from __future__ import annotations

import difflib
import os
import re
import unicodedata

from ..reading.text import tokens
from .diagnostic import Diagnostic
from .hint import Hints, HintTable

# A carriage return that ends a line alone, inside a comment, which it does not end.
LONE_RETURN = re.compile(r"#[^\n]*?\r(?![\r\n])[^\n]")


def unread_file(diagnostic: Diagnostic) -> Hints:
    path = diagnostic.path if diagnostic.path is not None else ""
    try:
        with open(path, "rb") as file:
            file.read(1)
    except OSError as problem:
        yield f"{diagnostic.called}: {problem.strerror}", True
        if "\\" in path:
            yield "on Linux and in WSL a path has /, as in /mnt/c/plans/x.mod", True
        folder, name = os.path.split(path)
        if isinstance(problem, FileNotFoundError) and os.path.isdir(folder or "."):
            near = difflib.get_close_matches(name, os.listdir(folder or "."), 1, 0.7)
            if near:
                yield f"is {os.path.join(folder, near[0])} meant?", True


def spreadsheet(diagnostic: Diagnostic) -> str:
    """Returns what to do with a spreadsheet that is given as a model or as data; an empty text if the file is none."""
    raw = diagnostic.texts.get(diagnostic.text, "").encode("utf-8", "surrogateescape")
    if raw.startswith(b"\xd0\xcf\x11\xe0"):
        return (
            "this is a spreadsheet of an old form (.xls): save it as .xlsx, and `netflow-sheet list FILE.xlsx` makes"
            " data of it"
        )
    if not raw.startswith(b"PK\x03\x04"):
        return ""
    if b"opendocument" in raw[:100]:
        return "this is a spreadsheet (.ods): save it as .xlsx, and `netflow-sheet list FILE.xlsx` makes data of it"
    name = diagnostic.called if diagnostic.called and diagnostic.called.lower().endswith(".xlsx") else "FILE.xlsx"
    return f"this is a spreadsheet (.xlsx): `netflow-sheet list {name}` makes data of it"


def odd_character(diagnostic: Diagnostic) -> Hints:
    character = diagnostic.at()[:1]
    found = spreadsheet(diagnostic)
    if found:
        yield found, True
    elif character == "\ufeff":
        yield "the file begins with a byte order mark, which cannot be seen: save it as UTF-8 without one", True
    elif character == "=" and diagnostic.text == "data":
        yield "write := for = in data", True
    elif (
        character == "/"
        and diagnostic.text == "data"
        and re.search(r"[:=\s]\d+$", diagnostic.before)
        and re.match(r"/\d+\b", diagnostic.at())
    ):
        yield "a value is one number: write 0.5 for 1/2", True
    elif character == "/" and diagnostic.text == "data":
        yield (
            ("comments begin with #", True)
            if diagnostic.at().startswith("//")
            else (
                "quote a text with /: 'a/b'",
                False,
            )
        )
    elif character and not character.isascii():
        yield f"the character is {unicodedata.name(character, 'one without a name')} (U+{ord(character):04X})", False


def not_utf8(diagnostic: Diagnostic) -> Hints:
    raw, found = diagnostic.texts.get(diagnostic.text, "").encode("utf-8", "surrogateescape")[:2], spreadsheet(
        diagnostic
    )
    if found:
        yield found, True
    elif raw in (b"\xff\xfe", b"\xfe\xff"):
        yield "the file is UTF-16: save it as UTF-8, or use iconv -f utf-16 -t utf-8", True
    else:
        yield "the file is perhaps Latin-1 or Windows-1252: save it as UTF-8, or use iconv -f latin1 -t utf-8", False


def exchanged(diagnostic: Diagnostic) -> Hints:
    shaping = {"node", "arc", "minimize", "maximize"}
    if (
        diagnostic.text == "model"
        and not shaping & set(diagnostic.words("model"))
        and shaping & set(diagnostic.words("data"))
    ):
        yield "are the two files exchanged? The model comes first", True


def empty_model(diagnostic: Diagnostic) -> Hints:
    if not list(tokens(diagnostic.texts.get("model", ""))):
        yield "the model is empty: is the first file the right one?", True


def web_page(diagnostic: Diagnostic) -> Hints:
    """The page of netflow-report as a model or as data."""
    if re.match(r"(?i)\s*<(?:!doctype\s+html|html)\b", diagnostic.at()) and not diagnostic.before.strip():
        name = diagnostic.called or "FILE.html"
        kind = "a model" if diagnostic.text == "model" else "data"
        yield f"{name} is a web page, not {kind}; to write a page: netflow-report MODEL DATA > {name}", True


def code_fence(diagnostic: Diagnostic) -> Hints:
    """The lines with three grave accents around code that is copied from a chat."""
    if diagnostic.at().startswith("```"):
        yield "``` is no part of the code, but marks it in a chat or in Markdown: delete each line with ```", True


def lone_returns(diagnostic: Diagnostic) -> Hints:
    """Lines that end with a carriage return alone, so that the first comment is the rest of the file."""
    for kind, name in zip(("model", "data"), diagnostic.asked[2]):
        text = diagnostic.texts.get(kind, "")
        match = LONE_RETURN.search(text)
        if match:
            row = text.count("\n", 0, match.start()) + 1
            place = diagnostic.rows_text([row]) if kind == "data" else f"line {row}"
            yield (
                f"the lines of the {kind} {name or ''} end with a carriage return (CR) alone, so that the comment"
                f" in {place} goes on to the end: save the file with LF or CR LF as line ends"
            ), True
            return


# As in hints_tables.
ALONE: HintTable = (
    (("E01", "E10"), web_page),
    (("E01",), code_fence),
    (("E10", "E12", "E14", "E20", "E30", "E32", "E56"), lone_returns),
)
