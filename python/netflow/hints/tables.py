"""Hints for the headings of parameters in data: defaults of several names, names with blanks, a missing colon, columns
that the model lacks."""
from __future__ import annotations

import re
from typing import Iterator

from ..reading.text import Token, few, tokens
from .diagnostic import Diagnostic
from .hint import Hints, HintTable

VALUE = re.compile(r"[+-]?[0-9.]+")


def head_of(diagnostic: Diagnostic) -> list[str]:
    """Returns the words of a `param` statement of the data before its `:=`, without commas; none without `:=`."""
    words = [token.text for token in diagnostic.statement()] if diagnostic.text == "data" else []
    head = words[: words.index(":=")] if ":=" in words else []
    return (
        [word for word in head if word != ","]
        if head[:1] == ["param"] and not {"set", "param", ";"} & set(head[1:])
        else []
    )


def columns_of(head: list[str]) -> list[str]:
    return head[len(head) - head[::-1].index(":") :] if ":" in head else []


def shared_default(diagnostic: Diagnostic) -> Hints:
    """`param default 0: a b := ..` and `param: a default 0 b default 0 := ..`."""
    head = head_of(diagnostic)
    if not head or not re.search(r"\bdefault\s+$", diagnostic.before):
        return
    if head[1] == "default":
        columns = columns_of(head)
        pairs = [(name, head[2]) for name in columns]
    else:
        pairs = (
            [(head[at - 1], head[at + 1]) for at in range(2, len(head) - 1) if head[at] == "default"]
            if head[1] == ":"
            else []
        )
        gone = {at + shift for at in range(len(head)) if head[at] == "default" for shift in (0, 1)}
        columns = columns_of([word for at, word in enumerate(head) if at not in gone])
    if len(columns) == 1 and pairs:
        yield f"give default with each name: param {columns[0]} default {pairs[0][1]} := ..", True
    elif pairs:
        alone = " ".join(f"param {name} default {value} := ;" for name, value in pairs[:4])
        yield f"give default with each name: {alone} param: {' '.join(columns)} := ..", True


def no_colon(diagnostic: Diagnostic) -> Hints:
    """`param cost  hill lake mill :=`"""
    head = head_of(diagnostic)
    has_number = any(VALUE.fullmatch(word) for word in head)
    if (
        len(head) > 3
        and len(diagnostic.statement_before()) == 2
        and not has_number
        and not {":", "default", "(", "["} & set(head)
    ):
        yield f"is a : missing after {head[1]}?", True


def extra_columns(diagnostic: Diagnostic) -> Hints:
    """Columns of a sheet for which the model has no parameter."""
    from .names import nearest

    columns = columns_of(head_of(diagnostic))
    model = diagnostic.words("model")
    known = {name for word, name in zip(model, model[1:]) if word == "param"}
    extra = [name for name in columns if name not in known]
    if (
        diagnostic.detail not in extra
        or len(columns) < 2
        or any(nearest(name, sorted(known - set(columns))) for name in extra)
    ):
        return
    kept = ",".join(["KEY", *(name for name in columns if name in known)])
    yield (
        f"the model has no {' and no '.join(extra)}: leave the column{'s' * (len(extra) > 1)} out (netflow-sheet"
        f" list SHEET --columns {kept})",
        True,
    )


def heading_fault(diagnostic: Diagnostic, head: list[Token], rows: list[list[Token]], wanted: int) -> str:
    """Returns what is wrong with the heading of a table if all its rows have the same other number of cells; else an
    empty text."""
    counts = {len(row) for row in rows}
    if not wanted or len(rows) < 2 or len(counts) > 1 or counts == {wanted}:
        return ""
    count, at = counts.pop(), next(here for here, token in enumerate(head) if token.text == ":")
    columns = [token for token in head[at + 1 :] if token.text != ","]
    said = (
        f"the heading in {diagnostic.line_text(columns[0].row)} has {wanted - 1} column{'s' * (wanted > 2)}, and each"
        f" row has {count - 1} values"
    )
    if count < wanted:
        return f"{said}: {blank_text(diagnostic, columns, wanted - count)}"
    if all(not VALUE.fullmatch(row[1].text) for row in rows):
        first = " ".join(token.bare() for token in rows[0][: count - wanted + 1])
        return f"{said}: is a name with a blank in the rows? Write it with quotes, '{first}'"
    missing = missing_columns(diagnostic, columns, count - wanted)
    return f"{said}: {f'is {missing} missing in the heading?' if missing else 'is a column missing in the heading?'}"


def blank_text(diagnostic: Diagnostic, columns: list[Token], more: int) -> str:
    """Returns which columns of a heading are one name with a blank: one that the data have elsewhere, else the first
    ones."""
    known = {token.bare() for token in tokens(diagnostic.texts.get("data", ""))}
    pairs = [f"{one.bare()} {two.bare()}" for one, two in zip(columns, columns[1:])]
    result = [pair for pair in pairs if pair in known]
    if result:
        return f"write a name with a blank in quotes, {few([repr(pair) for pair in result], 3)}"
    return (
        f"is a name with a blank in it? Write it with quotes, such as '{pairs[0]}'"
        if pairs and more
        else "is a column too many in it?"
    )


def missing_columns(diagnostic: Diagnostic, columns: list[Token], count: int) -> str:
    """Returns the members that the heading lacks, if a set has those of the heading and that many more."""
    from .data import listed

    here = {token.bare() for token in columns}
    for row in listed(diagnostic).values():
        members = list(dict.fromkeys(token.bare() for token in row))
        if here < set(members) and len(members) == len(here) + count:
            return few([name for name in members if name not in here], 3)
    return ""


def unquoted_ranges(diagnostic: Diagnostic) -> Hints:
    """`set WEEKS := 1..3;` in data."""
    for name, token in ranges(diagnostic):
        first, last = map(int, token.text.split(".."))
        some = [str(part) for part in range(first, min(last, first + 5) + 1)]
        listed = " ".join(some) + (f" .. {last}" if last > first + 5 else "")
        yield (
            f"data have no ranges: write {listed} in {diagnostic.rows_text([token.row])}, or set {name} :="
            f" {token.text}; in the model",
            True,
        )
        return


def ranges(diagnostic: Diagnostic) -> Iterator[tuple[str, Token]]:
    """Yields the words such as `1..3` that the data list in sets, each with the name of its set."""
    words: list[Token] = list(tokens(diagnostic.texts.get("data", "")))
    name = ""
    for here, token in enumerate(words):
        is_start = token.text == "set" and [part.text for part in words[here + 2 : here + 3]] == [":="]
        name = words[here + 1].bare() if is_start else "" if token.text == ";" else name
        if name and re.fullmatch(r"-?\d+\.\.-?\d+", token.text):
            yield name, token


# Hints that leave no doubt: if one of them applies, others are left out.
ALONE: HintTable = (
    (("E20",), shared_default),
    (("E20",), no_colon),
    (("E30",), extra_columns),
    (("E32", "E33", "E36", "E50"), unquoted_ranges),
)
