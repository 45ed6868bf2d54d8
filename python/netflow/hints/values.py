"""Hints for values in data texts: units, repeated and restricted values, missing marks, misspelt words of statements.
"""
from __future__ import annotations

import difflib
import re
import unicodedata
from typing import Sequence

from ..errors import Unreadable
from ..reading.data import Cell, DataText
from ..reading.keys import members, reference, shown
from ..reading.memberships import Memberships, Unknown
from ..reading.model import Phrase, Shapes, Unparsed, parse
from ..reading.text import few, tokens
from ..types import Member
from .diagnostic import Diagnostic
from .hint import Hints, HintTable

QUOTES = "\u2018\u2019\u201a\u201b\u201c\u201d\u201e\u201f\u00ab\u00bb\u2039\u203a`\u00b4"
DASHES = "\u2010\u2011\u2012\u2013\u2014\u2212"


def character(diagnostic: Diagnostic) -> Hints:
    """Typographic quotes and dashes, units, and marks that begin comments elsewhere."""
    mark = diagnostic.at()[:1]
    name = unicodedata.name(mark, "a character without a name") if mark else ""
    if mark in ("%", "!", "\\", '"') and not diagnostic.before.strip():
        yield "comments begin with #", True
    elif mark == "%" and re.search(r"\d\s*$", diagnostic.before):
        yield "write the number without %", True
    elif mark and mark in QUOTES:
        yield f"the character is {name} (U+{ord(mark):04X}): write ' for it", True
    elif mark and mark in DASHES:
        yield f"the character is {name} (U+{ord(mark):04X}): write - for it", True
    elif mark and unicodedata.category(mark) == "Sc":
        yield f"write the number without its unit, {mark}", True
    elif mark and unicodedata.category(mark) == "Zs" and mark != " ":
        said = f"the character is {name} (U+{ord(mark):04X}), a blank that looks like a plain one"
        yield f"{said}: write a plain one", True


def unit(diagnostic: Diagnostic) -> Hints:
    """`40km`, or `40 loaves` for a parameter with one value."""
    word = diagnostic.word().rstrip(",;")
    match = re.fullmatch(r"([+-]?\d+(?:\.\d+)?)[^\W\d_]+", word)
    if diagnostic.text != "data" or diagnostic.is_change():
        return
    if diagnostic.number == "E36" and match and not word.translate(str.maketrans("OoIl", "0011")).isdigit():
        yield f"{word}: write the number without its unit, {match[1]}", True
    elif (
        diagnostic.number == "E31"
        and "[" not in diagnostic.detail
        and re.search(r":=\s*\d{1,3}(?:\s\d{3})*\s$", diagnostic.before)
        and re.match(r"\d{3}\b", diagnostic.at())
    ):
        digits = re.search(r":=\s*([\d\s]+)$", diagnostic.before)
        meant = "".join(digits[1].split()) + diagnostic.at()[:3]  # type: ignore[index]
        yield f"{diagnostic.detail} has one value: is {meant} meant? Digits are not grouped", True
    elif (
        diagnostic.number == "E31"
        and "[" not in diagnostic.detail
        and re.search(r"\d\s*$", diagnostic.before)
        and re.match(r"[^\W\d]", word)
    ):
        yield f"{diagnostic.detail} has one value: is {word} a unit? Leave it out", True


def one_number(diagnostic: Diagnostic) -> Hints:
    """`30-45` for a value."""
    if diagnostic.text == "data" and re.fullmatch(r"\d+-\d+", diagnostic.word()):
        yield (
            f"{diagnostic.word()} is no number, and a value is one number; a range needs two parameters, a least"
            " and a most",
            True,
        )


def keys_as_tuples(diagnostic: Diagnostic) -> Hints:
    """`param cost := (north,hill) 4`."""
    words = [token.text for token in diagnostic.statement_before()]
    match = re.match(r"\(([^()]*)\)\s*(\S+)", diagnostic.at())
    if diagnostic.text == "data" and words[:1] == ["param"] and words[-1:] == [":="] and match:
        yield (
            "the keys of a value have no parentheses:"
            f" {' '.join(part.strip() for part in match[1].split(','))} {match[2].rstrip(';')}",
            True,
        )


def short_item(diagnostic: Diagnostic) -> Hints:
    """`hill 30, lake, mill 25`: an item between commas without its value."""
    text = "\n".join(diagnostic.texts.get("data", "").split("\n")[: diagnostic.row])
    start = text.rfind(":=", 0, len(text) - len(diagnostic.at()))
    if diagnostic.text != "data" or diagnostic.is_change() or start < 0:
        return
    rest = diagnostic.texts["data"][start + 2 :].partition(";")[0]
    sizes = [len(part.split()) for part in rest.split(",")]
    usual = max(sizes, key=sizes.count)
    short = [part.split() for part in rest.split(",") if 0 < len(part.split()) == usual - 1]
    if (
        usual > 1
        and len(short) == 1
        and sizes.count(usual) == len(sizes) - 1 > 1
        and not re.match(r"[-+.\d]", short[0][-1])
    ):
        yield f"is the value of {' '.join(short[0])} missing?", True


def misspelt_statement(diagnostic: Diagnostic) -> Hints:
    """`parm` for `param`, `defualt` for `default`."""
    word = diagnostic.word().lower()
    if diagnostic.text != "data" or not re.fullmatch(r"[a-z]+", word):
        return
    is_first = len(diagnostic.statement_before()) == 0
    known = ("set", "param", "data", "end") if is_first else ("default",)
    meant = "set" if word in ("sets", "let") else next(iter(difflib.get_close_matches(word, known, 1, 0.7)), "")
    if meant and meant != diagnostic.word():
        yield f"{diagnostic.word()}: is {meant} meant?", True


def missing_mark(diagnostic: Diagnostic) -> Hints:
    """`param van 40;`"""
    before = [token.text for token in diagnostic.statement_before()]
    if (
        diagnostic.text == "data"
        and before[:1] in (["set"], ["param"])
        and len(before) == 2
        and re.match(r"[\w'\"(.+-]", diagnostic.at())
        and not list(misspelt_statement(diagnostic))
        and diagnostic.word() != "default"
    ):
        yield f"is := missing before {diagnostic.word().rstrip(';')}?", True


def cells_of(diagnostic: Diagnostic) -> list[tuple[Cell, int]]:
    """Returns the data's cells, also those with a missing-value dot, each with its row; none if the texts cannot be
    parsed."""
    try:
        shapes = Shapes(parse(diagnostic.texts.get("model", "")))
        params = {decl.name: shapes.keys[decl.name] for decl in shapes.decls.values() if decl.kind == "param"}
        text = diagnostic.texts.get("data", "")
        found = DataText(text, params, shapes.sets, is_joined=True)
    except (Unparsed, ValueError, IndexError):
        return []
    rows, row, last = [], 1, 0
    for cell in sorted(
        (cell for statement in found.statements for cell in statement.cells), key=lambda cell: cell.token.start
    ):
        row, last = row + text.count("\n", last, cell.token.start), cell.token.start
        rows.append((cell, row))
    return rows


def is_dot(cell: Cell) -> bool:
    return cell.token.text == "." and cell.token.kind == "word"


def named_cells(diagnostic: Diagnostic, dots: bool = False) -> list[tuple[Cell, int]]:
    """Returns the cells that the error's detail names: those with a value, or those with a missing-value dot."""
    name, bracket, rest = diagnostic.detail.partition("[")
    key = members(rest[:-1]) if bracket else []
    return [
        (cell, row)
        for cell, row in cells_of(diagnostic)
        if key is not None and cell.name == name and list(cell.key) == list(key) and is_dot(cell) == dots
    ]


def cell_place(diagnostic: Diagnostic, cell: Cell, row: int) -> str:
    """Returns the line and the column of a cell in words."""
    text = diagnostic.texts["data"]
    before = text[text.rfind("\n", 0, cell.token.start) + 1 : cell.token.start]
    return f"{diagnostic.rows_text([row])}, column {len(before.encode('utf-8', 'surrogateescape')) + 1}"


def restricted(diagnostic: Diagnostic) -> Hints:
    """The value that a restriction rejects."""
    found = named_cells(diagnostic)
    if diagnostic.text == "model" and found:
        cell, row = found[-1]
        value: object = cell.token.text
        place = cell_place(diagnostic, cell, row)
        if diagnostic.instance is not None and diagnostic.instance.change_at(row):
            value, place = diagnostic.instance.value_at(row)[2], diagnostic.instance.change_at(row)
        phrase = re.match(r"[^,;]*", diagnostic.at())
        sign = re.search(r"(<=|>=|<>|!=|<|>|\bin|\bwithin)\s*$", diagnostic.before)
        said = f"; the model has {sign[1]} {phrase[0].strip()}" if sign and phrase else ""
        yield f"{diagnostic.detail} is {value} in {place}{said}", True


def missing_value(diagnostic: Diagnostic) -> Hints:
    """The dot of a value that is missing, or the values with the nearest keys."""
    name, bracket, rest = diagnostic.detail.partition("[")
    key = members(rest[:-1]) if bracket else None
    if diagnostic.text != "model" or not key:
        return
    dots = named_cells(diagnostic, dots=True)
    if dots:
        yield f"{diagnostic.detail} is a missing-value dot in {cell_place(diagnostic, *dots[-1])}", True
        return
    near = [
        (nearness(cell.key, key), cell, row)
        for cell, row in cells_of(diagnostic)
        if cell.name == name and len(cell.key) == len(key) and not is_dot(cell)
    ]
    best = max((found for found, _, _ in near), default=(0, 0))
    if near and diagnostic.instance is not None and diagnostic.instance.is_from_python():
        keys = [repr(cell.key[0] if len(cell.key) == 1 else cell.key) for found, cell, _ in near if found == best]
        lacking = f"{key[0] if len(key) == 1 else tuple(key)!r}"
        yield f"{name} has no value at {lacking}; it has values at {few(keys, 3)}", True
        return
    listed = [
        f"{name}[{','.join(map(shown, cell.key))}] in {diagnostic.rows_text([row])}"
        for found, cell, row in near
        if found == best
    ][:3]
    if near:
        place = f"the nearest: {', '.join(listed)}" if best[0] else f"{name} is in {diagnostic.rows_text([near[0][2]])}"
        yield f"the data have no row of {diagnostic.detail}; {place}", True


def nearness(key: Sequence[Member], wanted: Sequence[Member]) -> tuple[int, int]:
    """Returns how many parts two keys have in common, and how many of the first ones."""
    same = [one == other for one, other in zip(key, wanted)]
    return sum(same), same.index(False) if False in same else len(same)


def given_twice(diagnostic: Diagnostic) -> Hints:
    """Both places of a value or a member that is given twice."""
    found = named_cells(diagnostic)
    if diagnostic.text == "data" and len(found) > 1 and "[" in diagnostic.detail:
        (first, row), (second, other) = found[:2]
        yield (
            f"{diagnostic.detail} is {first.token.text} in {diagnostic.rows_text([row])} and {second.token.text} in"
            f" {diagnostic.rows_text([other])}: remove one of the two",
            True,
        )
    elif diagnostic.text == "data" and not found and diagnostic.detail and "[" not in diagnostic.detail:
        yield from listed_twice(diagnostic)


def crossed(diagnostic: Diagnostic) -> Hints:
    """Both bounds of an arc whose lower one is above its upper one, with their lines."""
    try:
        world, (name, key) = Memberships(
            diagnostic.texts.get("model", ""), diagnostic.texts.get("data", "")
        ), reference(diagnostic.detail)
        decl = world.shapes.decls[name]
        indices = (
            [
                part.value
                for item in decl.braces.args
                if item.op == "in"
                for part in item.args[0].walk()
                if part.op == "name"
            ]
            if decl.braces
            else []
        )
        sides = [bound_text(diagnostic, world, decl.phrase(sign), dict(zip(indices, key))) for sign in (">=", "<=")]
    except (Unparsed, Unknown, Unreadable, ValueError, KeyError, IndexError, TypeError):
        return
    yield f"the lower bound, {sides[0]}, is above the upper bound, {sides[1]}", True


def bound_text(diagnostic: Diagnostic, world: Memberships, phrase: Phrase | None, env: dict[str, Member]) -> str:
    """Returns a bound with its value and the line of the data that has the value, such as `van, is 40 in line 5`."""
    if phrase is None:
        raise Unknown
    expr = phrase.exprs[0]
    value, text = world.value(expr, env), world.text(expr)
    if expr.op != "name":
        return str(value) if text == str(value) else f"{text}, which is {value}"
    key = [world.value(part, env) for part in expr.args]
    rows = [row for cell, row in cells_of(diagnostic) if cell.name == expr.value and list(cell.key) == key]
    title = f"{expr.value}[{','.join(map(shown, key))}]" if key else expr.value
    return f"{title} = {value}{f' in {diagnostic.rows_text(rows[-1:])}' if rows else ''}"


def second_statement(diagnostic: Diagnostic) -> Hints:
    """A set or parameter with two statements, as in two data files that were joined."""
    name, words = diagnostic.detail.partition("[")[0], list(tokens(diagnostic.texts.get("data", "")))
    rows = [
        word.row
        for word, following in zip(words, words[1:])
        if word.text in ("set", "param") and following.bare() == name
    ]
    if diagnostic.text != "data" or diagnostic.is_change():
        return
    if "[" not in diagnostic.detail and re.match(rf"{re.escape(name)}\s+default\b", diagnostic.at()):
        yield (
            f"{name} has a default in an earlier statement: its statements are in {diagnostic.rows_text(rows)};"
            " keep one default",
            True,
        )
    elif len(rows) > 1 and rows[0] < diagnostic.row:
        yield (
            f"its first statement is in {diagnostic.rows_text(rows[:1])}; are two data files joined? Give both to"
            " the tools",
            True,
        )


def listed_twice(diagnostic: Diagnostic) -> Hints:
    """A member, or a tuple, that a set's statement lists twice."""
    words = list(tokens(diagnostic.texts.get("data", "")))
    for here in range(len(words) - 2):
        if words[here].text == "set" and words[here + 1].text == diagnostic.detail:
            rest = words[here + 3 :]
            rest = rest[: next((at for at, token in enumerate(rest) if token.text == ";"), len(rest))]
            text = " ".join(token.text for token in rest)
            seen: dict[str, int] = {}
            for part in re.findall(r"\([^)]*\)", text) or text.split():
                seen[part] = seen.get(part, 0) + 1
            twice = [part.replace(" ", "") for part, count in seen.items() if count > 1]
            if twice:
                yield f"{diagnostic.detail} has {twice[0]} twice: remove one of the two", True
            return


def no_value(diagnostic: Diagnostic) -> Hints:
    """A name that the data do not have at all."""
    name = diagnostic.detail.partition("[")[0]
    words = [token.text for token in tokens(diagnostic.texts.get("data", ""))]
    if diagnostic.text != "model" or not name or not words:
        return
    changed = (
        diagnostic.instance.changed
        if diagnostic.instance is not None and diagnostic.instance.is_from_python()
        else None
    )
    if changed is not None and (name not in words or "[" not in diagnostic.detail and name in changed.params):
        given = "is given without a value, as None or NaN" if name in words else "has no value"
        yield f"{name} {given}: give it to solve as {name}=.., or in a data file", True
    elif name not in words:
        yield f"the data have no statement for {name}", True


def missing_in_set(diagnostic: Diagnostic) -> Hints:
    """A member that the data use in several statements, and its set does not list."""
    name, bracket, rest = diagnostic.detail.partition("[")
    if diagnostic.text != "data" or not bracket:
        return
    from .keys import Key, near

    try:
        key = Key(diagnostic)
    except (Unreadable, Unparsed, ValueError):
        return
    for first, last, title, known in key.outside(key.key):
        if last - first == 1 and isinstance(key.key[first], str) and re.fullmatch(r"[A-Za-z_]\w*", title):
            words = list(tokens(diagnostic.texts["data"]))
            used = [token for token in words if token.bare() == key.key[first]]
            statements = {statement_of(diagnostic, token.row) for token in used}
            others = near(key.key[first], [part for (part,) in known or () if isinstance(part, str)])
            is_misspelt = any(sum(token.bare() == other for token in words) == 1 for other in others)
            if len(statements) > 1 and not is_misspelt and not key.exchanged():
                rows = list(dict.fromkeys(token.row for token in used))
                yield (
                    f"{key.key[first]} is not in {title}, and the data name it in {diagnostic.rows_text(rows[:3])}:"
                    f" is it missing in the set {title}?",
                    True,
                )


def statement_of(diagnostic: Diagnostic, row: int) -> int:
    """Returns how many statements end before a row."""
    return sum(token.text == ";" for token in tokens("\n".join(diagnostic.texts["data"].split("\n")[: row - 1])))


HINTS: HintTable = (
    (("E01",), character),
    (("E31", "E36"), unit),
    (("E36",), one_number),
    (("E20",), keys_as_tuples),
    (("E37", "E36", "E31"), short_item),
    (("E20",), misspelt_statement),
    (("E20",), missing_mark),
    (("E34",), restricted),
    (("E31",), given_twice),
    (("E31",), second_statement),
    (("E53",), crossed),
    (("E32",), no_value),
    (("E32",), missing_value),
    (("E33",), missing_in_set),
)
