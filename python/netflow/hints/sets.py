"""Hints for sets in data texts: members outside a `within` restriction, and AMPL's slices and tables of sets, which
netflow does not have."""
from __future__ import annotations

import re

from ..reading.data import DataText
from ..reading.memberships import Memberships, Unknown, row_text
from ..reading.model import Unparsed
from ..reading.text import Token, tokens
from ..types import Key, Member
from .diagnostic import Diagnostic
from .hint import Hints, HintTable

# How many members outside a set, and how many pairs of a rewritten statement, are shown.
NAMED, PAIRS = 3, 6


def member(token: Token) -> Member:
    """Returns the member that a word of the data is."""
    is_text = token.text[:1] in ("'", '"') or not re.fullmatch(r"[+-]?\d+", token.text)
    return token.bare() if is_text else int(token.text)


def set_words(diagnostic: Diagnostic, name: str) -> list[Token]:
    """Returns the tokens of the members that the last statement `set NAME :=` lists."""
    words, found = list(tokens(diagnostic.texts.get("data", ""))), []
    for here in range(len(words) - 2):
        if [words[here].text, words[here + 1].bare(), words[here + 2].text] == ["set", name, ":="]:
            rest = words[here + 3 :]
            found = rest[: next((at for at, token in enumerate(rest) if token.text == ";"), len(rest))]
    return [token for token in found if token.text not in ("(", ")", ",")]


def listed_rows(diagnostic: Diagnostic, world: Memberships, name: str) -> list[tuple[Key, int]]:
    """Returns the tuples of a set in the data, each with its line."""
    words, text = set_words(diagnostic, name), diagnostic.texts.get("data", "")
    width = world.shapes.sets.get(name, 1)
    result = [(tuple(map(member, words[here : here + width])), words[here].row) for here in range(0, len(words), width)]
    params = {decl: size for decl, size in world.shapes.keys.items() if world.shapes.decls[decl].kind == "param"}
    for statement in DataText(text, params, world.shapes.sets, True).statements:
        row, last = 1, 0
        for cell in statement.cells if statement.set_name == name else []:
            row, last = row + text.count("\n", last, cell.token.start), cell.token.start
            result.append((cell.key, row))
    return list(dict.fromkeys(result))


def outside(diagnostic: Diagnostic) -> Hints:
    """Members of a set that its `within` excludes, and which part of the restriction lacks them."""
    try:
        world = Memberships(diagnostic.texts.get("model", ""), diagnostic.texts.get("data", ""))
        decl = world.shapes.decls.get(diagnostic.detail)
        if diagnostic.text != "model" or decl is None or decl.kind != "set":
            return
        limits = [phrase.exprs[0] for phrase in decl.phrases if phrase.word == "within"]
        wrong = []
        for row, line in listed_rows(diagnostic, world, diagnostic.detail):
            missing = [
                (limit, said) for limit, said in ((limit, world.missing(limit, row, {})) for limit in limits) if said
            ]
            wrong += [(row, line, *missing[0])] if missing else []
    except (Unparsed, Unknown, ValueError, IndexError, TypeError):
        return
    for row, line, limit, said in wrong[:NAMED]:
        title = world.text(limit)
        reason = "" if said == f"{title} has no {row_text(row)}" else f": {said}"
        change = diagnostic.instance.change_at(line) if diagnostic.instance is not None else ""
        yield f"{change or f'{row_text(row)} in {diagnostic.rows_text([line])}'} is not in {title}{reason}", True


def slice_pairs(words: list[Token]) -> list[str]:
    """Returns the tuples that slices such as `(Linz,*) Wien Enns` mean, as texts; an empty list if the words have
    another form."""
    parts, found, head, at = [token.text for token in words if token.text != ","], [], [], 0
    while at < len(parts):
        if parts[at] == "(" and ")" in parts[at:]:
            end = parts.index(")", at)
            head, at = parts[at + 1 : end], end + 1
            found += [] if "*" in head else [head]
            continue
        row = parts[at : at + head.count("*")]
        if not row or len(row) < head.count("*") or {"(", ")", "*"} & set(row):
            return []
        at += len(row)
        members = iter(row)
        found.append([next(members) if part == "*" else part for part in head])
    return [f"({','.join(row)})" for row in found]


def set_slices(diagnostic: Diagnostic) -> Hints:
    """`set LINKS := (Linz,*) Wien Enns;`"""
    words = diagnostic.statement()
    head = [token.text for token in words[:3]]
    if diagnostic.text != "data" or head[:1] != ["set"] or head[2:] != [":="] or diagnostic.word() != "*":
        return
    match = re.search(r"\([^()]*$", diagnostic.before)
    template = f"{match[0] if match else '('}{diagnostic.at().partition(')')[0]})"
    pairs = slice_pairs([token for token in words[3:] if token.text != ";"])
    yield (
        f"{template} is a slice of AMPL, which netflow does not have: write whole"
        f" tuples{statement_text(head[1], pairs)}",
        True,
    )


def table_pairs(words: list[Token]) -> list[str]:
    """Returns the pairs that a table with + and - marks, as texts; an empty list if the words have another form."""
    is_turned = [token.text for token in words[:3]] == ["(", "tr", ")"]
    texts = [token.text for token in words[3 * is_turned :]]
    if texts[:1] != [":"] or ":=" not in texts:
        return []
    columns, cells = texts[1 : texts.index(":=")], texts[texts.index(":=") + 1 :]
    rows = [cells[here : here + len(columns) + 1] for here in range(0, len(cells), len(columns) + 1)]
    if any(len(row) <= len(columns) or not set(row[1:]) <= {"+", "-"} for row in rows):
        return []
    pairs = [(row[0], column) for row in rows for column, mark in zip(columns, row[1:]) if mark == "+"]
    return [f"({','.join(reversed(pair) if is_turned else pair)})" for pair in pairs]


def set_table(diagnostic: Diagnostic) -> Hints:
    """`set LINKS: Wien Enns := Linz + - Graz - +;`"""
    words = diagnostic.statement()
    head, marks = [token.text for token in words[:3]], {token.text for token in words}
    if (
        diagnostic.text == "data"
        and head[:1] == ["set"]
        and head[2:] in ([":"], ["("])
        and {":=", ":"} <= marks
        and marks & {"+", "-"}
    ):
        pairs = table_pairs([token for token in words[2:] if token.text != ";"])
        yield (
            "a set table with + and - is part of AMPL alone: list the pairs that have a"
            f" +{statement_text(head[1], pairs)}",
            True,
        )


def statement_text(name: str, pairs: list[str]) -> str:
    return f": set {name} := {' '.join(pairs[:PAIRS])}{' ..' if len(pairs) > PAIRS else ''};" if pairs else ""


HINTS: HintTable = (
    (("E34",), outside),
    (("E20",), set_slices),
    (("E20",), set_table),
)
