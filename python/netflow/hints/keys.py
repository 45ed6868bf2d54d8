"""Hints for keys outside their sets (E33, E50): which member is not in which set, exchanged subscripts, misspelt
members."""
from __future__ import annotations

import difflib
import re
from typing import Iterable, Optional, Set, Tuple

from ..errors import Unreadable
from ..reading.data import DataText
from ..reading.keys import reference, shown
from ..reading.model import Expr, Shapes, Unparsed, parse
from ..reading.text import Token, tokens
from ..types import Key as Members
from ..types import Member
from .diagnostic import Diagnostic
from .hint import Hints, HintTable

# Where a part of a key begins and ends, the title of its set, and the members of the set if they are
# known.
Slice = Tuple[int, int, str, Optional[Set[Members]]]

MOST = 100_000


class Sets:
    """What the model and its data say of sets and of parameters without a key; a set that is not plain is None."""

    def __init__(self, diagnostic: Diagnostic) -> None:
        decls = parse(diagnostic.texts.get("model", ""))
        self.shapes = Shapes(decls, diagnostic.texts.get("model", ""))
        self.decls = self.shapes.decls
        self.members: dict[str, list[Member]] = {}
        self.values: dict[str, Member] = {}
        params = {decl.name: self.shapes.keys[decl.name] for decl in decls if decl.kind == "param"}
        for statement in DataText(diagnostic.texts.get("data", ""), params, self.shapes.sets, True).statements:
            name = statement.name if statement.kind == "set" else statement.set_name
            if name:
                self.members[name] = statement.members
            self.values.update({cell.name: cell.token.member() for cell in statement.cells if not cell.key})

    def number(self, expr: Expr) -> int | None:
        """Returns the value of a plain expression; None for another one."""
        if expr.op == "num" and expr.value.isdigit():
            return int(expr.value)
        if expr.op in ("+", "-"):
            left, right = map(self.number, expr.args)
            return None if left is None or right is None else left + right if expr.op == "+" else left - right
        if expr.op == "name" and not expr.args and expr.value in self.decls:
            phrase = self.decls[expr.value].phrase(":=")
            found = self.number(phrase.exprs[0]) if phrase else self.values.get(expr.value)
            return found if isinstance(found, int) else None
        return None

    def of(self, expr: Expr) -> tuple[str, set[Members] | None]:
        """Returns a set's title and its members as tuples, or None for the members."""
        if expr.op == "..":
            ends = [self.number(part) for part in expr.args]
            if len(ends) == 2 and ends[0] is not None and ends[1] is not None and ends[1] - ends[0] < MOST:
                return f"{ends[0]}..{ends[1]}", {(number,) for number in range(ends[0], ends[1] + 1)}
        elif expr.op == "name" and expr.value in self.members:
            width, flat = self.shapes.sets.get(expr.value, 1), self.members[expr.value]
            return expr.value, {tuple(flat[start : start + width]) for start in range(0, len(flat), width)}
        elif expr.op == "name" and expr.value in self.decls:
            phrase = self.decls[expr.value].phrase(":=")
            title, found = self.of(phrase.exprs[0]) if phrase else ("", None)
            return f"{expr.value}{f', which is {title}' if title else ''}", found
        elif expr.op == "braces" and expr.args and all(part.op == "text" for part in expr.args):
            return "the braces", {(part.value[1:-1],) for part in expr.args}
        return "", None

    def of_name(self, name: str) -> list[tuple[int, str, set[Members] | None]]:
        """Returns for each item in the braces of a declaration the number of its parts, its title and its members."""
        braces = self.decls[name].braces if name in self.decls else None
        result = []
        for item in (braces.args[:-1] if braces.value else braces.args) if braces else []:
            is_indexed = item.op == "in"
            width = (
                len(item.args[0].args)
                if is_indexed and item.args[0].op == "tuple"
                else 1
                if is_indexed
                else self.shapes.of_set(item)
            )
            result.append((width, *self.of(item.args[1] if is_indexed else item)))
        return result


class Key:
    """The key of an error, in the slices by the items of the declaration's braces."""

    def __init__(self, diagnostic: Diagnostic) -> None:
        self.name, self.key = reference(diagnostic.detail)
        sets = Sets(diagnostic)
        items, self.head = sets.of_name(self.name), sets.shapes.head(self.name)
        if sum(width for width, _, _ in items) != len(self.key):
            raise Unreadable(diagnostic.detail)
        self.items, at = [], 0
        for width, title, members in items:
            self.items.append((at, at + width, title, members))
            at += width

    def outside(self, key: list[Member]) -> list[Slice]:
        """Returns the slices that are known to be in no set."""
        return [item for item in self.items if item[3] is not None and tuple(key[item[0] : item[1]]) not in item[3]]

    def exchanged(self) -> list[Member]:
        """Returns the key with two parts exchanged that is in all sets; an empty list if there is none."""
        if any(item[3] is None for item in self.items):
            return []
        for here in range(len(self.key)):
            for there in range(here + 1, len(self.key)):
                other = list(self.key)
                other[here], other[there] = other[there], other[here]
                if not self.outside(other):
                    return other
        return []


def near(member: Member, others: Iterable[Member]) -> list[str]:
    """Returns the members that a text may mean: in other letters of case, misspelt, or with letters exchanged."""
    texts = sorted({other for other in others if isinstance(other, str) and other != member})
    if not isinstance(member, str):
        return []
    found = [text for text in texts if text.lower() == member.lower()] or difflib.get_close_matches(
        member, texts, 3, 0.7
    )
    return found or [
        text for text in texts if len(text) == len(member) > 2 and sorted(text.lower()) == sorted(member.lower())
    ]


def outside_set(diagnostic: Diagnostic) -> Hints:
    """A key with a member that is not in its set: exchanged, misspelt, or outside."""
    try:
        key = Key(diagnostic)
    except (Unreadable, Unparsed, ValueError):
        return
    from .values import missing_in_set

    other, wrong = key.exchanged(), key.outside(key.key)
    if list(missing_in_set(diagnostic)):
        return
    if wrong and other:
        if diagnostic.is_change():
            yield f"are the two members exchanged? The parts of a key are those of {key.head}", True
        elif diagnostic.text == "data":
            yield "are the two members exchanged? In a table (tr) before the : turns rows and columns", True
        else:
            yield (
                f"are the subscripts exchanged? {key.name}[{','.join(map(shown, other))}] is in the sets of its braces",
                True,
            )
        return
    for first, last, title, members in wrong:
        if last - first == 1 and members is not None:
            texts = sorted(part for (part,) in members if isinstance(part, str))
            yield from outside_one(diagnostic, key.key[first], title, texts, members)
        else:
            yield f"({','.join(map(shown, key.key[first:last]))}) is not in {title}", False


def outside_one(diagnostic: Diagnostic, member: Member, title: str, texts: list[str], members: set[Members]) -> Hints:
    """A member that is not in its set."""
    is_sure = diagnostic.number != "E50"
    if isinstance(member, str) and re.fullmatch(r"-?\d+", member) and (int(member),) in members:
        is_python = diagnostic.instance is not None and diagnostic.is_change() and not diagnostic.instance.origins
        yield (
            f"'{member}' is a text; the number is in {title}:"
            f" {f'use int({member!r})' if is_python else f'write it without quotes, {member}'}",
            True,
        )
        return
    found = near(member, texts)
    words = [token.bare() for token in tokens(diagnostic.texts.get("data", ""))]
    is_elsewhere = isinstance(member, str) and words.count(member) > 1
    if is_elsewhere:
        found.sort(key=words.count)  # what nothing else names is probably misspelt itself
    if found and is_elsewhere and words.count(found[0]) == 1:
        row = next(token.row for token in tokens(diagnostic.texts["data"]) if token.bare() == found[0])
        yield (
            f"the set {title} has {found[0]} in {diagnostic.rows_text([row])}, which nothing else names: is"
            f" {member} meant there?",
            is_sure,
        )
    elif found:
        yield f"{member}: is {found[0]} meant?", is_sure
        yield from heading_place(diagnostic, str(member))
    else:
        kind = (
            f", whose members are texts ({', '.join(texts[:3])}{', ..' if len(texts) > 3 else ''})"
            if texts and not isinstance(member, str)
            else ""
        )
        yield f"{shown(member)} is not in {title}{kind}", is_sure
        yield from heading_place(diagnostic, str(member))


def heading_place(diagnostic: Diagnostic, member: str) -> Hints:
    """The line of the misspelt member, if another one than the error's, as in a heading."""
    rows = [token.row for token in tokens(diagnostic.texts.get("data", "")) if token.bare() == member]
    if rows and diagnostic.row not in rows and diagnostic.text == "data":
        yield f"it is in {diagnostic.rows_text(rows[:1])}", True


def unquoted_member(diagnostic: Diagnostic) -> Hints:
    """A name in the model that is not declared, and is a member in the data."""
    if (
        diagnostic.text == "model"
        and diagnostic.detail
        and [token.text for token in diagnostic.statement()][:1] != ["set"]
    ):
        members = {token.bare() for row in set_rows(diagnostic) for token in row}
        if diagnostic.detail in members:
            yield f"{diagnostic.detail} is a member in the data: write it with quotes, '{diagnostic.detail}'", True


def set_rows(diagnostic: Diagnostic) -> list[list[Token]]:
    from .data import listed

    return list(listed(diagnostic).values())


HINTS: HintTable = (
    (("E33", "E50"), outside_set),
    (("E12",), unquoted_member),
)
