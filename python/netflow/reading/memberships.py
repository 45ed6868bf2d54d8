"""Whether a tuple is in a set expression of a model, by the text of the model and its data, and which part of the
expression has no such tuple."""
from __future__ import annotations

import operator
import re
from typing import Callable, Dict

from ..types import Key, Member
from .data import DataText
from .keys import shown
from .model import Decl, Expr, Shapes, parse

# The members that indices stand for.
Env = Dict[str, Member]

COMPARED = {
    "=": operator.eq,
    "==": operator.eq,
    "<>": operator.ne,
    "!=": operator.ne,
    "<": operator.lt,
    "<=": operator.le,
    ">": operator.gt,
    ">=": operator.ge,
}
COMPUTED: Dict[str, Callable[[int, int], int]] = {"+": operator.add, "-": operator.sub, "*": operator.mul}


class Unknown(Exception):
    """An expression whose value the texts do not say plainly."""


class Memberships:
    """The sets and parameters of a model with its data; raises Unparsed if a text cannot be parsed, and Unknown for a
    value that is not plain."""

    def __init__(self, model: str, data: str) -> None:
        self.model, self.shapes = model, Shapes(parse(model))
        self.members: dict[str, set[Key]] = {}
        self.values: dict[tuple[str, Key], Member] = {}
        params = {name: self.shapes.keys[name] for name, decl in self.shapes.decls.items() if decl.kind == "param"}
        for statement in DataText(data, params, self.shapes.sets, True).statements:
            name = statement.name if statement.kind == "set" else statement.set_name
            if name:
                self.members[name] = set(self.tuples(name, statement.members))
            self.values.update({(cell.name, cell.key): cell.token.member() for cell in statement.cells})

    def tuples(self, name: str, members: list[Member]) -> list[Key]:
        width = self.shapes.sets.get(name, 1)
        return [tuple(members[start : start + width]) for start in range(0, len(members), width)]

    def text(self, expr: Expr) -> str:
        return " ".join(self.model[expr.start : expr.end].split())

    def missing(self, expr: Expr, row: Key, env: Env) -> str:
        """Returns why a tuple is not in a set, such as `SHOPS has no Ens`; an empty text for a member."""
        if expr.op == "group":
            return self.missing(expr.args[0], row, env)
        if expr.op == "cross":
            parts = self.split(row, [(self.shapes.of_set(part), part) for part in expr.args])
            return next((said for said in (self.missing(value, part, env) for part, value in parts) if said), "")
        if expr.op == "braces" and self.is_indexed(expr):
            return self.missing_index(expr, row, dict(env))
        source = self.source(expr.value) if expr.op == "name" and expr.value not in self.members else None
        if source is not None:
            return (
                self.missing(source, row, env) and f"{expr.value}, which is {self.text(source)}, has no {row_text(row)}"
            )
        return "" if self.contains(expr, row, env) else f"{self.text(expr)} has no {row_text(row)}"

    def source(self, name: str) -> Expr | None:
        """Returns the expression that gives a declared set or parameter its value; None without one."""
        decl: Decl | None = self.shapes.decls.get(name)
        phrase = decl.phrase(":=") if decl else None
        return phrase.exprs[0] if phrase else None

    def split(self, row: Key, items: list[tuple[int, Expr]]) -> list[tuple[Key, Expr]]:
        """Returns the parts of a tuple for items with these widths."""
        if sum(width for width, _ in items) != len(row):
            raise Unknown
        found, at = [], 0
        for width, item in items:
            found.append((row[at : at + width], item))
            at += width
        return found

    def is_indexed(self, expr: Expr) -> bool:
        return any(part.op == "in" or part.op == "name" and part.value in self.shapes.sets for part in expr.args)

    def missing_index(self, expr: Expr, row: Key, env: Env) -> str:
        """The same for braces with indices, which are given the members of the tuple."""
        items = expr.args[:-1] if expr.value else expr.args
        widths = [
            (
                (len(item.args[0].args) if item.args[0].op == "tuple" else 1)
                if item.op == "in"
                else self.shapes.of_set(item)
            )
            for item in items
        ]
        for part, item in self.split(row, list(zip(widths, items))):
            if item.op == "in":
                names = item.args[0].args if item.args[0].op == "tuple" else [item.args[0]]
                if any(
                    name.op != "name" or name.args or name.value in env or name.value in self.shapes.decls
                    for name in names
                ):
                    raise Unknown
                env.update(zip((name.value for name in names), part))
            said = self.missing(item.args[1] if item.op == "in" else item, part, env)
            if said:
                return said
        return "" if not expr.value or self.holds(expr.args[-1], env) else f"{self.text(expr.args[-1])} is false"

    def contains(self, expr: Expr, row: Key, env: Env) -> bool:
        if expr.op == "name" and expr.value in self.members:
            return row in self.members[expr.value]
        if expr.op in ("union", "inter", "diff", "symdiff"):
            first, second = (not self.missing(part, row, env) for part in expr.args)
            return {
                "union": first or second,
                "inter": first and second,
                "diff": first and not second,
                "symdiff": first != second,
            }[expr.op]
        if expr.op == ".." and len(expr.args) == 2 and len(row) == 1:
            low, high = (self.value(part, env) for part in expr.args)
            if not isinstance(low, int) or not isinstance(high, int):
                raise Unknown
            return isinstance(row[0], int) and low <= row[0] <= high
        if expr.op == "braces" and not expr.value:
            return row in [
                tuple(self.value(part, env) for part in (member.args if member.op == "tuple" else [member]))
                for member in expr.args
            ]
        raise Unknown

    def holds(self, expr: Expr, env: Env) -> bool:
        """Returns whether a condition is true."""
        if expr.op == "group":
            return self.holds(expr.args[0], env)
        if expr.op in ("and", "or"):
            is_first = self.holds(expr.args[0], env)
            return is_first if is_first == (expr.op == "or") else self.holds(expr.args[1], env)
        if expr.op == "in":
            left, right = expr.args
            row = tuple(self.value(part, env) for part in (left.args if left.op == "tuple" else [left]))
            return (not self.missing(right, row, env)) != ("not" in self.model[left.end : right.start].split())
        if expr.op not in COMPARED:
            raise Unknown
        first, second = (self.value(part, env) for part in expr.args)
        if isinstance(first, str) != isinstance(second, str):
            if expr.op in ("=", "==", "<>", "!="):
                return expr.op in ("<>", "!=")
            raise Unknown
        return bool(COMPARED[expr.op](first, second))

    def value(self, expr: Expr, env: Env) -> Member:
        """Returns the number or text of an expression."""
        if expr.op == "num" and expr.value.isdigit():
            return int(expr.value)
        if expr.op == "text":
            return expr.value[1:-1].replace(expr.value[0] * 2, expr.value[0])
        if expr.op == "group":
            return self.value(expr.args[0], env)
        if expr.op == "name" and not expr.args and expr.value in env:
            return env[expr.value]
        if expr.op == "name":
            return self.parameter(expr, env)
        if expr.op in COMPUTED:
            left, right = (self.value(part, env) for part in expr.args)
            if isinstance(left, int) and isinstance(right, int):
                return COMPUTED[expr.op](left, right)
        raise Unknown

    def parameter(self, expr: Expr, env: Env) -> Member:
        key = tuple(self.value(part, env) for part in expr.args)
        result = self.values.get((expr.value, key))
        source = self.source(expr.value) if result is None and not key else None
        result = self.value(source, {}) if source else result
        if result is None or result == ".":
            raise Unknown
        return result


def row_text(row: Key) -> str:
    """Returns a tuple in the form of data; a text has quotes only in the form of a number."""
    parts = [
        shown(member) if isinstance(member, str) and re.fullmatch(r"-?\d+", member) else str(member) for member in row
    ]
    return parts[0] if len(parts) == 1 else f"({','.join(parts)})"
