"""What a model says about its sets: their dimensions, the sets of their components, and which contain which."""
from __future__ import annotations

from typing import Iterable

from ..reading.model import Decl, Expr, Shapes
from .trees import items_of, join, make, negated, substituted, text, ungrouped


class SetFacts:
    """The sets that a model declares. `definitions` has the expressions of `:=`, `limits` those of `within`."""

    def __init__(self, decls: list[Decl]) -> None:
        self.shapes = Shapes(decls)
        self.limits: dict[str, list[Expr]] = {}
        self.definitions: dict[str, Expr] = {}
        for decl in decls:
            if decl.kind == "set":
                phrases = [(phrase.word, phrase.exprs[0]) for phrase in decl.phrases if phrase.exprs]
                self.limits[decl.name] = [ungrouped(expr) for word, expr in phrases if word in ("within", "in")]
                self.definitions.update({decl.name: ungrouped(expr) for word, expr in phrases if word in (":=", "=")})

    def dimension(self, expr: Expr) -> int:
        return self.shapes.of_set(expr) or 1

    def components(self, expr: Expr) -> list[Expr | None]:
        """Returns for each component of a set's tuples a set that contains it, None if none is known."""
        if expr.op in ("cross",):
            return [part for side in expr.args for part in self.components(side)]
        if expr.op in ("diff", "inter") and self.dimension(expr) > 1:
            return self.components(expr.args[0])
        if expr.op == "group":
            return self.components(expr.args[0])
        if expr.op == "braces":
            return self.of_braces(expr)
        if expr.op == "name" and self.dimension(expr) > 1:
            known = [*self.limits.get(expr.value, []), *filter(None, [self.definitions.get(expr.value)])]
            found = [self.components(limit) for limit in known]
            fallback: list[Expr | None] = [None] * self.dimension(expr)
            return next((entry for entry in found if None not in entry and len(entry) == len(fallback)), fallback)
        return [expr]

    def of_braces(self, index: Expr) -> list[Expr | None]:
        items = items_of(index)[0]
        if all(item.op == "in" or item.op == "name" and item.value in self.shapes.sets for item in items):
            return [part for item in items for part in self.item_components(item)]
        return [index] if self.dimension(index) == 1 else [None] * self.dimension(index)

    def item_components(self, item: Expr) -> list[Expr | None]:
        return self.components(item.args[1] if item.op == "in" else item)

    def ranges(self, items: Iterable[Expr]) -> dict[str, Expr | None]:
        """Returns the set of each dummy that the items of braces introduce."""
        result: dict[str, Expr | None] = {}
        for item in items:
            if item.op != "in":
                continue
            left, right = item.args
            parts = left.args if left.op == "tuple" else [left]
            found = self.components(right)
            found = found if len(found) == len(parts) else [None] * len(parts)
            for part, domain in zip(parts, found):
                if part.op == "name" and not part.args and part.value not in self.shapes.decls:
                    result.setdefault(part.value, domain)
        return result

    def is_within(self, inner: Expr, outer: Expr, depth: int = 8) -> bool:
        """Whether the declarations show that one set contains the other."""
        if text(inner) == text(outer):
            return True
        if not depth:
            return False
        if outer.op == "union" and any(self.is_within(inner, part, depth - 1) for part in outer.args):
            return True
        if outer.op == "inter":
            return all(self.is_within(inner, part, depth - 1) for part in outer.args)
        if outer.op == "name" and outer.value in self.definitions:
            if self.is_within(inner, self.definitions[outer.value], depth - 1):
                return True
        if inner.op in ("diff", "inter"):
            return any(
                self.is_within(entry, outer, depth - 1) for entry in inner.args[: 1 if inner.op == "diff" else 2]
            )
        if inner.op == "union":
            return all(self.is_within(part, outer, depth - 1) for part in inner.args)
        if inner.op == "braces" and len(inner.args) == 1 + bool(inner.value) and inner.args[0].op == "in":
            return self.is_within(inner.args[0].args[1], outer, depth - 1)
        if inner.op == "name":
            known = [*self.limits.get(inner.value, []), *filter(None, [self.definitions.get(inner.value)])]
            return any(self.is_within(limit, outer, depth - 1) for limit in known)
        return False

    def membership(self, left: Expr, right: Expr) -> Expr:
        """Returns `left in right` without the operators of the set, as far as that can be written."""
        if right.op == "group":
            return self.membership(left, right.args[0])
        if right.op == "diff":
            return make("and", self.membership(left, right.args[0]), negated(self.membership(left, right.args[1])))
        if right.op in ("inter", "union"):
            op = "and" if right.op == "inter" else "or"
            return make(op, *(self.membership(left, part) for part in right.args))
        if right.op == ".." and len(right.args) == 2:
            return make("and", make(">=", left, right.args[0]), make("<=", left, right.args[1]))
        if right.op == "braces" and right.args:
            return self.membership_of_braces(left, right)
        return make("in", left, right)

    def membership_of_braces(self, left: Expr, right: Expr) -> Expr:
        items, conditions = items_of(right)
        if len(items) == 1 and items[0].op == "in" and items[0].args[0].op == "name" and left.op != "tuple":
            dummy, domain = items[0].args
            values = {dummy.value: left}
            return join("and", [self.membership(left, domain), *(substituted(entry, values) for entry in conditions)])
        is_list = all(
            entry.op in ("num", "text") or entry.op == "name" and entry.value not in self.shapes.sets for entry in items
        )
        if is_list and not conditions and left.op != "tuple":
            return join("or", [make("=", left, entry) for entry in items])
        return make("in", left, right)
