"""Decides conditions on the keys of a variable: true, false, or unknown, from what its index and the model say.

Comparisons are decided over the whole numbers, by sums of at most three known inequalities.
"""
from __future__ import annotations

import itertools
from fractions import Fraction
from typing import Mapping

from ..exact import parse_numeral
from ..reading.model import Expr
from .sets import SetFacts
from .trees import conjuncts, make, negated, text

Linear = Mapping[str, Fraction]  # the coefficients by name; "" is the constant


class Facts:
    """Conditions that hold: `atoms` by text, `known` sets of terms, and `bounds`, linear forms of at least 0.
    `fractional` are the parameters that may not be whole."""

    def __init__(self, sets: SetFacts, fractional: set[str]) -> None:
        self.sets, self.fractional = sets, fractional
        self.atoms: dict[str, bool] = {}
        self.known: dict[str, list[Expr]] = {}
        self.bounds: list[Linear] = []

    def copy(self) -> "Facts":
        result = Facts(self.sets, self.fractional)
        result.atoms, result.bounds = dict(self.atoms), list(self.bounds)
        result.known = {term: list(found) for term, found in self.known.items()}
        return result

    # What holds

    def add(self, condition: Expr) -> None:
        """Adds a condition that holds, with its consequences."""
        for part in conjuncts(condition):
            if part.op == "in":
                self.add_member(*part.args)
            elif part.op == "not":
                self.add_negation(part.args[0])
            else:
                self.add_atom(part)

    def add_negation(self, condition: Expr) -> None:
        """Adds that a condition does not hold. Of several parts one is false: it is known if the others hold."""
        parts = [part for part in conjuncts(condition) if self.decide(part) is not True]
        if len(parts) == 1:
            part = parts[0]
            if part.op == "or":
                for side in part.args:
                    self.add_negation(side)
            else:
                self.add_atom(negated(part))

    def add_atom(self, part: Expr) -> None:
        self.atoms[canonical(part)] = True
        if part.op in ("<>", "not in", "=") or part.op in ("<", "<=", ">", ">="):
            self.atoms[canonical(negated(part))] = False
        self.bounds += self.bounds_of(part)

    def add_member(self, left: Expr, right: Expr) -> None:
        """Adds that a member or tuple is in a set, and what the set's definition says."""
        self.add_atom(make("in", left, right))
        self.known.setdefault(text(left), []).append(right)
        parts = left.args if left.op == "tuple" else [left]
        if len(parts) > 1:
            domains = self.sets.components(right)
            for part, domain in zip(parts, domains if len(domains) == len(parts) else []):
                if domain is not None:
                    self.add_member(part, domain)
        elif right.op == "name" and right.value in self.sets.definitions:
            self.add(self.sets.membership(left, self.sets.definitions[right.value]))
        elif right.op in ("diff", "inter", "..", "braces", "group"):
            expanded = self.sets.membership(left, right)
            if expanded.op != "in":
                self.add(expanded)
        if right.op == "name":
            for limit in self.sets.limits.get(right.value, []):
                if len(parts) == 1:
                    self.add_member(left, limit)

    # Decisions

    def decide(self, condition: Expr) -> bool | None:
        """Returns whether a condition holds, None if that is unknown."""
        if condition.op == "group":
            return self.decide(condition.args[0])
        if condition.op in ("and", "or"):
            left, right = map(self.decide, condition.args)
            stops = condition.op == "or"
            return stops if stops in (left, right) else None if None in (left, right) else not stops
        if condition.op == "not":
            found = self.decide(condition.args[0])
            return None if found is None else not found
        if canonical(condition) in self.atoms:
            return self.atoms[canonical(condition)]
        if condition.op in ("in", "not in"):
            found = self.is_member(*condition.args)
            return None if found is None else found == (condition.op == "in")
        return self.compare(condition)

    def is_member(self, left: Expr, right: Expr) -> bool | None:
        if any(self.sets.is_within(known, right) for known in self.known.get(text(left), [])):
            return True
        expanded = self.sets.membership(left, right)
        if expanded.op != "in":
            return self.decide(expanded)
        if right.op == "name" and right.value in self.sets.definitions:
            return self.decide(self.sets.membership(left, self.sets.definitions[right.value]))
        return None

    def compare(self, condition: Expr) -> bool | None:
        if condition.op in ("=", "<>"):
            left, right = condition.args
            is_equal = True if text(left) == text(right) else self.is_equal(condition)
            return None if is_equal is None else is_equal == (condition.op == "=")
        if condition.op not in ("<", "<=", ">", ">="):
            return None
        if all(self.is_implied(bound) for bound in self.bounds_of(condition) or [{"": Fraction(-1)}]):
            return True
        opposite = self.bounds_of(negated(condition))
        return False if opposite and all(self.is_implied(bound) for bound in opposite) else None

    def is_equal(self, condition: Expr) -> bool | None:
        left, right = condition.args
        if left.op == right.op == "text" or {left.op, right.op} == {"num", "text"}:
            return left.value[1:-1] == right.value[1:-1] and left.op == right.op
        below, above = (make(op, left, right) for op in ("<=", ">="))
        if self.bounds_of(below):
            if self.compare(below) and self.compare(above):
                return True
            if self.compare(below) is False or self.compare(above) is False:
                return False
        return None

    def is_implied(self, goal: Linear) -> bool:
        """Whether a linear form is at least 0, as at most three known ones show."""
        usable = [bound for bound in self.bounds if set(bound) - {""}]
        for count in range(4):
            for chosen in itertools.combinations(usable, count):
                rest = dict(goal)
                for bound in chosen:
                    rest = minus(rest, bound)
                if not set(rest) - {""}:
                    if rest.get("", Fraction(0)) >= 0:
                        return True
        return False

    def is_contradictory(self) -> bool:
        return self.is_implied({"": Fraction(-1)})

    def bounds_of(self, condition: Expr) -> list[Linear]:
        """Returns a comparison as linear forms of at least 0; none if it is not linear."""
        if condition.op not in ("=", "<", "<=", ">", ">="):
            return []
        left, right = map(linear, condition.args)
        if left is None or right is None:
            return []
        up, down = minus(right, left), minus(left, right)
        if condition.op == "=":
            return [up, down]
        form = up if condition.op in ("<", "<=") else down
        if condition.op in ("<", ">"):
            if {word.partition("[")[0] for word in form} & self.fractional:
                return []
            form = minus(form, {"": Fraction(1)})
        return [form]


def canonical(condition: Expr) -> str:
    """Returns the text of a condition; the sides of `=` and `<>` are in the order of the alphabet."""
    if condition.op in ("=", "<>"):
        return f" {condition.op} ".join(sorted(map(text, condition.args)))
    return text(condition)


def linear(expr: Expr) -> Linear | None:
    """Returns a linear form of an expression; None for a product of names, or something that is no number."""
    if expr.op == "num":
        value = parse_numeral(expr.value)
        return None if value is None else {"": Fraction(value)}
    if expr.op == "name":
        return {text(expr): Fraction(1)}
    if expr.op == "group":
        return linear(expr.args[0])
    parts = [linear(part) for part in expr.args]
    if None in parts or expr.op not in ("+", "-", "sign"):
        return None
    first, *rest = [part for part in parts if part is not None]
    if expr.op == "sign":
        return first if expr.value == "+" else minus({}, first)
    return minus(first, rest[0]) if expr.op == "-" else minus(first, minus({}, rest[0]))


def minus(left: Linear, right: Linear) -> dict[str, Fraction]:
    result = {key: left.get(key, Fraction(0)) - right.get(key, Fraction(0)) for key in {*left, *right}}
    return {key: value for key, value in result.items() if value or not key}
