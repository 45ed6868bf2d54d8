"""Splits linear expressions into terms: a coefficient times a variable, with the surrounding sums and conditions."""
from __future__ import annotations

import dataclasses
from fractions import Fraction
from typing import Sequence

from ..exact import decimal_text, parse_numeral
from ..reading.model import Expr
from .problems import Inexpressible
from .trees import braces, items_of, join, make, names_in, negated, number, text


@dataclasses.dataclass
class Around:
    """What surrounds a term: its numeric coefficient, other factors, items of sums, and conditions."""

    coefficient: Fraction = Fraction(1)
    factors: tuple[Expr, ...] = ()
    items: tuple[Expr, ...] = ()
    conditions: tuple[Expr, ...] = ()

    def times(self, factor: Expr) -> "Around":
        value = parse_numeral(factor.value) if factor.op == "num" else None
        if value is not None:
            return dataclasses.replace(self, coefficient=self.coefficient * Fraction(value))
        if factor.op == "sign":
            return dataclasses.replace(self, coefficient=self.coefficient * signed(factor)).times(factor.args[0])
        return dataclasses.replace(self, factors=(*self.factors, factor))

    def product(self, last: Expr | None = None) -> Expr:
        """Returns the coefficient times the factors times `last`, without the sums and conditions."""
        parts = [*self.factors, *([last] if last is not None else [])]
        size = abs(self.coefficient)
        if size != 1 or not parts:
            parts.insert(0, make("num", value=decimal_text(size)))
        # `0.5 * 8` is written as a product; a sign comes first.
        result = join("*", parts)
        return make("sign", result, value="-") if self.coefficient < 0 else result


@dataclasses.dataclass
class Term:
    """A variable's reference in an expression, with the surroundings."""

    variable: Expr
    around: Around


def signed(expr: Expr) -> int:
    return -1 if expr.value == "-" else 1


class Collector:
    """The terms and constants of linear expressions. `variables` are the names that count as variables."""

    def __init__(self, variables: set[str]) -> None:
        self.variables = variables
        self.terms: list[Term] = []
        self.constants: list[tuple[int, Expr]] = []

    def add(self, expr: Expr, sign: int = 1) -> None:
        self.walk(expr, Around(Fraction(sign)))

    def walk(self, expr: Expr, around: Around) -> None:
        if not names_in(expr) & self.variables:
            self.add_constant(expr, around)
        elif expr.op == "name":
            self.terms.append(Term(expr, around))
        elif expr.op == "group":
            self.walk(expr.args[0], around)
        elif expr.op in ("+", "-"):
            self.walk(expr.args[0], around)
            self.walk(expr.args[1], around if expr.op == "+" else around.times(number(-1)))
        elif expr.op == "sign":
            self.walk(expr.args[0], around if expr.value == "+" else around.times(number(-1)))
        elif expr.op == "*":
            self.walk_product(expr, around)
        elif expr.op == "reduce" and expr.value == "sum":
            self.walk_sum(expr, around)
        elif expr.op == "if":
            self.walk_choice(expr, around)
        else:
            raise Inexpressible(expr.start, f"`{text(expr)}` is not linear in its variables")

    def walk_product(self, expr: Expr, around: Around) -> None:
        left, right = expr.args
        if names_in(left) & self.variables and names_in(right) & self.variables:
            raise Inexpressible(expr.start, f"`{text(expr)}` is a product of variables")
        factor, rest = (right, left) if names_in(left) & self.variables else (left, right)
        self.walk(rest, around.times(factor))

    def walk_sum(self, expr: Expr, around: Around) -> None:
        items, conditions = items_of(expr.args[0])
        if any(names_in(part) & self.variables for part in [*items, *conditions]):
            raise Inexpressible(expr.start, "a variable in the index of a sum")
        inner = dataclasses.replace(around, items=(*around.items, *items), conditions=(*around.conditions, *conditions))
        self.walk(expr.args[1], inner)

    def walk_choice(self, expr: Expr, around: Around) -> None:
        condition = expr.args[0]
        if names_in(condition) & self.variables:
            raise Inexpressible(expr.start, f"`{text(condition)}` is a condition on a variable, and not linear")
        for branch, case in zip(expr.args[1:], (condition, negated(condition))):
            self.walk(branch, dataclasses.replace(around, conditions=(*around.conditions, case)))

    def add_constant(self, expr: Expr, around: Around) -> None:
        if expr.op in ("+", "-") and not around.items and not around.conditions and not around.factors:
            self.add_constant(expr.args[0], around)
            self.add_constant(expr.args[1], around if expr.op == "+" else around.times(number(-1)))
            return
        if expr.op == "num" and parse_numeral(expr.value) == 0:
            return
        if expr.op == "sign":
            self.add_constant(expr.args[0], around.times(number(signed(expr))))
            return
        sign = 1 if around.coefficient > 0 else -1
        plain = dataclasses.replace(around, coefficient=abs(around.coefficient))
        value = plain.product(expr)
        if around.items:
            value = make("reduce", braces(around.items, around.conditions), value, value="sum")
        elif around.conditions:
            value = make("if", join("and", around.conditions), value, number(0))
        self.constants.append((sign, value))


def total(constants: Sequence[tuple[int, Expr]]) -> Expr:
    """Returns the sum of signed expressions, the positive ones first; 0 without any."""
    ordered = sorted(constants, key=lambda pair: -pair[0])
    if not ordered:
        return number(0)
    sign, result = ordered[0]
    result = result if sign > 0 else make("sign", result, value="-")
    for sign, part in ordered[1:]:
        result = make("+" if sign > 0 else "-", result, part)
    return result
