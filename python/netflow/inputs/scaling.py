"""Scales models and data with decimals to whole numbers, exactly, and says by which factors.

Each parameter has a factor: the least power of ten that makes its values whole, or a given one. Each expression then
has a factor too: that of a product is the product, and the terms of a sum are brought to a common one by whole numbers
that are written into the model. All bounds and conditions share one factor (of flows), all prices of an objective
another one (of costs).
"""
from __future__ import annotations

import dataclasses
import math
from fractions import Fraction

from ..errors import ScaleError
from ..exact import LARGEST, common_factor, decimal_text, parse_numeral, power_text
from ..reading.model import Decl, Expr, Phrase
from ..types import Edit

BOUND = 10**11


@dataclasses.dataclass
class Factors:
    """By what the numbers of the scaled model are larger: flows, prices of an arc, and the objective's value.
    `in_flows` are the parameters with decimals in bounds and conditions, because of which flows are."""

    flow: int = 1
    cost: int = 1
    parameters: dict[str, int] = dataclasses.field(default_factory=dict)
    in_flows: list[str] = dataclasses.field(default_factory=list)

    @property
    def value(self) -> int:
        return self.flow * self.cost

    def is_plain(self) -> bool:
        return self.flow == self.cost == 1


class Scaler:
    """Computes the factors of a model and the edits that scale the model. `needed` has the factor that the data of
    a parameter need."""

    def __init__(
        self, decls: list[Decl], needed: dict[str, int], objective: str | None, add_bounds: bool = False
    ) -> None:
        self.decls, self.needed, self.add_bounds = decls, needed, add_bounds
        self.arcs = {decl.name for decl in decls if decl.kind == "arc"}
        self.params: dict[str, int] = {}
        self.edits: list[Edit] = []
        self.flow = 1
        objectives = [decl for decl in decls if decl.kind in ("minimize", "maximize")]
        self.chosen = next((decl for decl in objectives if objective in (None, decl.name)), None)

    def scale(self) -> tuple[Factors, list[Edit]]:
        """Returns the factors and the edits of the model."""
        for decl in self.decls:
            if decl.kind == "param":
                self.params[decl.name] = self.factor_of_param(decl)
        for decl in self.decls:
            if decl.kind == "arc" or decl.kind == "node" and decl.phrases:
                self.flow = math.lcm(self.flow, *self.bound_factors(decl))
        cost = self.cost_factor()
        for decl in self.decls:
            self.edit(decl, cost)
        whole = [decl.name for decl in self.decls if decl.kind == "arc" and decl.phrase("integer")]
        if self.flow > 1 and whole:
            raise ScaleError(f"arc {whole[0]} is integer, but a bound or a condition has decimals", whole[0], self.flow)
        return Factors(self.flow, cost, dict(self.params), self.in_flows()), self.edits

    def in_flows(self) -> list[str]:
        """Returns the parameters with decimals in bounds and conditions."""
        exprs = [
            expr
            for decl in self.decls
            for phrase in decl.phrases
            for expr in phrase.exprs
            if decl.kind == "node" or decl.kind == "arc" and phrase.word in (">=", "<=")
        ]
        names = []
        for expr in exprs:
            exprs += expr.args
            names += [expr.value] if expr.op == "name" and self.params.get(expr.value, 1) > 1 else []
        return list(dict.fromkeys(names))

    def factor_of_param(self, decl: Decl) -> int:
        factor = self.needed.get(decl.name, 1)
        for phrase in decl.phrases:
            if phrase.word in ("symbolic", "integer", "in") and factor > 1:
                raise ScaleError(
                    f"param {decl.name} has decimals, but the model declares it as {phrase.word}", decl.name, factor
                )
            if phrase.exprs and phrase.word != "in":
                factor = math.lcm(factor, self.factor(phrase.exprs[0]))
        return factor

    def bound_factors(self, decl: Decl) -> list[int]:
        if decl.kind == "node":
            return [
                self.factor(term) for side in decl.phrases[0].exprs[0].args for term in terms(side) if not is_net(term)
            ]
        return [
            self.factor(phrase.exprs[0])
            for phrase in decl.phrases
            if phrase.word in (">=", "<=") and not is_infinite(phrase.exprs[0])
        ]

    def cost_factor(self) -> int:
        """The factor of prices of the chosen objective."""
        if self.chosen is None:
            return 1
        factor = self.flow
        if self.chosen.phrases:
            factor = math.lcm(factor, self.factor(self.chosen.phrases[0].exprs[0]))
        for decl in self.decls:
            for phrase in decl.phrases:
                if phrase.word == "obj" and phrase.name == self.chosen.name:
                    factor = math.lcm(factor, self.flow * self.factor(phrase.exprs[0]))
        return factor // self.flow

    # Factors of expressions

    def factor(self, expr: Expr) -> int:
        op = expr.op
        if op == "num":
            value = parse_numeral(expr.value)
            return common_factor([value]) if value is not None else 1
        if op == "name":
            return self.flow if expr.value in self.arcs else self.params.get(expr.value, 1)
        if op == "*":
            return self.factor(expr.args[0]) * self.factor(expr.args[1])
        if op in ("+", "-", "mod"):
            return math.lcm(*map(self.factor, expr.args))
        if op in ("sign", "group"):
            return self.factor(expr.args[0])
        if op == "reduce":
            return self.factor(expr.args[1])
        if op == "if":
            return math.lcm(*map(self.factor, expr.args[1:]))
        return 1

    # Edits

    def edit(self, decl: Decl, cost: int) -> None:
        if decl.braces:
            self.emit_index(decl.braces)
        for phrase in decl.phrases:
            for expr in phrase.exprs:
                self.edit_phrase(decl, phrase, expr, cost)
        if decl.kind == "arc" and self.add_bounds:
            self.bound(decl)

    def edit_phrase(self, decl: Decl, phrase: Phrase, expr: Expr, cost: int) -> None:
        word = phrase.word
        if decl.kind == "param" and word != "in":
            self.emit(expr, self.params[decl.name])
        elif decl.kind == "node":
            for term in (term for side in expr.args for term in terms(side)):
                if not is_net(term):
                    self.emit(term, self.flow)
        elif decl.kind == "arc" and word in (">=", "<="):
            if is_infinite(expr) and self.add_bounds:
                self.edits.append((expr.start, expr.end, f"{'-' if word == '>=' else ''}{BOUND}"))
            else:
                self.emit(expr, self.flow)
        elif decl.kind == "arc" and word == "obj":
            chosen = self.chosen is not None and phrase.name == self.chosen.name
            self.emit(expr, cost if chosen else self.factor(expr))
        elif decl.kind in ("minimize", "maximize"):
            self.emit(expr, cost * self.flow if decl is self.chosen else self.factor(expr))
        elif decl.kind == "check":
            self.emit_truth(expr)
        else:
            self.emit_index(expr)

    def bound(self, decl: Decl) -> None:
        """Adds the bounds that an arc lacks."""
        lacking = [f"{word} {sign}{BOUND}" for word, sign in ((">=", "-"), ("<=", "")) if not decl.phrase(word)]
        if lacking:
            comma = ", " if decl.phrases else " "
            self.edits.append((decl.end, decl.end, comma + ", ".join(lacking)))

    def emit(self, expr: Expr, target: int, is_right: bool = False) -> None:
        """Adds the edits that give a number the factor `target`, a multiple of its own."""
        op = expr.op
        if op == "num":
            self.emit_numeral(expr, target)
        elif op in ("+", "-"):
            for part in expr.args:
                self.emit(part, target)
        elif op in ("sign", "group"):
            self.emit(expr.args[0], target)
        elif op == "reduce":
            self.emit_index(expr.args[0])
            self.emit(expr.args[1], target)
        elif op == "if":
            self.emit_truth(expr.args[0])
            for part in expr.args[1:]:
                self.emit(part, target)
        else:
            self.multiply(expr, target // self.factor(expr), is_right or op in ("div", "mod"))
            self.emit_parts(expr)

    def emit_numeral(self, expr: Expr, target: int) -> None:
        value = parse_numeral(expr.value)
        if value is None:
            return
        scaled = value * target
        if abs(scaled) > LARGEST:
            raise ScaleError(
                f"the number {expr.value} of the model, times {power_text(target)}, is past {power_text(LARGEST)}",
                None,
                target,
            )
        if target != 1 or value.denominator != 1 or "." in expr.value:
            self.edits.append((expr.start, expr.end, str(scaled)))

    def emit_parts(self, expr: Expr) -> None:
        if expr.op == "*":
            for here, part in enumerate(expr.args):
                self.emit(part, self.factor(part), here == 1)
        elif expr.op in ("div", "mod"):
            common = math.lcm(*map(self.factor, expr.args))
            for here, part in enumerate(expr.args):
                self.emit(part, common, here == 1)
        else:
            for part in expr.args:
                self.emit_index(part)

    def multiply(self, expr: Expr, by: int, has_parentheses: bool) -> None:
        if by != 1:
            before, after = (f"({by} * (", "))") if has_parentheses else (f"{by} * ", "")
            self.edits.append((expr.start, expr.start, before))
            if after:
                self.edits.append((expr.end, expr.end, after))

    def emit_truth(self, expr: Expr) -> None:
        """A condition: both sides of a comparison get one factor."""
        if expr.op in ("and", "or", "not", "group"):
            for part in expr.args:
                self.emit_truth(part)
        elif expr.op in ("=", "==", "<>", "!=", "<", "<=", ">", ">="):
            common = math.lcm(*map(self.factor, expr.args))
            for part in expr.args:
                self.emit(part, common)
        else:
            self.emit_index(expr)

    def emit_index(self, expr: Expr) -> None:
        """Members, sets and indexing: what has decimals cannot be used there."""
        if expr.op == "name" and self.params.get(expr.value, 1) != 1:
            raise ScaleError(
                f"param {expr.value} has decimals and is used as a member or in a set",
                expr.value,
                self.params[expr.value],
            )
        if expr.op == "num" and self.factor(expr) != 1:
            raise ScaleError(
                f"the number {expr.value} has decimals and is used as a member or in a set", is_numeral=True
            )
        if expr.op in ("+", "-", "*", "sign", "reduce", "div", "mod"):
            if self.factor(expr) != 1:
                raise ScaleError("an expression with decimals is used as a member or in a set")
            self.emit(expr, 1)
            return
        parts = expr.args
        if expr.op == "braces" and expr.value:
            self.emit_truth(expr.args[-1])
            parts = expr.args[:-1]
        for part in parts:
            (
                self.emit_truth
                if part.op in ("and", "or", "not", "=", "==", "<>", "!=", "<", "<=", ">", ">=")
                else self.emit_index
            )(part)


def terms(expr: Expr) -> list[Expr]:
    """The terms of a sum, from the left."""
    if expr.op in ("+", "-"):
        return terms(expr.args[0]) + terms(expr.args[1])
    return [expr]


def is_net(expr: Expr) -> bool:
    while expr.op == "sign":
        expr = expr.args[0]
    return expr.op == "name" and expr.value in ("net_in", "net_out")


def is_infinite(expr: Expr) -> bool:
    while expr.op == "sign":
        expr = expr.args[0]
    return expr.op == "name" and expr.value == "Infinity"


def scaled_value(name: str, value: Fraction, factor: int) -> int:
    """Returns the value times the factor; raises ScaleError for one that is not whole or too large."""
    found = value * factor
    said = f"param {name}: {decimal_text(value)} times {power_text(factor)}"
    if found.denominator != 1:
        raise ScaleError(f"{said} is not whole", name, factor)
    if abs(found) > LARGEST:
        more = ": use a larger unit" if factor == 1 else ""
        raise ScaleError(f"{said} is past {power_text(LARGEST)}{more}", name, factor)
    return int(found)
