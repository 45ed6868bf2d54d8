"""Replaces the operators and functions of AMPL that netflow lacks, as docs/guide/from-ampl.md describes."""
from __future__ import annotations

from fractions import Fraction

from ..exact import decimal_text, parse_numeral
from ..reading.model import Expr
from .problems import Inexpressible
from .sets import SetFacts
from .trees import braces, extreme, items_of, make, mapped, names_in, number, text, ungrouped

ORDER = {"next", "prev", "first", "last", "ord", "ord0", "member", "nextw", "prevw"}
WORDS = {"&&": "and", "||": "or", "!=": "<>", "==": "="}


class Rewriter:
    """Rewrites expressions to netflow's operators."""

    def __init__(self, facts: SetFacts) -> None:
        self.facts = facts

    def rewrite(self, expr: Expr) -> Expr:
        """Returns the expression without foreign operators; raises Inexpressible for one without a replacement."""
        return ungrouped(mapped(expr, self.change))

    def change(self, expr: Expr) -> Expr | None:
        if expr.op in WORDS:
            return make(WORDS[expr.op], *map(self.rewrite, expr.args), at=expr.start)
        if expr.op == "/":
            return self.quotient(expr)
        if expr.op == "call":
            return self.called(expr)
        if expr.op in ("exists", "forall"):
            return self.quantified(expr)
        if expr.op == "setof":
            return self.projected(expr)
        if expr.op == "less":
            left, right = map(self.rewrite, expr.args)
            return make("if", make(">", left, right), make("-", left, right), number(0), at=expr.start)
        if expr.op == "^":
            raise Inexpressible(expr.start, "netflow has no powers: give the value in the data")
        if expr.op == "&":
            raise Inexpressible(expr.start, "netflow does not join texts: give the text in the data")
        if expr.op == "name" and expr.value == "Infinity" and not expr.args:
            raise Inexpressible(expr.start, "`Infinity` is only converted as a bound of a variable")
        return None

    def quotient(self, expr: Expr) -> Expr:
        """Returns `a * 0.01` for `a / 100`: a divisor is converted if it is a number with a finite inverse."""
        left, right = map(self.rewrite, expr.args)
        divisor = parse_numeral(right.value) if right.op == "num" else None
        inverse = decimal_text(Fraction(1) / divisor) if divisor else "/"
        if "/" in inverse:
            what = f"`{text(left)} / {text(right)}`"
            raise Inexpressible(expr.start, f"netflow does not divide: give the value of {what} in the data")
        return make("*", left, make("num", value=inverse), at=expr.start)

    def called(self, expr: Expr) -> Expr:
        parts = [self.rewrite(part) for part in expr.args]
        if expr.value == "card" and len(parts) == 1:
            index = parts[0] if parts[0].op == "braces" else braces([parts[0]])
            return make("reduce", index, number(1), value="sum", at=expr.start)
        if expr.value == "abs" and len(parts) == 1:
            value = parts[0]
            return make("if", make("<", value, number(0)), make("sign", value, value="-"), value, at=expr.start)
        if expr.value in ("min", "max"):
            return extreme(expr.value, parts, expr.start)
        if expr.value in ORDER:
            raise Inexpressible(
                expr.start, f"`{expr.value}` needs an ordered set: use a set of numbers, 1..T, with t + 1 and t - 1"
            )
        raise Inexpressible(expr.start, f"netflow has no function `{expr.value}`: give the value in the data")

    def quantified(self, expr: Expr) -> Expr:
        """Returns `sum {..: c} 1 > 0` for `exists {..} c`, and `sum {..: not c} 1 = 0` for `forall {..} c`."""
        items, conditions = items_of(self.rewrite(expr.args[0]))
        condition = self.rewrite(expr.args[1])
        last = condition if expr.op == "exists" else make("not", condition)
        total = make("reduce", braces(items, [*conditions, last]), number(1), value="sum")
        return make(">" if expr.op == "exists" else "=", total, number(0), at=expr.start)

    def projected(self, expr: Expr) -> Expr:
        """Returns `{i in S: sum {(i,j) in L} 1 > 0}` for `setof {(i,j) in L} i`, if the set of `i` is known."""
        index, part = self.rewrite(expr.args[0]), self.rewrite(expr.args[1])
        ranges = self.facts.ranges(items_of(index)[0])
        wanted = part.args if part.op == "tuple" else [part]
        domains = [ranges.get(item.value) if item.op == "name" and not item.args else None for item in wanted]
        names = {item.value for item in wanted}
        if len(names) < len(wanted) or any(item is None or names_in(item) & set(ranges) for item in domains):
            raise Inexpressible(
                expr.start,
                f"`setof {text(index)} {text(part)}`: no set is known to contain it; declare one with its data",
            )
        outer = [make("in", item, domain) for item, domain in zip(wanted, domains) if domain]
        return braces(outer, [make(">", make("reduce", index, number(1), value="sum"), number(0))])
