"""Decides for each balance whether the sum of its variables is the net inflow or the net outflow of its node."""
from __future__ import annotations

from fractions import Fraction
from typing import Mapping, Sequence

from .cases import Balance, Case, End, Variable
from .facts import linear
from .problems import Inexpressible
from .trees import names_in

Cases = Mapping[str, Sequence[Case]]


class Directions:
    """The pairs of ends that one arc joins: one of them has to be the tail, the other the head."""

    def __init__(self, variables: Mapping[str, Variable], cases: Cases) -> None:
        self.pairs: list[tuple[Variable, End, End]] = []
        for name, found in cases.items():
            for case in found:
                if len(case.ends) > 2:
                    raise self.too_many(variables[name], case.ends)
                if len(case.ends) == 2:
                    self.pairs.append((variables[name], case.ends[0], case.ends[1]))

    def too_many(self, variable: Variable, ends: Sequence[End]) -> Inexpressible:
        last = max(ends, key=lambda end: end.start)
        names = ", ".join(dict.fromkeys(end.balance.name for end in sorted(ends, key=lambda end: end.start)))
        return Inexpressible(
            last.start,
            f"{variable.name} occurs {len(ends)} times in constraints ({names}), and an arc has two ends:"
            f" {last.balance.name} is a side constraint, which a network cannot express",
        )

    def choose(self, balances: Mapping[str, Balance]) -> None:
        """Sets `flip` of each balance; raises Inexpressible if no choice fits."""
        for start in sorted(balances.values(), key=lambda item: not item.flip):
            is_fixed, start.flip = bool(start.flip), start.flip or 1
            reached = self.spread(start)
            if not is_fixed and self.score(reached) < 0:
                for balance in reached:
                    balance.flip = -balance.flip
        for variable, one, other in self.pairs:
            if one.balance.flip * one.sign == other.balance.flip * other.sign:
                raise self.same_side(variable, one, other)

    def spread(self, start: Balance) -> list[Balance]:
        """Sets the flips that follow from one; returns the balances that were reached."""
        reached = [start]
        for balance in reached:
            for _, one, other in self.pairs:
                for here, there in ((one, other), (other, one)):
                    if here.balance is balance and not there.balance.flip:
                        there.balance.flip = -balance.flip * here.sign * there.sign
                        reached.append(there.balance)
        return reached

    def score(self, reached: Sequence[Balance]) -> int:
        """Returns how natural a choice is: supplies are outflows, arcs lead from earlier subscripts to later ones."""
        result = 0
        for balance in reached:
            ops = balance.form.ops
            result += {"<=": -1, ">=": 1}.get(ops[0], 0) * balance.flip if len(ops) == 1 else 0
            result += balance.flip if {1, -1} <= set(balance.signs) else 0
        for variable, one, other in self.pairs:
            if one.balance in reached:
                places = [first_place(variable, item) for item in (one, other)]
                leaves = one.balance.flip * one.sign < 0
                if places[0] != places[1]:
                    result += 2 if (places[0] < places[1]) == leaves else -2
        return result

    def same_side(self, variable: Variable, one: End, other: End) -> Inexpressible:
        last = max(one, other, key=lambda end: end.start)
        return Inexpressible(
            last.start,
            f"{variable.name} has the same sign in {one.balance.name} and {other.balance.name}, and no choice of the"
            " constraints' signs makes it leave one and enter the other",
        )


def first_place(variable: Variable, end: End) -> tuple[int, Fraction]:
    """Returns the order of an end: which subscript of the variable comes first in its key, and what is added there."""
    used = {word for part in end.key for word in names_in(part)}
    dummies = variable.index.dummies
    added = sum(((linear(part) or {}).get("", Fraction(0)) for part in end.key), Fraction(0))
    return next((here for here, dummy in enumerate(dummies) if dummy in used), len(dummies)), added
