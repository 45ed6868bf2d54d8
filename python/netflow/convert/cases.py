"""The parts of a network: balances, and variables with the ends, limits and prices that apply at their keys."""
from __future__ import annotations

import dataclasses
from typing import Sequence

from ..reading.model import Decl, Expr
from .facts import Facts
from .indices import Index, simplified_sums
from .problems import Inexpressible
from .trees import join, negated, text

MOST_GUARDS = 6


@dataclasses.dataclass
class Form:
    """A comparison: its sides, None for the sum of variables, the operators, and what is added to that sum."""

    sides: list[Expr | None]
    ops: list[str]
    added: list[tuple[int, Expr]]


@dataclasses.dataclass
class Balance:
    """A constraint as a condition of a node. `form` is its comparison with `\\0` for the sum of its variables; `flip`
    is 1 if that sum is the net inflow, -1 for the net outflow, 0 if that is not decided."""

    name: str
    index: Index
    form: Form
    start: int
    flip: int = 0
    signs: list[int] = dataclasses.field(default_factory=list)


@dataclasses.dataclass
class End:
    """A variable in a balance: its sign in the sum, the node's key, and the conditions on the variable's key."""

    balance: Balance
    sign: int
    key: list[Expr]
    guard: list[Expr]
    start: int


@dataclasses.dataclass
class Limit:
    """A bound of a variable where its guard holds."""

    op: str
    value: Expr
    guard: list[Expr]


@dataclasses.dataclass
class Price:
    objective: str
    value: Expr
    guard: list[Expr]


@dataclasses.dataclass
class Variable:
    name: str
    index: Index
    start: int
    is_integer: bool = False
    ends: list[End] = dataclasses.field(default_factory=list)
    limits: list[Limit] = dataclasses.field(default_factory=list)
    prices: list[Price] = dataclasses.field(default_factory=list)
    limited_by: list[Decl] = dataclasses.field(default_factory=list)  # the constraints that are bounds


@dataclasses.dataclass
class Case:
    """The keys of a variable at which the same ends and limits apply, as conditions on the key."""

    conditions: list[Expr]
    ends: list[End]
    limits: list[Limit]
    facts: Facts


def residual(conditions: Sequence[Expr], facts: Facts) -> list[Expr] | None:
    """Returns the conditions that the facts leave open; None if one cannot hold."""
    result: list[Expr] = []
    for condition in conditions:
        decided = facts.decide(condition)
        if decided is False:
            return None
        if decided is None:
            rest = open_parts(condition, facts)
            result += [item for item in rest if text(item) not in map(text, result)]
    return result


def open_parts(condition: Expr, facts: Facts) -> list[Expr]:
    """Returns the parts of an undecided condition that are not decided themselves."""
    parts = [condition]
    if condition.op == "in":
        parts = [facts.sets.membership(*condition.args)]
    if parts[0].op == "and":
        parts = [item for part in parts[0].args for item in open_parts(part, facts)]
    return [simplified_sums(item) for item in parts if facts.decide(item) is None]


def guard_of(conditions: Sequence[Expr]) -> Expr:
    return join("and", conditions)


def cases_of(variable: Variable, facts: Facts) -> list[Case]:
    """Divides the keys of a variable by which of its ends and limits apply there."""
    guards: dict[str, Expr] = {}
    for part in [*(end.guard for end in variable.ends), *(limit.guard for limit in variable.limits)]:
        if part:
            guards[text(guard_of(part))] = guard_of(part)
    if len(guards) > MOST_GUARDS:
        raise Inexpressible(
            variable.start,
            f"{variable.name} is in constraints of {len(guards)} different index sets, more than are converted",
        )
    cases: list[tuple[list[Expr], Facts]] = [([], facts)]
    for guard in guards.values():
        cases = [item for conditions, known in cases for item in divided(conditions, known, guard)]
    return [case(variable, conditions, known) for conditions, known in cases if not known.is_contradictory()]


def divided(conditions: list[Expr], facts: Facts, guard: Expr) -> list[tuple[list[Expr], Facts]]:
    """Returns the two cases of a guard, or the one that is possible."""
    decided = facts.decide(guard)
    result = []
    if decided is not False:
        yes = facts.copy()
        yes.add(guard)
        result.append(([*conditions, *([guard] if decided is None else [])], yes))
    if decided is not True:
        no = facts.copy()
        no.add_negation(guard)
        result.append(([*conditions, *([negated(guard)] if decided is None else [])], no))
    return result


def case(variable: Variable, conditions: list[Expr], facts: Facts) -> Case:
    def holds(guard: list[Expr]) -> bool:
        return not guard or facts.decide(guard_of(guard)) is True

    return Case(
        conditions,
        [end for end in variable.ends if holds(end.guard)],
        [limit for limit in variable.limits if holds(limit.guard)],
        facts,
    )
