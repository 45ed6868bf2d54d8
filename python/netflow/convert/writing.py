"""Writes a network as nodes and arcs of netflow's language."""
from __future__ import annotations

from typing import Sequence

from ..reading.model import Expr
from .cases import Balance, Case, Price, Variable, guard_of
from .facts import Facts
from .indices import Names
from .linear import total
from .network import Network
from .sets import SetFacts
from .trees import extreme, join, make, name, number, text


class Writer:
    """The declarations of a network. `missing` gets the names of arcs without a lower or upper bound."""

    def __init__(self, network: Network, cases: dict[str, list[Case]], names: Names, sets: SetFacts) -> None:
        self.network, self.cases, self.names, self.sets = network, cases, names, sets
        self.missing: list[str] = []
        self.split: dict[str, list[str]] = {}
        self.alone = ""

    def objective(self, kind: str, objective: str) -> str:
        return f"{kind} {objective};"

    def check(self, braces_text: str, condition: str) -> str:
        return f"check{' ' if braces_text else ''}{braces_text}: {condition};"

    def node(self, balance: Balance) -> str:
        net = total([(1, name("net_in" if balance.flip > 0 else "net_out")), *balance.form.added])
        parts = [text(net if side is None else side, 8) for side in balance.form.sides]
        said = parts[0] + "".join(f" {op} {part}" for op, part in zip(balance.form.ops, parts[1:]))
        return f"node {head(balance.name, balance.index.braces())}: {said};"

    def arcs(self, variable: Variable) -> list[str]:
        """Returns the declaration of each case of a variable, the one with the most ends first."""
        result: list[str] = []
        for case in sorted(self.cases[variable.name], key=order_of):
            called = self.case_name(variable, case) if result else variable.name
            self.split.setdefault(variable.name, []).append(called)
            result.append(self.arc(called, variable, case))
        return result

    def case_name(self, variable: Variable, case: Case) -> str:
        words = [variable.name]
        for end in sorted(case.ends, key=lambda item: item.balance.flip * item.sign):
            words.append(f"{'to' if end.balance.flip * end.sign > 0 else 'from'}_{end.balance.name}")
        return self.names.fresh("_".join(words if len(words) > 1 else [variable.name, "alone"]))

    def arc(self, called: str, variable: Variable, case: Case) -> str:
        bounds, phrases = [*self.bounds(called, case), *(["integer"] if variable.is_integer else [])], []
        for end in sorted(case.ends, key=lambda item: item.balance.flip * item.sign):
            word = "to" if end.balance.flip * end.sign > 0 else "from"
            phrases.append(f"{word} {text(name(end.balance.name, *end.key))}")
        if not case.ends:
            phrases += [f"from {self.node_alone()}", f"to {self.alone}"]
        phrases += self.prices(variable, case)
        first = f"arc {head(called, variable.index.braces(case.conditions))}"
        return f"{' '.join([first, ', '.join(bounds)]).rstrip()},\n   {', '.join(phrases)};"

    def node_alone(self) -> str:
        """Returns the node of the arcs that are in no balance: they lead from it to itself."""
        if not self.alone:
            self.alone = self.names.fresh("Alone")
        return self.alone

    def bounds(self, called: str, case: Case) -> list[str]:
        lower = distinct([limit.value for limit in case.limits if limit.op == ">="])
        upper = distinct([limit.value for limit in case.limits if limit.op == "<="])
        if len(lower) > 1:
            lower = [item for item in lower if not (is_zero(item) and self.has_positive(lower, case.facts))]
        if not lower or not upper:
            self.missing.append(called)
        both = ((">=", "max", lower), ("<=", "min", upper))
        return [f"{op} {text(extreme(word, found), 8)}" for op, word, found in both if found]

    def has_positive(self, bounds: Sequence[Expr], facts: Facts) -> bool:
        """Whether a declaration says that one of the bounds is at least 0, so that the bound 0 is not needed."""
        for bound in bounds:
            decl = self.sets.shapes.decls.get(bound.value) if bound.op == "name" else None
            limits = (
                [item for item in decl.phrases if item.word in (">=", ">") and is_zero(item.exprs[0])] if decl else []
            )
            if limits or bound.op == "num" and not is_zero(bound):
                return True
        return False

    def prices(self, variable: Variable, case: Case) -> list[str]:
        by_objective: dict[str, list[Expr]] = {}
        for price in variable.prices:
            value = self.price(price, case.facts)
            if value is not None:
                by_objective.setdefault(price.objective, []).append(value)
        return [f"obj {objective} {text(join('+', values), 8)}" for objective, values in by_objective.items()]

    def price(self, price: Price, facts: Facts) -> Expr | None:
        decided = facts.decide(guard_of(price.guard)) if price.guard else True
        if decided is None:
            return make("if", guard_of(price.guard), price.value, number(0))
        return price.value if decided else None

    def constant(self, objective: str, value: Expr) -> str:
        """Returns an arc that adds a constant to the objective: the flow is 1."""
        called = self.names.fresh(f"{objective}_constant")
        ends = [f"from {self.node_alone()}", f"to {self.alone}"]
        return f"arc {called} >= 1, <= 1,\n   {', '.join(ends)}, obj {objective} {text(value, 8)};"


def head(called: str, braces_text: str) -> str:
    return f"{called} {braces_text}" if braces_text else called


def order_of(case: Case) -> tuple[int, int]:
    """Returns the rank of a case: the one with two ends, and for most keys, is first."""
    return -len(case.ends), sum(condition.op == "=" for condition in case.conditions)


def is_zero(expr: Expr) -> bool:
    return expr.op == "num" and expr.value == "0"


def distinct(parts: Sequence[Expr]) -> list[Expr]:
    return list({text(part): part for part in parts}.values())
