"""Finds the network of a linear model: which constraints are balances, and where each variable begins and ends."""
from __future__ import annotations

import dataclasses
from fractions import Fraction
from typing import Sequence

from ..exact import decimal_text, parse_numeral
from ..reading.model import Decl, Expr
from .cases import Balance, End, Form, Limit, Price, Variable, residual
from .facts import Facts
from .indices import Index, Match, Names, index_of, match, simplified_sums, without_capture
from .linear import Collector, Term, total
from .problems import Inexpressible
from .sets import SetFacts
from .side_constraints import side_constraint
from .trees import braces, join, make, name, number, text, ungrouped

FLIPPED = {"=": "=", "<=": ">=", ">=": "<=", "<": ">", ">": "<"}


@dataclasses.dataclass
class Network:
    """What a model's variables and constraints become. `checks` are constraints without variables."""

    variables: dict[str, Variable] = dataclasses.field(default_factory=dict)
    balances: dict[str, Balance] = dataclasses.field(default_factory=dict)
    checks: list[tuple[Decl, str]] = dataclasses.field(default_factory=list)
    constants: dict[str, Expr] = dataclasses.field(default_factory=dict)


class Analysis:
    """Reads variables, constraints and objectives, whose expressions have netflow's operators, into a network."""

    def __init__(self, decls: Sequence[Decl], sets: SetFacts, names: Names, fractional: set[str]) -> None:
        self.decls, self.sets, self.names = decls, sets, names
        self.network = Network()
        self.common = Facts(sets, fractional)
        for decl in decls:
            if decl.kind == "param" and decl.braces is None:
                self.add_parameter(decl)

    def add_parameter(self, decl: Decl) -> None:
        """Adds what a parameter's declaration says of its value, such as `T >= 1`."""
        for phrase in decl.phrases:
            if phrase.word in (">", ">=", "<", "<=", "<>", "="):
                self.common.add(make(phrase.word, name(decl.name), ungrouped(phrase.exprs[0])))
            elif phrase.word == "!=":
                self.common.add(make("<>", name(decl.name), ungrouped(phrase.exprs[0])))
            elif phrase.word == ":=" and phrase.exprs[0].op == "num":
                self.common.add(make("=", name(decl.name), phrase.exprs[0]))
            elif phrase.word == "in":
                self.common.add(make("in", name(decl.name), ungrouped(phrase.exprs[0])))

    def facts_of(self, variable: Variable) -> Facts:
        facts = self.common.copy()
        for item in variable.index.items:
            facts.add(item)
        for condition in variable.index.conditions:
            facts.add(condition)
        return facts

    # Constraints

    def add_constraint(self, decl: Decl) -> None:
        index = index_of(decl.braces, self.sets)
        comparison = decl.phrases[0].exprs[0] if decl.phrases else make("net", name("net_in"), number(0), value="=")
        collectors = []
        for part in comparison.args:
            collectors.append(Collector({*self.network.variables, "net_in", "net_out"}))
            collectors[-1].add(part)
        ops = comparison.value.split()
        bodies = [here for here, entry in enumerate(collectors) if entry.terms]
        if not bodies and decl.kind == "constraint":
            self.network.checks.append((decl, text(chain(comparison))))
            return
        terms, form = self.normal_form(decl, collectors, ops, bodies)
        if decl.kind == "constraint" and len(terms) == 1 and not terms[0].around.items:
            self.add_limits(terms[0], index, form).limited_by.append(decl)
            return
        self.add_balance(decl, index, terms, form)

    def normal_form(
        self, decl: Decl, collectors: list[Collector], ops: list[str], bodies: list[int]
    ) -> tuple[list[Term], Form]:
        """Returns the terms, and the comparison as `sides` around their sum (None), with what is added to the sum."""
        if any(op in ("<", ">") for op in ops):
            raise Inexpressible(decl.start, f"{decl.name}: a constraint has <=, >= or =, and neither < nor >")
        if len(ops) == 2:
            if bodies not in ([1], []):
                raise Inexpressible(decl.start, f"{decl.name}: the outer sides of a double inequality are constants")
            low, body, high = collectors
            return body.terms, Form([total(low.constants), None, total(high.constants)], ops, body.constants)
        left, right = collectors
        terms = left.terms + [
            dataclasses.replace(entry, around=entry.around.times(number(-1))) for entry in right.terms
        ]
        rest = right.constants + [(-sign, part) for sign, part in left.constants]
        op = ops[0]
        if all(entry.around.coefficient < 0 for entry in terms):
            terms = [dataclasses.replace(entry, around=entry.around.times(number(-1))) for entry in terms]
            op, rest = FLIPPED[op], [(-sign, part) for sign, part in rest]
        return terms, Form([None, total(rest)], [op], [])

    def add_limits(self, term: Term, index: Index, form: Form) -> Variable:
        """Adds a constraint of one variable as a bound of that variable, which is returned."""
        variable, found = self.matched(term, index)
        if term.around.factors:
            raise Inexpressible(term.variable.start, coefficient_message(term))
        ops, added = form.ops, form.added
        inverse = 1 / term.around.coefficient
        guard = residual(found.conditions, self.facts_of(variable))
        if guard is None:
            return variable
        for here, side in enumerate(form.sides):
            if side is None:
                continue
            op = ops[0] if len(ops) == 1 else FLIPPED[ops[0]] if here == 0 else ops[1]
            value = total([(1, side), *((-sign, part) for sign, part in added)]) if added else side
            if inverse != 1:
                value = scaled(value, inverse, term)
                op = op if inverse > 0 else FLIPPED[op]
            value = simplified_sums(without_capture(value, found.values, self.names))
            variable.limits += [Limit(entry, value, guard) for entry in (("<=", ">=") if op == "=" else (op,))]
        return variable

    def matched(self, term: Term, index: Index) -> tuple[Variable, Match]:
        """Returns the variable of a term, and at which of its keys the term is."""
        variable = self.network.variables[term.variable.value]
        if len(term.variable.args) != len(variable.index.dummies):
            raise Inexpressible(
                term.variable.start,
                f"`{text(term.variable)}`: {variable.name} has {len(variable.index.dummies)} subscripts",
            )
        found = match(term.variable, term.around, index, variable.index, self.sets, self.names)
        if found.free:
            raise Inexpressible(
                term.variable.start,
                f"`{text(term.variable)}` is in this constraint once for each {' and '.join(found.free)}, and an arc"
                " has two ends only",
            )
        return variable, found

    def add_balance(
        self,
        decl: Decl,
        index: Index,
        terms: list[Term],
        form: Form,
    ) -> None:
        balance = Balance(decl.name, index, form, decl.start)
        nets = [entry for entry in terms if entry.variable.value in ("net_in", "net_out")]
        if decl.kind == "node":
            if len(nets) != 1 or nets[0].around.factors or nets[0].around.items or nets[0].around.conditions:
                raise Inexpressible(decl.start, f"{decl.name}: the condition of a node has net_in or net_out once")
            balance.flip = unit(nets[0]) * (1 if nets[0].variable.value == "net_in" else -1)
        elif nets:
            raise Inexpressible(decl.start, f"{decl.name}: net_in and net_out belong to nodes")
        arcs = [term for term in terms if term not in nets]
        for term in arcs:
            if not is_unit(term):
                what = side_constraint(decl.name, term, arcs, index, self.network.variables)
                raise Inexpressible(term.variable.start, coefficient_message(term, what))
        for term in terms:
            if term not in nets:
                balance.signs.append(unit(term))
                self.add_end(balance, term, index)
        self.network.balances[decl.name] = balance

    def add_end(self, balance: Balance, term: Term, index: Index) -> None:
        sign = unit(term)
        variable, found = self.matched(term, index)
        facts = self.facts_of(variable)
        guard = residual(found.conditions, facts)
        key = [simplified_sums(found.values[dummy]) for dummy in index.dummies]
        if guard is not None:
            variable.ends.append(End(balance, sign, key, guard, term.variable.start))

    # Objectives

    def add_objective(self, decl: Decl) -> None:
        collector = Collector(set(self.network.variables))
        for phrase in decl.phrases:
            collector.add(phrase.exprs[0])
        for term in collector.terms:
            self.add_price(decl, term)
        if collector.constants:
            self.network.constants[decl.name] = total(collector.constants)

    def add_price(self, decl: Decl, term: Term) -> None:
        variable = self.network.variables[term.variable.value]
        if len(term.variable.args) != len(variable.index.dummies):
            raise Inexpressible(
                term.variable.start,
                f"`{text(term.variable)}`: {variable.name} has {len(variable.index.dummies)} subscripts",
            )
        found = match(term.variable, term.around, Index([], [], []), variable.index, self.sets, self.names)
        price = without_capture(term.around.product(), found.values, self.names)
        if found.free:
            items = [entry for entry in found.conditions if entry.op == "in"]
            price = make(
                "reduce", braces(items, [entry for entry in found.conditions if entry.op != "in"]), price, value="sum"
            )
            guard: list[Expr] | None = []
        else:
            guard = residual(found.conditions, self.facts_of(variable))
        if guard is not None:
            variable.prices.append(Price(decl.name, simplified_sums(price), guard))


def chain(comparison: Expr) -> Expr:
    """Returns a comparison of constants as a condition."""
    pairs = zip(comparison.value.split(), comparison.args, comparison.args[1:])
    return join("and", [make(op, left, right) for op, left, right in pairs])


def is_unit(term: Term) -> bool:
    return not term.around.factors and abs(term.around.coefficient) == 1


def unit(term: Term) -> int:
    """Returns the coefficient of a term, 1 or -1."""
    if not is_unit(term):
        raise Inexpressible(term.variable.start, coefficient_message(term))
    return int(term.around.coefficient)


def coefficient_message(term: Term, what: str = "") -> str:
    """Returns what is wrong with a coefficient; `what` is the kind of constraint, if known."""
    size = dataclasses.replace(term.around, coefficient=abs(term.around.coefficient))
    said = what or "the coefficient has to be 1 or -1, as an arc has no gains or losses"
    return f"`{text(size.product(term.variable))}`: {said}"


def scaled(value: Expr, factor: Fraction, term: Term) -> Expr:
    said = decimal_text(abs(factor))
    if "/" in said:
        raise Inexpressible(term.variable.start, coefficient_message(term))
    number_of = parse_numeral(value.value) if value.op == "num" else None
    if number_of is not None:
        result = make("num", value=decimal_text(number_of * abs(factor)))
    else:
        result = make("*", make("num", value=said), value) if abs(factor) != 1 else value
    return make("sign", result, value="-") if factor < 0 else result
