"""Minimum-cost flow problems in exact numbers.

Numbers can have decimals: they are scaled exactly to whole numbers and divided again. An arc without a capacity has no
limit.
"""
from __future__ import annotations

import dataclasses
import tempfile
from fractions import Fraction
from typing import Mapping, Sequence, SupportsFloat, Union

from ..errors import DataError, Infeasible, ProgramError, ScaleError, Unbounded
from ..exact import LARGEST, as_fraction, common_factor, decimal_text, divided, power_text, rounded_together
from ..program import call, problem_text
from ..reading.network import Network
from ..types import Number
from ..warning import warn

# A number of a graph, which is read exactly; results are floats if one of the numbers was.
GraphNumber = Union[int, float, Fraction]

# The limits of `netflow min`.
NODES, ARCS, LARGEST_FLOW = 20_000, 200_000, 10**18


@dataclasses.dataclass
class Arc:
    """An arc of a problem: node indices, the capacity (None: no limit), the cost of a unit, and a lower bound."""

    src: int
    dst: int
    capacity: Fraction | None
    cost: Fraction
    lower: Fraction = Fraction(0)


@dataclasses.dataclass
class Result:
    """A flow of least cost: the flow of each arc, the cost, the potential of each node, and the certificate as text."""

    flows: list[Number]
    cost: Number
    potentials: list[Number]
    certificate: str


class Problem:
    """A minimum-cost flow problem in exact numbers; supplies are by node index, demands negative."""

    def __init__(
        self, count: int, supplies: Mapping[int, Fraction], arcs: Sequence[Arc], has_float: bool = False
    ) -> None:
        self.count, self.supplies, self.arcs = max(count, 1), supplies, list(arcs)
        if has_float:
            self.round_costs()
            arcs = self.arcs
        amounts = [
            *supplies.values(),
            *(arc.lower for arc in arcs),
            *(arc.capacity for arc in arcs if arc.capacity is not None),
        ]
        self.flow_factor, self.cost_factor = common_factor(amounts), common_factor(arc.cost for arc in arcs)
        # No optimal flow needs more on an arc without a limit, if the cost has a limit.
        finite = sum((arc.capacity for arc in arcs if arc.capacity is not None), Fraction(0))
        self.bound = (
            finite
            + sum((abs(supply) for supply in supplies.values()), Fraction(0))
            + sum((arc.lower for arc in arcs), Fraction(0))
        )

    def round_costs(self) -> None:
        """Rounds costs that were floats with more digits than netflow takes, such as 0.1 + 0.2, and warns of that."""
        costs = [arc.cost for arc in self.arcs]
        largest, factor = max((abs(cost) for cost in costs), default=Fraction(0)), common_factor(costs)
        if largest * factor <= LARGEST:
            return
        rounded = rounded_together(costs, costs)
        fewer = [(cost, less) for cost, less in zip(costs, rounded) if cost != less]
        if fewer:
            (cost, less), others = fewer[0], len(fewer) - 1
            warn(
                f"the cost {decimal_text(cost)} has more digits than netflow takes and is rounded to"
                f" {decimal_text(less)}" + (f" ({others} more costs)" if others else "")
            )
        self.arcs = [dataclasses.replace(arc, cost=cost) for arc, cost in zip(self.arcs, rounded)]

    def text(self) -> str:
        """Returns the problem in the DIMACS format; raises DataError or ScaleError past the program's
        limits."""
        if self.count > NODES or len(self.arcs) > ARCS:
            raise DataError(
                f"the problem has {self.count} nodes and {len(self.arcs)} arcs; netflow takes at most {NODES} and"
                f" {ARCS}"
            )
        if self.bound * self.flow_factor > LARGEST_FLOW:
            amounts = [*self.supplies.values(), *(arc.capacity for arc in self.arcs if arc.capacity is not None)]
            raise past_limit("capacities and supplies", self.flow_factor, LARGEST_FLOW, amounts)
        if any(abs(arc.cost * self.cost_factor) > LARGEST for arc in self.arcs):
            raise past_limit("costs", self.cost_factor, LARGEST, [arc.cost for arc in self.arcs])
        rows = [
            (
                arc.src,
                arc.dst,
                int(arc.lower * self.flow_factor),
                int((self.bound if arc.capacity is None else arc.capacity) * self.flow_factor),
                int(arc.cost * self.cost_factor),
            )
            for arc in self.arcs
        ]
        return problem_text(
            self.count, {node: int(supply * self.flow_factor) for node, supply in self.supplies.items()}, rows
        )

    def solve(self, certify: bool = False) -> Result:
        """Returns a flow of least cost; raises Infeasible with the indices of a cut, or Unbounded."""
        text = self.text()
        answer = call(["min", "/dev/stdin"], text)
        if certify:
            require_certificate(text, answer.text)
        lines = answer.text.split("\n")
        if answer.status == 2:
            side, nodes = lines[0].split(" ")[1], [int(line[2:]) - 1 for line in lines if line.startswith("m ")]
            raise Infeasible("no flow is feasible", nodes, side, [])
        self.require_bounded()
        flows = [divided(int(line.rsplit(" ", 1)[1]), self.flow_factor) for line in lines if line.startswith("f ")]
        potentials = [divided(int(line.rsplit(" ", 1)[1]), self.cost_factor) for line in lines if line.startswith("v ")]
        return Result(flows, divided(int(lines[0][2:]), self.flow_factor * self.cost_factor), potentials, answer.text)

    def require_bounded(self) -> None:
        """Raises Unbounded if a cycle of arcs without a limit has a negative cost."""
        free = [arc for arc in self.arcs if arc.capacity is None]
        if any(arc.cost < 0 for arc in free):
            rows = [(arc.src, arc.dst, 0, 1, int(arc.cost * self.cost_factor)) for arc in free]
            if not call(["min", "/dev/stdin"], problem_text(self.count, {}, rows)).text.startswith("s 0\n"):
                raise Unbounded("a cycle of arcs without a limit has a negative cost")


def past_limit(what: str, factor: int, limit: int, amounts: Sequence[Fraction]) -> ScaleError:
    """Returns the error of amounts that are too large after scaling, with the amount that needs the factor."""
    finest = max(amounts, key=lambda amount: amount.denominator)
    guilty = f"; the factor comes from {decimal_text(finest)}: round it" if factor > 1 else ""
    return ScaleError(f"{what}, times {power_text(factor)}, are past {power_text(limit)}{guilty}", None, factor)


def require_certificate(problem: str, certificate: str) -> None:
    """Raises ProgramError unless `netflow check` accepts the certificate."""
    with (
        tempfile.NamedTemporaryFile("w", prefix="netflow-", encoding="ascii") as first,
        tempfile.NamedTemporaryFile("w", prefix="netflow-", encoding="ascii") as second,
    ):
        first.write(problem)
        second.write(certificate)
        first.flush()
        second.flush()
        answer = call(["check", first.name, second.name])
    if answer.text != "yes\n":
        raise ProgramError(answer.status, f"netflow check rejects the certificate: {answer.text}")


def require_bounded(net: Network) -> None:
    """Raises Unbounded if the plan is limited only by bounds that were added to arcs without any."""
    outside = len(net.nodes)
    rows = []
    for arc in net.arcs:
        src, dst = (outside if end is None else end for end in (arc.src, arc.dst))
        cost = int(net.sign * arc.price)
        rows += [(src, dst, 0, 1, cost)] if arc.is_open else []
        rows += [(dst, src, 0, 1, -cost)] if arc.lower == -arc.upper and arc.is_open else []
    for number, node in enumerate(net.nodes):
        # A node that only its arcs limit takes or gives any amount.
        rows += [(number, outside, 0, 1, 0)] if not node.has_high() and node.low != node.high else []
        rows += [(outside, number, 0, 1, 0)] if not node.has_low() and node.low != node.high else []
    if any(row[4] < 0 for row in rows) and not call(
        ["min", "/dev/stdin"], problem_text(outside + 1, {}, rows)
    ).text.startswith("s 0\n"):
        raise Unbounded(f"{net.objective} has no limit: arcs without an upper bound improve it forever")


def exact(value: object, what: str) -> Fraction | None:
    """Returns a number exactly, None for an infinite one."""
    result = as_fraction(value)
    if result is None and not (isinstance(value, float) and value == float("inf")):
        raise DataError(f"{what}: {value!r} is no number")
    return result


class Numbers:
    """Reads attributes, and remembers whether one was a float, as then results are floats too."""

    def __init__(self) -> None:
        self.has_float = False

    def __call__(self, value: SupportsFloat, what: str) -> Fraction | None:
        self.has_float = self.has_float or isinstance(value, float)
        return exact(value, what)

    def shown(self, value: Number) -> GraphNumber:
        if isinstance(value, Fraction):
            return int(value) if value.denominator == 1 else float(value) if self.has_float else value
        return value
