"""The proof of a plan: a price for each node and a reduced cost for each arc, with all that a check of them needs."""
from __future__ import annotations

import dataclasses

from .exact import divided
from .reading.network import Network
from .types import Number


@dataclasses.dataclass(frozen=True)
class PricedArc:
    """An arc with its flow and its reduced cost. `source` and `target` are indices of nodes, None for the outside."""

    name: str
    source: int | None
    target: int | None
    lower: Number
    upper: Number
    coefficient: Number
    flow: Number
    reduced_cost: Number


@dataclasses.dataclass(frozen=True)
class PricedNode:
    """A node with its net inflow, the range that its condition allows, and its price."""

    name: str
    low: Number
    high: Number
    inflow: Number
    price: Number


@dataclasses.dataclass(frozen=True)
class Certificate:
    """Prices that prove a plan. The value is `constant` plus the sum of coefficient times flow; `sign` is 1 to minimize
    and -1 to maximize. The prices are those of `netflow solve --prices`."""

    sign: int
    constant: Number
    value: Number
    nodes: list[PricedNode]
    arcs: list[PricedArc]

    @classmethod
    def of(cls, net: Network) -> "Certificate":
        """Returns the certificate of a network with its plan and prices."""
        sign, cost = net.sign, net.factors.cost
        offsets = sum(arc.price * cost * offset for arc, offset in zip(net.arcs, net.offsets))
        nodes = [PricedNode(node.text, node.low, node.high, node.inflow, sign * node.worth) for node in net.nodes]
        arcs = [
            PricedArc(arc.text, arc.src, arc.dst, arc.lower, arc.upper, arc.price, arc.flow, sign * arc.worth)
            for arc in net.arcs
        ]
        return cls(sign, divided(net.constant - offsets, net.factors.value), net.value, nodes, arcs)

    def faults(self) -> list[str]:
        """Returns what is wrong: an empty list shows that the plan is feasible and that no plan has a better value."""
        result, inflows = [], [0 * node.inflow for node in self.nodes]
        for arc in self.arcs:
            source, target = (0 if end is None else self.nodes[end].price for end in (arc.source, arc.target))
            result += [f"{arc.name}: the flow is outside its bounds"] * (not arc.lower <= arc.flow <= arc.upper)
            result += [f"{arc.name}: the reduced cost is wrong"] * (
                arc.reduced_cost != arc.coefficient + source - target
            )
            result += self._slack(arc.name, arc.reduced_cost, arc.flow, arc.lower, arc.upper)
            for end, flow in ((arc.source, -arc.flow), (arc.target, arc.flow)):
                if end is not None:
                    inflows[end] += flow
        for node, inflow in zip(self.nodes, inflows):
            result += [f"{node.name}: the net inflow is wrong"] * (node.inflow != inflow)
            result += [f"{node.name}: the condition is violated"] * (not node.low <= inflow <= node.high)
            result += self._slack(node.name, node.price, inflow, node.low, node.high)
        value = self.constant + sum(arc.coefficient * arc.flow for arc in self.arcs)
        return result + ["the value is wrong"] * (self.value != value)

    def _slack(self, name: str, price: Number, amount: Number, low: Number, high: Number) -> list[str]:
        """Returns an error unless a positive price comes with the lower side and a negative one with the upper side; to
        maximize the other way round."""
        side = low if self.sign * price > 0 else high if self.sign * price < 0 else amount
        return [] if amount == side else [f"{name}: {amount} is not at the side that {price} belongs to"]
