"""What one more unit at a place, or of a bound of an arc, costs or saves, and how far that holds."""
from __future__ import annotations

import math

from ..exact import magnitude
from ..reading.network import Arc, Network
from ..types import Amount, Number
from .sensitivity import Marginal, arc_change, arc_units

# Up to how many steps exact changes are computed: arcs of the network times listed arcs, or pairs of places.
EXACT_WORK = 300_000
# Up to how many steps the search takes for how far one change holds.
LIMIT_WORK = 50_000


class Gains:
    """What one more unit of a bound saves, of each arc at a bound: exactly if the network is small, else at most."""

    def __init__(self, net: Network, marginal: Marginal) -> None:
        arcs = [arc for arc in net.arcs if arc.is_full() or arc.is_lowest()]
        felt = [arc for arc in arcs if arc.worth]
        self.is_exact = len(net.arcs) * len(felt) <= EXACT_WORK
        self.residual = marginal.residual
        gains = [(self.gain(net, arc), arc) for arc in felt]
        gains.sort(key=lambda pair: pair[0], reverse=True)
        self.free = [arc for arc in arcs if not arc.worth] + [arc for amount, arc in gains if not amount]
        self.felt = [(amount, arc) for amount, arc in gains if amount]

    def gain(self, net: Network, arc: Arc) -> Number:
        """Returns what one more unit of an arc's bound saves."""
        return arc_change(net, self.residual, arc) if self.is_exact else magnitude(arc.worth)

    def limit(self, arc: Arc) -> str:
        """Returns up to which bound the gain of an arc holds, in words; an empty text if unknown."""
        units = arc_units(self.residual, arc, LIMIT_WORK) if self.is_exact else 0
        return limit_text(arc.upper, units) if arc.is_full() else limit_text(arc.lower, -units)


def limit_text(amount: Number, units: Amount) -> str:
    """Returns up to which amount the value of one unit holds; `units` below 0 lead down."""
    if not units:
        return ""
    return (
        "; holds for any number"
        if abs(units) == math.inf
        else f"; holds {'up' if units > 0 else 'down'} to {amount + units}"
    )


class Place:
    """A node with a condition, and what one more unit there costs (`cost`, below 0 for a saving), None if it cannot
    change alone."""

    def __init__(self, net: Network, marginal: Marginal, number: int) -> None:
        self.node = net.nodes[number]
        self.number, self.wish = number, self.node.wish()
        self.is_giver = self.wish.startswith("gives")
        self.cost = (marginal.less if self.is_giver else marginal.more)[number]
        self.felt_cost: Number = self.cost or 0
        low, high = (self.node.inflow == self.node.low, self.node.inflow == self.node.high)
        self.side = (
            "fixed"
            if self.node.low == self.node.high
            else "most"
            if (low if self.is_giver else high)
            else "least"
            if (high if self.is_giver else low)
            else ""
        )

    def is_felt(self) -> bool:
        if self.side == "fixed":
            return bool(self.cost) and bool(self.wish)
        node = self.node
        is_own = node.has_low() if (self.side == "least") != self.is_giver else node.has_high()
        return is_own and (self.felt_cost < 0 if self.side == "most" else self.side == "least" and self.felt_cost > 0)

    def line(self, net: Network, units: Amount = 0) -> str:
        """Returns the place with its cost, which holds for so many units, if that is known."""
        cost, amount = self.felt_cost, magnitude(self.node.inflow)
        verb = f"costs {cost}" if cost > 0 else f"{better(net)} {-cost}"
        at = "" if self.side == "fixed" else f", and {'gives' if self.is_giver else 'gets'} the {self.side}, {amount}"
        return f"    {self.node.text} {self.wish}{at}: one more {verb}{limit_text(amount, units)}"

    def units(self, marginal: Marginal) -> Amount:
        """Returns for how many units the cost holds."""
        return (marginal.units_less if self.is_giver else marginal.units_more)(self.number, LIMIT_WORK)


def bottleneck(net: Network, gains: Gains) -> list[Arc]:
    """Returns the arcs of a minimum cut if the plan is a maximum flow: each is worth 1, and together they carry the
    value."""
    cut = [arc for arc in net.arcs if arc.is_full() and arc.worth == -1]
    if (
        net.sign > 0
        or not cut
        or any(arc.worth not in (-1, 0) for _, arc in gains.felt)
        or sum(arc.upper for arc in cut) != net.value
    ):
        return []
    return cut


def better(net: Network) -> str:
    return "saves" if net.sign > 0 else "brings"
