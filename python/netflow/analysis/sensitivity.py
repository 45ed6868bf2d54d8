"""What one more unit really costs, and how far that holds: shortest paths in the residual network of a plan of least
cost.

A path from the outside to a node shows the cheapest way to bring one more unit there; if there is none, the need of the
node cannot grow by itself. The lengths are exact for the next unit, whichever of several best plans is at hand. They
hold for as many units as all paths of that length can carry together.
"""
from __future__ import annotations

import heapq
import math
from typing import List, Optional, Tuple

from ..reading.network import Arc, Network
from ..types import Amount, Number

# An arc of the residual network: a node, a reduced cost, and a capacity. Lengths are by node, None if there is
# no path.
Step = Tuple[int, Number, Amount]
Lengths = List[Optional[Number]]


class Residual:
    """The residual network of a plan with prices; node `len(net.nodes)` is the outside. For each node `out` has the
    arcs that leave the node, as triples of a node, a reduced cost and a capacity, and `into` those that enter."""

    def __init__(self, net: Network) -> None:
        self.net, self.outside = net, len(net.nodes)
        self.out: list[list[Step]] = [[] for _ in range(self.outside + 1)]
        self.into: list[list[Step]] = [[] for _ in range(self.outside + 1)]
        out, into, outside = self.out, self.into, self.outside
        for arc in net.arcs:
            flow, worth, lower = arc.flow, arc.worth, arc.lower
            src = outside if arc.src is None else arc.src
            dst = outside if arc.dst is None else arc.dst
            if flow < arc.upper:
                room = math.inf if arc.is_open else arc.upper - flow
                out[src].append((dst, worth, room))
                into[dst].append((src, worth, room))
            if flow > lower:
                out[dst].append((src, -worth, flow - lower))
                into[src].append((dst, -worth, flow - lower))
        for number, node in enumerate(net.nodes):
            # A side that the model leaves open grows with the bounds of the arcs.
            above = math.inf if node.is_high_open else node.high - node.inflow
            below = math.inf if node.is_low_open else node.inflow - node.low
            if above:
                out[number].append((outside, node.worth, above))
                into[outside].append((number, node.worth, above))
            if below:
                out[outside].append((number, -node.worth, below))
                into[number].append((outside, -node.worth, below))

    def worth(self, number: int) -> Number:
        return 0 if number == self.outside else self.net.nodes[number].worth

    def labels(self, start: int, is_backward: bool = False) -> Lengths:
        """Returns the least reduced cost from `start` to each node (or back); None if there is
        no path."""
        near = self.into if is_backward else self.out
        result: Lengths = [None] * (self.outside + 1)
        heap: list[tuple[Number, int]] = [(0, start)]
        while heap:
            length, here = heapq.heappop(heap)
            if result[here] is not None:
                continue
            result[here] = length
            for there, more, _ in near[here]:
                if result[there] is None:
                    heapq.heappush(heap, (length + more, there))
        return result

    def costs(self, labels: Lengths, start: int, is_backward: bool = False) -> Lengths:
        """Returns the costs that belong to labels."""
        sign = -1 if is_backward else 1
        return [
            None if length is None else length + sign * (self.worth(number) - self.worth(start))
            for number, length in enumerate(labels)
        ]

    def distances(self, start: int, is_backward: bool = False) -> Lengths:
        """Returns the least cost from `start` to each node (or back); None if there is no path."""
        return self.costs(self.labels(start, is_backward), start, is_backward)

    def units(self, start: int, end: int, labels: Lengths, work: float = math.inf) -> Amount:
        """Returns how many units all cheapest paths from start to end carry together, infinity for any number; 0 if
        this takes more steps than `work`. `labels` are those of the start."""
        if start == end:
            return math.inf
        rooms: dict[int, dict[int, Amount]] = {}
        line = [start]
        for here in line:
            if here not in rooms:
                rooms[here] = {}
                length = labels[here]
                for there, more, room in self.out[here]:
                    if length is not None and length + more == labels[there]:
                        rooms[here][there] = rooms[here].get(there, 0) + room
                        line.append(there)
        return greatest_flow(rooms, start, end, work)


def greatest_flow(rooms: dict[int, dict[int, Amount]], start: int, end: int, work: float) -> Amount:
    """Returns the greatest flow through arcs with these capacities, by shortest augmenting paths; 0 if this takes more
    steps than `work`. It changes the capacities."""
    total: Amount = 0
    while work > 0:
        before, line = {start: start}, [start]
        for here in line:
            if end in before:
                break
            near = rooms.get(here, {})
            work -= len(near)
            for there, room in near.items():
                if room and there not in before:
                    before[there] = here
                    line.append(there)
        if end not in before:
            return total
        path = [end]
        while path[-1] != start:
            path.append(before[path[-1]])
        steps = list(zip(path[1:], path))
        amount = min(rooms[here][there] for here, there in steps)
        if amount == math.inf:
            return amount
        for here, there in steps:
            rooms[here][there] -= amount
            back = rooms.setdefault(there, {})
            back[here] = back.get(here, 0) + amount
        total += amount
    return 0


class Marginal:
    """For each node what one more required unit costs (`more`), and what one unit less saves, as a cost (`less`); None
    if the network has no plan with that change alone."""

    def __init__(self, net: Network) -> None:
        self.net, self.residual = net, Residual(net)
        self.labels = self.residual.labels(self.residual.outside)
        self.more = self.residual.costs(self.labels, self.residual.outside)[:-1]
        self.less = self.residual.distances(self.residual.outside, True)[:-1]

    def units_more(self, number: int, work: float = math.inf) -> Amount:
        """Returns for how many more required units the cost holds; 0 if that takes more steps than `work`."""
        return self.residual.units(self.residual.outside, number, self.labels, work)

    def units_less(self, number: int, work: float = math.inf) -> Amount:
        return self.residual.units(number, self.residual.outside, self.residual.labels(number), work)

    def pair(self, number: int) -> tuple[int, Number] | None:
        """Returns the giving node with which one more unit at the node has a plan, and the cost; None if there
        is none."""
        found = self.residual.distances(number, True)
        givers = [
            (cost, giver)
            for giver, (node, cost) in enumerate(zip(self.net.nodes, found))
            if node.high < 0 and giver != number and cost is not None
        ]
        if not givers:
            return None
        cost, giver = min(givers)
        return giver, cost


def arc_change(net: Network, residual: Residual, arc: Arc) -> Number:
    """Returns what one more unit of an upper bound, or one less of a lower bound, really saves: 0 or more."""
    start, end = way_back(residual, arc)
    back = residual.distances(start)[end]
    price = net.sign * arc.price if arc.is_full() else -net.sign * arc.price
    return 0 if back is None else max(0, -(price + back))


def arc_units(residual: Residual, arc: Arc, work: float = math.inf) -> Amount:
    """Returns for how many units past its bound an arc saves as much as for the first; 0 if that takes more steps than
    `work`."""
    start, end = way_back(residual, arc)
    return residual.units(start, end, residual.labels(start), work)


def way_back(residual: Residual, arc: Arc) -> tuple[int, int]:
    """Returns between which nodes a path has to carry a unit that the arc carries past its bound."""
    src, dst = (residual.outside if end is None else end for end in (arc.src, arc.dst))
    return (dst, src) if arc.is_full() else (src, dst)
