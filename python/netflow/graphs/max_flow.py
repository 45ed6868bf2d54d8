"""The class `SimpleMaxFlow` of OR-Tools, solved by netflow."""
from __future__ import annotations

import enum
from fractions import Fraction
from typing import Iterable, Sequence, SupportsFloat

from ..errors import Unbounded
from .ortools import SimpleGraph, node_of, same_lengths
from .problem import Arc, GraphNumber, Problem


class MaxFlowStatus(enum.IntEnum):
    """What `SimpleMaxFlow.solve` returns."""

    OPTIMAL = 0
    POSSIBLE_OVERFLOW = 1
    BAD_INPUT = 2
    BAD_RESULT = 3


class SimpleMaxFlow(SimpleGraph):
    """A maximum flow problem with the methods of OR-Tools' class of this name. Nodes are numbers from 0; capacities are
    whole unless `decimals` is true, and None is no limit."""

    OPTIMAL, POSSIBLE_OVERFLOW = MaxFlowStatus.OPTIMAL, MaxFlowStatus.POSSIBLE_OVERFLOW
    BAD_INPUT, BAD_RESULT = MaxFlowStatus.BAD_INPUT, MaxFlowStatus.BAD_RESULT

    def __init__(self, certify: bool = False, decimals: bool = False) -> None:
        super().__init__(decimals)
        self.certify = certify
        self._flows: list[Fraction] = []
        self._value, self._ends = Fraction(0), (0, 0)

    def add_arc_with_capacity(self, tail: int, head: int, capacity: SupportsFloat | None) -> int:
        """Adds an arc and returns its index."""
        limit = None if capacity is None else self._amount(capacity, "capacity")
        self._arcs.append(Arc(node_of(tail), node_of(head), limit, Fraction(0)))
        return len(self._arcs) - 1

    def add_arcs_with_capacity(
        self, tails: Sequence[int], heads: Sequence[int], capacities: Sequence[SupportsFloat | None]
    ) -> list[int]:
        rows = same_lengths("add_arcs_with_capacity", tails, heads, capacities)
        return [self.add_arc_with_capacity(*row) for row in rows]

    def set_arc_capacity(self, arc: int, capacity: SupportsFloat | None) -> None:
        self._arcs[arc].capacity = None if capacity is None else self._amount(capacity, "capacity")

    def solve(self, source: int, sink: int) -> MaxFlowStatus:
        """Sends as much as possible from one node to another. Without a limit the status is POSSIBLE_OVERFLOW."""
        self._flows, self._value, self._ends = [Fraction(0)] * len(self._arcs), Fraction(0), (source, sink)
        negative = any(arc.capacity is not None and arc.capacity < 0 for arc in self._arcs)
        if source == sink or source < 0 or sink < 0 or negative:
            return MaxFlowStatus.BAD_INPUT
        if max(source, sink) >= self.num_nodes():
            return MaxFlowStatus.OPTIMAL
        back = Arc(sink, source, None, Fraction(-1))
        try:
            result = Problem(self.num_nodes(), {}, [*self._arcs, back]).solve(self.certify)
        except Unbounded:
            return MaxFlowStatus.POSSIBLE_OVERFLOW
        *flows, value = map(Fraction, result.flows)
        self._flows, self._value = flows, value
        return MaxFlowStatus.OPTIMAL

    def optimal_flow(self) -> GraphNumber:
        return self._number.shown(self._value)

    def flow(self, arc: int) -> GraphNumber:
        return self._number.shown(self._flows[arc])

    def flows(self, arcs: Iterable[int]) -> list[GraphNumber]:
        return [self.flow(arc) for arc in arcs]

    def capacity(self, arc: int) -> GraphNumber | None:
        limit = self._arcs[arc].capacity
        return None if limit is None else self._number.shown(limit)

    def get_source_side_min_cut(self) -> list[int]:
        """Returns the nodes to which the source can send more: the arcs that leave them are a minimum cut."""
        return self._reached(self._ends[0], False)

    def get_sink_side_min_cut(self) -> list[int]:
        """Returns the nodes from which more can reach the sink: the arcs that enter them are a minimum cut."""
        return self._reached(self._ends[1], True)

    def _reached(self, start: int, is_backward: bool) -> list[int]:
        near: dict[int, list[int]] = {}
        for arc, flow in zip(self._arcs, self._flows):
            for src, dst, can in (
                (arc.src, arc.dst, arc.capacity is None or flow < arc.capacity),
                (arc.dst, arc.src, flow > 0),
            ):
                if can:
                    near.setdefault(dst if is_backward else src, []).append(src if is_backward else dst)
        line, known = [start], {start}
        for here in line:
            for there in near.get(here, []):
                if there not in known:
                    known.add(there)
                    line.append(there)
        return line
