"""The class `SimpleLinearSumAssignment` of OR-Tools, solved by netflow."""
from __future__ import annotations

import enum
from fractions import Fraction
from typing import Sequence, SupportsFloat

from ..errors import DataError, Infeasible
from .ortools import SimpleGraph, node_of, same_lengths
from .problem import Arc, GraphNumber, Problem


class AssignmentStatus(enum.IntEnum):
    """What `SimpleLinearSumAssignment.solve` returns."""

    OPTIMAL = 0
    INFEASIBLE = 1
    POSSIBLE_OVERFLOW = 2


class SimpleLinearSumAssignment(SimpleGraph):
    """An assignment problem with the methods of OR-Tools' class of this name: each left node gets a right node of its
    own, at the least cost. Both are numbers from 0; costs are whole unless `decimals` is true."""

    OPTIMAL, INFEASIBLE = AssignmentStatus.OPTIMAL, AssignmentStatus.INFEASIBLE
    POSSIBLE_OVERFLOW = AssignmentStatus.POSSIBLE_OVERFLOW

    def __init__(self, certify: bool = False, decimals: bool = False) -> None:
        super().__init__(decimals)
        self.certify = certify
        self._chosen: dict[int, Arc] | None = None

    def add_arc_with_cost(self, left_node: int, right_node: int, cost: SupportsFloat) -> int:
        """Allows a pair, and returns its index."""
        pair = Arc(node_of(left_node), node_of(right_node), Fraction(1), self._finite(cost, "cost"))
        self._arcs.append(pair)
        return len(self._arcs) - 1

    def add_arcs_with_cost(
        self, left_nodes: Sequence[int], right_nodes: Sequence[int], costs: Sequence[SupportsFloat]
    ) -> list[int]:
        rows = same_lengths("add_arcs_with_cost", left_nodes, right_nodes, costs)
        return [self.add_arc_with_cost(*row) for row in rows]

    def solve(self) -> AssignmentStatus:
        """Assigns all nodes; the status is INFEASIBLE if there is no perfect matching."""
        count = self.num_nodes()
        supplies = {node: Fraction(1) for node in range(count)}
        supplies.update({count + node: Fraction(-1) for node in range(count)})
        pairs = [Arc(arc.src, count + arc.dst, arc.capacity, arc.cost) for arc in self._arcs]
        self._chosen = None
        try:
            result = Problem(2 * count, supplies, pairs, self._number.has_float).solve(self.certify)
        except Infeasible:
            return AssignmentStatus.INFEASIBLE
        self._chosen = {arc.src: arc for arc, flow in zip(self._arcs, result.flows) if flow}
        return AssignmentStatus.OPTIMAL

    def _solved(self) -> dict[int, Arc]:
        if self._chosen is None:
            raise DataError("there is no assignment: solve() did not return OPTIMAL")
        return self._chosen

    def optimal_cost(self) -> GraphNumber:
        return self._number.shown(sum((arc.cost for arc in self._solved().values()), Fraction(0)))

    def right_mate(self, left_node: int) -> int:
        """Returns the right node of a left node."""
        return self._solved()[left_node].dst

    def assignment_cost(self, left_node: int) -> GraphNumber:
        return self._number.shown(self._solved()[left_node].cost)

    def left_node(self, arc: int) -> int:
        return self.tail(arc)

    def right_node(self, arc: int) -> int:
        return self.head(arc)

    def cost(self, arc: int) -> GraphNumber:
        return self._number.shown(self._arcs[arc].cost)
