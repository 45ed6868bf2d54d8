"""The class `SimpleMinCostFlow` of OR-Tools, solved by netflow."""
from __future__ import annotations

import enum
from fractions import Fraction
from typing import Iterable, Mapping, Sequence, SupportsFloat

from ..errors import DataError, Infeasible, Unbounded
from .ortools import SimpleGraph, node_of, same_lengths
from .problem import Arc, GraphNumber, Problem, Result


class Status(enum.IntEnum):
    """What `SimpleMinCostFlow.solve` returns."""

    NOT_SOLVED = 0
    OPTIMAL = 1
    FEASIBLE = 2
    INFEASIBLE = 3
    UNBALANCED = 4
    BAD_RESULT = 5
    BAD_COST_RANGE = 6
    BAD_CAPACITY_RANGE = 7


class SimpleMinCostFlow(SimpleGraph):
    """A minimum-cost flow problem with the methods of OR-Tools' class of this name. Nodes are numbers from 0; amounts
    are whole unless `decimals` is true."""

    NOT_SOLVED, OPTIMAL, FEASIBLE, INFEASIBLE = Status.NOT_SOLVED, Status.OPTIMAL, Status.FEASIBLE, Status.INFEASIBLE
    UNBALANCED, BAD_RESULT, BAD_COST_RANGE = Status.UNBALANCED, Status.BAD_RESULT, Status.BAD_COST_RANGE
    BAD_CAPACITY_RANGE = Status.BAD_CAPACITY_RANGE

    def __init__(self, certify: bool = False, decimals: bool = False) -> None:
        super().__init__(decimals)
        self.certify = certify
        self._supplies: dict[int, Fraction] = {}
        self._result: Result | None = None
        self.cut: list[int] = []

    def add_arc_with_capacity_and_unit_cost(
        self, tail: int, head: int, capacity: SupportsFloat | None, unit_cost: SupportsFloat
    ) -> int:
        """Adds an arc and returns its index; a capacity of None has no limit."""
        limit = None if capacity is None else self._amount(capacity, "capacity")
        self._arcs.append(Arc(node_of(tail), node_of(head), limit, self._finite(unit_cost, "unit_cost")))
        return len(self._arcs) - 1

    def add_arcs_with_capacity_and_unit_cost(
        self,
        tails: Sequence[int],
        heads: Sequence[int],
        capacities: Sequence[SupportsFloat | None],
        unit_costs: Sequence[SupportsFloat],
    ) -> list[int]:
        rows = same_lengths("add_arcs_with_capacity_and_unit_cost", tails, heads, capacities, unit_costs)
        return [self.add_arc_with_capacity_and_unit_cost(*row) for row in rows]

    def set_node_supply(self, node: int, supply: SupportsFloat) -> None:
        """Sets what a node gives; below 0, takes."""
        self._supplies[node_of(node)] = self._finite(supply, "supply")

    def set_nodes_supplies(self, nodes: Sequence[int], supplies: Sequence[SupportsFloat]) -> None:
        for node, supply in same_lengths("set_nodes_supplies", nodes, supplies):
            self.set_node_supply(node, supply)

    def solve(self) -> Status:
        """Solves the problem; `cut` has the nodes that show that no flow is feasible."""
        if sum(self._supplies.values()):
            return Status.UNBALANCED
        return self._solve(self._arcs, dict(self._supplies), self.num_nodes())

    def solve_max_flow_with_min_cost(self) -> Status:
        """Sends as much of the supplies as possible, at the least cost."""
        source = self.num_nodes()
        ends = [Arc(source, node, supply, Fraction(0)) for node, supply in self._supplies.items() if supply > 0]
        ends += [Arc(node, source + 1, -supply, Fraction(0)) for node, supply in self._supplies.items() if supply < 0]
        total = sum((abs(supply) for supply in self._supplies.values()), Fraction(0))
        plain = [Arc(arc.src, arc.dst, arc.capacity, Fraction(0)) for arc in self._arcs]
        back = Arc(source + 1, source, total, Fraction(-1))
        most = -Fraction(Problem(source + 2, {}, [*plain, *ends, back]).solve(self.certify).cost)
        return self._solve([*self._arcs, *ends, Arc(source + 1, source, most, Fraction(0), most)], {}, source + 2)

    def _solve(self, arcs: Sequence[Arc], supplies: Mapping[int, Fraction], count: int) -> Status:
        self._result, self.cut = None, []
        if any(arc.capacity is not None and arc.capacity < 0 for arc in arcs):
            return Status.BAD_CAPACITY_RANGE
        try:
            self._result = Problem(count, supplies, arcs, self._number.has_float).solve(self.certify)
        except Infeasible as problem:
            self.cut = problem.cut
            return Status.INFEASIBLE
        except Unbounded:
            return Status.BAD_COST_RANGE
        return Status.OPTIMAL

    def _solved(self) -> Result:
        if self._result is None:
            raise DataError("there is no flow: solve() did not return OPTIMAL")
        return self._result

    def flow(self, arc: int) -> GraphNumber:
        return self._number.shown(self._solved().flows[arc])

    def flows(self, arcs: Iterable[int]) -> list[GraphNumber]:
        return [self.flow(arc) for arc in arcs]

    def optimal_cost(self) -> GraphNumber:
        return self._number.shown(self._solved().cost)

    def maximum_flow(self) -> GraphNumber:
        """Returns what leaves the nodes that give."""
        result = {node: Fraction(0) for node, supply in self._supplies.items() if supply > 0}
        for arc, flow in zip(self._arcs, self._solved().flows):
            for node, sign in ((arc.src, 1), (arc.dst, -1)):
                if node in result:
                    result[node] += sign * flow
        return self._number.shown(sum(result.values(), Fraction(0)))

    def num_nodes(self) -> int:
        return max([super().num_nodes(), *(1 + node for node in self._supplies)])

    def capacity(self, arc: int) -> GraphNumber | None:
        room = self._arcs[arc].capacity
        return None if room is None else self._number.shown(room)

    def unit_cost(self, arc: int) -> GraphNumber:
        return self._number.shown(self._arcs[arc].cost)

    def supply(self, node: int) -> GraphNumber:
        return self._number.shown(self._supplies.get(node, Fraction(0)))
