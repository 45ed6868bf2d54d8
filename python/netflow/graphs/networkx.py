"""The functions of NetworkX for minimum-cost flow, solved by netflow."""
from __future__ import annotations

from fractions import Fraction
from typing import Any, Callable, Dict, Hashable, Iterator, Mapping, Protocol, Sequence, Tuple, Union

from ..errors import Infeasible, NetflowError, Unbounded
from ..reading.text import few
from .attributes import warn_of_missing
from .errors import graph_error, infeasible_graph
from .problem import Arc, GraphNumber, Numbers, Problem, Result

# The flow of each arc by its ends, in a multigraph by its ends and key.
GraphFlows = Dict[Hashable, Dict[Hashable, Union[GraphNumber, Dict[Hashable, GraphNumber]]]]
Edge = Tuple[Hashable, Hashable, Hashable, Mapping[str, Any]]


class Graph(Protocol):
    """What a directed graph of NetworkX has, with several arcs between two nodes or not."""

    def is_directed(self) -> bool:
        ...

    def is_multigraph(self) -> bool:
        ...

    def __iter__(self) -> Iterator[Any]:
        ...

    @property
    def nodes(self) -> Any:
        ...

    @property
    def edges(self) -> Any:
        ...

    @property
    def adj(self) -> Any:
        ...


def network_simplex(
    G: Graph, demand: str = "demand", capacity: str = "capacity", weight: str = "weight", *, certify: bool = False
) -> tuple[GraphNumber, GraphFlows]:
    """Returns the least cost and the flows of a directed graph, as `networkx.network_simplex` does.

    A node's demand is what the node takes (below 0: gives), an arc's capacity its limit (none: no limit), its weight
    the cost of a unit. Raises Infeasible, with the nodes of a cut, or Unbounded; if NetworkX is imported these are its
    exceptions too. With `certify` the answer is checked by `netflow check` first.
    """
    if not G.is_directed():
        raise graph_error("UndirectedGraph", "not implemented for undirected type: give a directed graph")
    number = Numbers()
    index = {node: here for here, node in enumerate(G)}
    if not index:
        raise graph_error("GraphError", "graph has no nodes")
    supplies = {index[node]: -demand_of(number, node, amount) for node, amount in G.nodes(data=demand, default=0)}
    edges = edges_of(G)
    warn_of_defaults(G, edges, demand, capacity, weight)
    arcs = [_arc_of(index, number, edge, capacity, weight) for edge in edges]
    total = -sum(supplies.values())
    if total:
        # The set of all nodes is a cut.
        side = "under" if total > 0 else "over"
        raise infeasible_graph(f"total node demand is not zero: it is {number.shown(total)}", list(index), side)
    for (src, dst, _, _), arc in zip(edges, arcs):
        if arc.capacity is not None and arc.capacity < 0:
            raise infeasible_graph(f"edge {(src, dst)!r} has negative capacity")
    problem = Problem(len(index), supplies, arcs, number.has_float)
    result = solved(G, problem, certify, lambda found: shortage(problem, list(index), number, found))
    flows: GraphFlows = {node: {} for node in G}
    for (src, dst, key, _), flow in zip(edges, result.flows):
        amount = number.shown(flow)
        parallel = flows[src].setdefault(dst, {}) if G.is_multigraph() else None
        if isinstance(parallel, dict):
            parallel[key] = amount
        else:
            flows[src][dst] = amount
    return number.shown(result.cost), flows


def warn_of_defaults(G: Graph, edges: Sequence[Edge], demand: str, capacity: str, weight: str) -> None:
    """Warns if no node or edge has an attribute, so that NetworkX's default counts everywhere."""
    rows = [edge[3] for edge in edges]
    warn_of_missing("node", demand, "demand", [data for _, data in G.nodes(data=True)], (), "none needs anything")
    warn_of_missing("edge", capacity, "capacity", rows, (weight,), "none has a limit")
    warn_of_missing("edge", weight, "weight", rows, (capacity,), "every cost is 0")


def min_cost_flow(
    G: Graph, demand: str = "demand", capacity: str = "capacity", weight: str = "weight", *, certify: bool = False
) -> GraphFlows:
    """Returns the flows of least cost, as `networkx.min_cost_flow` does: `flows[u][v]`, of a multigraph
    `flows[u][v][key]`."""
    return network_simplex(G, demand, capacity, weight, certify=certify)[1]


def min_cost_flow_cost(
    G: Graph, demand: str = "demand", capacity: str = "capacity", weight: str = "weight", *, certify: bool = False
) -> GraphNumber:
    """Returns the least cost, as `networkx.min_cost_flow_cost` does."""
    return network_simplex(G, demand, capacity, weight, certify=certify)[0]


def edges_of(G: Graph) -> list[Edge]:
    """Returns the edges with their keys, None if there are none, and their attributes."""
    if G.is_multigraph():
        return list(G.edges(keys=True, data=True))
    return [(src, dst, None, data) for src, dst, data in G.edges(data=True)]


def demand_of(number: Numbers, node: Hashable, amount: Any) -> Fraction:
    result = number(amount, f"demand of {node!r}")
    if result is None:
        raise graph_error("GraphError", f"node {node!r} has infinite demand")
    return result


def solved(G: Graph, problem: Problem, certify: bool, reason: Callable[[Infeasible], str] = lambda found: "") -> Result:
    """Returns the solution of a graph's problem; the exceptions name its nodes, and are NetworkX's too. `reason` is
    added to the message if no flow is feasible."""
    try:
        return problem.solve(certify)
    except Infeasible as found:
        nodes, said = list(G), f"{found}{reason(found)}"
        raise infeasible_graph(said, [nodes[place] for place in found.cut], found.side) from None
    except Unbounded as found:
        raise graph_error("UnboundedGraph", str(found)) from None


def shortage(problem: Problem, nodes: Sequence[Hashable], number: Numbers, found: Infeasible) -> str:
    """Returns in words what the nodes of a cut need or give, with the capacity of the edges there, and whether the
    signs of the demands are the reason."""
    inside = set(found.cut)
    total = sum((problem.supplies.get(node, Fraction(0)) for node in inside), Fraction(0))
    room = Fraction(0)
    for arc in problem.arcs:
        end, other = (arc.dst, arc.src) if total < 0 else (arc.src, arc.dst)
        if end in inside and other not in inside and arc.capacity is not None:
            room += arc.capacity
    names, ending = few([repr(nodes[node]) for node in sorted(inside)], 3), "s" * (len(inside) == 1)
    verb, way = ("need", "come") if total < 0 else ("give", "leave")
    said = f": {names} {verb}{ending} {number.shown(abs(total))}, and {number.shown(room)} can {way}"
    opposite = Problem(problem.count, {node: -supply for node, supply in problem.supplies.items()}, problem.arcs)
    try:
        opposite.solve()
    except Infeasible:
        return said
    except NetflowError:
        pass  # such as Unbounded, which has a flow
    return (
        f"{said}; with the opposite signs there is a flow: are they exchanged? A node that supplies units has a demand"
        " below 0"
    )


def _arc_of(index: Mapping[Hashable, int], number: Numbers, edge: Edge, capacity: str, weight: str) -> Arc:
    src, dst, _, data = edge
    room = data.get(capacity)
    cost = number(data.get(weight, 0), f"weight of {src!r} to {dst!r}")
    if cost is None:
        raise graph_error("GraphError", f"edge {(src, dst)!r} has infinite weight")
    return Arc(index[src], index[dst], None if room is None else number(room, f"capacity of {src!r} to {dst!r}"), cost)
