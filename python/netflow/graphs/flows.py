"""The functions of NetworkX for maximum flow and shortest paths, solved by netflow."""
from __future__ import annotations

from fractions import Fraction
from typing import Any, Callable, Dict, Hashable, List, Mapping, Union

from .attributes import warn_of_missing
from .errors import graph_error
from .networkx import Edge, Graph, edges_of, solved
from .problem import Arc, GraphNumber, Numbers, Problem

# The weight of an edge: an attribute, a function of its ends and attributes, or None for 1.
Weight = Union[None, str, Callable[[Any, Any, Mapping[str, Any]], Any]]
Paths = Dict[Hashable, List[Hashable]]


def maximum_flow(
    flowG: Graph, _s: Hashable, _t: Hashable, capacity: str = "capacity", *, certify: bool = False
) -> tuple[GraphNumber, dict[Hashable, dict[Hashable, GraphNumber]]]:
    """Returns the greatest flow from one node to another, and the flows `flows[u][v]`, as `networkx.maximum_flow` does.

    An edge without a capacity has no limit, one with 0 or less carries nothing; an undirected edge carries flow either
    way. Raises Unbounded if a path has no limit.
    """
    require_ends(flowG, _s, _t)
    if flowG.is_multigraph():
        raise graph_error("GraphError", "MultiGraph and MultiDiGraph not supported (yet).")
    number, index = Numbers(), {node: here for here, node in enumerate(flowG)}
    edges = [edge for edge in edges_of(flowG) if edge[0] != edge[1]]
    rows = [data for *_, data in edges]
    warn_of_missing("edge", capacity, "capacity", rows, (), "none has a limit")
    arcs = [_limited(index, number, edge, capacity) for edge in edges]
    if not flowG.is_directed():
        arcs += [Arc(arc.dst, arc.src, arc.capacity, arc.cost) for arc in arcs]
    back = Arc(index[_t], index[_s], None, Fraction(-1))
    result = solved(flowG, Problem(len(index), {}, [*arcs, back]), certify)
    flows: dict[Hashable, dict[Hashable, GraphNumber]] = {
        node: {other: 0 for other in flowG.adj[node]} for node in flowG
    }
    for here, (src, dst, _, _) in enumerate(edges):
        amount = Fraction(result.flows[here]) - (0 if flowG.is_directed() else result.flows[here + len(edges)])
        if flowG.is_directed() or amount > 0:
            flows[src][dst] = number.shown(amount)
        else:
            flows[dst][src] = number.shown(-amount)
    return number.shown(Fraction(result.flows[-1])), flows


def maximum_flow_value(
    flowG: Graph, _s: Hashable, _t: Hashable, capacity: str = "capacity", *, certify: bool = False
) -> GraphNumber:
    """Returns the greatest flow from one node to another, as `networkx.maximum_flow_value` does."""
    return maximum_flow(flowG, _s, _t, capacity, certify=certify)[0]


def require_ends(G: Graph, source: Hashable, sink: Hashable) -> None:
    for node in (source, sink):
        if node not in G.nodes:
            raise graph_error("GraphError", f"node {node} not in graph")
    if source == sink:
        raise graph_error("GraphError", "source and sink are the same node")


def _limited(index: Mapping[Hashable, int], number: Numbers, edge: Edge, capacity: str) -> Arc:
    src, dst, _, data = edge
    given = data.get(capacity)
    limit = None if given is None else number(given, f"capacity of {src!r} to {dst!r}")
    return Arc(index[src], index[dst], limit if limit is None else max(limit, Fraction(0)), Fraction(0))


def shortest_path(
    G: Graph, source: Hashable = None, target: Hashable = None, weight: Weight = None, *, certify: bool = False
) -> Any:
    """Returns a shortest path as the list of its nodes, as `networkx.shortest_path` does; a dict of paths by node if
    only a source, or only a target, is given, and a dict of such dicts without both.

    A weight is an attribute, whose default is 1, or a function; weights can be negative and have decimals. Raises
    Infeasible, which is NetworkXNoPath, if there is no path, and Unbounded if a cycle has a negative weight.
    """
    arcs = _weighted(G, weight)
    if source is None and target is None:
        return {node: _paths(G, arcs, node, None, certify) for node in G}
    _require_nodes(G, source, target)
    if source is None:
        turned = [(dst, src, cost) for src, dst, cost in arcs]
        return {node: path[::-1] for node, path in _paths(G, turned, target, None, certify).items()}
    paths = _paths(G, arcs, source, target, certify)
    return paths if target is None else paths[target]


def shortest_path_length(
    G: Graph, source: Hashable, target: Hashable, weight: Weight = None, *, certify: bool = False
) -> GraphNumber:
    """Returns the length of a shortest path, as `networkx.shortest_path_length` does with both ends."""
    _require_nodes(G, source, target)
    number = Numbers()
    arcs = _weighted(G, weight, number)
    path = _paths(G, arcs, source, target, certify)[target]
    least: dict[tuple[Hashable, Hashable], Fraction] = {}
    for src, dst, cost in arcs:
        least[src, dst] = min(cost, least.get((src, dst), cost))
    return number.shown(sum((least[step] for step in zip(path, path[1:])), Fraction(0)))


def _require_nodes(G: Graph, source: Hashable, target: Hashable) -> None:
    if any(node is not None and node not in G.nodes for node in (source, target)):
        raise graph_error("NoNode", f"Either source {source} or target {target} is not in G")


def _weighted(G: Graph, weight: Weight, number: Numbers | None = None) -> list[tuple[Any, Any, Fraction]]:
    """Returns the arcs of a graph with their weights; an undirected edge is two arcs."""
    number = number or Numbers()
    arcs = []
    if isinstance(weight, str):
        rows = [data for *_, data in edges_of(G)]
        warn_of_missing("edge", weight, "weight", rows, (), "each counts 1")
    for src, dst, _, data in edges_of(G):
        for tail, head in ((src, dst),) if G.is_directed() else ((src, dst), (dst, src)):
            given = weight(tail, head, data) if callable(weight) else 1 if weight is None else data.get(weight, 1)
            if given is None:
                continue  # a function hides the edge
            cost = number(given, f"weight of {tail!r} to {head!r}")
            if cost is None:
                raise graph_error("GraphError", f"edge {(tail, head)!r} has infinite weight")
            arcs.append((tail, head, cost))
    return arcs


def _paths(G: Graph, arcs: list[tuple[Any, Any, Fraction]], source: Hashable, target: Hashable, certify: bool) -> Paths:
    """Returns shortest paths from a node to one other node, or to all reachable ones.

    One unit is sent to each of these nodes at the least cost. Each arc that carries a part is on a shortest path.
    """
    near: dict[Hashable, list[Hashable]] = {}
    for src, dst, _ in arcs:
        near.setdefault(src, []).append(dst)
    reached = list(_tree(near, source))
    if target is not None and target not in reached:
        # NetworkX reports a negative cycle that the source reaches before a missing path.
        _paths(G, arcs, source, None, False)
        raise graph_error("NoPath", f"No path between {source} and {target}.", [target], "under", [])
    index = {node: here for here, node in enumerate(reached)}
    inside = [arc for arc in arcs if arc[0] in index]
    ends = [node for node in (reached if target is None else [target]) if node != source]
    supplies = {index[node]: Fraction(-1) for node in ends}
    supplies[index[source]] = Fraction(len(ends))
    rows = [Arc(index[src], index[dst], None, cost) for src, dst, cost in inside]
    result = solved(G, Problem(len(reached), supplies, rows, True), certify)
    used: dict[Hashable, list[Hashable]] = {}
    for (src, dst, _), flow in zip(inside, result.flows):
        if flow:
            used.setdefault(src, []).append(dst)
    before = _tree(used, source)
    return {node: _path_to(before, node) for node in [source, *ends]}


def _tree(near: Mapping[Hashable, list[Hashable]], source: Hashable) -> dict[Hashable, Hashable]:
    """Returns the nodes that a node reaches, each with the node before it."""
    before, line = {source: source}, [source]
    for here in line:
        for there in near.get(here, []):
            if there not in before:
                before[there] = here
                line.append(there)
    return before


def _path_to(before: Mapping[Hashable, Hashable], node: Hashable) -> list[Hashable]:
    path = [node]
    while before[path[-1]] != path[-1]:
        path.append(before[path[-1]])
    return path[::-1]
