"""maximum_flow, shortest_path, SimpleMaxFlow and SimpleLinearSumAssignment on random graphs: compared with NetworkX,
and with a search of all possibilities."""
import itertools

import pytest
from hypothesis import given, settings
from hypothesis import strategies as st

import netflow

nx = pytest.importorskip("networkx", reason="NetworkX is missing: apt-get install python3-networkx")

NODES = st.integers(2, 6)
FEW = settings(max_examples=60, deadline=None)


@st.composite
def arcs(draw, least=0, most=9, quarters=False):
    """Returns a number of nodes and arcs between them with an amount each."""
    count = draw(NODES)
    ends = st.tuples(st.integers(0, count - 1), st.integers(0, count - 1))
    amounts = st.integers(4 * least, 4 * most).map(lambda amount: amount / 4) if quarters else st.integers(least, most)
    return count, draw(st.lists(st.tuples(ends, amounts), max_size=14))


def graph(kind, count, edges, name):
    found = kind()
    found.add_nodes_from(range(count))
    for (src, dst), amount in edges:
        found.add_edge(src, dst, **({} if amount is None else {name: amount}))
    return found


def capacity_of(edges, inside):
    return sum(amount for (src, dst), amount in edges if src in inside and dst not in inside)


def least_cut(count, edges):
    """Returns the capacity of a least cut between the nodes 0 and 1, by trying all sets."""
    others = range(2, count)
    sets = (set(chosen) | {0} for size in range(count - 1) for chosen in itertools.combinations(others, size))
    return min(capacity_of(edges, inside) for inside in sets)


@FEW
@given(arcs(quarters=True), st.sampled_from([nx.DiGraph, nx.Graph]))
def test_maximum_flow(drawn, kind):
    found = graph(kind, *drawn, "capacity")
    value, flows = netflow.maximum_flow(found, 0, 1, certify=True)
    assert value == nx.maximum_flow_value(found, 0, 1) == netflow.maximum_flow_value(found, 0, 1)
    assert {node: set(row) for node, row in flows.items()} == {node: set(found.adj[node]) for node in found}
    for node in found:
        out = sum(flows[node].values()) - sum(flows[other].get(node, 0) for other in found)
        assert out == (value if node == 0 else -value if node == 1 else 0)
    for src, dst, data in found.edges(data=True):
        assert 0 <= flows[src][dst] <= max(0, data["capacity"])


@FEW
@given(arcs())
def test_simple_max_flow(drawn):
    count, edges = drawn
    flow = netflow.SimpleMaxFlow(certify=True)
    numbers = flow.add_arcs_with_capacity(
        [src for (src, _), _ in edges], [dst for (_, dst), _ in edges], [amount for _, amount in edges]
    )
    assert flow.solve(0, 1) == flow.OPTIMAL
    assert flow.optimal_flow() == least_cut(max(count, 2), edges)
    balance = {node: 0 for node in range(count)}
    for (ends, capacity), amount in zip(edges, flow.flows(numbers)):
        assert 0 <= amount <= capacity
        balance[ends[0]] += amount
        balance[ends[1]] -= amount
    assert balance == {**dict.fromkeys(range(count), 0), 0: flow.optimal_flow(), 1: -flow.optimal_flow()}
    if flow.num_nodes() > 1:
        inside, beyond = set(flow.get_source_side_min_cut()), set(flow.get_sink_side_min_cut())
        assert capacity_of(edges, inside) == capacity_of(edges, set(range(count)) - beyond) == flow.optimal_flow()


def test_simple_max_flow_of_or_tools():
    """OR-Tools' first example, whose greatest flow its documents give as 60; and bad input."""
    flow = netflow.SimpleMaxFlow()
    tails, heads = [0, 0, 0, 1, 1, 2, 2, 3, 3], [1, 2, 3, 2, 4, 3, 4, 2, 4]
    flow.add_arcs_with_capacity(tails, heads, [20, 30, 10, 40, 30, 10, 20, 5, 20])
    assert (flow.solve(0, 4), flow.optimal_flow()) == (flow.OPTIMAL, 60)
    assert (flow.num_nodes(), flow.num_arcs(), flow.tail(3), flow.head(3), flow.capacity(3)) == (5, 9, 1, 2, 40)
    assert flow.get_source_side_min_cut() == [0]
    assert flow.solve(0, 0) == flow.solve(-1, 2) == flow.BAD_INPUT
    assert (flow.solve(0, 99), flow.optimal_flow()) == (flow.OPTIMAL, 0)
    flow.set_arc_capacity(0, -1)
    assert flow.solve(0, 4) == flow.BAD_INPUT
    with pytest.raises(TypeError, match="SimpleMaxFlow\\(decimals=True\\)"):
        flow.add_arc_with_capacity(0, 1, 2.5)


@FEW
@given(arcs(least=-3), st.sampled_from([nx.DiGraph, nx.MultiDiGraph]), st.sampled_from([None, "weight"]))
def test_shortest_path(drawn, kind, weight):
    """The length is the one of NetworkX's Bellman-Ford, and the path has it; without a path or with a negative cycle
    both raise."""
    found = graph(kind, *drawn, "weight")
    try:
        length = nx.shortest_path_length(found, 0, 1, weight=weight, method="bellman-ford")
    except (nx.NetworkXNoPath, nx.NetworkXUnbounded) as theirs:
        with pytest.raises(type(theirs)):
            netflow.shortest_path(found, 0, 1, weight)
        return
    path = netflow.shortest_path(found, 0, 1, weight, certify=True)
    assert path[0] == 0 and path[-1] == 1 and len(set(path)) == len(path)
    steps = zip(path, path[1:])
    assert sum(1 if weight is None else cost_of(found, *step) for step in steps) == length
    assert netflow.shortest_path_length(found, 0, 1, weight) == length


def cost_of(found, src, dst):
    data = found.get_edge_data(src, dst)
    return min(edge["weight"] for edge in data.values()) if found.is_multigraph() else data["weight"]


@FEW
@given(arcs(quarters=True), st.sampled_from([nx.DiGraph, nx.Graph]))
def test_shortest_paths_of_one_end(drawn, kind):
    """All paths from a node, to a node, and of all pairs have the lengths of NetworkX."""
    found = graph(kind, *drawn, "weight")
    lengths = dict(nx.all_pairs_dijkstra_path_length(found))
    from_0 = netflow.shortest_path(found, 0, weight="weight")
    to_1 = netflow.shortest_path(found, target=1, weight="weight")
    assert {node: nx.path_weight(found, path, "weight") for node, path in from_0.items()} == lengths[0]
    assert {node: nx.path_weight(found, path, "weight") for node, path in to_1.items()} == {
        node: row[1] for node, row in lengths.items() if 1 in row
    }
    assert all(path[0] == node and path[-1] == 1 for node, path in to_1.items())
    pairs = netflow.shortest_path(found, weight="weight")
    assert {node: set(row) for node, row in pairs.items()} == {node: set(row) for node, row in lengths.items()}


def test_weights_of_a_function():
    found = nx.DiGraph()
    found.add_edge("a", "b", km=3)
    found.add_edge("b", "c", km=4)
    found.add_edge("a", "c", km=1, closed=True)
    assert netflow.shortest_path(found, "a", "c", lambda u, v, d: None if d.get("closed") else d["km"]) == [
        "a",
        "b",
        "c",
    ]
    assert netflow.shortest_path(found, "a", "a") == ["a"]


@FEW
@given(st.integers(1, 5), st.data())
def test_assignment(count, data):
    """The cost is the least of all assignments, by trying them."""
    pairs = data.draw(st.lists(st.tuples(st.integers(0, count - 1), st.integers(0, count - 1)), unique=True))
    costs = {pair: data.draw(st.integers(-9, 9)) for pair in pairs}
    size = 1 + max((max(pair) for pair in costs), default=-1)
    problem = netflow.SimpleLinearSumAssignment(certify=True)
    problem.add_arcs_with_cost([left for left, _ in costs], [right for _, right in costs], list(costs.values()))
    totals = [
        sum(costs[pair] for pair in enumerate(order))
        for order in itertools.permutations(range(size))
        if all(pair in costs for pair in enumerate(order))
    ]
    if not totals:
        assert problem.solve() == problem.INFEASIBLE
        return
    assert (problem.solve(), problem.num_nodes()) == (problem.OPTIMAL, size)
    mates = [problem.right_mate(left) for left in range(size)]
    assert problem.optimal_cost() == min(totals) == sum(costs[pair] for pair in enumerate(mates))
    assert [problem.assignment_cost(left) for left in range(size)] == [costs[pair] for pair in enumerate(mates)]
    assert sorted(mates) == list(range(size))
