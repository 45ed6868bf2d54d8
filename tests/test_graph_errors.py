"""The errors of graphs: those of NetworkX and OR-Tools, so that code for them works unchanged."""
import warnings

import pytest

import netflow

nx = pytest.importorskip("networkx", reason="NetworkX is missing: apt-get install python3-networkx")


def di(*edges, **demands):
    graph = nx.DiGraph()
    for node, demand in demands.items():
        graph.add_node(node, demand=demand)
    for src, dst, attributes in edges:
        graph.add_edge(src, dst, **attributes)
    return graph


BROKEN = {
    "no nodes": nx.DiGraph(),
    "undirected": nx.Graph([("a", "b")]),
    "negative capacity": di(("a", "b", {"capacity": -3})),
    "infinite weight": di(("a", "b", {"capacity": 3, "weight": float("inf")})),
    "infinite demand": di(a=float("inf")),
    "demands that are not balanced": di(("a", "b", {"capacity": 3}), b=3),
    "no feasible flow": di(("a", "b", {"capacity": 2}), a=-3, b=3),
    "no least cost": di(("a", "b", {"weight": -1}), ("b", "a", {})),
}


@pytest.mark.parametrize("function", ["network_simplex", "min_cost_flow", "min_cost_flow_cost"])
@pytest.mark.parametrize("name", BROKEN)
def test_broken_graph(name, function):
    """The exception is an instance of NetworkX's class, and one of this package."""
    graph = BROKEN[name]
    with pytest.raises(nx.NetworkXException) as theirs:
        getattr(nx, function)(graph)
    with pytest.raises(netflow.NetflowError) as ours:
        getattr(netflow, function)(graph)
    assert isinstance(ours.value, type(theirs.value)), (type(ours.value), type(theirs.value))


def test_cut_of_demands_that_are_not_balanced():
    with pytest.raises(netflow.Infeasible, match="total node demand is not zero: it is 3") as caught:
        netflow.min_cost_flow(BROKEN["demands that are not balanced"])
    assert (caught.value.side, sorted(caught.value.cut)) == ("under", ["a", "b"])


def test_simple_min_cost_flow_takes_integers():
    """OR-Tools raises TypeError for a float and has a status for a negative capacity; `decimals` is an addition."""
    flow = netflow.SimpleMinCostFlow()
    for words in ((0, 1, 2.5, 1), (0, 1, 2, 1.5)):
        with pytest.raises(TypeError, match="SimpleMinCostFlow\\(decimals=True\\) takes decimals"):
            flow.add_arc_with_capacity_and_unit_cost(*words)
    with pytest.raises(TypeError):
        flow.set_node_supply(0, 0.5)
    with pytest.raises(ValueError, match="the arrays have 2, 2, 1, 2 items"):
        flow.add_arcs_with_capacity_and_unit_cost([0, 1], [1, 2], [3], [4, 5])
    assert flow.num_arcs() == 0
    flow.add_arc_with_capacity_and_unit_cost(0, 1, -3, 1)
    flow.set_nodes_supplies([0, 1], [1, -1])
    assert flow.solve() == flow.BAD_CAPACITY_RANGE


def test_computed_weights_are_rounded_with_a_warning():
    """Costs such as 0.1 + 0.2 have no decimal that netflow takes; typed ones are exact."""
    graph = di(("a", "b", {"weight": 0.1 + 0.2}), ("a", "b2", {"weight": 1 / 3}), ("b2", "b", {"weight": 5}), a=-3, b=3)
    with pytest.warns(UserWarning, match=r"the cost 0\.30000000000000004 has more digits .* 0\.3 \(1 more costs\)"):
        assert netflow.min_cost_flow_cost(graph) == pytest.approx(0.9, abs=1e-12)
    with warnings.catch_warnings():
        warnings.simplefilter("error")
        assert netflow.min_cost_flow_cost(di(("a", "b", {"weight": 0.3}), a=-3, b=3)) == 0.9


def test_scale_error_names_the_amount():
    graph = di(("a", "b", {"capacity": 10**12}), ("b", "c", {"capacity": 0.123456789012}))
    with pytest.raises(netflow.ScaleError, match="the factor comes from 0.123456789012: round it"):
        netflow.min_cost_flow(graph)


def test_errors_of_maximum_flow_and_paths():
    graph = di(("a", "b", {"capacity": 3}), ("b", "c", {}))
    for function, words in (
        ("maximum_flow", ("a", "x")),
        ("maximum_flow", ("a", "a")),
        ("maximum_flow", ("b", "c")),
        ("shortest_path", ("c", "a")),
        ("shortest_path", ("a", "x")),
    ):
        with pytest.raises(nx.NetworkXException) as theirs:
            getattr(nx, function)(graph, *words)
        with pytest.raises(netflow.NetflowError) as ours:
            getattr(netflow, function)(graph, *words)
        assert isinstance(ours.value, type(theirs.value)), (function, words)
    with pytest.raises(nx.NetworkXError, match="not supported"):
        netflow.maximum_flow(nx.MultiDiGraph([("a", "b")]), "a", "b")
    with pytest.raises(nx.NetworkXError, match="infinite weight"):
        netflow.shortest_path(di(("a", "b", {"weight": float("inf")})), "a", "b", "weight")
    with pytest.raises(nx.NetworkXUnbounded):
        netflow.shortest_path(di(("a", "b", {"weight": -1}), ("b", "a", {"weight": 0})), "a", "b", "weight")
