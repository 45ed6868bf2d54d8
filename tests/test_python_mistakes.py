"""Mistakes of Python programs that gave another answer, or an error elsewhere, in silence: attributes of a model, values
that are None, generators that were read, and attributes that a graph does not have."""
import copy
import pickle
import warnings

import pytest

import netflow
from support import BREAD

WORDS = (str(BREAD / "bread.mod"), str(BREAD / "bread.dat"))
SHOPS = ["hill", "lake", "mill"]


def test_data_are_no_attributes():
    model = netflow.Model(*WORDS)
    for name in ("van", "SHOPS"):
        with pytest.raises(AttributeError, match=f"data are changed by model\\['{name}'\\] = "):
            setattr(model, name, 25)
    with pytest.raises(
        AttributeError, match="a Model has no attribute bound: its options are objective, scale, bounds"
    ):
        model.bound = True
    model["van"] = 25
    model.bounds, model.objective, model.scale = True, "Total", {"cost": 100}
    for other in (model, copy.copy(model), pickle.loads(pickle.dumps(model))):
        assert other.solve().value == 460


def test_subclass_of_a_model_has_attributes():
    class Named(netflow.Model):
        def __init__(self, name, *words):
            self.name = name
            super().__init__(*words)

    model = Named("bread", *WORDS)
    assert (model.name, model.solve().value) == ("bread", 440)
    with pytest.raises(AttributeError, match="data are changed by"):
        model.van = 25


def test_none_that_leaves_the_value_of_a_file():
    """A lookup that fails gives None, which is reported as NaN is. What is left out is not reported."""
    with pytest.warns(UserWarning, match="van is None, which gives no value, so that of .*bread.dat counts: 40"):
        assert netflow.solve(*WORDS, van={"small": 25}.get("smal")).value == 440
    with pytest.warns(UserWarning, match=r"wants\['lake'\] is None, which gives no value"):
        assert (
            netflow.solve(*WORDS, wants=[{"shop": "hill", "wants": 30}, {"shop": "lake", "wants": None}]).value == 440
        )
    with warnings.catch_warnings():
        warnings.simplefilter("error")
        assert netflow.solve(*WORDS, wants={"hill": 30}).value == 440
        assert netflow.solve(
            "param d default 4; minimize C; node A: net_in = d; arc X >= 0, <= 9, to A, obj C 1;", d=None
        )


def test_generator_that_was_read():
    shops = (shop for shop in SHOPS)
    assert netflow.solve(*WORDS, SHOPS=shops).value == 440
    for data in ({"SHOPS": shops}, {"wants": shops}):
        with pytest.raises(
            netflow.DataError, match="the generator has been read, and can be read only once: give a list"
        ):
            netflow.solve(*WORDS, **data)
        with pytest.raises(netflow.DataError, match="has been read"):
            netflow.Model(WORDS[0], [WORDS[1], data])


def test_iterator_without_items():
    """Whether it was read before cannot be seen, so it is a warning."""
    rows = zip(SHOPS, (30, 45, 26))
    assert netflow.solve(*WORDS, wants=rows).value == 444
    with pytest.warns(UserWarning, match="wants: the zip has no items; it can be read only once"):
        assert netflow.solve(*WORDS, wants=rows).value == 440
    with warnings.catch_warnings():
        warnings.simplefilter("error")
        nothing = "set S; minimize C; node A: net_in = 0; arc X {s in S} >= 0, <= 1, to A, obj C 1;"
        assert netflow.solve(nothing, S=(part for part in ())).value == 0


def test_model_keeps_what_a_generator_gave():
    model = netflow.Model(*WORDS, SHOPS=(shop for shop in SHOPS))
    model["wants"] = zip(SHOPS, (30, 45, 26))
    assert [model.solve().value, model.solve().value] == [444, 444]


# Graphs


def graph(*edges, **demands):
    nx = pytest.importorskip("networkx", reason="NetworkX is missing: apt-get install python3-networkx")
    result = nx.DiGraph()
    for node, demand in demands.items():
        result.add_node(node, demand=demand)
    for src, dst, attributes in edges:
        result.add_edge(src, dst, **attributes)
    return result


def costly(name):
    return graph(
        ("mill", "shop", {name: 3, "capacity": 9}),
        ("mill", "depot", {name: 1, "capacity": 9}),
        ("depot", "shop", {name: 1, "capacity": 9}),
        mill=-5,
        shop=5,
    )


def test_weight_that_no_edge_has():
    with pytest.warns(UserWarning, match="no edge has the attribute 'weight', so every cost is 0: edges have 'cost'"):
        assert netflow.min_cost_flow_cost(costly("cost")) == 0
    with pytest.warns(UserWarning, match="no edge has the attribute 'price', so every cost is 0: edges have 'cost'"):
        assert netflow.min_cost_flow_cost(costly("cost"), weight="price") == 0
    with pytest.warns(UserWarning, match="no edge has the attribute 'price', so every cost is 0$"):
        netflow.min_cost_flow_cost(graph(("a", "b", {"capacity": 9})), weight="price")


def test_capacity_and_demand_that_are_not_there():
    capped = graph(("a", "b", {"weight": 1, "cap": 2}), ("a", "c", {"weight": 2}), ("c", "b", {"weight": 2}), a=-5, b=5)
    with pytest.warns(UserWarning, match="no edge has the attribute 'capacity', so none has a limit: edges have 'cap'"):
        assert netflow.min_cost_flow_cost(capped) == 5
    supplied = graph(("a", "b", {"weight": 1}))
    supplied.add_node("a", supply=5)
    with pytest.warns(
        UserWarning, match="no node has the attribute 'demand', so none needs anything: nodes have 'supply'"
    ):
        assert netflow.min_cost_flow_cost(supplied) == 0
    with pytest.warns(
        UserWarning, match="no edge has the attribute 'room', so none has a limit: edges have 'weight', 'capacity'"
    ):
        with pytest.raises(netflow.Unbounded):
            netflow.maximum_flow_value(costly("weight"), "mill", "shop", capacity="room")


def test_length_that_no_edge_has():
    roads = graph(("a", "b", {"dist": 1}), ("b", "c", {"dist": 1}), ("a", "c", {"dist": 9}))
    for function in (netflow.shortest_path, netflow.shortest_path_length):
        with pytest.warns(
            UserWarning, match="no edge has the attribute 'distance', so each counts 1: edges have 'dist'"
        ):
            assert function(roads, "a", "c", weight="distance") in (["a", "c"], 1)


def test_attributes_that_are_left_out_on_purpose():
    """A graph without weights or capacities, or with one edge that has them; positions of nodes; a weight of None."""
    with warnings.catch_warnings():
        warnings.simplefilter("error")
        assert netflow.min_cost_flow_cost(costly("weight")) == 10
        plain = graph(("a", "b", {"capacity": 9, "label": "road"}), a=-5, b=5)
        assert netflow.min_cost_flow_cost(plain) == netflow.min_cost_flow_cost(costly("cost"), weight=None) == 0
        free = graph(("a", "b", {"weight": 2, "km": 3}), ("a", "c", {}), a=-5, b=5)
        free.add_node("b", x=1.5)
        assert netflow.min_cost_flow_cost(free) == 10
        assert netflow.shortest_path(graph(("a", "b", {})), "a", "b", weight="weight") == ["a", "b"]
        assert netflow.shortest_path(free, "a", "b") == ["a", "b"]
        around = graph(("a", "b", {"weight": -1, "capacity": 2}), ("b", "a", {"weight": 0, "capacity": 2}))
        around.add_node("a", x=2)
        assert netflow.min_cost_flow_cost(around) == -2


def test_signs_of_demands():
    turned = graph(("mill", "shop", {"weight": 3, "capacity": 9}), mill=5, shop=-5)
    with pytest.raises(netflow.Infeasible, match="'mill' needs 5, and 0 can come; with the opposite signs") as caught:
        netflow.min_cost_flow(turned)
    assert (caught.value.cut, caught.value.side) == (["mill"], "under")


def test_shortage_of_a_graph():
    """Where no sign is wrong, the message has the amounts alone."""
    narrow = graph(("a", "b", {"capacity": 2.5}), a=-3, b=3)
    with pytest.raises(netflow.Infeasible, match="no flow is feasible: '(a' gives|b' needs) 3, and 2.5 can [a-z]+$"):
        netflow.min_cost_flow(narrow)
