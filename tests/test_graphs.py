"""Random graphs, compared with NetworkX; and the methods of SimpleMinCostFlow."""
import pickle
import random
from fractions import Fraction

import pytest

import netflow

nx = pytest.importorskip("networkx", reason="NetworkX is missing: apt-get install python3-networkx")

KINDS = ("whole", "quarters", "negative weights", "no capacities")


def graph(nx, seed):
    """Returns a random graph; two thirds of them have a feasible flow, as a backbone can carry everything."""
    dice, kind = random.Random(f"graph {seed}"), KINDS[seed % 4]
    unit = Fraction(1, 4) if kind == "quarters" else 1
    found = (nx.MultiDiGraph if seed % 2 else nx.DiGraph)()
    names = [f"n{index}" if seed % 3 else index for index in range(dice.randint(2, 12))]
    demands = [dice.randint(-6, 6) for _ in names]
    demands[-1] -= sum(demands)
    for name, demand in zip(names, demands):
        found.add_node(name, **({"demand": number(demand * unit)} if demand or dice.random() < 0.5 else {}))
    if seed % 3:
        for here, name in enumerate(names):
            found.add_edge(name, names[(here + 1) % len(names)], capacity=number(60 * unit), weight=dice.randint(5, 20))
    for _ in range(dice.randint(len(names), 4 * len(names))):
        attributes = {}
        if dice.random() < (0.3 if kind == "no capacities" else 0.85):
            attributes["capacity"] = number(dice.randint(0, 9) * unit)
        if dice.random() < 0.9:
            attributes["weight"] = dice.randint({"negative weights": -4, "no capacities": -1}.get(kind, 0), 9)
        found.add_edge(dice.choice(names), dice.choice(names), **attributes)
    return found


def number(value):
    return int(value) if value == int(value) else float(value)


def cost_of(G, flows):
    """Returns the cost of flows by their definition, after each bound and balance is checked; a text if one fails."""
    balance, cost = {node: -G.nodes[node].get("demand", 0) for node in G}, 0
    edges = (
        G.edges(keys=True, data=True)
        if G.is_multigraph()
        else ((u, v, None, data) for u, v, data in G.edges(data=True))
    )
    for u, v, key, data in edges:
        flow = flows[u][v] if key is None else flows[u][v][key]
        if not 0 <= flow <= data.get("capacity", flow):
            return f"the flow of {u} to {v} is {flow}"
        balance[u] -= flow
        balance[v] += flow
        cost += flow * data.get("weight", 0)
    wrong = [node for node, amount in balance.items() if amount]
    return f"the balance of {wrong[0]} is {balance[wrong[0]]}" if wrong else cost


def test_graph(graph_seed):
    """Values, errors and the flows themselves, on random graphs."""
    G = graph(nx, graph_seed)
    cost, flows = answer(nx, G, graph_seed)
    assert cost == solved(nx.network_simplex, nx, G)
    if flows is not None:
        assert cost_of(G, flows) == cost


def test_graphs_vary():
    """Most random graphs have a flow, some have none, and some have no least cost."""
    costs = [solved(nx.network_simplex, nx, graph(nx, seed)) for seed in range(300)]
    assert sum(not isinstance(cost, str) for cost in costs) > 150
    assert min(costs.count("infeasible"), costs.count("unbounded")) > 3


def solved(solve, nx, G):
    try:
        return solve(G)[0]
    except nx.NetworkXUnfeasible:
        return "infeasible"
    except nx.NetworkXUnbounded:
        return "unbounded"


def answer(nx, G, seed):
    try:
        cost, flows = netflow.network_simplex(G, certify=seed % 10 == 0)
        return cost, flows
    except netflow.Infeasible as problem:
        if not isinstance(problem, nx.NetworkXUnfeasible):
            return "infeasible, but not by NetworkX's exception", None
        return "infeasible", None
    except netflow.Unbounded:
        return "unbounded", None


def test_cut():
    """The cut of a graph without a flow needs more than its arcs can bring."""
    G = nx.DiGraph()
    G.add_node("a", demand=-5)
    G.add_node("b", demand=5)
    G.add_edge("a", "b", capacity=3, weight=1)
    with pytest.raises(netflow.Infeasible) as caught:
        netflow.min_cost_flow(G)
    assert caught.value.cut in (["b"], ["a"])


def test_exceptions_are_networkx_ones_and_can_be_pickled():
    """Exceptions are made once, and a copy by pickle has their class, message and cut."""
    G = nx.DiGraph()
    G.add_node("a", demand=-5)
    G.add_node("b", demand=5)
    caught = []
    for _ in range(2):
        with pytest.raises(nx.NetworkXUnfeasible) as error:
            netflow.min_cost_flow(G)
        caught.append(error.value)
    assert caught[0].__class__ is caught[1].__class__ and isinstance(caught[0], netflow.Infeasible)
    copy = pickle.loads(pickle.dumps(caught[0]))
    assert (type(copy), str(copy), copy.cut) == (type(caught[0]), str(caught[0]), caught[0].cut)
    with pytest.raises(nx.NetworkXNotImplemented):
        netflow.min_cost_flow(nx.Graph())
