"""The example examples/distribution: its least cost against NetworkX, on a network that is typed in by hand, and its
plan by what it has to keep to."""
from fractions import Fraction

import pytest

import netflow
from support import TOP

FOLDER = TOP / "examples" / "distribution"
DEPOTS = "Basel Lyon Ulm".split()
TOWNS = "Aarau Bern Chur Dijon Genf Kempten Metz Zürich".split()
PRODUCTS = ("paint", "glue")
OPENING = {"Basel": (60, 40), "Lyon": (50, 30), "Ulm": (40, 50)}
ARRIVALS = {("Basel", "paint", 2): 30, ("Lyon", "paint", 2): 20, ("Ulm", "glue", 2): 35}
SPACE = {"Basel": 40, "Lyon": 25, "Ulm": 30}
TRUCK = {"Basel": (25, 20), "Lyon": (20, 15), "Ulm": (20, 20)}
# Cents.
RATES = {
    "Basel": (725, 950, 1990, 2140, 2400, 2310, 2275, 860),
    "Lyon": (3210, 2740, 4100, 1460, 1235, 4420, 3330, 3400),
    "Ulm": (1950, 2430, 1720, 3800, 3650, 990, 2945, 1605),
}
SURCHARGE, STORAGE = {"paint": 0, "glue": 80}, 135
DEMAND = {
    ("paint", 1): (12, 15, 6, 14, 16, 9, 7, 18),
    ("paint", 2): (10, 18, 8, 12, 14, 11, 9, 20),
    ("glue", 1): (6, 9, 4, 8, 7, 8, 5, 12),
    ("glue", 2): (5, 7, 5, 6, 9, 6, 4, 14),
}


def supply(depot, product, week):
    return ARRIVALS.get((depot, product, week), 0) + (OPENING[depot][PRODUCTS.index(product)] if week == 1 else 0)


def least_cost(nx):
    """Returns the least cost in cents."""
    graph = nx.DiGraph()
    graph.add_node("factory", demand=-sum(map(sum, DEMAND.values())))
    for (product, week), needs in DEMAND.items():
        for town, need in zip(TOWNS, needs):
            graph.add_node((town, product, week), demand=need)
        for depot in DEPOTS:
            graph.add_edge("factory", (depot, product, week), capacity=supply(depot, product, week), weight=0)
            for town, rate in zip(TOWNS, RATES[depot]):
                truck = TRUCK[depot][PRODUCTS.index(product)]
                graph.add_edge(
                    (depot, product, week), (town, product, week), capacity=truck, weight=rate + SURCHARGE[product]
                )
    for depot in DEPOTS:
        for product in PRODUCTS:
            graph.add_edge((depot, product, 1), (depot, product, 2), capacity=SPACE[depot], weight=STORAGE)
    return nx.min_cost_flow_cost(graph)


def is_kept(ship, keep):
    """Returns whether demands are met, and no depot sends more than it has or a truck takes."""
    met = all(
        sum(ship[d, t, p, w] for d in DEPOTS) == need
        for (p, w), needs in DEMAND.items()
        for t, need in zip(TOWNS, needs)
    )
    trucks = all(0 <= flow <= TRUCK[d][PRODUCTS.index(p)] for (d, _, p, _), flow in ship.items())
    stores = all(0 <= flow <= SPACE[d] for (d, _, _), flow in keep.items())
    sent = {(d, p, w): sum(ship[d, t, p, w] for t in TOWNS) for d in DEPOTS for p in PRODUCTS for w in (1, 2)}
    stocks = all(
        sent[d, p, 1] + keep[d, p, 1] <= supply(d, p, 1) and sent[d, p, 2] <= supply(d, p, 2) + keep[d, p, 1]
        for d in DEPOTS
        for p in PRODUCTS
    )
    return met and trucks and stores and stocks


def cost_of(ship, keep):
    """Returns the cost of a plan in cents."""
    rates = {(depot, town): rate for depot in DEPOTS for town, rate in zip(TOWNS, RATES[depot])}
    shipped = sum(flow * (rates[depot, town] + SURCHARGE[product]) for (depot, town, product, _), flow in ship.items())
    return shipped + sum(STORAGE * flow for flow in keep.values())


def test_plan():
    plan = netflow.solve(FOLDER / "distribution.mod", FOLDER / "distribution.dat")
    ship, keep = dict(plan["Ship"].items()), dict(plan["Keep"].items())
    assert is_kept(ship, keep), "the plan does not keep to the data"
    assert Fraction(plan.value) == Fraction(cost_of(ship, keep), 100)


def test_least_cost():
    nx = pytest.importorskip("networkx", reason="NetworkX is missing: apt-get install python3-networkx")
    plan = netflow.solve(FOLDER / "distribution.mod", FOLDER / "distribution.dat")
    assert cost_of(dict(plan["Ship"].items()), dict(plan["Keep"].items())) == least_cost(nx)
