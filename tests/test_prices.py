"""Prices of a plan: complete, keyed as flows are, and what they promise, by solving changed data."""
import random

import pytest

import netflow
from support import BREAD

BOOK = """set CITIES; set LINKS dimen 2; param supply {CITIES}; param demand {CITIES}; param cost {LINKS}; param capacity {LINKS};
minimize Total_Cost;
node Balance {k in CITIES}: net_in = demand[k] - supply[k];
arc Ship {(i,j) in LINKS} >= 0, <= capacity[i,j], from Balance[i], to Balance[j], obj Total_Cost cost[i,j];"""


def book_data(seed):
    """Returns balanced data: what is supplied is demanded, along a ring and some more links."""
    dice = random.Random(f"prices {seed}")
    cities = [f"c{index}" for index in range(6)]
    amounts = {city: dice.randint(0, 9) for city in cities[:3]}
    needs = {city: 0 for city in cities[3:]}
    for _ in range(sum(amounts.values())):
        needs[dice.choice(cities[3:])] += 1
    ring = {(cities[i], cities[(i + 1) % 6]) for i in range(6)}
    links = sorted(ring | {tuple(dice.sample(cities, 2)) for _ in range(9)})
    return {
        "CITIES": cities,
        "LINKS": links,
        "supply": {city: amounts.get(city, 0) for city in cities},
        "demand": {city: needs.get(city, 0) for city in cities},
        "cost": {link: dice.randint(1, 9) for link in links},
        "capacity": {link: 100 if link in ring else dice.randint(1, 6) for link in links},
    }


def changed(data, **by):
    """Returns the value if `supply` and `demand` of some cities are larger by these amounts; None without a plan."""
    values = {
        name: {**data[name], **{city: data[name][city] + more for city, more in by.get(name, {}).items()}}
        for name in ("supply", "demand")
    }
    try:
        return netflow.solve(BOOK, {**data, **values}).value
    except netflow.Infeasible:
        return None


@pytest.mark.parametrize("dice", range(6))
def test_balanced_model(dice):
    """No need can change alone, as the book's models are. Prices are potentials: no pair is cheaper than their
    difference, and the pair price is the exact change of the value."""
    data = book_data(dice)
    plan = netflow.solve(BOOK, data)
    prices = plan.prices["Balance"]
    assert set(plan.prices) == {"Balance"} and list(prices) == data["CITIES"]
    givers = [city for city in data["CITIES"] if data["supply"][city]]
    for city in (city for city in data["CITIES"] if data["demand"][city]):
        assert plan.price_range("Balance", city) == 0
        values = [changed(data, demand={city: 1}, supply={giver: 1}) for giver in givers]
        changes = [value - plan.value for value in values if value is not None]
        pair = plan.pair_price("Balance", city)
        assert (pair is None) == (not changes)
        if pair is not None:
            assert pair[1] == min(changes)
            giver = next(name for name in givers if pair[0] == f"Balance['{name}']")
            assert prices[city] - prices[giver] <= pair[1]


def test_potentials_prove_the_plan():
    """At the potentials no unused arc is worth a unit, and no full one is too dear, as at a solver's duals."""
    data = book_data(1)
    plan = netflow.solve(BOOK, data)
    prices = plan.prices["Balance"]
    for (source, target), flow in plan["Ship"].items():
        reduced = data["cost"][source, target] + prices[source] - prices[target]
        assert reduced >= 0 if flow == 0 else reduced <= 0 if flow == data["capacity"][source, target] else reduced == 0
    assert min(prices.values()) == 0


def test_keys_of_prices():
    plan = netflow.solve(BREAD / "bread.mod", BREAD / "bread.dat", bakes={"south": 90}, wants={"hill": 45})
    assert plan.prices["Shop"]["hill"] == plan.prices["Shop['hill']"] == 7
    assert plan.prices["Shop"].keys() == {"hill", "lake", "mill"}
    assert plan.price_range("Shop", "hill") == plan.price_range("Shop['hill']") == 20
    with pytest.raises(KeyError, match="Shop has no node 'hil': is 'hill' meant"):
        plan.prices["Shop"]["hil"]
    with pytest.raises(KeyError, match="no node Shops: is Shop meant"):
        plan.prices["Shops"]
    with pytest.raises(KeyError, match=r"is Shop\['hill'\] meant"):
        plan.price_range("Shop", "hil")
    with pytest.raises(KeyError, match=r"Drive has no arc \('north', 'hil'\): is \('north', 'hill'\) meant"):
        plan["Drive"]["north", "hil"]


def test_node_without_keys_and_keys_of_two_parts():
    text = """minimize C; node Well: net_in >= 0; node Shop {s in {'Wels'}, t in 1..2}: net_in = t;
    arc Pump {s in {'Wels'}, t in 1..2} >= 0, <= 9, to Shop[s,t], obj C 3 * t;"""
    plan = netflow.solve(text)
    assert plan.prices["Shop"]["Wels", 2] == 6 and plan.prices["Shop"].to_pandas()["Wels", 1] == 3
    assert plan.prices["Well"] == plan.prices["Well"] + 0


def test_maximum_flow_has_prices():
    """A source and a sink that take what comes; prices are changes of the value, so of a maximum too."""
    text = """maximize F; node S: net_out >= 0; node M; node T: net_in >= 0;
    arc A >= 0, <= 5, from S, to M; arc B >= 0, <= 3, from M, to T, obj F 1;"""
    plan = netflow.solve(text)
    assert plan.value == 3 and set(plan.prices) == {"S", "M", "T"}
    assert plan.prices["M"] == netflow.solve(text.replace("node M;", "node M: net_in = 1;")).value - 3 == 0
