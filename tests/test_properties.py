"""Properties of random graphs and models, by hypothesis: against NetworkX, and against a plain search of all flows."""
import itertools
from fractions import Fraction

import pytest

import netflow

hypothesis = pytest.importorskip("hypothesis", reason="hypothesis is missing: apt-get install python3-hypothesis")
from hypothesis import HealthCheck, given, settings  # noqa: E402
from hypothesis import strategies as st  # noqa: E402

SETTINGS = settings(
    max_examples=60, database=None, deadline=None, derandomize=True, suppress_health_check=[HealthCheck.too_slow]
)
NODES = "abc"
PAIRS = [(i, j) for i in NODES for j in NODES if i != j]
MODEL = """set P; set L within P cross P; param need {P}; param most {L}; param price {L};
minimize Cost;
node At {p in P}: net_in = need[p];
arc Go {(i,j) in L} >= 0, <= most[i,j], from At[i], to At[j], obj Cost price[i,j];
"""


@st.composite
def networks(draw):
    """Returns needs that sum to 0, and arcs with capacities and prices, few enough to try all flows."""
    first, second = draw(st.integers(-3, 3)), draw(st.integers(-3, 3))
    pairs = draw(st.lists(st.sampled_from(PAIRS), min_size=1, max_size=4, unique=True))
    arcs = {pair: (draw(st.integers(0, 3)), draw(st.integers(-3, 5))) for pair in pairs}
    return dict(zip(NODES, (first, second, -first - second))), arcs


def least_cost(needs, arcs):
    """Returns the least cost of all whole flows, tried one by one; None if none meets the needs."""
    best = None
    for flows in itertools.product(*(range(most + 1) for most, _ in arcs.values())):
        balance = dict.fromkeys(NODES, 0)
        for (src, dst), flow in zip(arcs, flows):
            balance[src] -= flow
            balance[dst] += flow
        if balance == needs:
            cost = sum(flow * price for flow, (_, price) in zip(flows, arcs.values()))
            best = cost if best is None else min(best, cost)
    return best


def data_of(needs, arcs, unit=1):
    return {
        "P": list(NODES),
        "L": list(arcs),
        "need": {node: need * unit for node, need in needs.items()},
        "most": {pair: most * unit for pair, (most, _) in arcs.items()},
        "price": {pair: price for pair, (_, price) in arcs.items()},
    }


@SETTINGS
@given(networks())
def test_model_has_the_cost_of_a_plain_search(network):
    wanted = least_cost(*network)
    if wanted is None:
        with pytest.raises(netflow.Infeasible):
            netflow.solve(MODEL, data_of(*network))
    else:
        assert netflow.solve(MODEL, data_of(*network)).value == wanted


@SETTINGS
@given(networks(), st.sampled_from([Fraction(1, 2), Fraction(1, 8), Fraction(7, 100)]))
def test_decimals_scale_the_cost(network, unit):
    """With all amounts in another unit the cost is in that unit too, exactly."""
    wanted = least_cost(*network)
    if wanted is not None:
        assert netflow.solve(MODEL, data_of(*network, unit)).value == wanted * unit


@SETTINGS
@given(networks())
def test_graph_has_the_cost_of_networkx(network):
    nx = pytest.importorskip("networkx", reason="NetworkX is missing: apt-get install python3-networkx")
    needs, arcs = network
    graph = nx.DiGraph()
    graph.add_nodes_from((node, {"demand": need}) for node, need in needs.items())
    graph.add_edges_from((*pair, {"capacity": most, "weight": price}) for pair, (most, price) in arcs.items())
    try:
        wanted = nx.min_cost_flow_cost(graph)
    except nx.NetworkXUnfeasible:
        wanted = None
    assert wanted == least_cost(needs, arcs)
    if wanted is None:
        with pytest.raises(netflow.Infeasible):
            netflow.min_cost_flow(graph)
    else:
        assert netflow.min_cost_flow_cost(graph) == wanted


@SETTINGS
@given(st.decimals(allow_nan=False, allow_infinity=False, places=4, min_value=-(10**8), max_value=10**8))
def test_exact_prints_as_it_is_read(number):
    exact = netflow.Exact(number)
    assert Fraction(str(exact)) == exact
    assert str(exact + 1) == str(netflow.Exact(number + 1))


@SETTINGS
@given(
    st.lists(
        st.text(st.characters(min_codepoint=32, blacklist_categories=("Cs", "Cc")), min_size=1, max_size=8),
        min_size=1,
        max_size=4,
        unique=True,
    )
)
def test_members_of_any_text(names):
    """Each member comes back as it was given, whatever its characters."""
    model = "set S; minimize C; node A {i in S}: net_in = 1; arc X {i in S} >= 0, <= 9, to A[i], obj C 1;"
    assert list(netflow.solve(model, {"S": names})["X"]) == names
