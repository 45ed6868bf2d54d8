"""Exceptions and plans that cross processes: a scenario without a plan must not hang a pool."""
import concurrent.futures
import multiprocessing
import pickle

import pytest

import netflow

MODEL = """param need; set S; minimize C;
node Shop {s in S}: net_in = need; arc Way {s in S} >= 0, <= 5, to Shop[s], obj C 2;"""
# Calls that raise each exception, by the scenario's name.
CALLS = {
    "infeasible": (netflow.Infeasible, {"need": 9}),
    "a text": (netflow.ModelError, {"need": "x"}),
    "no such name": (netflow.DataError, {"ned": 1}),
    "too fine": (netflow.ScaleError, {"need": 0.5, "scale": {"need": 1}}),
    "no limit": (
        netflow.Unbounded,
        {"model": "maximize C; node A: net_in = 0; arc X >= 0, from A, to A, obj C 1;", "bounds": True},
    ),
}


def scenario(name):
    """Solves one scenario, in a process of a pool."""
    words = dict(CALLS[name][1]) if name in CALLS else {"need": name}
    model = words.pop("model", MODEL)
    return netflow.solve(model, **words, **({"S": ["a", "b"]} if model is MODEL else {}))


def outcomes(results, names):
    """Returns the values and exceptions of calls, by name."""
    found = {}
    for name, result in zip(names, results):
        try:
            found[name] = result().value
        except netflow.NetflowError as error:
            found[name] = error
    return found


def check(found):
    for name, (kind, _) in CALLS.items():
        assert type(found[name]) is kind, name
        assert type(pickle.loads(pickle.dumps(found[name]))) is kind
    assert found[1] == 4 and "9 needed, 5 can come at most" in str(found["infeasible"])


def test_multiprocessing_pool():
    names = [1, *CALLS]
    with multiprocessing.Pool(2) as pool:
        calls = [pool.apply_async(scenario, (name,)) for name in names]
        check(outcomes([lambda call=call: call.get(timeout=60) for call in calls], names))
        with pytest.raises(netflow.Infeasible):
            pool.map_async(scenario, [1, "infeasible"]).get(timeout=60)


def test_process_pool_executor():
    names = [1, *CALLS]
    with concurrent.futures.ProcessPoolExecutor(2) as pool:
        calls = [pool.submit(scenario, name) for name in names]
        check(outcomes([lambda call=call: call.result(timeout=60) for call in calls], names))


def test_model_crosses_processes():
    """A Model is sent to a pool once, and solved there with each value."""
    model = netflow.Model(MODEL, S=["a", "b"])
    with multiprocessing.Pool(2) as pool:
        calls = [pool.apply_async(model.solve, (), {"need": need}) for need in (1, 2, 9)]
        assert [call.get(timeout=60).value for call in calls[:2]] == [4, 8]
        with pytest.raises(netflow.Infeasible):
            calls[2].get(timeout=60)


def test_exceptions_of_graphs():
    nx = pytest.importorskip("networkx")
    graph = nx.DiGraph()
    graph.add_node("a", demand=-5)
    graph.add_node("b", demand=5)
    with multiprocessing.Pool(1) as pool, pytest.raises(nx.NetworkXUnfeasible):
        pool.apply_async(netflow.min_cost_flow, (graph,)).get(timeout=60)
