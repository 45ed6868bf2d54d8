"""The package as Python sees it: mappings, options, exceptions, types."""
import pathlib
import pickle

import pytest

import netflow
from support import BREAD

MODEL, DATA, BUSY = BREAD / "bread.mod", BREAD / "bread.dat", BREAD / "busy.dat"
# A model whose parameters have the names of options.
NAMED = """set S; param scale {S}; param bounds; param data; param objective; minimize C;
node A {i in S}: net_in = scale[i]; arc X {i in S} >= 0, <= bounds + data + objective, to A[i], obj C 1;"""
VALUES = {"S": ["a", "b"], "scale": {"a": 1, "b": 2}, "bounds": 3, "data": 4, "objective": 5}


@pytest.fixture(scope="module")
def plan():
    return netflow.solve(MODEL, DATA)


def test_solution_is_a_mapping_of_declarations(plan):
    """Iteration, keys, `in`, `[]` and len speak of the declarations of arcs; `arcs` are all arcs."""
    assert list(plan) == list(plan.keys()) == ["Drive"]
    assert len(plan) == 1 and "Drive" in plan and "drive" not in plan and 3 not in plan
    assert dict(plan) == {"Drive": plan["Drive"]}
    assert len(plan.arcs) == 6 and sum(arc.flow * arc.price for arc in plan.arcs) == plan.value
    with pytest.raises(KeyError, match="the model declares no arcs 'Fly'; it has Drive"):
        plan["Fly"]


def test_flows_are_a_mapping_of_keys(plan):
    flows = plan["Drive"]
    assert list(flows) == list(flows.keys()) and len(flows) == 6
    assert ("north", "hill") in flows and ("hill", "north") not in flows
    assert flows["north", "hill"] == flows.arc(("north", "hill")).flow == 30
    assert repr(plan) == "<Solution Total = 440, 6 arcs>"


def test_key_of_one_index_is_the_member():
    plan = netflow.solve(
        "minimize C; node A {i in 1..2}: net_in = i; arc X {i in 1..2} >= 0, <= 9, to A[i]; arc Y >= 1, <= 1, to A[1];"
    )
    assert dict(plan["X"]) == {1: 0, 2: 2} and plan["Y"] == 1
    assert set(plan) == {"X", "Y"} and plan.reduced_costs["X"].keys() == {1, 2}


def test_parameter_named_like_an_option():
    """A dict of data gives it; the keyword is the option, and the error says where the parameter is given."""
    assert netflow.solve(NAMED, VALUES).value == 3
    for name, value in (("scale", {"a": 1, "b": 2}), ("bounds", 3), ("objective", "C")):
        rest = {other: given for other, given in VALUES.items() if other != name}
        with pytest.raises(netflow.DataError) as caught:
            netflow.solve(NAMED, rest, **{name: value})
        assert f"give the param in a dict, data={{'{name}': ..}}" in str(caught.value)
    with pytest.raises(netflow.DataError, match="data={'data': ..}"):
        netflow.solve(NAMED, data=5)
    # With the parameter in the data the keyword is the option.
    assert netflow.solve(NAMED, VALUES, scale={"bounds": 10}, bounds=True, objective="C").value == 3


def test_options_of_a_wrong_type():
    with pytest.raises(TypeError, match="bounds: expected True or False, not 3"):
        netflow.solve(MODEL, DATA, bounds=3)


def raised(kind):
    """Returns an exception of this kind, as `solve` raises it."""
    calls = {
        netflow.Infeasible: lambda: netflow.solve(MODEL, [DATA, BUSY]),
        netflow.ModelError: lambda: netflow.solve(MODEL, DATA, van="x"),
        netflow.DataError: lambda: netflow.solve(MODEL, DATA, vans=3),
        netflow.ScaleError: lambda: netflow.solve(MODEL, DATA, van=40.5, scale={"van": 1}),
    }
    with pytest.raises(kind) as caught:
        calls[kind]()
    return caught.value


@pytest.mark.parametrize("kind", [netflow.Infeasible, netflow.ModelError, netflow.DataError, netflow.ScaleError])
def test_exception_can_be_pickled(kind):
    error = raised(kind)
    copy = pickle.loads(pickle.dumps(error))
    assert type(copy) is type(error) is kind and str(copy) == str(error)
    assert sorted(vars(copy)) == sorted(vars(error))
    if kind is netflow.Infeasible:
        assert (copy.to_dict(), copy.why) == (error.to_dict(), error.why)
    if kind is netflow.ModelError:
        assert copy.to_dict() == error.to_dict()


def test_exception_of_the_program_can_be_pickled():
    copy = pickle.loads(pickle.dumps(netflow.ProgramError(70, "netflow: a message\n", "E12 x")))
    assert (copy.status, copy.message, copy.line, str(copy)) == (
        70,
        "netflow: a message\n",
        "E12 x",
        "netflow: a message",
    )


def test_public_names():
    assert set(netflow.__all__) >= {"Solution", "Flows", "Exact", "solve", "network_simplex"}
    assert (pathlib.Path(netflow.__file__).parent / "py.typed").exists()
