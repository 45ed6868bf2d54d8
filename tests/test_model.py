"""A Model: data that are changed and solved again, and what it is made of."""
import copy
import gc
import io
import pathlib

import pytest

import netflow
from support import BREAD, read, write

MODEL, DATA = BREAD / "bread.mod", BREAD / "bread.dat"


def test_changes_are_solved_again():
    """The values are those of a new call of `solve` with the same data."""
    model = netflow.Model(MODEL, DATA)
    assert model.solve().value == netflow.solve(MODEL, DATA).value == 440
    model["van"] = 25
    assert model.solve().value == netflow.solve(MODEL, DATA, van=25).value == 460
    model.change(cost={("north", "hill"): 10})
    model.change(cost={("south", "mill"): 1})
    both = {("north", "hill"): 10, ("south", "mill"): 1}
    assert model.solve().value == netflow.solve(MODEL, DATA, van=25, cost=both).value
    del model["van"], model["cost"]
    assert model.solve().value == 440 and dict(model) == {}


@pytest.mark.parametrize("is_enabled", [True, False])
def test_collection_of_garbage_is_as_before(is_enabled):
    """Reading a network pauses the collection, whether there is a plan, none, or an error."""
    was_enabled = gc.isenabled()
    (gc.enable if is_enabled else gc.disable)()
    try:
        assert netflow.solve(MODEL, DATA).reduced_costs and gc.isenabled() == is_enabled
        with pytest.raises(netflow.Infeasible):
            netflow.solve(MODEL, DATA, van=1)
        assert gc.isenabled() == is_enabled
        with pytest.raises(netflow.ModelError):
            netflow.solve(MODEL)
        assert gc.isenabled() == is_enabled
    finally:
        (gc.enable if was_enabled else gc.disable)()


def test_values_of_one_call():
    model = netflow.Model(MODEL, DATA, van=25)
    assert model.solve(van=40).value == 440
    assert model.solve().value == 460 and model["van"] == 25


def test_copy_is_independent():
    model = netflow.Model(MODEL, DATA, van=25)
    for other in (model.copy(), copy.copy(model), copy.deepcopy(model)):
        other["van"] = 40
        assert (other.solve().value, model.solve().value) == (440, 460)


def test_options_can_be_changed():
    text = "maximize A; minimize B; node N: net_in = 2; arc X >= 0, <= 3, to N, obj A 5, obj B 7;"
    model = netflow.Model(text, objective="A")
    assert model.solve().value == 10
    model.objective = "B"
    assert model.solve().value == 14
    model.bounds = 3
    with pytest.raises(TypeError, match="bounds: expected True or False"):
        model.solve()


def test_unknown_names():
    model = netflow.Model(MODEL, DATA)
    with pytest.raises(netflow.DataError, match="is van meant"):
        model["vann"] = 3
    with pytest.raises(netflow.DataError, match="is cost meant"):
        model.change(costs={})
    with pytest.raises(KeyError, match="van has no value from Python"):
        model["van"]


def test_warnings_name_the_line_that_solves():
    with pytest.warns(UserWarning) as caught:
        netflow.Model(MODEL, DATA, cost={("north", "hill"): 0.1 + 0.2}).solve()
    assert [warning.filename for warning in caught] == [__file__]


def test_open_files():
    """Files that are open as texts or as bytes, and files in memory, as json.load takes them."""
    for mode in ("r", "rb"):
        with open(MODEL, mode) as model, open(DATA, mode) as data:
            assert netflow.solve(model, data).value == 440
    values = io.StringIO("param van := 25;")
    assert netflow.solve(io.BytesIO(MODEL.read_bytes()), [DATA, values]).value == 460


def test_open_file_is_named_in_an_error(tmp_path):
    path = write(tmp_path, "bad.dat", read(DATA).replace("van := 40", "vn := 40"))
    with open(path) as data, pytest.raises(netflow.ModelError) as caught:
        netflow.solve(MODEL, data)
    assert caught.value.place.startswith(f"{path}:5:"), caught.value.place
    with pytest.raises(TypeError, match="model: expected a path, a file or the text"):
        netflow.solve(3)


def test_pipe_is_read_once(tmp_path):
    """A pipe can be read only once, and the model still be solved twice."""
    import os
    import threading

    path = tmp_path / "pipe"
    os.mkfifo(path)
    writer = threading.Thread(target=lambda: pathlib.Path(path).write_bytes(DATA.read_bytes()))
    writer.start()
    model = netflow.Model(MODEL, path)
    writer.join()
    assert (model.solve().value, model.solve(van=25).value) == (440, 460)


def test_types_that_can_be_named():
    """The types of a reason, an arc and a node are exported."""
    plan = netflow.solve(MODEL, DATA)
    assert isinstance(plan.arcs[0], netflow.Arc) and isinstance(plan.nodes[0], netflow.Node)
    assert [node.text for node in plan.nodes][0] == "Bakery['north']"
    with pytest.raises(netflow.Infeasible) as caught:
        netflow.solve(MODEL, [DATA, BREAD / "busy.dat"])
    assert isinstance(caught.value.reasons[0], netflow.Reason)
