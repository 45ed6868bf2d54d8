"""What is read of compiled texts, plans and cuts is the model that they are of."""
import pytest

from lib.examples import folders, rows
from models.instance import reference
from models.model import Model
from netflow.analysis import reasons as netflow_reasons
from netflow.certificate import Certificate
from netflow.reading import output
from support import TOP, run, solved, write


def write_model(folder, seed):
    """Returns a random model, and the words that solve it."""
    model = Model(seed)
    words = (write(folder, "m.mod", model.model_text()), write(folder, "m.dat", model.data_text()), *model.words())
    return model, words


def test_random_model(tmp_path, seed):
    """A model whose network is known by other means: what is read, and what is said if there is no plan."""
    model, words = write_model(tmp_path, seed + 1)
    net, status, text = solved(*words)
    instance = model.instance
    arcs = [(arc.text, arc.src, arc.dst, arc.lower, arc.upper, arc.price) for arc in net.arcs]
    assert arcs == [(reference(arc), arc.src, arc.dst, arc.low, arc.high, arc.price) for arc in instance.arcs]
    check_sides(instance, net)
    if status == 0:
        assert output.written(net) == text
        assert [node.inflow for node in net.nodes] == instance.inflows([arc.flow for arc in net.arcs])
    else:
        check_reasons(instance, net, text)


def test_prices_follow_the_plan(tmp_path, seed):
    """`solve --prices` prints the plan of `solve` and then prices that prove it; after a cut it prints nothing."""
    words = write_model(tmp_path, seed + 1)[1]
    net, status, text = solved(*words)
    with_prices = run("netflow", "solve", "--prices", *words)
    assert with_prices[0] == status
    plan, net.prices_text = output.split_prices(with_prices[1])
    assert plan == text
    if status:
        assert net.prices_text == ""
    else:
        output.read_prices(net)
        assert Certificate.of(net).faults() == []


def test_some_random_models_have_no_plan(tmp_path):
    statuses = [run("netflow", "solve", *write_model(tmp_path, seed)[1])[0] for seed in range(1, 61)]
    assert statuses.count(2) > 3


def check_sides(instance, net):
    """A side that the model gives is read as it is; what is said to bind is given."""
    for node, told in zip(instance.nodes, net.nodes):
        assert told.text == reference(node)
        assert node.low is None or node.low == told.low, f"{told.text}: least {told.low}, not {node.low}"
        assert node.high is None or node.high == told.high, f"{told.text}: most {told.high}, not {node.high}"
        assert not told.has_low() or node.low is not None or told.low == told.high, f"{told.text}: no least is given"
        assert not told.has_high() or node.high is not None or told.low == told.high, f"{told.text}: no most is given"


def check_reasons(instance, net, text):
    """Each set is short by what the model itself says, and by as much as the program's cut at least, all together."""
    one, two = map(int, text.splitlines()[1].split(" ")[1:])
    net.cut = output.read_cut(text, net)
    found = netflow_reasons.reasons(net)
    assert sum(found_item.short() for found_item in found) >= abs(one - two), "less is short than the cut says"
    for reason in found:
        inside, sign = set(reason.nodes), 1 if reason.side == "under" else -1
        sides = [instance.nodes[number].low if sign > 0 else instance.nodes[number].high for number in inside]
        assert None not in sides, "a side of a node that is told is not given"
        need = sum(sign * side for side in sides if side is not None)
        for arc in instance.arcs:
            if (arc.src in inside) != (arc.dst in inside):
                into = arc.dst in inside
                need -= sign * (arc.high if into == (sign > 0) else arc.low) * (1 if into else -1)
        assert reason.short() == need, f"{reason.headline(net)}"
        assert reason.short() > 0, "nothing is short"


def inputs_of_examples():
    """Yields the models of examples and of rows about plans and cuts: a name, and the texts or words that solve it."""
    for folder in sorted((TOP / "examples").iterdir()):
        if (folder / f"{folder.name}.mod").exists():
            yield pytest.param(None, folders.words_of(folder), id=folder.name)
    for row in rows.rows_of(TOP / "examples" / "rows" / "plans_and_cuts.txt"):
        chosen = ["--objective", row.text("@")] if row.lines["@"] else []
        yield pytest.param((row.text(">"), row.text("|")), chosen, id=row.place)


@pytest.mark.parametrize("texts, words", inputs_of_examples())
def test_plan_is_written_back(tmp_path, texts, words):
    """A plan is written as the program wrote it; without a plan there is a reason."""
    if texts is not None:
        words = [write(tmp_path, "row.mod", texts[0]), write(tmp_path, "row.dat", texts[1]), *words]
    if run("netflow", "compile", *words)[0]:
        pytest.skip("the program rejects this input, as it should")
    net, status, text = solved(*words)
    if status == 0:
        assert output.written(net) == text
    else:
        net.cut = output.read_cut(text, net)
        assert status == 2 and netflow_reasons.reasons(net)
