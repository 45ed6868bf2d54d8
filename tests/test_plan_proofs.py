"""`solve --prices`: a script of a few lines confirms each plan by what netflow prints, and finds each wrong number."""
import dataclasses
import re
import shutil

import pytest

import netflow
from lib.examples import folders
from lib.plan_proof import faults
from models.model import Model
from models.peer import TwinFault, solved
from netflow.analysis.sensitivity import Marginal
from netflow.reading import output
from support import BREAD, TOP, read, run, write

PAGE = TOP / "docs" / "guide" / "check-a-plan.md"
LOAVES, PRINTED = re.findall(r"^```\n(.*?)^```", read(PAGE), re.M | re.S)[:2]
LOAVES_ANSWER = PRINTED.partition("\n")[2]
# A fixed arc, which the lean form omits, an expression of a maximized objective, and each kind of condition.
MIXED = """node Store {t in 1..2}: -4 <= net_in <= 9; node Market: net_in >= 2; node Farm: net_out <= 8; node Gate;
arc Keep >= -3, <= 5, from Store[1], to Store[2]; arc Sell {t in 1..2} >= 0, <= 6, from Store[t], to Market;
arc Fee >= 2, <= 2, from Farm, to Gate; arc Leave >= 0, <= 9, from Gate;
arc Grow >= 1, <= 7, from Farm, to Store[1];
maximize Gain: 6 * Sell[1] + 2 * Sell[2] - 2 * Keep + 7 - 5 * Fee - Grow;"""


def answers(*words):
    """Returns the compiled model, and the status and the text of its answer with prices."""
    return (run("netflow", "compile", *words)[1], *run("netflow", "solve", "--prices", *words)[:2])


def random_words(folder, seed):
    model = Model(seed)
    return [write(folder, "m.mod", model.model_text()), write(folder, "m.dat", model.data_text()), *model.words()]


def test_page(tmp_path):
    """The plan and the prices of the page are those of its model, and the only ones."""
    words = write(tmp_path, "loaves.mod", LOAVES), "/dev/null"
    compiled, status, text = answers(*words)
    assert (status, text) == (0, LOAVES_ANSWER)
    assert faults(compiled, text) == []


def test_reference(tmp_path):
    """The reference shows the prices of the bakeries with two changed numbers."""
    page = read(TOP / "docs" / "reference" / "command-line.md").partition("## Prices\n")[2]
    data = read(BREAD / "bread.dat").replace("south 50", "south 90").replace("hill 30", "hill 45")
    words = BREAD / "bread.mod", write(tmp_path, "bread.dat", data)
    assert run("netflow", "solve", "--prices", *words)[1] in page


def test_random_model(tmp_path, seed):
    words = random_words(tmp_path, seed + 1)
    compiled, status, text = answers(*words)
    if status == 0:
        assert faults(compiled, text) == []
        assert text.startswith(run("netflow", "solve", *words)[1] + "prices\n")
    else:
        assert (status, text) == run("netflow", "solve", *words)[:2]


@pytest.mark.parametrize("name", sorted(path.stem for path in (TOP / "examples").glob("*/*.mod")))
def test_example(name):
    folder = next(path.parent for path in (TOP / "examples").glob(f"*/{name}.mod"))
    words = folders.words_of(folder)
    for choice in [], ["--lean"]:
        status, text, _ = run("netflow", "solve", "--prices", *choice, *words)
        if status == 0:
            assert faults(run("netflow", "compile", *words)[1], text) == []
        else:
            assert (status, text) == run("netflow", "solve", *choice, *words)[:2]


def test_lean_form_has_the_reduced_cost_of_a_fixed_arc(tmp_path):
    words = write(tmp_path, "mixed.mod", MIXED), "/dev/null"
    text = run("netflow", "solve", "--prices", "--lean", *words)[1]
    assert faults(run("netflow", "compile", *words)[1], text) == []
    prices, costs = text.partition("\nprices\n")[2].split("reduced costs\n")
    farm, gate = (int(re.search(rf"^{name} = (.*)$", prices, re.M)[1]) for name in ("Farm", "Gate"))
    assert f"Fee = {-5 + farm - gate}\n" in costs


def number_changed(text, line):
    """Returns a text with 1 added to the last number of a line."""
    lines = text.splitlines()
    front, _, number = lines[line].rpartition(" ")
    lines[line] = f"{front} {int(number) + 1}"
    return "\n".join(lines) + "\n"


@pytest.mark.parametrize("model", [LOAVES, MIXED])
def test_each_wrong_number_is_found(tmp_path, model):
    """Each number of the answer, with 1 added to it, makes the proof wrong."""
    compiled, _, text = answers(write(tmp_path, "m.mod", model), "/dev/null")
    lines = text.splitlines()
    numbered = [place for place, line in enumerate(lines) if re.search(r" -?\d+$", line)]
    assert len(numbered) > 9
    for place in numbered:
        assert faults(compiled, number_changed(text, place)), f"{lines[place]} with 1 added is not found"


def test_prices_of_two_nodes_exchanged_are_found(tmp_path):
    compiled, _, text = answers(write(tmp_path, "m.mod", LOAVES), "/dev/null")
    exchanged = text.replace("Depot = 2", "Depot = 6").replace("Shop = 6", "Shop = 2")
    assert exchanged != text and faults(compiled, exchanged)


@pytest.mark.parametrize("model", [LOAVES, MIXED, LOAVES.replace("net_in = 6", "net_in = 6.5")])
def test_certificate_of_a_solution(model):
    """The certificate has no faults, also if decimals are scaled, and each changed number is one."""
    certificate = netflow.solve(model).certificate()
    assert certificate.faults() == []
    for field in ("value", "constant"):
        assert dataclasses.replace(certificate, **{field: getattr(certificate, field) + 1}).faults()
    for field, names in {"nodes": ["price", "inflow"], "arcs": ["reduced_cost", "flow", "coefficient"]}.items():
        for place, part in enumerate(getattr(certificate, field)):
            for name in names:
                parts = list(getattr(certificate, field))
                parts[place] = dataclasses.replace(part, **{name: getattr(part, name) + 1})
                assert dataclasses.replace(certificate, **{field: parts}).faults(), (part.name, name)


def row_sign(condition):
    """Returns 1 if the row of a condition grows with the net inflow, else -1. A row is the left side minus the right one."""
    if not condition:
        return 1
    mirrored = len(condition.sides) == 1 and condition.sides[0][2]
    return -condition.sign() if mirrored else condition.sign()


def duals(folder, model):
    """Returns the dual value of each node's row in glpsol's solution, as a price; None if a node has no row."""
    rows = [line.split() for line in (folder / "twin.sol").read_text().splitlines() if line.startswith("i ")]
    signs = [row_sign(decl.condition) for decl in model.layout.nodes for _ in decl.keys]
    # The objective is the first row.
    assert len(rows) == len(signs) + 1
    return [sign * float(row[4]) for sign, row in zip(signs, rows[1:])]


@pytest.mark.skipif(shutil.which("glpsol") is None, reason="glpsol is not installed")
def test_glpsol_has_the_same_prices(tmp_path, seed):
    """Where one unit more costs what one unit less saves, the dual value is unique, and glpsol finds the printed price."""
    words, model = random_words(tmp_path, seed + 1), Model(seed + 1)
    write(tmp_path, "twin.mod", model.twin())
    compiled, status, text = answers(*words)
    try:
        best = solved(tmp_path)
    except TwinFault:
        pytest.skip("glpsol rejects the twin, as it should")
    if best is None:
        assert status == 2
        return
    net = output.read_compiled(compiled)
    plan, net.prices_text = output.split_prices(text)
    output.read_plan(plan, net)
    output.read_prices(net)
    marginal = Marginal(net)
    for node, dual, more, less in zip(net.nodes, duals(tmp_path, model), marginal.more, marginal.less):
        if more is not None and less is not None and more == -less:
            assert dual == pytest.approx(net.sign * node.worth), node.text
