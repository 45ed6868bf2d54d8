"""The forms of models and data that the program accepts are those that the tools can rewrite."""
import re
import warnings

import pytest

import netflow
from lib.examples import rows
from models.model import Model
from netflow.inputs.instance import Instance
from netflow.inputs.source import Input
from netflow.reading.model import Unparsed
from netflow.reading.text import tokens
from support import BREAD, TOP, run, write

DEFAULT = """set S; param need {S}; param cost; minimize C;
node Shop {s in S}: net_in = need[s]; arc Way {s in S} >= 0, <= 9, to Shop[s], obj C cost;"""
# `param need default 2;` without :=, as the book's data write it, and a decimal.
DATA = "set S := a b;\nparam need default 2;\nparam cost := 1.75;\n"


@pytest.mark.parametrize("words", [[], ["--scale", "cost=100"], ["--set", "need[a]=2", "--bounds"]])
@pytest.mark.parametrize(
    "tool", ["netflow-plan", "netflow-why", "netflow-sheet plan", "netflow-report", "netflow-explain"]
)
def test_default_without_rows(tmp_path, tool, words):
    """2 shops need 2 each, at 1.75: 7, with each tool and each option."""
    files = [write(tmp_path, "a.mod", DEFAULT), write(tmp_path, "a.dat", DATA)]
    status, out, told = run(*tool.split(), *files, *words)
    assert (status, told) == (0, "") and "7" in out
    if tool == "netflow-plan":
        assert out.startswith("C = 7\n")


@pytest.mark.parametrize(
    "options", [{}, {"bounds": True}, {"cost": 1.75}, {"scale": {"cost": 100}}, {"need": {"a": 3}}]
)
def test_default_without_rows_in_python(options):
    expected = 8.75 if "need" in options else 7
    assert netflow.solve(DEFAULT, DATA, **options).value == expected
    assert netflow.solve(DEFAULT, DATA.replace("default 2;", "default 2 := ;"), **options).value == expected


def test_later_default_overrides():
    assert netflow.solve(DEFAULT, [DATA, "param need default 3;"]).value == 10.5
    assert netflow.solve(DEFAULT, [DATA, "param need;\nparam cost := 1;"]).value == 4


def compiled(*texts, objective=None):
    data = [Input(text=text) for text in texts[1:]]
    with Instance(Input(text=texts[0]), data, objective=objective) as instance:
        return instance.ask("compile").text


def forms():
    """Yields the models with data of the examples' rows, without those about large numbers, which take long."""
    for path in sorted((TOP / "examples" / "rows").glob("*.txt")):
        for row in rows.rows_of(path):
            if not re.search(r"\d{4}", row.text(">") + row.text("|")):
                yield row.place, row.text(">"), row.text("|")


def test_rows_of_the_examples_can_be_rewritten(tmp_path):
    """Each model with data that the program accepts is rewritten, as two data files show, to the same problem."""
    count = 0
    for place, model, data in forms():
        words = [write(tmp_path, "r.mod", model), write(tmp_path, "r.dat", data)]
        status, out, _ = run("netflow", "compile", *words)
        if status == 0:
            count += 1
            assert compiled(model, data, "") == out, place
    assert count > 100


def objective_of(text):
    """Returns the name of the first objective that a model declares."""
    words = [token.text for token in tokens(text)]
    return next(name for word, name in zip(words, words[1:]) if word in ("minimize", "maximize"))


def test_random_models_can_be_rewritten(seed):
    model = Model(seed, 0)
    texts, chosen = (model.model_text(), model.data_text()), objective_of(model.model_text())
    assert compiled(*texts, "", objective=chosen) == compiled(*texts, objective=chosen)


def test_name_that_is_declared_later_can_be_a_dummy_before():
    text = """set A; param need {day in A}; set day := {1}; minimize C;
    node Shop {a in A}: net_in = need[a]; arc Way {a in A} >= 0, <= 9, to Shop[a], obj C 2.5;"""
    assert netflow.solve(text, "set A := x y; param need := x 1 y 2;", need={"y": 3}).value == 10


def refuse(*_):
    raise Unparsed(15)


def test_text_that_cannot_be_rewritten(monkeypatch):
    """Such a text is solved without factors and bounds, and the warning names its line; changes are an error that does
    too. No reader meets an offset."""
    monkeypatch.setattr("netflow.inputs.rewriting.DataText", refuse)
    model, data = BREAD / "bread.mod", BREAD / "bread.dat"
    with pytest.warns(UserWarning, match=r"rewrite line 1 of bread.dat, `set BAKERIES := north south;`, which missing"):
        assert netflow.solve(model, data, bounds=True).value == 440
    for options in ({"van": 25}, {"data": [data, "param van := 25;"]}):
        with pytest.raises(netflow.DataError, match="the tools cannot rewrite line 1 of bread.dat") as caught:
            netflow.solve(model, **{"data": data, **options})
        assert "offset" not in str(caught.value)
    with pytest.raises(netflow.ModelError, match="cannot rewrite line 2 .* which decimals need"):
        netflow.solve(DEFAULT, DATA)
    with warnings.catch_warnings():
        warnings.simplefilter("error")
        assert netflow.solve(model, data).value == 440
