"""Forms of data from Python, several data files, changes, and the JSON of all outcomes."""
import json
import pathlib

import pytest

import netflow
from support import BREAD, read, write

MODEL, DATA, BUSY = (str(BREAD / name) for name in ("bread.mod", "bread.dat", "busy.dat"))
COST = {
    ("north", "hill"): 4,
    ("north", "lake"): 6,
    ("north", "mill"): 9,
    ("south", "hill"): 7,
    ("south", "lake"): 5,
    ("south", "mill"): 3,
}
WHOLE = {
    "BAKERIES": ["north", "south"],
    "SHOPS": ("hill", "lake", "mill"),
    "bakes": {"north": 60, "south": 50},
    "van": 40,
    "wants": {"hill": 30, "lake": 45, "mill": 25},
}
FORMS = (
    ("a dict", COST),
    ("dicts in a dict", {i: {j: COST[i, j] for j in ("hill", "lake", "mill")} for i in ("north", "south")}),
    ("tuples", [(*key, price) for key, price in COST.items()]),
    ("rows", [{"from": i, "to": j, "cost": price} for (i, j), price in COST.items()]),
    ("rows of texts", [{"from": i, "to": j, "cost": str(price)} for (i, j), price in COST.items()]),
    ("a generator", ((*key, price) for key, price in COST.items())),
)


@pytest.mark.parametrize("cost", [pytest.param(cost, id=name) for name, cost in FORMS])
def test_form(cost):
    assert netflow.solve(MODEL, cost=cost, **WHOLE).value == 440


def test_texts_and_paths():
    """A str with a line end or a `;` is a text, another one a path; a Path is a file, whatever its name."""
    texts = read(BREAD / "bread.mod"), read(BREAD / "bread.dat")
    assert netflow.solve(*texts).value == 440
    assert netflow.solve(pathlib.Path(MODEL), pathlib.Path(DATA)).value == 440
    assert netflow.solve(MODEL, {**WHOLE, "cost": COST}).value == 440


def test_path_with_a_semicolon(tmp_path):
    """A Path is a file even if its name has a `;`; the same name as a str is a text."""
    path = write(tmp_path, "bread;1.mod", read(BREAD / "bread.mod"))
    assert netflow.solve(path, DATA).value == 440
    with pytest.raises(netflow.ModelError):
        netflow.solve(str(path), DATA)


def test_data_in_the_model():
    model, data = read(BREAD / "bread.mod"), read(BREAD / "bread.dat")
    whole = f"{model}\n# data;\n  data ;\n{data}end;\n"
    assert (netflow.solve(whole).value, netflow.solve(whole, van=25).value) == (440, 460)
    with pytest.raises(netflow.ModelError) as caught:
        netflow.solve(whole.replace("lake 45", "lak 45"))
    problem, row = caught.value, whole.split("wants :=")[0].count("\n") + 1
    assert (problem.code, problem.text, problem.line, problem.hint) == ("E33", "data", row, "lak: is lake meant?")


@pytest.mark.parametrize(
    "name, value",
    [("nothing", 3), ("wants", {("hill", "x"): 3}), ("wants", [("hill",)]), ("SHOPS", "hill"), ("SHOPS", [1.5])],
)
def test_data_that_do_not_fit(name, value):
    with pytest.raises(netflow.DataError) as caught:
        netflow.solve(MODEL, DATA, **{name: value})
    assert name in str(caught.value) or repr(value[0]) in str(caught.value)


WEEKS = """set C; param last; set W := 1..last; param needs {C, W}; minimize Total;
node At {c in C, w in W}: net_in = needs[c,w]; arc In {c in C, w in W} >= 0, <= 99, to At[c,w], obj Total w;"""
# Data, the keys of rows of texts, and what they become: a number, unless the set has the text.
KEYS = (
    ({"C": ["a"], "last": 2}, [("a", "1"), ("a", "2")], [("a", 1), ("a", 2)]),
    ({"C": [7, -7], "last": "1"}, [("7", "1"), ("-7", "1")], [(7, 1), (-7, 1)]),
    ({"C": ["7", "8"], "last": 1}, [("7", "1"), ("8", "1")], [("7", 1), ("8", 1)]),
    ("set C := '01067' 1067; param last := 1;", [("01067", "1"), ("1067", "1")], [("01067", 1), (1067, 1)]),
    ("set C := '01067' '1067'; param last := 1;", [("01067", "1"), ("1067", 1)], [("01067", 1), ("1067", 1)]),
    ({"C": ["4006381333931"], "last": 1}, [("4006381333931", "1")], [("4006381333931", 1)]),
)


@pytest.mark.parametrize("data, rows, keys", KEYS)
def test_keys_of_rows(data, rows, keys):
    """Rows of texts, as csv.DictReader reads them, have the keys that netflow-sheet list writes."""
    for values in ([{"c": c, "w": w, "needs": "2.5"} for c, w in rows], {key: 2.5 for key in rows}):
        assert list(netflow.solve(WEEKS, data, needs=values)["In"]) == keys


def test_key_given_twice():
    with pytest.raises(netflow.DataError, match=r"the key \('a', 1\) is given twice"):
        netflow.solve(WEEKS, C=["a"], last=1, needs={("a", 1): 2, ("a", "1"): 3})


# Data from Python that are wrong, with the exception and what it has to say; nothing else is said of a line or of a
# second file.
MISTAKES = (
    (
        {"van": "fifteen"},
        netflow.ModelError,
        "E36 KindMismatch in the value of van",
        "van = 'fifteen'",
        "'fifteen' is a text, and van is a number",
    ),
    (
        {"van": "40,5"},
        netflow.ModelError,
        "E36 KindMismatch in the value of van",
        "40,5: is 40.5 meant? Decimals have a point",
    ),
    (
        {"cost": {("north", "hill"): "x"}},
        netflow.ModelError,
        "in key ('north', 'hill') of cost",
        "cost['north', 'hill'] = 'x'",
    ),
    (
        {"wants": {"hil": 30}},
        netflow.ModelError,
        "E33 OutsideSet wants['hil'] in key 'hil' of wants",
        "hil: is hill meant?",
    ),
    (
        {"wants": {"hill": -3}},
        netflow.ModelError,
        "E34 Restriction",
        "wants['hill'] is -3 in key 'hill' of wants; the model has >= 0",
    ),
    (
        {"cost": [4, 3, 2]},
        netflow.DataError,
        "param cost: 4 in the list has no key; expected a key of 2 parts and a value",
        "a dict by key, a list of tuples",
        "a list of dicts",
    ),
    (
        {"wants": 5},
        netflow.DataError,
        "param wants: 5 has no keys; expected a key of 1 part for each value",
        "a list of dicts",
    ),
    (
        {"cost": {"north-hill": 4}},
        netflow.DataError,
        "param cost: the key 'north-hill' has 1 part; expected 2, one member for each index of cost {BAKERIES, SHOPS}",
    ),
    (
        {"wants": {("hill", "x"): 3}},
        netflow.DataError,
        "param wants: the key ('hill', 'x') has 2 parts; expected 1, one member for each index of wants {SHOPS}",
    ),
    (
        {"wants": {1.5: 3}},
        netflow.DataError,
        "param wants: 1.5 is no member: a member is a whole number or a text, so use str(..)",
    ),
    (
        {"wants": {1: 3}},
        netflow.ModelError,
        "E33 OutsideSet wants[1] in key 1 of wants",
        "1 is not in SHOPS, whose members are texts (hill, lake, mill)",
    ),
    (
        {"cost": {("hill", "north"): 3}},
        netflow.ModelError,
        "are the two members exchanged? The parts of a key are those of cost {BAKERIES, SHOPS}",
    ),
    (
        {"van": {"north": 3}},
        netflow.DataError,
        "param van: van has one value and no keys; expected a number or a text, not the key 'north'",
    ),
    (
        {"van": [40]},
        netflow.DataError,
        "param van: [40] is no value; expected a number (int, float, Fraction or Decimal) or a text",
    ),
    (
        {"van": True},
        netflow.DataError,
        "param van: True is no number; expected a number (int, float, Fraction or Decimal) or a text; int(True) is 1",
    ),
    ({"wants": {"hill": False}}, netflow.DataError, "param wants['hill']: False is no number", "int(False) is 0"),
    (
        {"cost": {"north": {"hill": True}}},
        netflow.DataError,
        "param cost['north', 'hill']: True is no number",
    ),
    ({"wants": [("hill", True)]}, netflow.DataError, "param wants['hill']: True is no number"),
    ({"wants": [{"shop": "hill", "wants": True}]}, netflow.DataError, "param wants['hill']: True is no number"),
    (
        {"wants": {True: 3}},
        netflow.DataError,
        "param wants: True is no member: a member is a whole number or a text, so use int(..) or str(..)",
    ),
    ({"SHOPS": ["hill", False]}, netflow.DataError, "set SHOPS: False is no member"),
    ({"wants": {"hill": [30]}}, netflow.DataError, "param wants['hill']: [30] is no value"),
    ({"vans": 3}, netflow.DataError, "vans: the model declares no such set or parameter; is van meant?"),
    (
        {"speed": 3},
        netflow.DataError,
        "speed: the model declares no such set or parameter; it has BAKERIES, SHOPS, bakes, wants, cost, van",
    ),
    (
        {"objectiv": "Total"},
        netflow.DataError,
        "objectiv: the model declares no such set or parameter; is the option objective meant?",
    ),
    ({"Drive": {("north", "hill"): 3}}, netflow.DataError, "Drive is an arc, and only sets and parameters have data"),
    (
        {"SHOPS": "hill lake"},
        netflow.DataError,
        "set SHOPS: 'hill lake' is a text; expected a list of members, such as ['hill', 'lake']",
    ),
    ({"SHOPS": 3}, netflow.DataError, "set SHOPS: 3 is no list; expected a list of members, such as [3]"),
    ({"SHOPS": [("hill", 1)]}, netflow.DataError, "set SHOPS: the member ('hill', 1) has 2 parts; expected 1"),
    (
        {"wants": [{"shop": "hill", "want": 3}]},
        netflow.DataError,
        "has no column 'wants'; expected the value in a column of this name",
    ),
    (
        {"wants": [("hill", "x", 3)]},
        netflow.DataError,
        "param wants: ('hill', 'x', 3) has 3 parts; expected 2, the key and the value",
    ),
    ({"scale": {"fan": 10}}, netflow.DataError, "scale of fan: the model declares no such parameter; is van meant?"),
    ({"scale": {"van": 0}}, netflow.DataError, "scale of van: 0 is no factor; expected a whole number of 1 or more"),
    ({"scale": 100}, TypeError, "scale: expected a dict of parameters and factors, such as {'cost': 100}, not 100"),
    ({"objective": 3}, TypeError, "objective: expected the name of an objective as a text, not 3"),
    ({"wants": ["hill"]}, netflow.DataError, "param wants: 'hill' in the list has no key"),
    ({"wants": [("hill", 3), ("hill", 4)]}, netflow.DataError, "param wants: the key 'hill' is given twice"),
    (
        {"wants": [{"shop": "hill", "wants": 3}, {"shop": "hill", "wants": None}]},
        netflow.DataError,
        "param wants: the key 'hill' is given twice",
    ),
    (
        {"cost": [("north", "hill", 1), ("north", "hill", 1)]},
        netflow.DataError,
        "param cost: the key ('north', 'hill') is given twice",
    ),
    ({"SHOPS": ["hill", "lake", "hill"]}, netflow.DataError, "set SHOPS: the member 'hill' is given twice"),
    ({"SHOPS": ["hill", None]}, netflow.DataError, "set SHOPS: None is no member"),
    ({"wants": {None: 3}}, netflow.DataError, "param wants: None is no member"),
)


@pytest.mark.parametrize("data", [DATA, {**WHOLE, "cost": COST}], ids=["file", "dict"])
@pytest.mark.parametrize(
    "values, kind, parts",
    [(values, kind, parts) for values, kind, *parts in MISTAKES],
    ids=lambda value: str(value)[:40],
)
def test_mistake(values, kind, parts, data):
    """Errors in data from Python name the parameter, with its key, and no line of a file that does not exist."""
    with pytest.raises(kind) as caught:
        netflow.solve(MODEL, data, **values)
    problem, text = caught.value, str(caught.value)
    for part in parts:
        assert part in text
    assert "second file" not in text and "dev/null" not in text
    if kind is netflow.ModelError and problem.text == "data":
        assert (problem.file, problem.line, problem.column) == (None, 0, 0)


def test_no_data():
    with pytest.raises(netflow.ModelError) as caught:
        netflow.solve(MODEL)
    assert caught.value.hint == "there are no data: give a data file, or the values from Python"


# Which name Python does not give, or how, and the hint.
MISSING = (
    ("cost", {}, "cost has no value: give it to solve as cost=.., or in a data file"),
    ("van", {}, "van has no value: give it to solve as van=.., or in a data file"),
    ("SHOPS", {}, "SHOPS has no value: give it to solve as SHOPS=.., or in a data file"),
    (
        "van",
        {"van": None},
        "van is given without a value, as None or NaN: give it to solve as van=.., or in a data file",
    ),
    ("wants", {"wants": {"hill": 30, "lake": 45}}, "wants has no value at 'mill'; it has values at 'hill', 'lake'"),
)


PAIRS = (
    "set A; set B; set L within A cross B; minimize C; node X {a in A}; arc Y {(a,b) in L} >= 0, <= 1, from X[a], obj"
    " C 1;"
)


@pytest.mark.parametrize("name, values, hint", MISSING)
def test_missing_value(name, values, hint):
    given = {other: value for other, value in {**WHOLE, "cost": COST}.items() if other != name}
    with pytest.raises(netflow.ModelError) as caught:
        netflow.solve(MODEL, **given, **values)
    assert (caught.value.code, caught.value.hint) == ("E32", hint)


def test_pair_outside_its_sets():
    with pytest.raises(netflow.ModelError) as caught:
        netflow.solve(PAIRS, A=["a", "b"], B=[1, 2], L=[("a", 1), ("b", 3)])
    assert (caught.value.code, caught.value.hint) == ("E34", "member ('b', 3) of L is not in A cross B: B has no 3")


@pytest.mark.parametrize(
    "words, part",
    [
        ((None, DATA), "model: expected a path, a file or the text of the model, not None"),
        ((MODEL, 5), "data: expected a path, a file, a text, a dict, or a list of these, not 5"),
        ((MODEL, {"van"}), "not {'van'}"),
    ],
)
def test_argument_of_a_wrong_type(words, part):
    with pytest.raises(TypeError) as caught:
        netflow.solve(*words)
    assert part in str(caught.value)


GIVEN = {**WHOLE, "cost": {"north": {"hill": 4, "lake": 6, "mill": 9}, "south": {"hill": 7, "lake": 5, "mill": 3}}}


# For each unit that the mill wants less, south has one more for the lake, at 5 in place of 6 from north: 3 + 1 are
# saved.
@pytest.mark.parametrize(
    "data, values, value",
    [
        pytest.param([DATA, BUSY, "param bakes := south 50; param wants := lake 45;"], {}, 440, id="overridden twice"),
        pytest.param(GIVEN, {}, 440, id="dicts"),
        pytest.param([GIVEN, {"wants": {"mill": 20}}], {}, 420, id="a dict over a dict"),
        pytest.param(GIVEN, {"wants": {"mill": 20}}, 420, id="a keyword over a dict"),
        pytest.param(
            [GIVEN, {"wants": {"mill": 20}}], {"cost": {("north", "hill"): 6}}, 480, id="a keyword in another form"
        ),
    ],
)
def test_override(data, values, value):
    """Later data override earlier ones value by value, sets as a whole."""
    assert netflow.solve(MODEL, data, **values).value == value


def test_busy_day_has_no_plan():
    with pytest.raises(netflow.Infeasible) as caught:
        netflow.solve(MODEL, [DATA, BUSY])
    assert caught.value.cut == ["Shop['lake']"]


def test_need_of_0():
    fewer = netflow.solve(MODEL, [DATA], wants={"lake": 0})
    assert [fewer["Drive"][bakery, "lake"] for bakery in ("north", "south")] == [0, 0]


def test_error_in_the_second_file(tmp_path):
    path = write(tmp_path, "more.dat", "# two lines\nparam wants := hil 3;\n")
    with pytest.raises(netflow.ModelError) as caught:
        netflow.solve(MODEL, [DATA, path])
    problem = caught.value
    assert (problem.code, problem.file, problem.line, problem.column) == ("E33", str(path), 2, 16)
    with pytest.raises(netflow.ModelError) as caught:
        netflow.solve(MODEL, [DATA, "/nowhere/x.dat"])
    assert caught.value.code == "E90"


def test_value_that_the_model_fixes():
    fixed = "param van := 30; minimize C; node A; arc X >= 0, <= van, to A; arc Y >= 1, <= 99, from A, obj C 1;"
    assert [arc.upper for arc in netflow.solve(fixed, van=1).arcs if arc.name == "X"] == [1]


def test_json_of_a_plan():
    plan = json.loads(netflow.solve(MODEL, DATA).to_json())
    assert (plan["schema"], plan["status"], len(plan["arcs"]), len(plan["nodes"])) == (1, "optimal", 6, 5)
    assert plan["objective"] == {"name": "Total", "sense": "minimize", "value": 440}
    assert plan["arcs"][0] == {
        "name": "Drive",
        "key": ["north", "hill"],
        "from": "Bakery['north']",
        "to": "Shop['hill']",
        "flow": 30,
        "lower": 0,
        "upper": 40,
        "price": 4,
    }


def test_json_keeps_digits():
    text = netflow.solve(MODEL, DATA, cost={("north", "hill"): 4.1016666}).to_json()
    assert '"value": 443.049998' in text[:200]


def test_json_of_no_plan():
    with pytest.raises(netflow.Infeasible) as caught:
        netflow.solve(MODEL, [DATA, BUSY])
    found = caught.value.to_dict()
    assert (found["status"], found["cut"]["side"], found["cut"]["nodes"]) == ("infeasible", "under", ["Shop['lake']"])
    assert [found["reasons"][0][name] for name in ("required", "possible", "short")] == [85, 80, 5]


def test_json_of_an_error():
    with pytest.raises(netflow.ModelError) as caught:
        netflow.solve(MODEL, DATA, van="x")
    error = caught.value.to_dict()["error"]
    names = {"code", "name", "input", "file", "line", "column", "detail", "source", "meaning", "hints", "remedy"}
    assert set(error) == names and error["code"] == "E36"


def test_page_in_a_notebook():
    page = netflow.solve(MODEL, DATA)._repr_html_()
    assert page.startswith("<iframe ") and "Total = 440" in page
