"""Objects of pandas as sets, parameters and results; skipped without pandas."""
import io

import pytest

import netflow
from netflow.inputs.python_data import PythonData
from test_data import COST, DATA, MODEL, WHOLE

SETS, KEYS = {"SHOPS": 1, "LINKS": 2}, {"cost": 2, "wants": 1, "van": 0, "trip": 3}
WANTS, LINKS = {("hill",): 30, ("lake",): 45}, [("north", "hill"), ("south", "mill")]
pandas = pytest.importorskip("pandas", reason="pandas is missing: apt-get install python3-pandas")
GRID_FILE = ",hill,lake,mill\nnorth,4,6,9\nsouth,7,5,3\n"


def read(name, value):
    """Returns what the package makes of a set or parameter."""
    found = PythonData({name: value}, SETS, KEYS)
    return found.sets.get(name) or found.params.get(name)


def test_costs():
    """Forms of a parameter with two keys, solved too."""
    grid = pandas.DataFrame([[4, 6, 9], [7, 5, 3]], index=["north", "south"], columns=["hill", "lake", "mill"])
    rows = pandas.DataFrame([(*key, price) for key, price in COST.items()], columns=["from", "to", "cost"])
    series = rows.set_index(["from", "to"])["cost"]
    forms = (
        ("a grid", grid),
        ("a grid of a file", pandas.read_csv(io.StringIO(GRID_FILE))),
        ("a grid of floats", grid.astype(float)),
        ("columns", rows),
        ("columns in another order", rows[["cost", "from", "to"]]),
        ("rows in another order", rows.sort_values("cost")),
        ("an index", rows.set_index(["from", "to"])),
        ("an index and a column", rows.set_index("from")),
        ("more columns", rows.assign(km=7)),
        ("a stacked grid", grid.stack()),
        ("a Series", series),
        ("a Series of objects", series.astype(object)),
        ("a Series with NA", series.astype("Int64")),
    )
    for name, cost in forms:
        assert read("cost", cost) == COST, f"cost by {name}"
        assert netflow.solve(MODEL, cost=cost, **WHOLE).value == 440, f"the value by {name}"
    assert {key: float(price) for key, price in read("cost", grid / 4).items()} == {
        key: price / 4 for key, price in COST.items()
    }, "decimals"


def test_columns():
    """Forms of a parameter with one key, with none, and with three; missing values."""
    rows = pandas.DataFrame({"shop": ["hill", "lake"], "wants": [30, 45]})
    named = rows.assign(van=[4, 5]).set_index("shop")
    for name, wants in (
        ("columns", rows),
        ("an index", rows.set_index("shop")),
        ("an index with other columns", named),
        ("a Series", named["wants"]),
        ("another title", rows.set_index("shop").rename(columns={"wants": "x"})),
        ("categories", rows.astype({"shop": "category"})),
        ("texts", rows.astype(str)),
        ("one row left", pandas.concat([rows, rows[:1].assign(shop="mill", wants=None)])),
    ):
        assert read("wants", wants) == WANTS, f"wants by {name}"
    for missing in (float("nan"), None, pandas.NA, pandas.NaT):
        assert read("wants", pandas.Series({"hill": missing, "lake": 3}, dtype=object)) == {("lake",): 3}, f"{missing}"
    assert read("wants", pandas.Series({"hill": pandas.NA, "lake": 3}, dtype="Int64")) == {
        ("lake",): 3
    }, "an NA of whole numbers"
    for name, van in (
        ("a frame", pandas.DataFrame({"van": [40]})),
        ("a Series", pandas.Series([40])),
        ("a number", pandas.Series([40])[0]),
    ):
        assert read("van", van) == {(): 40}, f"van by {name}"
    trips = pandas.DataFrame({"a": ["x", "y"], "b": [1, 2], "c": ["u", "v"], "trip": [5, 6]})
    for levels in ([], ["a"], ["a", "b"], ["a", "b", "c"]):
        assert read("trip", trips.set_index(levels) if levels else trips) == {
            ("x", 1, "u"): 5,
            ("y", 2, "v"): 6,
        }, f"three keys, of which {len(levels)} in the index"


def test_sets():
    rows = pandas.DataFrame(LINKS, columns=["from", "to"])
    for name, links in (
        ("a frame", rows),
        ("an index", rows.set_index(["from", "to"]).index),
        ("an array", rows.to_numpy()),
        ("a Series", pandas.Series(LINKS)),
    ):
        assert read("LINKS", links) == LINKS, f"a set of pairs by {name}"
    shops = pandas.DataFrame({"shop": ["hill", "lake"]})
    for name, found in (
        ("a frame", shops),
        ("a Series", shops["shop"]),
        ("an index", shops.set_index("shop").index),
        ("an array", shops["shop"].unique()),
    ):
        assert read("SHOPS", found) == [("hill",), ("lake",)], f"a set by {name}"
    assert read("SHOPS", pandas.Series([1.0, 2.0])) == [(1,), (2,)], "a set of numbers"


def test_rejected():
    """Tables that do not say what is a key and what is a value, and truth values, also those of NumPy."""
    rows = pandas.DataFrame([(*key, price) for key, price in COST.items()], columns=["from", "to", "price"])
    twice = pandas.Series([1, 2], index=["hill", "hill"])
    are_open = pandas.Series([True, False], index=["hill", "lake"])
    for name, value, said in (
        ("cost", rows, "no column 'cost'"),
        ("wants", rows, "no column 'wants'"),
        ("LINKS", rows, "3 columns"),
        ("wants", twice, "'hill' is given twice"),
        ("van", pandas.DataFrame({"van": [1, 2]}), "given twice"),
        ("wants", pandas.Series([1], index=[1.5]), "1.5 is no member"),
        ("wants", are_open, "wants['hill']: True is no number"),
        ("wants", are_open.astype("boolean"), "wants['hill']: True is no number"),
        ("van", are_open.to_numpy()[1], "van: False is no number"),
        ("SHOPS", are_open, "True is no member"),
        ("SHOPS", are_open.to_numpy(), "True is no member"),
        ("wants", pandas.Series([1], index=pandas.Index([True], dtype=object)), "True is no member"),
    ):
        with pytest.raises(netflow.DataError) as caught:
            read(name, value)
        problem = caught.value
        assert said in str(problem) and name in str(problem), f"{name}: no {said!r} in {problem}"


def test_results():
    """What comes back is of the types and keys of pandas, and can be data again."""
    plan = netflow.solve(MODEL, DATA)
    flows, table = plan["Drive"].to_pandas(), plan.to_pandas("Drive")
    assert (str(flows.dtype), flows["north", "hill"], flows.xs("mill", level=1).sum(), flows.sum()) == (
        "int64",
        30,
        25,
        100,
    ), "flows"
    assert (flows * pandas.Series(COST)).sum() == 440, "the value by flows and costs"
    assert list(table["flow"]) == [30, 20, 0, 0, 25, 25], "rows"
    assert list(table.columns) == [
        "arc",
        "BAKERIES",
        "SHOPS",
        "from",
        "to",
        "flow",
        "lower",
        "upper",
        "price",
    ], "titles"
    assert table.groupby("SHOPS")["flow"].sum().to_dict() == {"hill": 30, "lake": 45, "mill": 25}, "inflow"
    assert netflow.solve(MODEL, DATA, cost=flows * 0 + pandas.Series(COST)).value == 440, "flows as data"
    halves = netflow.solve(MODEL, DATA, wants={"mill": 24.5})
    assert (str(halves["Drive"].to_pandas().dtype), halves["Drive"].to_pandas()["south", "mill"]) == (
        "float64",
        24.5,
    ), "decimals"
    one = netflow.solve(
        "minimize C; set S := 1..2; node A {i in S}: net_in = i; arc X {i in S} >= 0, <= 9, to A[i], obj C 1;"
    )
    assert one["X"].to_pandas().to_dict() == {1: 1, 2: 2}, "one key"


def test_index_of_flows_has_the_names_of_the_model():
    """As in to_rows: so that `groupby("SHOPS")` works."""
    plan = netflow.solve(MODEL, DATA)
    series = plan["Drive"].to_pandas()
    assert list(series.index.names) == ["BAKERIES", "SHOPS"]
    assert series.groupby("SHOPS").sum().to_dict() == {"hill": 30, "lake": 45, "mill": 25}
    text = "minimize C; set S; node A {i in S}: net_in = 1; arc X {i in S} >= 0, <= 9, to A[i];"
    assert netflow.solve(text, S=["a"])["X"].to_pandas().index.name == "S"
