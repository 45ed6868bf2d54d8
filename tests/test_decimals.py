"""Decimals: a model with decimals is worth exactly what the same model in whole numbers is, divided by the factors."""
import random
import warnings
from fractions import Fraction

import pytest

import netflow
from netflow.inputs.decimals import whole_copy
from support import BREAD, read

MODEL = """set P; set L within P cross P; param need {P} default 0; param room {L}; param price {L} default 1.5; param fee; param share;
minimize Cost;
check: sum {p in P} need[p] <= 1000.5;
node At {p in P}: net_in = need[p] * 2 - (if need[p] > 0.5 then need[p] else need[p]);
arc Go {(i,j) in L} >= 0, <= room[i,j] + 0.5, from At[i], to At[j], obj Cost price[i,j] + fee * share;
arc In >= 0, <= 900, to At['a'], obj Cost 100.25;
arc Out >= 0, <= 900, from At['a'], obj Cost 0.125;
"""


def plain(seed):
    """Returns data in hundredths and tenths: needs, room and prices by key, fee and share."""
    dice = random.Random(f"decimals {seed}")
    needs = {name: Fraction(dice.randint(-30, 30), 10) for name in "abcd"}
    links = dice.sample([(i, j) for i in "abcd" for j in "abcd" if i != j], 9)
    return (
        needs,
        {link: Fraction(dice.randint(0, 90), 10) for link in links},
        {link: Fraction(dice.randint(0, 900), 100) for link in links},
        Fraction(dice.randint(0, 9), 10),
        Fraction(dice.randint(0, 99), 100),
    )


def text_of(number):
    return str(netflow.Exact(number))


def data_text(seed):
    needs, rooms, prices, fee, share = plain(seed)
    rows = "\n".join(f"{i} {j} {text_of(rooms[i, j])} {text_of(prices[i, j])}" for i, j in rooms)
    return (
        f"set P := a b c d;\nparam need := {' '.join(f'{need} {text_of(number)}' for need, number in needs.items())};\n"
        f"param: L: room price :=\n{rows};\nparam fee := {text_of(fee)};\nparam share := {text_of(share)};\n"
    )


def by_graph(seed):
    """Returns the value by the graph functions, which have no model: an independent way to the same number."""
    needs, rooms, prices, fee, share = plain(seed)
    names = ["a", "b", "c", "d", "outside"]
    arcs = [(i, j, rooms[i, j] + Fraction(1, 2), prices[i, j] + fee * share) for i, j in rooms]
    arcs += [("outside", "a", Fraction(900), Fraction(401, 4)), ("a", "outside", Fraction(900), Fraction(1, 8))]
    flow = netflow.SimpleMinCostFlow(decimals=True)
    for i, j, room, cost in arcs:
        flow.add_arc_with_capacity_and_unit_cost(names.index(i), names.index(j), room, cost)
    for name, need in needs.items():
        flow.set_node_supply(names.index(name), -need)
    flow.set_node_supply(4, sum(needs.values()))
    return flow.optimal_cost() if flow.solve() == flow.OPTIMAL else None


@pytest.mark.parametrize("form", ["text", "Python"])
def test_decimals(seed, form):
    """Data as text and from Python, with and without a plan, against the graph functions; and what a plan sums to."""
    value = by_graph(seed)
    data = data_text(seed) if form == "text" else python_data(seed)
    if value is None:
        with pytest.raises(netflow.Infeasible):
            netflow.solve(MODEL, data)
        return
    plan = netflow.solve(MODEL, data)
    assert plan.value == value
    assert sum((arc.flow * arc.price for arc in plan.arcs), Fraction(0)) == value


def test_many_models_with_decimals_have_a_plan():
    assert sum(by_graph(seed) is not None for seed in range(60)) > 15


def python_data(seed):
    needs, rooms, prices, fee, share = plain(seed)
    return {
        "P": list("abcd"),
        "need": needs,
        "L": list(rooms),
        "room": {room: float(number) for room, number in rooms.items()},
        "price": [(*price, text_of(number)) for price, number in prices.items()],
        "fee": fee,
        "share": float(share),
    }


# A text, what has to be said of it, and the parameter that is named.
REJECTED = (
    ("param T; minimize C; node A {t in 1..T}; arc X {t in 1..T} >= 0, <= 1, from A[t];", "param T := 2.5;", "T"),
    ("param p integer; minimize C; node A; arc X >= 0, <= p, from A;", "param p := 2.5;", "p"),
    ("param p; minimize C; node A; arc X >= 0, <= p, from A;", "param p := 200000000000.55;", "p"),
    ("param p; minimize C; node A; arc X integer >= 0, <= p, from A;", "param p := 0.5;", "X"),
)


@pytest.mark.parametrize("model, data, name", REJECTED)
def test_decimals_that_cannot_be_scaled(model, data, name):
    with pytest.raises(netflow.ScaleError) as caught:
        netflow.solve(model, data)
    assert caught.value.parameter == name


def test_given_factor():
    """A factor that is given is taken, and one that is too small is rejected."""
    seed = next(seed for seed in range(60) if by_graph(seed) is not None)
    assert netflow.solve(MODEL, data_text(seed), scale={"price": 1000}).value == by_graph(seed)
    with pytest.raises(netflow.ScaleError) as caught:
        netflow.solve(MODEL, data_text(0), scale={"price": 1})
    assert caught.value.parameter == "price"


@pytest.mark.parametrize("data", [data_text(0).replace("param fee", "param fees"), data_text(0) + "param need := a x;"])
def test_place_of_an_error_next_to_decimals(data):
    """Positions of errors are those of the text."""
    with pytest.raises(netflow.ModelError) as caught:
        netflow.solve(MODEL, data)
    row = next(here for here, line in enumerate(data.split("\n"), 1) if "fees" in line or line.endswith("a x;"))
    assert caught.value.line == row
    assert data.split("\n")[row - 1][caught.value.column - 1 :].startswith(("fees", "x;", "a x;"))


# An error next to decimals elsewhere: the text that has it, a part of that text and what takes its place, the
# line and the hint.
NEXT = (
    ("data", "mill 25;", "mill 25", "E20 Syntax 5:11", "is a ; missing at the end of line 4?"),
    ("data", "van := 40;", "van := 40", "E20 Syntax 6:11", "is a ; missing at the end of line 5?"),
    ("data", "7    5    3;", "7  5;", "E21 RowWidth 8:", "line 8 has 3 cells, and 4 are expected"),
    (
        "data",
        "7    5    3;",
        "7  5,5  3;",
        "E21 RowWidth 8:",
        "line 8 has 5 cells, and 4 are expected: is a comma part of a number?",
    ),
    ("data", "north    4", "new north  4", "E21 RowWidth 8:", "line 7 has 5 cells, and 4 are expected"),
    (
        "data",
        "bakes := north 60",
        "bakes := Bad Ischl 60",
        "E37 Arity 3:",
        "in line 3 the cells from south on do not fit",
    ),
    ("data", "param van", "parm van", "E20 Syntax 5:1", "parm: is param meant?"),
    ("data", "lake mill :=", "lake mill", "E20 Syntax 8:", ""),
    ("data", "set SHOPS", "data; set SHOPS", "E20 Syntax 2:1", "allowed only as the first statement"),
    ("model", ">= 0, <= van,", ">= (0, <= van,", "E10 Syntax 12:", ""),
    ("model", "param van", "parm van", "E14 LeftOut 7:1", "parm: is param meant?"),
    ("model", "wants[s];", "wants[s]", "E10 Syntax 12:1", "is a ; missing at the end of line 11?"),
    ("model", "net_out <= bakes", "net_out <= baks", "E12 Undeclared 10:", "baks: is bakes meant?"),
)


def texts_with_decimals():
    return {
        "model": read(BREAD / "bread.mod").replace("cost[b,s];", "cost[b,s] + 1.5;"),
        "data": read(BREAD / "bread.dat").replace("hill 30", "hill 30.5"),
    }


def test_decimals_without_an_error():
    assert netflow.solve(*texts_with_decimals().values()).value == netflow.Exact("592.75")


@pytest.mark.parametrize("form", ["alone", "with an option", "first of two", "second of two"])
@pytest.mark.parametrize("text, right, wrong, place, hint", NEXT)
def test_error_next_to_decimals(text, right, wrong, place, hint, form):
    """Decimals hide no other error: neither in the data nor in the model, alone, with options, and with a second data
    text."""
    texts = texts_with_decimals()
    assert right in texts[text]
    texts[text] = texts[text].replace(right, wrong, 1)
    more = "param wants := hill 30.25;"
    data = {"first of two": [texts["data"], more], "second of two": [more, texts["data"]]}.get(form, texts["data"])
    with pytest.raises(netflow.ModelError) as caught:
        netflow.solve(texts["model"], data, **({"van": 40.5} if form == "with an option" else {}))
    problem = caught.value
    assert f"{problem.code} {problem.name} {problem.line}:{problem.column}".startswith(place)
    assert hint in str(problem) and "take decimals" not in str(problem)


@pytest.mark.parametrize(
    "kind, text, wanted",
    (
        (
            "model",
            "x1.5 1..5 1...5 'a 2.5' # 7.5\n.5 7.25e0 2.50e1 12.5e-1",
            "x1 1 1..5 1.. 1 'a 2.5' # 7.5\n 1 000008 2.50e1 0000002",
        ),
        ("data", "a1.5 -7.25 'x 1.5' 2e3 -.5 1.2.3 'open .5 ", "a1.5 -0008 'x 1.5' 2e3 -01 1.2.3 'open  1 "),
    ),
)
def test_whole_copy(kind, text, wanted):
    """The copy of a text in whole numbers has its length, and differs from it in decimals alone."""
    assert whole_copy(text, kind) == wanted
    assert len(wanted) == len(text)


GROUPED = "van is 1.200 in line 5: is 1200 meant? A point begins decimals"


@pytest.mark.parametrize(
    "right, wrong, values, lines",
    [
        ("van := 40", "van := 1.200", {}, [GROUPED]),
        ("van := 40", "van := 40.25", {}, []),
        ("van := 40", "van := 0.125", {}, []),
        ("van := 40", "van := 40", {"van": 40.125}, []),
        ("van := 40", "van := 40", {}, []),
    ],
)
def test_warning_of_grouped_digits(right, wrong, values, lines):
    """`solve` warns of 1.200 in a text and of no other decimal, with and without a plan; a number from Python is what
    it is."""
    model, data = read(BREAD / "bread.mod"), read(BREAD / "bread.dat")
    with warnings.catch_warnings(record=True) as caught:
        warnings.simplefilter("always")
        try:
            netflow.solve(model, data.replace(right, wrong), **values)
        except netflow.Infeasible:
            pass
    assert [str(warning.message) for warning in caught] == lines
    assert all(warning.filename == __file__ for warning in caught), "a warning does not name the line that calls solve"
