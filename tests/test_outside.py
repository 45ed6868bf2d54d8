"""--ignore-outside: rows for keys outside a set are left out and counted, as if they had been deleted by hand."""
import random

import pytest

from support import run, write

MODEL = """set SHOPS; set LINKS within {SHOPS, 1..T};
param dem {SHOPS, 1..T} default 0; param cost {LINKS}; minimize C;
node Shop {s in SHOPS, t in 1..T}: net_in = dem[s,t];
arc Bring {(s,t) in LINKS} >= 0, <= 99, to Shop[s,t], obj C cost[s,t];"""
MODEL = "param T integer; " + MODEL


def data(weeks, horizon, form, dice, shops=("a", "b c", "d")):
    """Returns data with a horizon, whose rows are those of the given weeks."""
    values = {(s, t): dice.randint(1, 9) + (0.5 if s == "d" else 0) for s in shops for t in range(1, 9)}
    keys = [(s, t) for s, t in values if t in weeks]
    quoted = {s: f"'{s}'" if " " in s else s for s in shops}
    rows = [f"{quoted[s]} {t} {values[s, t]}" for s, t in keys]
    links = [f"({quoted[s]}, {t})" if form == "tuples" else f"{quoted[s]} {t}" for s, t in keys]
    costs = [f"{quoted[s]} {t} {10 * t + len(s)}" for s, t in keys]
    head = f"param T := {horizon};\nset SHOPS := {' '.join(quoted.values())};\n"
    if form == "columns":
        return head + "param: LINKS: cost :=\n" + "\n".join(costs) + "\n;\nparam dem :=\n" + "\n".join(rows) + "\n;\n"
    if form == "table":
        cells = [[str(values[s, t]) for t in weeks] for s in shops]
        table = "\n".join(f"{quoted[s]} {' '.join(row)}" for s, row in zip(shops, cells))
        dem = f"param dem: {' '.join(map(str, weeks))} :=\n{table}\n;\n"
    else:
        dem = "param dem :=\n" + "\n".join(rows) + "\n;\n"
    return head + f"set LINKS := {' '.join(links)};\nparam cost :=\n" + "\n".join(costs) + f"\n;\n{dem}"


@pytest.mark.parametrize("form", ["tuples", "pairs", "columns", "table"])
@pytest.mark.parametrize("horizon", [3, 6])
def test_answer_is_that_of_the_shorter_data(tmp_path, horizon, form):
    model = write(tmp_path, "m.mod", MODEL)
    whole = write(tmp_path, "whole.dat", data(range(1, 9), horizon, form, random.Random(form)))
    short = write(tmp_path, "short.dat", data(range(1, horizon + 1), horizon, form, random.Random(form)))
    assert run("netflow-plan", model, whole)[0] == 3
    found, cut = run("netflow-plan", model, whole, "--ignore-outside"), run("netflow-plan", model, short)
    assert (found[0], found[1]) == (0, cut[1])
    gone = 3 * (8 - horizon)
    for name, what in (("LINKS", "members"), ("dem", "rows"), ("cost", "rows")):
        assert f"{gone} {what} of {name} are left out, such as {name}['a',{horizon + 1}]: " in found[2]


def test_scenarios_of_the_horizon(tmp_path):
    """The commonest what-if: each horizon gives the value of data of that length."""
    model = write(tmp_path, "m.mod", MODEL)
    whole = write(tmp_path, "whole.dat", data(range(1, 9), 8, "pairs", random.Random(1)))
    status, out, told = run("netflow-sheet", "scenarios", model, whole, "--vary", "T=6,7,8", "--ignore-outside")
    rows = [line.split(",") for line in out.splitlines()[2:]]
    assert status == 0 and [row[:2] for row in rows] == [["T=6", "optimal"], ["T=7", "optimal"], ["T=8", "optimal"]]
    for horizon, row in zip((6, 7, 8), rows):
        short = write(tmp_path, "s.dat", data(range(1, horizon + 1), horizon, "pairs", random.Random(1)))
        assert run("netflow-plan", model, short)[1].startswith(f"C = {row[2]}\n")
    assert "netflow-sheet: 6 rows of dem are left out" in told and "netflow-sheet: 3 rows of dem are left out" in told
    assert ",error," in run("netflow-sheet", "scenarios", model, whole, "--vary", "T=6,7,8")[1]


def test_misspelt_keys_are_counted_too(tmp_path):
    """What is left out is named, so that a typing error is seen; without the option it is an error."""
    model = write(tmp_path, "m.mod", MODEL)
    text = data(range(1, 3), 2, "pairs", random.Random(2)).replace("param dem :=\n", "param dem :=\nWein 1 5\n")
    status, _, told = run("netflow-plan", model, write(tmp_path, "d.dat", text), "--ignore-outside")
    assert status == 0 and "1 row of dem is left out, such as dem['Wein',1]: SHOPS has no Wein" in told


def test_nothing_to_leave_out(tmp_path):
    model = write(tmp_path, "m.mod", MODEL)
    path = write(tmp_path, "d.dat", data(range(1, 3), 2, "tuples", random.Random(3)).replace(".5", ""))
    assert run("netflow-plan", model, path, "--ignore-outside") == run("netflow-plan", model, path)
