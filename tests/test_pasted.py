"""What is pasted from sheets, and what is accepted and often a mistake: each is named, and right data are not."""
import unicodedata

import pytest

from support import TOP, run, write

MODEL = """set FROM; set TO; param stock {FROM} >= 0; param need {TO} >= 0; param trunk {FROM, TO} >= 0;
param since {FROM} symbolic default 'x'; minimize Cost;
node A {i in FROM}: net_out <= stock[i];
node B {j in TO}: net_in = need[j];
arc Ship {i in FROM, j in TO} >= 0, <= 99, from A[i], to B[j], obj Cost trunk[i,j];"""
HEAD = """set FROM := Linz Graz;
set TO := Wien 'St. Pölten';
param stock := Linz 50 Graz 60;
param need := Wien 20 'St. Pölten' 30;
"""
TABLE = "param trunk: Wien 'St. Pölten' :=\nLinz 4 6\nGraz 5 7\n;\n"
DATA = HEAD + TABLE

# What is written for what, the code, and what the first hint says.
MISTAKES = [
    ("Linz 4 6\nGraz 5 7", "Linz;4;6\nGraz;5;7", "E21", "looks like CSV, with ; between its cells"),
    ("trunk: Wien 'St. Pölten' :=", "trunk: ;Wien;'St. Pölten'", "E20", "`netflow-sheet grid trunk FILE.csv`"),
    ("trunk: Wien", "trunk: Plant Wien", "E21", "is Plant the title of the corner?"),
    ("trunk: Wien 'St. Pölten' :=\nLinz 4", "trunk: Plant,Wien,'St. Pölten' :=\nLinz,4,", "E21", "is Plant the title"),
    ("'St. Pölten' :=\nLinz 4 6\nGraz 5 7", "'St. Pölten' Wien :=\nLinz 4 6 1\nGraz 5 7 2", "E31", "has Wien twice"),
    ("trunk: Wien", "trunk (EUR): Wien", "E20", "is (EUR) a unit? A heading has none: write it in a comment, # EUR"),
    ("trunk: Wien", "trunk: Wien (EUR)", "E20", "is (EUR) a unit?"),
    ("Linz 4 6", "Linz 1'080 6", "E01", "1'080: is 1080 meant? Digits are not grouped"),
    ("Linz 4 6\nGraz 5 7\n;", "Linz 4 6\nGraz 5 7\n;\nparam since := Linz 1/12/2026;", "E01", "is 1/12/2026 a date?"),
    ("Graz;", "Graz 1/12/2026;", "E01", "As a name it needs quotes: '1/12/2026'"),
    ("Wien 20 'St. Pölten'", unicodedata.normalize("NFD", "Wien 20 'St. Pölten'"), "E33", "composed differently"),
    ("set TO := Wien 'St. Pölten';", "set TO := 1..2;", "E33", "data have no ranges"),
]


@pytest.mark.parametrize("right, wrong, code, said", MISTAKES)
def test_mistake(tmp_path, right, wrong, code, said):
    assert right in DATA
    words = [write(tmp_path, "m.mod", MODEL), write(tmp_path, "m.dat", DATA.replace(right, wrong, 1))]
    status, _, told = run("netflow-plan", *words)
    assert status == 3 and told.startswith(code), told
    assert said in told.split("\n")[1], told


def test_right_data(tmp_path):
    """20 from Linz at 4 and 30 from it at 6 is 260: all from Linz, which has 50."""
    words = [write(tmp_path, "m.mod", MODEL), write(tmp_path, "m.dat", DATA)]
    assert run("netflow-plan", *words)[::2] == (0, "") and run("netflow-plan", *words)[1].startswith("Cost = 260\n")


def test_blank_in_a_name_is_no_corner(tmp_path):
    """Here the first two words are one name, and the old hint is right."""
    data = DATA.replace("'St. Pölten'", "'New York'").replace("trunk: Wien 'New York'", "trunk: Wien New York")
    told = run("netflow-plan", write(tmp_path, "m.mod", MODEL), write(tmp_path, "m.dat", data))[2]
    assert "corner" not in told and "'New York'" in told


@pytest.mark.parametrize(
    "cost, said",
    [
        ("(if Ship[i,j] > 0 then 100 else 0)", "a cost cannot depend on a flow, and Ship is an arc"),
        ("(if Stock[i] > 0 then 100 else 0)", "a cost cannot depend on a flow, and Stock is an arc"),
    ],
)
def test_cost_that_depends_on_a_flow(tmp_path, cost, said):
    """Also if the arc is declared below, or a parameter has a similar name."""
    model = MODEL.replace("trunk[i,j];", f"{cost};\narc Stock {{i in FROM}} >= 0, <= 5, from A[i];")
    told = run("netflow-plan", write(tmp_path, "m.mod", model), write(tmp_path, "m.dat", DATA))[2]
    assert told.startswith("E12 ") and said in told.split("\n")[1], told


def looks(tmp_path, model, data=""):
    """Returns the value, and what netflow-plan and netflow-why find worth a look."""
    words = [write(tmp_path, "m.mod", model), write(tmp_path, "m.dat", data)]
    status, out, told = run("netflow-plan", *words)
    assert status == 0, told
    lines = [line.replace("netflow-plan: ", "") for line in told.splitlines()]
    why = run("netflow-why", *words)[1]
    assert all(line in why for line in lines)
    return out.split("\n")[0], lines


def test_unused_parameter_with_data(tmp_path):
    model, data = MODEL.replace("minimize", "param truckcap default 0; minimize"), DATA + "param truckcap := 40;\n"
    assert looks(tmp_path, model, data)[1] == [
        "truckcap has data, and the model uses it nowhere: is a bound or a cost meant to be truckcap?"
    ]
    assert looks(tmp_path, model, DATA)[1] == []


def test_range_in_data(tmp_path):
    _, lines = looks(tmp_path, "set WEEKS;" + MODEL, DATA + "set WEEKS := 1..8;\n")
    assert lines == ["WEEKS has the text '1..8' as a member: data have no ranges: set WEEKS := 1..8; in the model?"]
    assert looks(tmp_path, "set WEEKS;" + MODEL, DATA + "set WEEKS := 1 2 3;\n")[1] == []


PATH = """set TASKS; set BEFORE within {TASKS, TASKS}; param days {BEFORE}; param first symbolic; param last symbolic;
maximize Days; node Event {t in TASKS}: net_in = (if t = last then 1 else 0) - (if t = first then 1 else 0);
arc Job {(i,j) in BEFORE} >= 0, <= 1, from Event[i], to Event[j], obj Days days[i,j];"""
TASKS = "set TASKS := A B C D E;\nparam first := A;\nparam last := D;\nparam: BEFORE: days :=\nA B 3\nB D 4\nA D 5\n"


def test_circle_in_a_longest_path(tmp_path):
    """The path has 7 days; a circle beside it adds its own days, and glpsol's value has them too."""
    value, lines = looks(tmp_path, PATH, TASKS + "C E 2\nE C 1;\n")
    assert value == "Days = 10"
    assert lines == [
        "flow goes in a circle: Job['C','E'], Job['E','C']; only their bounds limit it. A longest path needs data without"
        " a circle"
    ]
    value, lines = looks(tmp_path, PATH, TASKS + "C E 2;\n")
    assert (value, lines) == ("Days = 7", [])


PIPES = """set J; set PIPES within {J, J}; param most {PIPES}; param source symbolic; param sink symbolic; maximize Gas;
node Joint {j in J}; arc In >= 0, <= 99, to Joint[source]; arc Out >= 0, <= 99, from Joint[sink], obj Gas 1;
arc Flow {(i,j) in PIPES} >= 0, <= most[i,j], from Joint[i], to Joint[j];"""
JOINTS = "set J := Wien Linz Graz;\nparam: PIPES: most :=\nWien Linz 5\nLinz Graz 3;\n"


def test_source_and_sink_exchanged(tmp_path):
    value, lines = looks(tmp_path, PIPES, JOINTS + "param source := Graz;\nparam sink := Wien;\n")
    assert value == "Gas = 0" and lines == [
        "nothing can flow: no arc leads out of Joint['Graz'], and no arc leads into Joint['Wien']: are the two ends"
        " exchanged?"
    ]
    value, lines = looks(tmp_path, PIPES, JOINTS + "param source := Wien;\nparam sink := Graz;\n")
    assert (value, lines) == ("Gas = 3", [])


def test_no_path(tmp_path):
    data = JOINTS.replace("Linz Graz 3", "Graz Linz 3") + "param source := Wien;\nparam sink := Graz;\n"
    value, lines = looks(tmp_path, PIPES, data)
    assert value == "Gas = 0" and lines[0].startswith("nothing can flow: no arc leads out of Joint['Linz'], and no arc")


def test_examples_have_nothing_to_look_at(tmp_path):
    """The examples of the repository are right: no circle, no unused parameter, no missing path is named."""
    for folder in sorted((TOP / "examples").iterdir()):
        model, data = folder / f"{folder.name}.mod", folder / f"{folder.name}.dat"
        if model.exists() and not (folder / "objective").exists():
            told = run("netflow-plan", model, *([data] if data.exists() else []))[2]
            for said in ("circle", "nothing can flow", "uses it nowhere", "no ranges"):
                assert said not in told, (folder.name, told)
