"""netflow-plan: the plan, the reasons, or the hint, whatever the model and its data are like."""
import json

import pytest

from support import BREAD, TOP, run, write

FILES = [BREAD / "bread.mod", BREAD / "bread.dat"]
# As the book's data write a default, without :=, and with decimals.
DECIMALS = """set SHOPS; param need {SHOPS}; param cost {SHOPS}; minimize Cost;
node Shop {s in SHOPS}: net_in = need[s];
arc Drive {s in SHOPS} >= 0, <= 40, to Shop[s], obj Cost cost[s];"""


def test_plan_is_that_of_the_program():
    assert run("netflow-plan", *FILES) == (0, run("netflow", "solve", *FILES)[1], "")


def test_plan_of_decimals(tmp_path):
    """The command takes decimals, several data files, changes and missing bounds, and writes exact decimals."""
    model = write(tmp_path, "d.mod", DECIMALS.replace(" <= 40,", ""))
    data = write(
        tmp_path, "d.dat", "set SHOPS := Wien Linz;\nparam need := Wien 2.5 Linz 4;\nparam cost := Wien 1.2 Linz 3;\n"
    )
    more = write(tmp_path, "more.dat", "param cost := Linz 0.5;\n")
    status, out, told = run("netflow-plan", model, data, more, "--bounds")
    assert (status, out) == (0, "Cost = 5\nDrive :=\n'Wien' 2.5\n'Linz' 4\n;\n")
    assert "flows are multiples of 0.1, since need has decimals" in told
    status, _, told = run("netflow-plan", model, data)
    assert status == 3 and "--bounds" in told.split("\n")[1], told


def test_used_arcs_alone():
    status, out, _ = run("netflow-plan", *FILES, "--used")
    assert status == 0 and out.count("\n") == 7 and "'hill' 30\n" in out and " 0\n" not in out


def test_reasons_without_a_plan():
    """The same text as netflow-why, and the status of the program."""
    words = [*FILES, BREAD / "busy.dat"]
    assert run("netflow-plan", *words) == run("netflow-why", *words)
    assert run("netflow-plan", *words)[0] == 2


@pytest.mark.parametrize("words", [[], [BREAD / "busy.dat"], ["--set", "van=x"]])
def test_json(words):
    status, out, _ = run("netflow-plan", *FILES, *words, "--json")
    found = json.loads(out)
    assert (status, found["status"]) in ((0, "optimal"), (2, "infeasible"), (3, "error"))


def test_worth_a_look_is_on_standard_error(tmp_path):
    data = write(
        tmp_path, "b.dat", (BREAD / "bread.dat").read_text(encoding="utf-8").replace("van := 40", "van := 1.200")
    )
    status, _, told = run("netflow-plan", BREAD / "bread.mod", data)
    assert "netflow-plan: van is 1.200 in line 5: is 1200 meant?" in told and status == 2


def test_model_with_variables(tmp_path):
    """The error of the program, and the tool that converts the model."""
    model = write(tmp_path, "old one.mod", "var x >= 0, <= 4;\nminimize C: x;\nsubject to A: x >= 1;\n")
    status, out, told = run("netflow-plan", model)
    assert (status, out) == (3, "") and told.startswith("E14 LeftOut model 1:1 var\n")
    assert f"netflow-convert '{model}' --output FOLDER" in told
    assert f"netflow-plan '{model}' --convert FOLDER" in told
    # A parameter of this name is no variable.
    named = write(tmp_path, "named.mod", "param var := 3;\nminimize C;\nnode ;\n")
    assert "netflow-convert" not in run("netflow-plan", named)[2]


def test_files_of_the_converter_are_solved(tmp_path, monkeypatch, capsys):
    """What the converter prints are the paths of its files, the model first; its status ends the command."""
    import sys
    import types

    from netflow.tools import plan

    def main(words):
        assert words == ["old.mod", "old.dat", "--output", "new"]
        print(*FILES, sep="\n")
        return 0

    monkeypatch.setitem(sys.modules, "netflow.tools.convert", types.SimpleNamespace(main=main))
    assert plan.main(["old.mod", "old.dat", "--convert", "new"]) == 0
    assert capsys.readouterr().out == run("netflow", "solve", *FILES)[1]
    monkeypatch.setitem(sys.modules, "netflow.tools.convert", types.SimpleNamespace(main=lambda _: 3))
    assert plan.main(["old.mod", "--convert", "new"]) == 3


def test_examples_of_the_repository():
    """Each example with a model gives the program's answer."""
    for folder in sorted((TOP / "examples").iterdir()):
        model, data = folder / f"{folder.name}.mod", folder / f"{folder.name}.dat"
        if model.exists() and (folder / "solve.txt").exists():
            words = [model, data if data.exists() else "/dev/null"]
            objective = folder / "objective"
            words += ["--objective", objective.read_text().strip()] if objective.exists() else []
            plain, planned = run("netflow", "solve", *words), run("netflow-plan", *words)
            assert planned[0] == plain[0], folder.name
            assert plain[0] != 0 or planned[1] == plain[1], folder.name
