"""What netflow-explain says of rejected inputs, and what all tools pass on."""
import json
import pathlib
import re
import shlex
import subprocess
import sys

import pytest

from cases import bread_mistakes, habit_mistakes, mistakes, planner_mistakes, port_mistakes
from lib.examples import rows
from netflow.hints import diagnostic as diagnostics
from netflow.hints import explanation
from support import BREAD, TOOL_NAMES, TOOLS, TOP, run, write


def test_catalogue():
    """Each code has a section with a first paragraph and a fix, by rising number."""
    page = (TOP / "docs" / "reference" / "errors.md").read_text(encoding="utf-8")
    numbers = re.findall(r"(?m)^## (E\d\d) ", page)
    assert numbers == sorted(set(numbers)), "the order of docs/reference/errors.md"
    for number in numbers:
        assert all(diagnostics.catalogue(number)), f"docs/reference/errors.md: {number} has no sentence or no 'Fix:'"
    named = set(
        re.findall(
            r"(?m)\bE\d\d\b",
            page
            + "".join(
                (TOP / "docs" / "reference" / name).read_text(encoding="utf-8")
                for name in ("language.md", "command-line.md")
            ),
        )
    )
    assert named - set(numbers) == set(), "numbers without a section"


def rejected_rows():
    """Yields every fourth row of the examples about errors."""
    names = ("tokens", "grammar", "names", "data", "binding")
    found = [row for name in names for row in rows.rows_of(TOP / "examples" / "rows" / f"{name}.txt")]
    return [pytest.param(row, id=row.place) for row in found[::4]]


def test_many_rows_are_rejected():
    assert sum(re.match(r"E\d\d ", row.values[0].text("=")) is not None for row in rejected_rows()) > 50


@pytest.mark.parametrize("row", rejected_rows())
def test_mark(tmp_path, row):
    """Rejected inputs of examples and rows: the mark is under the byte of the error's column."""
    words = [write(tmp_path, "r.mod", row.text(">")), write(tmp_path, "r.dat", row.text("|"))]
    status, _, line = run("netflow", "compile", *words)
    if status != 3:
        return
    paths = list(map(str, words))
    found = diagnostics.Diagnostic(line.rstrip("\n"), "compile", paths, paths)
    mark = next((line for line in explanation.lines_of(found) if line.strip() == "^"), None)
    assert mark is not None or not found.shown.strip(), "no mark"
    if mark and found.shown.isascii() and found.column <= 60:
        assert mark.index("^") == found.column + 3
    found.hints()


@pytest.mark.parametrize("mistake", mistakes.MISTAKES, ids=lambda mistake: mistake.name)
def test_mistake(tmp_path, mistake):
    """Usual mistakes: the error and the hint; the line and the status are the program's."""
    model, data = mistake.texts()
    words = ["solve", write(tmp_path, "x.mod", model), write(tmp_path, "x.dat", data)]
    plain, explained = run("netflow", *words), run("netflow-explain", *words)
    assert explained[:2] == plain[:2]
    assert explained[2].startswith(plain[2]), "the line is not passed on"
    assert plain[2].startswith(mistake.fault)
    assert mistake.guess in " ".join(explained[2].split())


def test_missing_file():
    status, out, told = run("netflow-explain", "solve", "/nowhere/x", "/dev/null")
    assert (status, out) == (4, "") and "No such file" in told


def mistakes_of_planners():
    """Yields texts, a mistake in them, the code and what has to be named, and what must not be said."""
    cases = [(bread_mistakes.TEXTS, *case, None) for case in bread_mistakes.MISTAKES]
    cases += [(port_mistakes.TEXTS, *case) for case in port_mistakes.MISTAKES]
    cases += [*planner_mistakes.MISTAKES, *habit_mistakes.MISTAKES]
    return [pytest.param(whole, *case, id=name) for whole, name, *case in cases]


@pytest.mark.parametrize("whole, text, right, wrong, code, named, absent", mistakes_of_planners())
def test_mistake_of_planner(tmp_path, whole, text, right, wrong, code, named, absent):
    """Mistakes of a planner's first hours: the explanation names the mistake, and gives no advice that is wrong
    there."""
    texts = dict(whole)
    assert not right or right in texts[text]
    texts[text] = texts[text].replace(right, wrong, 1) if right else wrong
    paths = {kind: write_raw(tmp_path, f"bread.{kind[:3]}", content) for kind, content in texts.items()}
    # Without a command decimals are scaled.
    status, _, told = run("netflow-explain", *["solve"] * (code == "E04"), paths["model"], paths["data"])
    assert status == 3 and told.startswith(code)
    # What is said of this mistake, without the sentence on the code; the hints are one after the other.
    advice = re.sub(r"(?s)\n  E\d\d: .*?(?=\n  To fix|\nMore errors|\Z)", "", told)
    hints = " ".join(re.findall(r"Hint: .*", advice))
    assert named in hints or named in " ".join(told.split())
    assert absent is None or absent not in " ".join(advice.split("\n", 1)[1].split()).replace(named, "")


def test_later_errors(tmp_path):
    """The errors of a data file besides the first are listed, each at its place, and as JSON."""
    bread = TOP / "examples" / "bread"
    model, data = bread / "bread.mod", (bread / "bread.dat").read_text(encoding="utf-8")
    for right, wrong in (
        ("hill 30", "hil 30"),
        ("lake 45", "lake 4O"),
        ("mill 25", "mill 25, mil 9"),
        ("south    7", "soth    7"),
    ):
        assert right in data, f"further errors: {right!r} is not in the data"
        data = data.replace(right, wrong)
    words = [model, write(tmp_path, "further.dat", data)]
    lines = run("netflow-explain", *words)[2].split("\n")
    start = next((here for here, line in enumerate(lines) if line.endswith("in the data:")), len(lines))
    assert lines[start : start + 1] and not any("hil:" in line for line in lines[start:]), f"further errors: {lines}"
    said = " ".join(lines[start:])
    for part in (
        "E36 KindMismatch",
        "4O: is 40 meant?",
        "E33 OutsideSet wants['mil']: mil: is mill meant?",
        "E33 OutsideSet cost['soth','hill']",
    ):
        assert part in said, f"further errors: no {part!r} in {said!r}"
    found = json.loads(run("netflow-explain", "solve", *words, "--json")[1])
    more = found.get("more", [])
    assert (len(more), {error["code"] for error in more}) == (
        len(lines) - start - 2,
        {"E33", "E36"},
    ), "further errors as JSON"
    alone = run(
        "netflow-explain",
        model,
        write(tmp_path, "alone.dat", data.replace("4O", "40").replace(", mil 9", "").replace("soth", "south")),
    )[2]
    assert "is hill meant?" in alone and "in the data:" not in alone, f"one error: {alone!r}"


def write_raw(folder, name, content):
    """Writes a text, or bytes."""
    path = pathlib.Path(folder) / name
    path.write_bytes(content if isinstance(content, bytes) else content.encode("utf-8"))
    return path


def test_rewritten(tmp_path):
    """netflow-explain takes several data files and the options of all tools; what it prints of a plan has the decimals
    of the model."""
    bread = TOP / "examples" / "bread"
    files = [bread / "bread.mod", bread / "bread.dat"]
    plan = run("netflow", "solve", *files)[1]
    assert run("netflow-explain", *files, "--set", "van=40") == (0, plan, ""), "explain --set: the plan"
    status, out, told = run("netflow-explain", *files, bread / "busy.dat")
    assert (status, out, told) == (2, "infeasible\nunder -85 -80\nnode Shop['lake']\n", ""), "explain: two data files"
    assert run("netflow-explain", "solve", *files, "--set", "cost[north,hill]=4.15", "--set", "wants[mill]=24.5") == (
        0,
        (
            "Total = 442.5\nDrive :=\n'north' 'hill' 30\n'north' 'lake' 19.5\n'north' 'mill' 0\n"
            "'south' 'hill' 0\n'south' 'lake' 25.5\n'south' 'mill' 24.5\n;\n"
        ),
        "",
    ), "explain: decimals"
    assert run("netflow-explain", *files, "--bounds")[0] == 0, "explain --bounds"
    assert (
        run("netflow-explain", "compile", *files, "--set", "van=40")[1].count("\na ") == 8
    ), "explain compile --set: no problem"
    for words, said in (
        (["--set", "van=x"], "E36 KindMismatch data\nin --set van=x\n--set van=x: Hint: 'x' is a text"),
        (["--set", "wants[hil]=3"], "Hint: hil: is hill meant?"),
        (["--set", "fan=3"], "fan: the model declares no such set or parameter"),
    ):
        status, out, told = run("netflow-explain", *files, *words)
        assert (
            (status, out) == (3, "") and said in told and "^" not in told
        ), f"explain {words}: no {said!r} in {told!r}"
    decimals = write(
        tmp_path, "decimals.dat", (bread / "bread.dat").read_text(encoding="utf-8").replace("hill 30", "hill 30.5")
    )
    assert (lambda answer: (answer[0], answer[1].split("Drive")[0]))(
        run("netflow-explain", bread / "bread.mod", decimals)
    ) == (
        0,
        "Total = 442\n",
    ), "explain: decimals of a file"
    assert (lambda answer: (answer[0], answer[2].split("\n")[0]))(
        run("netflow-explain", "solve", bread / "bread.mod", decimals)
    ) == (3, "E04 NotWhole data 4:21"), "explain solve: decimals of a file"
    missing = write(tmp_path, "missing.dat", decimals.read_text(encoding="utf-8").replace("van := 40;", "van := 40"))
    for words in (["netflow-why"], ["netflow-sheet", "plan"], ["netflow-explain"]):
        told = run(*words, bread / "bread.mod", missing)[2]
        assert told.startswith("E20 Syntax data 6:11\n"), f"{words}: a ; missing next to decimals: {told!r}"
    wrong = write(tmp_path, "wrong.dat", "# two lines\nparam wants := lake 5\n")
    status, out, told = run("netflow-explain", *files, wrong)
    assert (status, out) == (3, "") and told.startswith("E20 Syntax data 2:22\n")
    assert f"\n{wrong}:2:22: " in told and "is a ; missing at the end of line 2?" in told


@pytest.mark.parametrize("words", [["netflow-why"], ["netflow-report"], ["netflow-sheet", "plan"], ["netflow-plan"]])
def test_rejected_input(tmp_path, words):
    """Each tool prints the program's error, with its status, and then the place and the hint."""
    wrong = write(tmp_path, "w.mod", "node ;\n")
    status, out, told = run(*words, wrong, "/dev/null")
    assert (status, out) == (3, "") and told.startswith(f"E10 Syntax model 1:6\n{wrong}:1:6: ")
    assert "    node ;\n         ^\n" in told and "netflow-explain" not in told
    status, out, told = run(*words, "/nowhere/x", "/dev/null")
    assert (status, out) == (4, "")
    assert told.startswith("E90 ReadFault model: /nowhere/x: No such file or directory\n/nowhere/x: Hint: ")
    assert run(*words)[0] == 64, "no words"
    assert run(*words, "--help")[0] == 0, "help"
    status, _, told = run(*words, "/dev/stdin", "/dev/null", text="node ;\n")
    assert status == 3 and told.startswith("E10 Syntax model 1:6\n/dev/stdin:1:6: "), "a pipe"


@pytest.mark.parametrize("words", [["netflow-why"], ["netflow-report"], ["netflow-sheet", "plan"], ["netflow-plan"]])
def test_rejected_change_and_second_file(tmp_path, words):
    """The place is the option, or the line of the file among several; the hint comes with it."""
    files = [BREAD / "bread.mod", BREAD / "bread.dat"]
    status, out, told = run(*words, *files, "--set", "van=x")
    assert (status, out) == (3, "")
    assert told.startswith(
        "E36 KindMismatch data\nin --set van=x\n--set van=x: Hint: 'x' is a text, and van is a number"
    )
    more = write(tmp_path, "more.dat", "# two lines\nparam wants := hil 3;\n")
    status, out, told = run(*words, *files, more)
    assert (status, out) == (3, "")
    assert told.startswith(
        f"E33 OutsideSet data 2:16 wants['hil']\nin {more}:2:16\n{more}:2:16: Hint: hil: is hill meant?"
    )


def test_hint_comes_before_the_general_sentence(tmp_path):
    """For a missing ; the hint is the first thing that is said."""
    data = write(tmp_path, "b.dat", (BREAD / "bread.dat").read_text(encoding="utf-8").replace("mill 25;", "mill 25"))
    lines = run("netflow-why", BREAD / "bread.mod", data)[2].split("\n")
    assert lines[1] == f"{data}:5:11: Hint: is a ; missing at the end of line 4?"
    assert lines[4].startswith("  E20: The first token that is not allowed in a data file")


def test_explain_reads_pipes():
    assert run("netflow-explain", "solve", "/dev/stdin", "/dev/null", text="node ;\n")[0] == 3, "explain: a pipe"
    for words in (["-"], ["/dev/stdin", "/dev/null"], ["solve", "-", "/dev/null"]):
        place = "-" if "-" in words else "/dev/stdin"
        told = run("netflow-explain", *words, text="node ;\n")[2]
        assert f"\n{place}:1:6: " in told, f"explain {words}: a pipe has another name in {told!r}"
    assert run("netflow-explain")[0] == 64, "explain: no words"


def test_compared(tmp_path):
    """A numeral in quotes that is compared is named if no data text has it, and is no error."""
    model = (
        "set S; minimize C; node A {i in S}: net_in = 1; arc X {i in S: i <> '1'} >= 0, <= 9, to A[i], obj C 1; arc Y"
        " {i in S} >= 0, <= 9, to A[i], obj C 2;\n"
    )
    path = write(tmp_path, "q.mod", model)
    for data, is_odd in (("set S := 1 2;\n", True), ("set S := '1' 2;\n", False)):
        words = [path, write(tmp_path, "q.dat", data)]
        for name in ("netflow-why", "netflow-report"):
            status, out, _ = run(name, *words)
            assert (status, "is a text, which equals no number: is 1 meant?" in out) == (
                0,
                is_odd,
            ), f"{name}: '1' with {data!r}"


def test_file_as_standard_input():
    words = [sys.executable, str(TOOLS / "netflow-why")]
    with open(BREAD / "bread.mod", encoding="utf-8") as model:
        done = subprocess.run([*words, "-", BREAD / "bread.dat"], stdin=model, capture_output=True, encoding="utf-8")
    assert done.returncode == 0 and "Total = 440" in done.stdout


@pytest.mark.parametrize(
    "end, status, has_message", [(">/dev/full", 4, True), (">&-", 4, True), ("| head -n 1", 0, False)]
)
@pytest.mark.parametrize("name", TOOL_NAMES)
def test_standard_output(tmp_path, name, end, status, has_message):
    """Standard output that is full, closed, or a pipe without a reader."""
    kind = ["plan"] if name == "netflow-sheet" else []
    files = [str(BREAD / "bread.mod"), str(BREAD / "bread.dat")]
    if name == "netflow-convert":
        old = write(tmp_path, "old.mod", "minimize C: 2 * X; var X >= 0, <= 5; subject to B: X = 3;")
        files = [str(old), "--output", str(tmp_path / "new")]
    words = [sys.executable, str(TOOLS / name), *kind, *files]
    call = f"{' '.join(map(shlex.quote, words))} {end}"
    done = subprocess.run(
        ["sh", "-c", call],
        stdin=subprocess.DEVNULL,
        stdout=subprocess.DEVNULL,
        stderr=subprocess.PIPE,
        encoding="utf-8",
    )
    assert (done.returncode, bool(done.stderr), "Traceback" in done.stderr) == (status, has_message, False)
