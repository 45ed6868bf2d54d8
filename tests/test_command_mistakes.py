"""Mistakes in calls of the helper tools, in sheets, in what-if cases and in models to convert: each is named, with what
was probably meant. Inputs that are right get no such line."""
import subprocess
import sys

import pytest

from support import BREAD, TOOLS, run, write

WORDS = (BREAD / "bread.mod", BREAD / "bread.dat")
BUSY = BREAD / "busy.dat"


def sheet(folder, cells, *words, name="s.csv"):
    """Writes a sheet and returns the answer of netflow-sheet, with `SHEET` as its path."""
    path = write(folder, name, cells)
    return run("netflow-sheet", *[path if word == "SHEET" else word for word in words])


# Sheets

SHOPS = "shop,wants\nhill,30\nlake,45\nmill,25\n"
TOTAL = (
    (
        ["list", "SHEET", "--set", "SHOPS"],
        SHOPS + "Total,100\n",
        "A5: 'Total' becomes a member of SHOPS, with 100, the",
    ),
    (["list", "SHEET"], SHOPS + "Summe:,99\n", "A5: 'Summe:' becomes a key: leave it out if it is a total"),
    (["set", "S", "SHEET"], "hill\nlake\nGrand Total\n", "A3: 'Grand Total' becomes a member of S: leave it out"),
    (["grid", "c", "SHEET"], ",a,b,Gesamt\nx,1,2,3\ny,4,5,9\n", "D1: 'Gesamt' becomes a key of c, with 3, the sum"),
    (["grid", "c", "SHEET"], ",a\nx,1\ny,4\nsum,5\n", "A4: 'sum' becomes a key of c, with 5, the sum"),
)


@pytest.mark.parametrize("words, cells, line", TOTAL)
def test_row_of_totals(tmp_path, words, cells, line):
    status, out, errors = sheet(tmp_path, cells, *words)
    assert status == 0 and line in errors and len(out.splitlines()) > 3


def test_no_row_of_totals(tmp_path):
    """A value can be the sum of others, and a name can begin as a total does."""
    cells = "shop,wants\nhill,30\nlake,45\nTotalis,75\n"
    assert sheet(tmp_path, cells, "list", "SHEET", "--set", "SHOPS")[::2] == (0, "")


def test_forgotten_keys(tmp_path):
    costs = "bakery,shop,cost\nnorth,hill,4\nnorth,lake,6\nsouth,hill,7\n"
    status, out, errors = sheet(tmp_path, costs, "list", "SHEET")
    assert (status, out) == (3, "")
    assert "s.csv:A3: 'north' has the key of row 2: is shop a part of the key? Use --keys 2" in errors
    assert sheet(tmp_path, costs, "list", "SHEET", "--keys", "2")[::2] == (0, "")


def test_keys_that_occur_twice(tmp_path):
    """Values of one key can be in several rows, each once."""
    periods = "shop,week,day,wants\na,1,1,4\na,1,2,5\na,2,1,6\n"
    assert "are week and day a part of the key? Use --keys 3" in sheet(tmp_path, periods, "list", "SHEET")[2]
    again = "shop,wants\na,4\nb,5\na,4\n"
    assert (
        "A4: 'a' has the key of row 2, and each key has one row: remove" in sheet(tmp_path, again, "list", "SHEET")[2]
    )
    assert (
        "A3: '4' is a second row of values after row 2"
        in sheet(tmp_path, "v\n3\n4\n", "list", "SHEET", "--keys", "0")[2]
    )
    apart = "shop,wants,room\na,4,\nb,5,6\na,,7\n"
    assert sheet(tmp_path, apart, "list", "SHEET")[::2] == (0, "")


def test_workbook_of_an_old_form(tmp_path):
    path = tmp_path / "costs.xls"
    path.write_bytes(b"\xd0\xcf\x11\xe0\xa1\xb1\x1a\xe1" + bytes(504))
    status, out, errors = run("netflow-sheet", "grid", "cost", path)
    assert (status, out) == (3, "") and "costs.xls: a workbook of an old form (.xls): save it as .xlsx" in errors


def test_decimal_comma_between_commas(tmp_path):
    prices = "shop,price\nhill,4,5\nlake,6,25\n"
    status, out, errors = sheet(tmp_path, prices, "list", "SHEET", "--comma")
    assert (status, out) == (3, "") and "C2: '5' is to the right of the heading: is 4,5 one number? " in errors
    for cells in ("shop;price\nhill;4;5\n", "shop,price\nhill,4,x\n", "shop,wants,price\nhill,3,4,5\n"):
        errors = sheet(tmp_path, cells, "list", "SHEET")[2]
        assert "is to the right of the heading" in errors and "one number" not in errors


def test_output_onto_the_sheet(tmp_path):
    """The shell empties the file before the tool reads it."""
    path = write(tmp_path, "shops.csv", "")
    with path.open("w") as out:
        call = [sys.executable, str(TOOLS / "netflow-sheet"), "list", str(path)]
        done = subprocess.run(call, stdout=out, stderr=subprocess.PIPE, encoding="utf-8")
    assert done.returncode == 3 and "shops.csv: the sheet is empty, as the output goes to the same file" in done.stderr
    assert run("netflow-sheet", "list", path)[2].endswith("shops.csv: the sheet is empty\n")


SECTIONS = (
    ("[list shops]\nfile = s.csv\nset = SHOPS\n", "[list shops]: file: is sheet meant?"),
    ("[lists shops]\nsheet = s.csv\n", "[lists shops]: lists: is list meant?"),
    ("[list shops]\nkeys = 1\n", "[list shops]: the entry sheet is missing"),
    ("[grid]\nsheet = s.csv\n", "[grid]: expected [set NAME]"),
)


@pytest.mark.parametrize("text, line", SECTIONS)
def test_section_of_a_configuration(tmp_path, text, line):
    write(tmp_path, "s.csv", SHOPS)
    status, out, errors = run("netflow-sheet", "data", write(tmp_path, "bread.ini", text))
    assert (status, out) == (3, "") and line in errors


# Calls


@pytest.mark.parametrize("tool", ["netflow-plan", "netflow-why", "netflow-report", "netflow-explain"])
def test_data_files_in_the_wrong_order(tool):
    line = "busy.dat has no effect: bread.dat gives all its values again, and later data override earlier ones"
    status, out, errors = run(tool, BREAD / "bread.mod", BUSY, BREAD / "bread.dat")
    assert status == 0 and line in out + errors


def test_data_files_in_a_useful_order(tmp_path):
    """Later data change earlier ones, add to them, or are another version of them as a whole."""
    other = write(tmp_path, "other.dat", BUSY.read_text(encoding="utf-8").replace("90", "95"))
    for files in ([WORDS[1], BUSY], [WORDS[1], BUSY, other], [BUSY, other], [write(tmp_path, "e.dat", "")]):
        assert "has no effect" not in "".join(run("netflow-plan", BREAD / "bread.mod", *files)[1:])
    more = write(tmp_path, "more.dat", WORDS[1].read_text(encoding="utf-8").replace("van := 40", "van := 30"))
    base = write(tmp_path, "base.dat", WORDS[1].read_text(encoding="utf-8").replace("param van := 40;", ""))
    assert run("netflow-sheet", "diff", WORDS[0], base, "--with", more, "--set", "van=40")[2] == ""


CHANGES = (
    ("bakes=50", "bakes=50: bakes {BAKERIES} needs a key, as in bakes[north]=50"),
    (
        "cost[north]=5",
        "cost[north]=5: the key has 1 part, and cost {BAKERIES, SHOPS} needs 2, as in cost[north,hill]=5",
    ),
    ("van[north]=4.5", "van[north]=4.5: van has one value and no key: is van=4.5 meant?"),
    (
        "lake=50",
        "lake: the model declares no such set or parameter, and the data have lake as a member: is wants[lake]=50",
    ),
    ("SHOPS=hill", "SHOPS=hill: SHOPS is a set, and an option changes one value: give the set in a data file"),
    ("SHOPS[hill]=3", "SHOPS[hill]=3: SHOPS is a set, and an option changes one value"),
)
PYTHON_WORDS = ("Fraction", "dict", "tuple", "pandas", "['", "()", "None")


@pytest.mark.parametrize("change, line", CHANGES)
def test_change_that_fits_no_declaration(change, line):
    """The words are those of a command, not of Python."""
    status, out, errors = run("netflow-plan", *WORDS, "--set", change)
    assert (status, out) == (3, "") and errors.startswith(f"netflow-plan: {line}")
    status, out, errors = run("netflow-sheet", "scenarios", *WORDS, "--case", change)
    assert (status, errors) == (3, "") and line in out
    assert not [word for word in PYTHON_WORDS if word in out.replace(change, "")]


def test_decimal_comma_of_a_case():
    """`4,15` is two cases; a list that can be no decimal gets no line."""
    status, out, errors = run("netflow-sheet", "scenarios", *WORDS, "--vary", "cost[north,hill]=4,15")
    assert status == 0 and "cost[north,hill]=4,15 is two cases, 4 and 15: if one number is meant, write 4.15" in errors
    assert len(out.splitlines()) == 4
    for values in ("van=20,25", "cost[north,hill]=4,5,6", "wants[hill]=100,200", "cost[north,hill]=4.1,4.2"):
        assert run("netflow-sheet", "scenarios", *WORDS, "--vary", values)[2] == ""


def test_meaning_of_a_code():
    status, out, errors = run("netflow-explain", "E36")
    assert (status, errors) == (0, "") and out.startswith("  E36: ") and "To fix: " in out
    status, out, errors = run("netflow-explain", "E99")
    assert (status, out) == (64, "") and "E99 is no code of an error" in errors


@pytest.mark.parametrize("van, what", [("25.5", "a plan"), ("2", "an answer")])
def test_output_in_place_of_a_model_or_data(tmp_path, van, what):
    path = write(tmp_path, "plan.txt", run("netflow-plan", *WORDS, "--set", f"van={van}")[1])
    for words, kind in (([path], "a model"), ([BREAD / "bread.mod", path], "data")):
        line = f"plan.txt is {what} that netflow printed, not {kind}: give the files of the question, MODEL DATA"
        assert line in run("netflow-why", *words)[2]


# Models to convert

OLD = """set M; set F;
param cost {M, F};
var Ship {M, F} >= 0;
var Open {M} binary;
minimize Total: sum {m in M, f in F} cost[m,f] * Ship[m,f];
subject to Out {m in M}: sum {f in F} Ship[m,f] <= 30;
subject to Meet {f in F}: sum {m in M} Ship[m,f] = 9;
"""
SIDE = (
    ("Tie {m in M, f in F}: Ship[m,f] <= 100 * Open[m]", "Tie ties Ship to a multiple of the choice Open, as a fixed"),
    (
        "Share {f in F}: Ship['G',f] >= 0.3 * sum {m in M} Ship[m,f]",
        "Share ties arcs of Ship by a ratio: this is a side",
    ),
    ("Loss {f in F}: Ship['G',f] = 0.9 * Open[f]", "Loss ties Ship to a multiple of the choice Open"),
)


@pytest.mark.parametrize("constraint, line", SIDE)
def test_side_constraint(tmp_path, constraint, line):
    model = write(tmp_path, "old.mod", f"{OLD}subject to {constraint};\n")
    status, out, errors = run("netflow-convert", model, "--output", tmp_path / "new")
    assert (status, out) == (3, "") and "old.mod:8:" in errors and line in errors


def test_losses_are_no_ratio(tmp_path):
    model = write(
        tmp_path,
        "o.mod",
        "set N;\nvar x {N,N} >= 0;\nminimize C: sum {i in N, j in N} x[i,j];\nsubject to B"
        " {i in N}: sum {j in N} x[i,j] = 0.9 * sum {j in N} x[j,i];\n",
    )
    assert (
        "the coefficient has to be 1 or -1, as an arc has no gains or losses"
        in run("netflow-convert", model, "--output", tmp_path / "new")[2]
    )


def test_nothing_to_convert(tmp_path):
    line = "netflow-convert: bread.mod has nodes and arcs, and nothing to convert: netflow-plan "
    status, _, errors = run("netflow-convert", *WORDS, "--output", tmp_path / "new")
    assert status == 0 and errors.startswith(line)
    text = WORDS[0].read_text(encoding="utf-8")
    for old in (text + "solve;\n", text.replace("minimize Total;", "check: van > 0 && van < 99;\nminimize Total;")):
        words = (write(tmp_path, "bread.mod", old), WORDS[1], "--output", tmp_path / "new", "--force")
        status, _, errors = run("netflow-convert", *words)
        assert status == 0 and "nothing to convert" not in errors
