"""What the tools remark on inputs that netflow accepts: points between groups of digits, limits without an effect,
declarations without arcs."""
import re

from support import TOP, run, write

BREAD = TOP / "examples" / "bread"
POINT = "A point begins decimals"


def bread(folder, name, *changes):
    """Writes the data of examples/bread with texts replaced."""
    text = (BREAD / "bread.dat").read_text(encoding="utf-8")
    for right, wrong in changes:
        assert right in text, right
        text = text.replace(right, wrong, 1)
    return write(folder, name, text)


def as_printed(tool, line):
    """Returns a line with names as the tool writes them: on a page without brackets and quotes."""
    if tool != "netflow-report":
        return line
    return re.sub(r"\['([^]]*)'\]", lambda key: " " + key[1].replace("','", " "), line)


def test_points(tmp_path):
    """1.200 is 1.2 for netflow; each tool prints its position and what may be meant. 0.125 and 12.5 are decimals."""
    model = BREAD / "bread.mod"
    pointed = bread(
        tmp_path,
        "points.dat",
        ("hill 30", "hill 1.050"),
        ("van := 40", "van := 1.200"),
        ("4    6    9", "1.125 2.125 0.125"),
        ("7    5", "12.5 5"),
    )
    said = [
        "wants['hill'] is 1.050 in line 4: is 1050 meant?",
        "van is 1.200 in line 5: is 1200 meant?",
        "cost['north','hill'] is 1.125 in line 7: is 1125 meant?",
        "(1 more of cost)",
    ]
    for words in (
        ["netflow-why"],
        ["netflow-why", "--json"],
        ["netflow-report"],
        ["netflow-explain"],
        ["netflow-sheet", "plan"],
    ):
        status, out, errors = run(*words, model, pointed)
        shown = (out + errors).replace("&#x27;", "'")
        assert (
            status == 2 and all(as_printed(words[0], line) in shown for line in said) and shown.count(POINT) == 3
        ), f"{words}: grouped digits: {status} {shown[-900:]!r}"
    whole = bread(tmp_path, "whole.dat", ("van := 40", "van := 1.000"))
    line = f"van is 1.000 in line 5: is 1000 meant? {POINT}"
    assert run("netflow-explain", "solve", model, whole)[2] == f"Hint: {line}\n", "explain solve: 1.000"
    assert run("netflow-why", model, whole)[1].startswith(
        f"No plan.\n\n{line}\n\n"
    ), "why: 1.000 is not below `No plan.`"
    found = run("netflow-why", model, BREAD / "bread.dat", "--set", "van=1.200")[1]
    assert f"\n--set van=1.200: is 1200 meant? {POINT}\n" in found, f"why --set van=1.200: {found!r}"
    found = run("netflow-why", model, BREAD / "bread.dat", whole)[1]
    assert (
        f"\nvan is 1.000 in line 5 of {whole}: is 1000 meant?" in found
    ), f"why with two data files, 1.000 in one: {found!r}"
    coded = write(tmp_path, "points.mod", model.read_text(encoding="utf-8").replace("<= van", "<= 1.200"))
    assert (
        f"1.200 in line 12 of the model: is 1200 meant? {POINT}" in run("netflow-why", coded, BREAD / "bread.dat")[1]
    ), "why: 1.200 in the model"
    for tool in ("netflow-why", "netflow-report", "netflow-explain"):
        assert POINT not in "".join(
            map(str, run(tool, model, BREAD / "bread.dat"))
        ), f"{tool}: a remark on whole numbers"


def test_points_of_sheets(tmp_path):
    """The same in a sheet, whose cells are named; a number of a workbook has no such point."""
    sheet = write(tmp_path, "points.csv", "shop,wants\nhill,1.200\nlake,1.25\nmill,1.000\n")
    errors = run("netflow-sheet", "list", sheet)[2]
    for place, text, meant in (("B2", "1.200", 1200), ("B4", "1.000", 1000)):
        assert f"{sheet}:{place}: {text}: is {meant} meant? {POINT}\n" in errors, f"sheet list: {place} in {errors!r}"
    assert errors.count(POINT) == 2, "sheet list: points"


def test_error_values(tmp_path):
    """An error value of a spreadsheet is no value; its cell is named."""
    sheet = write(tmp_path, "errors.csv", ",hill,lake\nnorth,4,#N/A\n")
    said = f"{sheet}:C2: '#N/A' is an error value of the spreadsheet: write the number, or leave the cell empty\n"
    assert run("netflow-sheet", "grid", "cost", sheet) == (3, "", said), "sheet grid: an error value"


def test_limits(tmp_path):
    """A limit on net_in without an arc that leads in, and on net_out without one that leads out, limits nothing; the
    example has neither."""
    text = (BREAD / "bread.mod").read_text(encoding="utf-8")
    no_arc_in = "Bakery['north']: no arc leads in, so net_in <= 60 limits nothing: is net_out meant? (1 more of Bakery)"
    no_arc_out = "Shop['hill']: no arc leads out, so net_out <= 30 limits nothing: is net_in meant? (2 more of Shop)"
    for right, wrong, line in (
        ("net_out <= bakes[b]", "net_in <= bakes[b]", no_arc_in),
        ("net_in = wants[s]", "net_out <= wants[s]", no_arc_out),
        ("no such text", "", ""),
    ):
        model = write(tmp_path, "limits.mod", text.replace(right, wrong))
        for tool in ("netflow-why", "netflow-report"):
            out = run(tool, model, BREAD / "bread.dat")[1].replace("&#x27;", "'").replace("&lt;", "<")
            assert as_printed(tool, line) in out, f"{tool}: {wrong!r}: {line!r}"
            assert ("limits nothing" in out) == bool(line), f"{tool}: {wrong!r}"


def test_empty(tmp_path):
    """An empty set, and a condition that no key fulfils, leave a declaration without arcs."""
    data = write(
        tmp_path,
        "empty.dat",
        "set BAKERIES := north south;\nset SHOPS := ;\nparam bakes := north 60 south 50;\nparam van := 40;\n",
    )
    text = (BREAD / "bread.mod").read_text(encoding="utf-8")
    never = write(tmp_path, "never.mod", text.replace("s in SHOPS} >=", "s in SHOPS: van > 99} >="))
    for tool in ("netflow-why", "netflow-report"):
        assert (
            "Drive has no arcs: the set SHOPS is empty" in run(tool, BREAD / "bread.mod", data)[1]
        ), f"{tool}: an empty set"
        assert (
            "Drive has no arcs: no key fulfils the condition of its braces" in run(tool, never, BREAD / "bread.dat")[1]
        ), f"{tool}: no key"
        assert (
            "has no arcs" not in run(tool, BREAD / "bread.mod", BREAD / "bread.dat")[1]
        ), f"{tool}: a remark on the example"
