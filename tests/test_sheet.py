"""Plans and data by netflow-sheet, there and back; scenarios; and the calls of tools that the documents show."""
import csv
import io
import re
import subprocess
import sys
import zipfile

import pytest

import netflow
from netflow.reading import keys
from netflow.sheets import files, workbooks
from support import BREAD, TOOLS, run, solved, write
from test_report import transport


def transport_words(folder):
    """Writes a model of three depots and four shops; returns its words and data."""
    model, data = transport(3, 4, False)
    return (write(folder, "s.mod", model), write(folder, "s.dat", data)), data


def test_sheet(tmp_path):
    """A plan's numbers by a reader of values; a model whose data come from sheets; cells that are rejected."""
    words, data = transport_words(tmp_path)
    net = solved(*words)[0]
    flows = [[*map(str, arc.key), str(arc.flow)] for arc in net.arcs]
    table = rows_of(run("netflow-sheet", "plan", *words)[1])
    assert [row[:4] for row in table[1:-2]] == [["Drive", *flow] for flow in flows], "sheet: one table"
    assert table[-2:] == [[], [net.objective, str(net.value)]], "sheet: the value below it"
    assert table[0] == ["arc", "key 1", "key 2", "flow", "lower", "upper", "price", "from", "to"], "sheet: its head"
    only = rows_of(run("netflow-sheet", "plan", *words, "--only", "Drive")[1])
    assert (only[0][:3], [row[:3] for row in only[1:]]) == (["D", "S", "flow"], flows), "sheet: one declaration"
    used = rows_of(run("netflow-sheet", "plan", *words, "--only", "Drive", "--used")[1])
    assert [row[:3] for row in used[1:]] == [flow for flow in flows if flow[2] != "0"], "sheet: arcs in use"
    head, *body = rows_of(run("netflow-sheet", "plan", *words, "--grid")[1])[2:]
    found = {(row[0], to): cell for row in body for to, cell in zip(head[1:], row[1:])}
    assert found == {tuple(arc.key): str(arc.flow) for arc in net.arcs}, "sheet: grid"
    check_data(tmp_path, net, words, next(line for line in data.splitlines() if line.startswith("param has")))


def test_workbook_of_a_plan(tmp_path):
    pytest.importorskip("openpyxl")
    words, _ = transport_words(tmp_path)
    book = tmp_path / "plan.xlsx"
    assert run("netflow-sheet", "plan", *words, "--xlsx", book) == (0, "", "")
    only = rows_of(run("netflow-sheet", "plan", *words, "--only", "Drive")[1])
    assert [[cell.text for cell in row[:3]] for row in files.read_sheet(f"{book}:Drive")] == [row[:3] for row in only]
    first = book.read_bytes()
    run("netflow-sheet", "plan", *words, "--xlsx", book)
    assert book.read_bytes() == first, "the same plan gives other bytes"


REFUSED = (
    ('x,a\nb,"7,5"\n', "B2"),
    ("x,a\nb,1 000\n", "B2"),
    ("x,a\n,1\n", "A2"),
    ("x,a\nb,1,2\n", "C2"),
    ("x,a\nb,1e13\n", "B2"),
    ("x,a\nb,10000000000000\n", "B2"),
    ("x,a\nb,12%\n", "B2"),
    ("x,a\nb,5 EUR\n,1\n", "A3"),
)


def rows_of(text):
    return list(csv.reader(io.StringIO(text)))


# A call, a sheet, and the statement that it becomes.
WRITTEN = (
    (["set", "S", "SHEET"], "zip.csv", "01067\n1067\n+5\n-3\n0\n", "set S := '01067' 1067 '+5' -3 0 ;"),
    (["set", "SHOPS", "SHEET", "--heading"], "shops.csv", "shop\nhill\nlake\n", "set SHOPS := hill lake ;"),
    (["set", "S", "SHEET", "--heading", "--columns", "C,A"], "t.csv", "a,b,c\nx,y,z\n", "set S := (z,x) ;"),
    (
        ["list", "SHEET", "--columns", "shop,wants"],
        "w.csv",
        "region,shop,note,wants\nw,hill,,3\n,lake,x,4\n",
        "param: wants := hill 3 lake 4 ;",
    ),
    (
        ["list", "SHEET", "--scale", "cost=100"],
        "c.csv",
        "k,cost,n\na,1.25,1.0\nb,2,3\n",
        "param: cost n := a 125 1 b 200 3 ;",
    ),
    (["list", "SHEET", "--comma"], "d.csv", "k;cost\na;1,25\nb;-0,5\n", "param: cost := a 1.25 b -0.5 ;"),
    (["grid", "cost", "SHEET", "--turned"], "g.csv", "x,a,b\n007,1,.5\n", "param cost (tr): a b := '007' 1 .5 ;"),
    (["list", "SHEET", "--keys", "0"], "k.csv", "van,days\n40,5\n", "param: van days := 40 5 ;"),
)


@pytest.mark.parametrize("cells, place", REFUSED)
def test_rejected_cell(tmp_path, cells, place):
    status, out, line = run("netflow-sheet", "grid", "cost", write(tmp_path, "bad.csv", cells))
    assert (status, out) == (3, "") and f":{place}: " in line


@pytest.mark.parametrize(
    "call, name, cells, statement", WRITTEN, ids=lambda value: value if isinstance(value, str) else None
)
def test_statement(tmp_path, call, name, cells, statement):
    path = write(tmp_path, name, cells)
    status, out, _ = run("netflow-sheet", *[path if word == "SHEET" else word for word in call])
    assert (status, " ".join(out.split())) == (0, statement)


def test_sheet_of_a_workbook(tmp_path):
    """A workbook as Excel writes it, with shared texts, gaps and rounding."""
    pytest.importorskip("openpyxl")
    path = tmp_path / "costs.xlsx"
    table = [["", "hill", "lake"], ["north", 4, 6], ["south", "", 5]]
    workbooks.write_xlsx(str(path), [("First", [["x"]]), ("Costs & more", table)])
    status, out, _ = run("netflow-sheet", "grid", "cost", f"{path}:Costs & more")
    assert (status, " ".join(out.split())) == (0, "param cost: hill lake := north 4 6 south . 5 ;")
    assert (
        " ".join(run("netflow-sheet", "list", zipped(path), "--keys", "1")[1].split())
        == "param: a b := Wien 2.3 x Graz . 7 ;"
    )
    assert "no sheet is called" in run("netflow-sheet", "grid", "cost", f"{path}:Nowhere")[2]
    assert run("netflow-sheet", "set", "S", write(tmp_path, "broken.xlsx", "PK no zip"))[0] == 3


def test_workbook_keeps_texts_and_digits(tmp_path):
    """A text that begins like a formula or an error is a text, and a decimal has all its digits."""
    pytest.importorskip("openpyxl")
    path = tmp_path / "digits.xlsx"
    values = [
        "=1+2",
        "#N/A",
        netflow.Exact("0.1"),
        netflow.Exact("1234567890.12"),
        netflow.Exact(1, 4),
        10**12,
        None,
        "",
    ]
    workbooks.write_xlsx(str(path), [("A/B", [values, ["last"]])])
    rows = workbooks.xlsx_rows(str(path), "A B")
    assert rows[0][:6] == ["=1+2", "#N/A", "0.1", "1234567890.12", "0.25", "1000000000000"]
    assert rows[1][0] == "last"


def test_workbook_without_openpyxl(tmp_path, monkeypatch):
    """Without openpyxl the message says what to install; CSV needs nothing."""
    monkeypatch.setitem(sys.modules, "openpyxl", None)
    for call in (
        lambda: workbooks.xlsx_rows("costs.xlsx", ""),
        lambda: workbooks.write_xlsx(str(tmp_path / "p.xlsx"), []),
    ):
        with pytest.raises(netflow.ProgramError, match="pip install openpyxl") as caught:
            call()
        assert "apt-get install python3-openpyxl" in str(caught.value) and caught.value.status == 4
    assert [[cell.text for cell in row] for row in files.read_sheet(str(write(tmp_path, "s.csv", "a,b\n")))] == [
        ["a", "b"]
    ]


def test_configuration(tmp_path):
    """All sheets of a configuration give the data of the example."""
    made = write(tmp_path, "made.dat", run("netflow-sheet", "data", BREAD / "bread.ini")[1])
    model, data = BREAD / "bread.mod", BREAD / "bread.dat"
    assert run("netflow", "solve", model, made) == run("netflow", "solve", model, data)
    wrong = write(tmp_path, "wrong.ini", "[lists x]\nsheet = a.csv\n")
    assert run("netflow-sheet", "data", wrong)[0] == 3


def zipped(path):
    """Returns a workbook with a table of shared texts, cells that are left out, and numbers as Excel rounds them."""
    sheet = (
        '<worksheet xmlns="http://schemas.openxmlformats.org/spreadsheetml/2006/main"><sheetData><row r="1"><c r="A1"'
        ' t="s"><v>0</v></c><c r="B1" t="s"><v>1</v></c><c r="C1" t="s"><v>2</v></c></row><row r="2"><c r="A2"'
        ' t="s"><v>3</v></c><c r="B2"><v>2.2999999999999998</v></c><c r="C2"'
        ' t="inlineStr"><is><t>x</t></is></c></row><row r="3"><c r="A3"/></row><row r="4"><c r="A4"'
        ' t="inlineStr"><is><t>Graz</t></is></c><c r="C4"><v>7.0</v></c></row></sheetData></worksheet>'
    )
    shared = (
        '<sst xmlns="http://schemas.openxmlformats.org/spreadsheetml/2006/main"><si><t>k</t></si><si><t>a</t></si><si><r><t>b</t></r></si>'
        "<si><r><t>Wi</t></r><r><t>en</t></r></si></sst>"
    )
    kind = "application/vnd.openxmlformats-officedocument.spreadsheetml.sharedStrings+xml"
    override = f'<Override PartName="/xl/sharedStrings.xml" ContentType="{kind}"/></Types>'
    made = path.with_name("shared.xlsx")
    with zipfile.ZipFile(path) as old, zipfile.ZipFile(made, "w") as new:
        for name in old.namelist():
            text = sheet if name.endswith("sheet1.xml") else old.read(name).decode("utf-8")
            if name == "[Content_Types].xml" and "sharedStrings" not in text:
                text = text.replace("</Types>", override)
            if name != "xl/sharedStrings.xml":
                new.writestr(name, text)
        new.writestr("xl/sharedStrings.xml", shared)
    return made


def test_ends(tmp_path):
    """Standard input, a missing file, a full disk, a closed pipe, versions, and usage errors."""
    words, _ = transport_words(tmp_path)
    assert run("netflow-sheet", "set", "S", "-", text="a\nb\n")[:2] == (
        0,
        "set S :=\na\nb\n;\n",
    ), "sheet: standard input"
    assert run("netflow-sheet", "set", "S", "/nowhere/x.csv")[0] == 4, "sheet: no such file"
    for name, more in (("netflow-why", words), ("netflow-report", words), ("netflow-sheet", ("plan", *words))):
        with open("/dev/full", "w", encoding="utf-8") as full:
            done = subprocess.run(
                [sys.executable, TOOLS / name, *more], stdout=full, stderr=subprocess.PIPE, encoding="utf-8"
            )
        assert (
            done.returncode == 4 and "Traceback" not in done.stderr and len(done.stderr.splitlines()) == 1
        ), f"{name} > /dev/full: {done}"
        closed = subprocess.run(
            f"'{sys.executable}' '{TOOLS / name}' {' '.join(map(str, more))} | head -c 1",
            shell=True,
            capture_output=True,
            encoding="utf-8",
        )
        assert closed.stderr == "", f"{name} | head"
        assert re.fullmatch(rf"{name} \d+\.\d+\.\d+\n", run(name, "--version")[1]), f"{name} --version"
    assert run("netflow-explain", "--version")[1].startswith("netflow-explain "), "netflow-explain --version"
    status, _, told = run("netflow-sheet", "grid")
    assert (
        status == 64 and told.startswith("usage: netflow-sheet grid NAME SHEET") and "plan MODEL" not in told
    ), f"netflow-sheet grid: {told!r}"


def test_scenarios(tmp_path):
    """Cases and differences, compared with the program on changed data."""
    words, data = transport_words(tmp_path)
    base = solved(*words)[0]
    needs = base.value
    has = int(re.search(r"param has := (\d+);", data)[1])
    values = {}
    for stock in (has + 3, has, 1):
        changed = write(tmp_path, "c.dat", data.replace(f"param has := {has};", f"param has := {stock};"))
        values[stock] = run("netflow", "solve", words[0], changed)
    table = rows_of(
        run("netflow-sheet", "scenarios", *words, "--vary", f"has={has + 3},{has},1", "--case", f"has={has}")[1]
    )
    assert table[1] == ["as it is", "optimal", str(needs), "0", "0", ""], "scenarios: as it is"
    for row in table[2:]:
        answer = values[int(row[0].partition("=")[2])]
        wanted = re.match(r"\S+ = (\d+)", answer[1])[1] if answer[0] == 0 else ""
        assert (row[1], row[2]) == ("optimal" if wanted else "infeasible", wanted), f"scenarios: {row[0]}"
        assert ("short" in row[5] or "too much" in row[5]) == (not wanted), f"scenarios: {row[0]}: reason"
    assert len(table) == 6, "scenarios: rows"
    wrong = ["--case", "has=x", "--case", "hass=3", "--case", "wants[nobody]=3", "--vary", f"has={has},0.x"]
    status, text, said = run("netflow-sheet", "scenarios", *words, *wrong)
    found = [(row[1], row[5][:6]) for row in rows_of(text)[2:]]
    assert (status, found, said) == (
        3,
        [("error", "E36 Ki"), ("error", "hass: "), ("error", "E33 Ou"), ("optimal", ""), ("error", "E36 Ki")],
        "",
    ), "scenarios: cases with an error"
    half = run("netflow-sheet", "plan", *words, "--set", f"has={has}.5", "--used")
    assert half[0] == 0 and (".5" in half[1]) == half[2].startswith(
        "netflow-sheet: flows are multiples of 0.1, since has has decimals;"
    ), f"sheet: a stock with decimals: {half[2]!r}"
    first = base.arcs[0]
    case = f"cost[{','.join(keys.shown(member) for member in first.key)}]={first.price + 50}"
    rows = rows_of(run("netflow-sheet", "diff", *words, "--case", case)[1])
    before = {tuple(arc.key): arc.flow for arc in base.arcs}
    assert rows and rows[1][0] == base.objective, "diff: no row of the objective"
    for row in rows[2:]:
        assert (row[3], int(row[5])) == (str(before[tuple(row[1:3])]), int(row[4]) - int(row[3])), f"diff: {row}"


def check_data(folder, net, words, rest):
    """The model with data from sheets, by each mark between cells, compiles to the same text."""
    prices = {tuple(arc.key): arc.price for arc in net.arcs}
    depots, shops = (list(dict.fromkeys(key[place] for key in prices)) for place in (0, 1))
    wants = {node.text: node.low for node in net.nodes if node.low > 0}
    for mark, turned in ((",", False), (";", True), ("\t", False)):
        down, across = (shops, depots) if turned else (depots, shops)
        grid = [
            [member, *(prices[(other, member) if turned else (member, other)] for other in across)] for member in down
        ]
        sheets = {
            "d": [[depot] for depot in depots],
            "wants": [["shop", "wants"], *([shop, wants[f"Shop[{keys.shown(shop)}]"]] for shop in shops)],
            "cost": [["", *across], *grid],
        }
        paths = {name: write(folder, f"{name}.csv", sheet_text(lines, mark)) for name, lines in sheets.items()}
        calls = (
            ["set", "D", paths["d"]],
            ["list", paths["wants"], "--set", "S"],
            ["grid", "cost", paths["cost"], *["--turned"] * turned],
        )
        made = "".join(run("netflow-sheet", *call)[1] for call in calls)
        other = words[0], write(folder, "made.dat", f"{made}{rest}\n")
        assert run("netflow", "compile", *other) == run("netflow", "compile", *words), f"sheet: data by {mark!r}"


def sheet_text(lines, mark):
    out = io.StringIO()
    csv.writer(out, delimiter=mark, lineterminator="\r\n").writerows(lines)
    return "\ufeff" + out.getvalue()
