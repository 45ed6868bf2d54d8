"""Numbers of sheets as people and spreadsheets write them, dates, and headings."""
import datetime

import pytest

from support import run, write

# A text, what it is with --comma, and without; None for an error.
NUMBERS = [
    ("1.080", "1080", "1.080"),
    ("1.204,15", "1204.15", None),
    ("1204,15", "1204.15", None),
    ("-1.080", "-1080", "-1.080"),
    ("1.080.000", "1080000", None),
    ("1.204.000,5", "1204000.5", None),
    ("1'080", "1080", None),
    ("1\u2019080,5", "1080.5", None),
    ("1 080", "1080", None),
    ("1\u00a0080,25", "1080.25", None),
    ("7,5", "7.5", None),
    ("1,080", "1.08", None),
    ("0,5", "0.5", None),
    ("1080", "1080", "1080"),
    ("1.08", None, "1.08"),
    ("12.5", None, "12.5"),
    ("1.0800", None, "1.0800"),
    ("1.204.15", None, None),
    ("1,204,15", None, None),
    ("1,204.15", None, None),
]


def value(tmp_path, text, *options):
    """Returns the value that `list` makes of a cell; None for an error, whose text has the cell."""
    path = write(tmp_path, "depots.csv", f"depot;room\nWien;{text}\n")
    status, out, told = run("netflow-sheet", "list", path, *options)
    assert status == (0 if out else 3) and (out or f"{path}:B2: " in told)
    return out.split("Wien ")[1].split("\n")[0] if out else None


@pytest.mark.parametrize("text, with_comma, without", NUMBERS)
def test_number(tmp_path, text, with_comma, without):
    assert value(tmp_path, text, "--comma") == with_comma
    assert value(tmp_path, text) == without


def test_comma_never_divides_by_a_thousand(tmp_path):
    """A German export, with the option: no value is a thousandth, and nothing is asked."""
    path = write(tmp_path, "depots.csv", "depot;room;cost\nWien;1.080;70\nLinz;1.204,15;7,5\n")
    status, out, told = run("netflow-sheet", "list", path, "--comma")
    assert (status, out) == (0, "param: room cost :=\nWien 1080 70\nLinz 1204.15 7.5\n;\n")
    assert "meant" not in told
    grid = write(tmp_path, "grid.csv", ";Wien;Linz\nGraz;1.080;2,5\n")
    assert run("netflow-sheet", "grid", "cost", grid, "--comma")[1] == "param cost: Wien Linz :=\nGraz 1080 2.5\n;\n"


@pytest.mark.parametrize(
    "text, said",
    [
        ("1'080", "is 1080 meant? Digits are not grouped"),
        ("1,204.15", "is 1204.15 meant? Digits are not grouped"),
        ("1.204,15", "is 1204.15 meant? With --comma decimals have a comma"),
    ],
)
def test_what_is_meant(tmp_path, text, said):
    path = write(tmp_path, "depots.csv", f"depot;room\nWien;{text}\n")
    assert said in run("netflow-sheet", "list", path)[2]


def test_point_with_comma_names_the_number(tmp_path):
    path = write(tmp_path, "depots.csv", "depot;room\nWien;1.08\n")
    status, out, told = run("netflow-sheet", "list", path, "--comma")
    assert (status, out) == (3, "") and "is 1,08 meant?" in told


def book(tmp_path, **sheets):
    """Writes a workbook of sheets, lists of rows."""
    openpyxl = pytest.importorskip("openpyxl")
    found = openpyxl.Workbook()
    found.remove(found.active)
    for name, rows in sheets.items():
        table = found.create_sheet(name)
        for row in rows:
            table.append(row)
    path = tmp_path / "book.xlsx"
    found.save(path)
    return path


def test_numbers_of_a_workbook_stay(tmp_path):
    """A number of a workbook is one, with --comma too; a text in a cell is read as in CSV."""
    path = book(tmp_path, Costs=[["depot", "cost"], ["Wien", 1.08], ["Linz", 1.5], ["Graz", "1.080"]])
    assert run("netflow-sheet", "list", path, "--comma")[1] == "param: cost :=\nWien 1.08\nLinz 1.5\nGraz 1080\n;\n"


def test_dates_are_named(tmp_path):
    """Excel's number of 2026-01-01 is 46023."""
    path = book(
        tmp_path, Since=[["depot", "since"], ["Wien", datetime.date(2026, 1, 1)], ["Linz", datetime.date(2026, 1, 2)]]
    )
    status, out, told = run("netflow-sheet", "list", path)
    assert status == 0 and "Wien 46023\nLinz 46024\n" in out
    assert f"{path}:B2: a date, which is written as its number, 46023 (1 more cells are dates)" in told


def test_sheet_that_is_read_is_named(tmp_path):
    path = book(tmp_path, Old=[["depot", "room"], ["Wien", 1]], New=[["depot", "room"], ["Wien", 2]])
    status, out, told = run("netflow-sheet", "list", path)
    assert status == 0 and "Wien 1\n" in out and f"{path} has the sheets Old, New; Old is read" in told
    assert run("netflow-sheet", "list", f"{path}:New")[2] == ""


@pytest.mark.parametrize(
    "text, said",
    [
        (
            "depot;room (t)\nWien;3\n",
            "B1: 'room (t)' is no name of a set or parameter: is room meant? Leave the unit t out",
        ),
        ("depot;room;room\nWien;3;4\n", "C1: 'room' is in the heading twice, in"),
    ],
)
def test_heading_of_a_list(tmp_path, text, said):
    status, _, told = run("netflow-sheet", "list", write(tmp_path, "d.csv", text))
    assert status == 3 and said in told


def test_column_twice_in_a_grid(tmp_path):
    path = write(tmp_path, "d.csv", ";Wien;Salzburg;Wien\nLinz;1;2;3\n")
    status, _, told = run("netflow-sheet", "grid", "cost", path)
    assert status == 3 and "D1: 'Wien' is in the heading twice" in told
