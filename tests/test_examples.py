"""The examples and the inputs of scripts/check_examples, one test each, so that `pytest -k bread` runs one of them."""
import pytest

from lib.examples import checks, rows
from support import TOP


@pytest.mark.parametrize("folder", [pytest.param(folder, id=folder.name) for folder in checks.example_folders()])
def test_folder(folder):
    complaints = []
    checks.check_named([folder], complaints)
    assert not complaints, "\n".join(complaints)


def example_rows():
    """Yields the rows of examples/rows, by their files and lines."""
    for path in sorted((TOP / "examples" / "rows").glob("*.txt")):
        for row in rows.rows_of(path):
            yield pytest.param(row, id=row.place)


@pytest.mark.parametrize("row", example_rows())
def test_row(tmp_path, row):
    model, data = tmp_path / "row.mod", tmp_path / "row.dat"
    model.write_text(row.text(">"), encoding="utf-8")
    data.write_text(row.text("|"), encoding="utf-8")
    options = [word for name in row.lines["@"] for word in ("--objective", name)]
    options += [f"--{option}" for option in row.lines["!"]]
    complaints = []
    rows.check_row(row, [*options, model, data], complaints)
    assert not complaints, "\n".join(complaints)


# Each row has a test of its own.
CHECKS = [check for check in checks.CHECKS if check is not rows.check_rows]


@pytest.mark.parametrize("check", CHECKS, ids=lambda check: check.__name__)
def test_inputs(check):
    complaints = []
    check(complaints)
    assert not complaints, "\n".join(complaints)
