"""What the documents show of the tools."""
import re
import shlex
import subprocess
import sys

import pytest

from support import BREAD, TOOLS, TOP, read, write

BLOCK = re.compile(r"```\n((?:(?!```).*\n)*)```")
SHORT = {"lake 45": "lake 85", "south 50": "south 90"}
# A page, the call that it shows, and what was changed in the tutorial's data before.
SHOWN = (
    ("docs/tutorial.md", "netflow-plan bread.mod bread.dat", {}),
    ("docs/tutorial.md", "netflow-plan bread.mod bread.dat", SHORT),
    ("docs/tutorial.md", "netflow-plan bread.mod bread.dat", {"van := 40": "van := 4O"}),
    ("docs/guide/tools.md", "netflow-plan bread.mod bread.dat --used", {}),
    ("docs/guide/tools.md", "netflow-explain bread.mod bread.dat", {"mill 25;": "mill 25"}),
    ("docs/guide/tools.md", "netflow-sheet plan bread.mod bread.dat --grid", {}),
    (
        "docs/guide/tools.md",
        'netflow-sheet scenarios bread.mod bread.dat --vary van=20,25,40 --case "van=45 wants[lake]=50"',
        {},
    ),
    ("docs/guide/tools.md", "netflow-sheet diff bread.mod bread.dat --case van=25", {}),
    ("docs/guide/tools.md", "netflow-sheet grid cost costs.csv", {}),
    ("docs/guide/tools.md", "netflow-sheet list shops.csv --set SHOPS", {}),
    ("docs/reference/json.md", "netflow-sheet plan bread.mod bread.dat --only Drive", {}),
    # Of this one the prices are unique: the arcs between their bounds lead to all places.
    ("docs/guide/shadow-prices.md", "netflow-why bread.mod bread.dat", {"south 50": "south 90", "hill 30": "hill 45"}),
)


def test_example_is_the_tutorial():
    blocks = BLOCK.findall(read(TOP / "docs" / "tutorial.md"))
    assert blocks[0].replace("minimize Total;", "minimize Total;  # in euros") in read(BREAD / "bread.mod")
    assert blocks[1] == read(BREAD / "bread.dat")
    sheets = read(BREAD / "bread.ini").partition("\n")[2]
    assert f"```\n{sheets}```\n" in read(TOP / "docs" / "guide" / "tools.md")


@pytest.mark.parametrize(
    "page, call, changes", SHOWN, ids=[f"{call} {'; '.join(changes.values())}" for _, call, changes in SHOWN]
)
def test_shown_call(tmp_path, page, call, changes):
    """Each call of a tool that a document shows gives exactly what is below it."""
    model, data = BLOCK.findall(read(TOP / "docs" / "tutorial.md"))[:2]
    for path in BREAD.glob("*.csv"):
        write(tmp_path, path.name, read(path))
    for right, wrong in changes.items():
        data = data.replace(right, wrong)
    write(tmp_path, "bread.mod", model)
    write(tmp_path, "bread.dat", data)
    tool, *words = shlex.split(call)
    done = subprocess.run(
        [sys.executable, TOOLS / tool, *words],
        cwd=tmp_path,
        stdout=subprocess.PIPE,
        stderr=subprocess.STDOUT,
        encoding="utf-8",
    )
    blocks = [block for block in BLOCK.findall(read(TOP / page)) if block.startswith(f"$ {call}\n")]
    assert blocks, f"{page} does not show this call"
    # A page can show a call more than once, with other data.
    assert done.stdout in [block.split("\n", 1)[1] for block in blocks]


@pytest.mark.parametrize("page", ["docs/tutorial.md", "docs/guide/tools.md", "docs/guide/shadow-prices.md"])
def test_every_shown_call_is_run(page):
    """Each block that shows a call of a helper tool with its output is one of those above."""
    calls = [block.split("\n")[0][2:] for block in BLOCK.findall(read(TOP / page)) if block.startswith("$ netflow-")]
    assert sorted(calls) == sorted(call for other, call, _ in SHOWN if other == page)
