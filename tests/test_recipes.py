"""The recipes of docs/guide/python.md, and the examples of README files, run as they are printed."""
import doctest
import importlib.util
import os
import re
import shutil

import pytest

import netflow
from support import BREAD, TOP, read, run, write

BLOCK = re.compile(r"(?m)^```python\n(.*?)^```", re.S)
PLAIN_BLOCK = re.compile(r"(?m)^```\n((?:(?!```).*\n)*)```$")
GUIDE, README = TOP / "docs" / "guide" / "python.md", TOP / "README.md"
RECIPES = 10


@pytest.fixture
def bread(tmp_path, monkeypatch):
    """A folder with the files of examples/bread, which is the working directory."""
    for path in BREAD.iterdir():
        shutil.copy(path, tmp_path)
    monkeypatch.chdir(tmp_path)
    return tmp_path


def test_recipes_are_numbered():
    assert [int(number) for number in re.findall(r"(?m)^### (\d+)\. ", read(GUIDE))] == list(range(1, RECIPES + 1))


def test_recipes(bread):
    """Each block of the guide prints what is shown below it, in the order of the page."""
    for number, block in enumerate(BLOCK.findall(read(GUIDE)), 1):
        if importlib.util.find_spec("networkx") is not None or "networkx" not in block:
            run_block(f"docs/guide/python.md, block {number}", block)


def test_readme(bread):
    for block in BLOCK.findall(read(README)):
        run_block("README.md", block)


def test_readme_of_the_package(bread, capsys):
    script = BLOCK.findall(read(TOP / "python" / "README.md"))[0]
    exec(compile(script, "python/README.md", "exec"), {})
    assert capsys.readouterr().out == "440 30\n"


def test_second_block_of_readme(tmp_path):
    """The second block of README.md is what netflow prints of the first block's model with 95 orders."""
    first, second = PLAIN_BLOCK.findall(read(README))[:2]
    model = first.split("$ ")[1].partition("\n")[2].replace("orders := 40", "orders := 95")
    assert run("netflow", "solve", write(tmp_path, "ship.mod", model), os.devnull)[:2] == (2, second)


def run_block(name, block):
    test = doctest.DocTestParser().get_doctest(block, {"netflow": netflow}, name, None, 0)
    assert test.examples, f"{name}: nothing is run"
    lines = []
    doctest.DocTestRunner(verbose=False).run(test, out=lines.append)
    assert not lines, "".join(lines)
