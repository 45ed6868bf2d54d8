"""The oldest Python that the package promises: every program parses in its grammar, and the package runs on it.

mypy checks names of the standard library against that version too (python_version in pyproject.toml and scripts/mypy.ini).
"""
import ast
import os
import re
import shutil
import subprocess

import pytest

from support import BREAD, TOP, read

TRIAL = """import importlib, pathlib, netflow
folder = pathlib.Path(netflow.__file__).parent
for path in sorted(folder.rglob("*.py")):
    parts = path.relative_to(folder).with_suffix("").parts
    importlib.import_module(".".join(("netflow", *(part for part in parts if part != "__init__"))))
print(netflow.solve("bread.mod", "bread.dat").value)
"""


def promised():
    """Returns the version in requires-python, such as (3, 9)."""
    found = re.search(r'(?m)^requires-python = ">=(\d+)\.(\d+)"$', read(TOP / "python" / "pyproject.toml"))
    return int(found[1]), int(found[2])


def python_files():
    """Yields the Python files of the checkout, programs without a suffix included."""
    for folder in ("python", "scripts", "bench", "tests", "web", "share/companions"):
        for path in sorted((TOP / folder).rglob("*")):
            if path.suffix == ".py" or path.is_file() and not path.suffix and b"python" in first_line(path):
                yield pytest.param(path, id=str(path.relative_to(TOP)))


def first_line(path):
    with open(path, "rb") as file:
        return file.readline(100)


@pytest.mark.parametrize("path", python_files())
def test_grammar(path):
    ast.parse(read(path), feature_version=promised())


def test_later_grammar_is_noticed():
    with pytest.raises(SyntaxError):
        ast.parse("match 1:\n    case 1:\n        pass\n", feature_version=(3, 9))


@pytest.mark.parametrize("place", ["pyproject.toml", "scripts/mypy.ini"])
def test_types_are_checked_for_it(place):
    (version,) = re.findall(r'(?m)^python_version = "?(\d+\.\d+)"?$', read(TOP / place))
    assert version == ".".join(map(str, promised()))


def test_package_runs_on_it():
    """All modules can be imported, and a model is solved. Skipped if this version is not installed."""
    name = "python{}.{}".format(*promised())
    if shutil.which(name) is None or subprocess.run([name, "--version"], capture_output=True).returncode:
        pytest.skip(f"{name} is not installed")
    environment = {**os.environ, "PYTHONPATH": str(TOP / "python")}
    done = subprocess.run([name, "-c", TRIAL], cwd=BREAD, env=environment, capture_output=True, encoding="utf-8")
    assert (done.stdout, done.stderr) == ("440\n", "")
