"""Fixtures and options of the tests. `pytest` at the top of the checkout runs all of them on the built program."""
from __future__ import annotations

import os
import pathlib
import sys

import pytest

TOP = pathlib.Path(__file__).resolve().parent.parent
# The package, and the modules of scripts: the one place that says where they are.
sys.path[:0] = [str(TOP / "python"), str(TOP / "scripts"), str(TOP / "tests")]
sys.dont_write_bytecode = True


def pytest_addoption(parser: pytest.Parser) -> None:
    parser.addoption("--seeds", type=int, default=60, metavar="N", help="how many random models of each kind (60)")
    parser.addoption("--graphs", type=int, default=300, metavar="N", help="how many random graphs (300)")
    parser.addoption("--converted", type=int, default=200, metavar="N", help="how many random MathProg models (200)")
    parser.addoption("--browser", action="store_true", help="open the pages of netflow-report in Chromium too")
    parser.addoption("--program", metavar="PATH", help="the program to test, instead of the built one")


def pytest_configure(config: pytest.Config) -> None:
    """Chooses the program before any test is collected."""
    chosen = config.getoption("--program") or TOP / "crates" / "netflow" / "out" / "netflow"
    program = pathlib.Path(chosen).resolve()
    if not os.access(program, os.X_OK):
        pytest.exit(f"the program is not built: no {program}; scripts/run build makes it", returncode=1)
    os.environ["NETFLOW"] = str(program)
    os.environ["PYTHONDONTWRITEBYTECODE"] = "1"


def pytest_generate_tests(metafunc: pytest.Metafunc) -> None:
    """Gives a test that asks for a `seed`, `graph_seed` or `program_seed` one of each."""
    for name, option in (("seed", "--seeds"), ("graph_seed", "--graphs"), ("program_seed", "--converted")):
        if name in metafunc.fixturenames:
            metafunc.parametrize(name, range(metafunc.config.getoption(option)))
