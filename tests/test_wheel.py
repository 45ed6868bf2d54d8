"""The package as pip installs it: a wheel with the program inside, and a checkout. No network is needed."""
import os
import shutil
import subprocess
import sys
import venv
import zipfile

import pytest

import netflow
from lib.version import version
from support import BREAD, BUILT, TOP

TRIAL = """import netflow
plan = netflow.solve("bread.mod", "bread.dat", van=45)
print(plan.value, plan["Drive"]["north", "hill"], netflow.__file__)
"""
PACKAGE = TOP / "python"
INSTALL = ["install", "--no-index", "--no-deps", "--disable-pip-version-check", "--quiet"]


def test_version():
    """The version of the package is that of CHANGELOG.md."""
    assert netflow.__version__ == version()


def test_modules_are_short_and_folders_small():
    for folder in [PACKAGE / "netflow", *(path for path in (PACKAGE / "netflow").rglob("*") if path.is_dir())]:
        modules = list(folder.glob("*.py"))
        assert len(modules) <= 20, folder
        for module in modules:
            assert len(module.read_text(encoding="utf-8").splitlines()) <= 400, module


@pytest.fixture(scope="session")
def backend():
    """Skips a test if the package cannot be built here."""
    pytest.importorskip("hatchling", reason="hatchling is missing: apt-get install python3-hatchling")
    pytest.importorskip("pip", reason="pip is missing: apt-get install python3-pip")
    pytest.importorskip("ensurepip", reason="venv is missing: apt-get install python3-venv")


def built_wheel(folder):
    """Builds the wheel by its backend, and returns its path."""
    environment = {**os.environ, "SOURCE_DATE_EPOCH": "1700000000", "NETFLOW_PROGRAM": str(BUILT)}
    words = [
        sys.executable,
        "-m",
        "pip",
        "wheel",
        "--no-build-isolation",
        "--no-deps",
        "--no-index",
        "--quiet",
        "-w",
        folder,
        PACKAGE,
    ]
    done = subprocess.run(words, env=environment, capture_output=True, encoding="utf-8")
    assert done.returncode == 0, done.stderr
    (wheel,) = folder.glob("*.whl")
    return wheel


@pytest.fixture(scope="session")
def wheel(backend, tmp_path_factory):
    return built_wheel(tmp_path_factory.mktemp("wheel"))


def test_wheel_is_reproducible(wheel, tmp_path):
    assert built_wheel(tmp_path).read_bytes() == wheel.read_bytes()


def test_contents_of_the_wheel(wheel):
    assert wheel.name.startswith(f"netflow-{version()}-py3-none-manylinux_2_")
    with zipfile.ZipFile(wheel) as files:
        names = set(files.namelist())
        assert {
            "netflow/__init__.py",
            "netflow/py.typed",
            "netflow/bin/netflow",
            "netflow/errors.md",
            "netflow/hints/ampl.py",
        } <= names
        assert files.read("netflow/bin/netflow") == BUILT.read_bytes()
        assert files.getinfo("netflow/bin/netflow").external_attr >> 16 & 0o111 == 0o111
        metadata = files.read(f"netflow-{version()}.dist-info/METADATA").decode("utf-8")
    assert "License-Expression: MIT OR Apache-2.0\n" in metadata or "License: MIT OR Apache-2.0\n" in metadata
    assert "Requires-Python: >=3.9\n" in metadata


def environment_with(folder, *words):
    """Makes a virtual environment, installs the package in it, and returns a function that runs a program of it
    alone."""
    venv.create(folder, with_pip=True, symlinks=True)
    clean = {"PATH": f"{folder / 'bin'}:/usr/bin:/bin", "HOME": str(folder)}

    def call(name, *arguments, **variables):
        done = subprocess.run(
            [folder / "bin" / name, *arguments],
            cwd=BREAD,
            env={**clean, **variables},
            capture_output=True,
            encoding="utf-8",
        )
        return done.returncode, done.stdout, done.stderr

    status, out, errors = call("pip", *INSTALL, *words, PYTHONPATH=backend_path())
    assert status == 0, out + errors
    return call


def backend_path():
    """Returns the folder of the backend, which an empty environment does not have."""
    import hatchling

    return os.path.dirname(os.path.dirname(hatchling.__file__))


def test_installed_wheel(wheel, tmp_path):
    """The wheel in an empty environment: the package, the program and the tools, which use nothing but each other."""
    call = environment_with(tmp_path, str(wheel))
    status, text, errors = call("python", "-c", TRIAL)
    assert status == 0 and text.startswith("440 30 ") and str(tmp_path) in text, errors
    status, text, _ = call("netflow", "solve", "bread.mod", "bread.dat")
    assert (status, text.split("\n")[0]) == (0, "Total = 440")
    assert call("netflow", "solve", "no.mod", "bread.dat")[0] == 4
    assert "5 short" in call("netflow-why", "bread.mod", "bread.dat", "busy.dat")[1]
    status, _, errors = call("netflow-explain", "bread.dat", "bread.mod")
    assert status == 3 and "exchanged" in errors and "bread.dat:" in errors
    assert call("netflow-report", "bread.mod", "bread.dat")[1].startswith("<!DOCTYPE html>")
    assert call("netflow-sheet", "plan", "bread.mod", "bread.dat", "--grid")[1].splitlines()[3] == "north,30,20,0"


@pytest.mark.parametrize("words", [[str(PACKAGE)], ["--editable", str(PACKAGE)]], ids=["from a checkout", "editable"])
def test_install_from_a_checkout(backend, tmp_path, words):
    call = environment_with(tmp_path, "--no-build-isolation", *words)
    status, text, errors = call("python", "-c", TRIAL)
    assert status == 0 and text.startswith("440 30 "), errors
    assert "Total = 440" in call("netflow-why", "bread.mod", "bread.dat")[1]


def test_checkout_without_a_program(backend, tmp_path):
    """Without a built program pip says what to build."""
    shutil.copytree(PACKAGE, tmp_path / "python", ignore=shutil.ignore_patterns("__pycache__"))
    words = [
        sys.executable,
        "-m",
        "pip",
        "wheel",
        "--no-build-isolation",
        "--no-deps",
        "--no-index",
        "-w",
        tmp_path,
        tmp_path / "python",
    ]
    environment = {name: value for name, value in os.environ.items() if name != "NETFLOW_PROGRAM"}
    done = subprocess.run(words, env=environment, capture_output=True, encoding="utf-8")
    assert done.returncode != 0 and "scripts/build" in done.stderr + done.stdout
