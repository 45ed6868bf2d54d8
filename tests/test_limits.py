"""What the tools do at the edges of their input and output: long files, and an output that fails."""
import os
import subprocess
import sys

import pytest

from netflow.reading.text import MOST_BYTES
from support import BREAD, TOOL_NAMES, TOOLS, run, write

MODEL, DATA = BREAD / "bread.mod", BREAD / "bread.dat"
LONG = " " * (MOST_BYTES + 1)


@pytest.mark.skipif(not os.path.exists("/dev/full"), reason="needs /dev/full")
@pytest.mark.parametrize("word", ("--help", "--version"))
@pytest.mark.parametrize("name", ["netflow", *TOOL_NAMES])
def test_full_output(name, word):
    """Help that cannot be written has the status 4, as a plan has."""
    call = [os.environ["NETFLOW"]] if name == "netflow" else [sys.executable, TOOLS / name]
    with open("/dev/full", "w", encoding="ascii") as full:
        done = subprocess.run([*call, word], stdout=full, stderr=subprocess.PIPE, encoding="utf-8")
    assert done.returncode == 4
    assert done.stderr.strip() or name == "netflow"


@pytest.mark.parametrize("options", ((), ("--set", "van=45")), ids=("plain", "with a change"))
def test_endless_data(options):
    """The tools stop after 16 MiB, and netflow reports what is too long."""
    status, text, errors = run("netflow-why", MODEL, "/dev/zero", *options)
    assert (status, text) == (3, "") and errors.startswith("E07 TextTooLong data")


def test_long_file(tmp_path):
    path = write(tmp_path, "long.dat", LONG)
    status, _, errors = run("netflow-why", MODEL, DATA, path)
    assert status == 3 and errors.startswith("E07 TextTooLong data")


def test_long_model():
    status, _, errors = run("netflow-why", "/dev/zero", DATA)
    assert status == 3 and errors.startswith("E07 TextTooLong model")


def test_long_sheet():
    status, text, errors = run("netflow-sheet", "set", "SHOPS", "/dev/zero")
    assert (status, text) == (3, "") and "more than 16 MiB" in errors
