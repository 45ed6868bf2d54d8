"""What the tests share: calls of the tools and of the program, files, networks that were read."""
from __future__ import annotations

import pathlib
import subprocess
import sys

from netflow import program
from netflow.reading import output
from netflow.reading.network import Network

TOP = pathlib.Path(__file__).resolve().parent.parent
TOOLS = TOP / "share" / "companions"
# The helper tools. Their files are the only list of them; tests/test_words.py compares all others with it.
TOOL_NAMES = sorted(path.name for path in TOOLS.glob("netflow-*"))
BREAD = TOP / "examples" / "bread"
BUILT = TOP / "crates" / "netflow" / "out" / "netflow"


def run(name: str, *words: object, text: str | None = None) -> tuple[int, str, str]:
    """Runs a tool, or the program if the name is netflow; returns status, standard output and standard error."""
    call = [program.program()] if name == "netflow" else [sys.executable, str(TOOLS / name)]
    done = subprocess.run(
        [*call, *map(str, words)], input=text, capture_output=True, encoding="utf-8", errors="surrogateescape"
    )
    return done.returncode, done.stdout, done.stderr


def write(folder: pathlib.Path, name: str, text: str) -> pathlib.Path:
    """Writes a file in UTF-8 with its line ends as they are, and returns its path."""
    path = folder / name
    path.write_bytes(text.encode("utf-8"))
    return path


def solved(*words: object) -> tuple[Network, int, str]:
    """Returns the network of a model, the status and the text of its answer."""
    net = output.read_compiled(run("netflow", "compile", *words)[1])
    status, text, _ = run("netflow", "solve", *words)
    if status == 0:
        output.read_plan(text, net)
    return net, status, text


def read(path: pathlib.Path) -> str:
    return path.read_text(encoding="utf-8")
