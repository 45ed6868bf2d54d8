"""Finds and calls the netflow program."""
from __future__ import annotations

import dataclasses
import os
import shutil
import subprocess
import sys
import tempfile
import threading
import weakref
from typing import Any, Iterator, Mapping, Sequence

from .errors import ProgramError, Unreadable
from .reading.text import MOST_BYTES
from .types import Path

__all__ = ["Answer", "Session", "Unreadable", "call", "program", "problem_text", "ProgramError"]
HERE = os.path.dirname(os.path.realpath(__file__))
USAGE, REJECTED, UNREADABLE_FILE, INTERNAL = 64, 3, 4, 70
# Inside a wheel; in an installed tree (share/netflow/netflow); in a checkout (python/netflow).
PLACES = ("bin/netflow", "../../../bin/netflow", "../../crates/netflow/out/netflow", "../../netflow")
# Seconds after which a tool that a person waits for prints a line.
PATIENCE = 2.0


@dataclasses.dataclass
class Answer:
    """The exit status and the standard output of a call."""

    status: int
    text: str


def program(path: Path | None = None) -> str:
    """Returns the path of the program: the argument, $NETFLOW, the one of this package, or the one on the PATH."""
    named = os.fspath(path) if path else os.environ.get("NETFLOW")
    if named:
        return named
    for place in PLACES:
        result = os.path.normpath(os.path.join(HERE, place))
        if os.path.isfile(result) and os.access(result, os.X_OK):
            return result
    on_path = next(_programs_on_path(), None)
    if not on_path:
        raise ProgramError(USAGE, "netflow: the program is not on the PATH; set the variable NETFLOW to its path\n")
    return on_path


def _programs_on_path() -> Iterator[str]:
    """Yields each program `netflow` on the PATH that is not a Python script, such as the command of a wheel."""
    for folder in os.environ.get("PATH", os.defpath).split(os.pathsep):
        found = shutil.which("netflow", path=folder)
        if found:
            with open(found, "rb") as file:
                if b"python" not in file.readline(200):
                    yield found


def _remove(paths: list[str]) -> None:
    for path in paths:
        try:
            os.unlink(path)
        except OSError:
            pass


class Session:
    """The files and options of several calls. Input that can be read only once, such as a pipe, is copied to a file."""

    def __init__(self, files: Sequence[str], options: Sequence[str] = ()) -> None:
        self.options = list(options)
        self.copies: list[str] = []
        self.remove = weakref.finalize(self, _remove, self.copies)
        self.files = [self.lasting(path) for path in files]

    def __enter__(self) -> "Session":
        return self

    def __exit__(self, *_: Any) -> None:
        self.remove()

    def lasting(self, path: str) -> str:
        """Returns a path that can be read more than once."""
        if path == "-":
            path = "/dev/stdin"
        # The program has no standard input of its own, so even a file that is standard input is copied.
        is_file = os.path.isfile(path) and not path.startswith(("/dev/", "/proc/"))
        if not os.path.exists(path) or is_file or os.path.isdir(path) or os.path.realpath(path) == os.devnull:
            return path
        try:
            with open(path, "rb") as source, tempfile.NamedTemporaryFile(prefix="netflow-", delete=False) as copy:
                self.copies.append(copy.name)
                copy.write(source.read(MOST_BYTES + 1))
        except OSError:
            return path
        return copy.name

    def write(self, text: str) -> str:
        """Writes a text to a file that lasts as long as the session, and returns its path."""
        with tempfile.NamedTemporaryFile(
            "w", prefix="netflow-", delete=False, encoding="utf-8", errors="surrogateescape", newline=""
        ) as copy:
            self.copies.append(copy.name)
            copy.write(text)
        return copy.name

    def ask(self, command: str, *options: str) -> Answer:
        """Calls `solve` or `compile` with the files and options, and with these options of the command alone."""
        return call([command, *self.files, *self.options, *options])


class Patience:
    """Prints a line on a terminal if the calls inside take longer than two seconds."""

    def __init__(self, line: str) -> None:
        self.timer = threading.Timer(PATIENCE, sys.stderr.write, [line])
        self.timer.daemon = True

    def __enter__(self) -> "Patience":
        if sys.stderr is not None and sys.stderr.isatty():
            self.timer.start()
        return self

    def __exit__(self, *_: Any) -> None:
        self.timer.cancel()


def run(words: Sequence[str], text: str | None = None, path: Path | None = None) -> subprocess.CompletedProcess[str]:
    """Runs the program and returns its output, whatever its status."""
    name = program(path)
    source = subprocess.DEVNULL if text is None else None
    try:
        return subprocess.run(
            [name, *words], stdin=source, input=text, capture_output=True, encoding="utf-8", errors="surrogateescape"
        )
    except OSError as problem:
        raise ProgramError(USAGE, f"{name}: {problem.strerror}\n") from None


def call(words: Sequence[str], text: str | None = None, path: Path | None = None) -> Answer:
    """Runs the program; a rejected input raises ProgramError with its line and status."""
    done = run(words, text, path)
    if done.returncode not in (0, 2):
        raise ProgramError(done.returncode, done.stderr)
    return Answer(done.returncode, done.stdout)


def problem_text(count: int, supplies: Mapping[int, int], arcs: Sequence[tuple[int, int, int, int, int]]) -> str:
    """Returns a DIMACS problem: supplies by node number from 0, arcs as (source, target, lower, upper, cost)."""
    lines = [f"p min {count} {len(arcs)}"]
    lines += [f"n {node + 1} {supplies[node]}" for node in sorted(supplies) if supplies[node]]
    lines += [f"a {src + 1} {dst + 1} {low} {cap} {cost}" for src, dst, low, cap, cost in arcs]
    return "\n".join(lines) + "\n"


def execute() -> None:
    """The command `netflow` of a wheel: runs the program in place of this process."""
    path = program()
    try:
        os.execv(path, ["netflow", *sys.argv[1:]])
    except OSError as problem:
        sys.exit(f"{path}: {problem.strerror}")
