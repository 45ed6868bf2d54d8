"""The built program: calls of it, and comparisons of its answers."""
import os
import subprocess

from lib.command import PROGRAM, TOP

COMMAND = TOP / "netflow"


def run(words, seconds=None):
    """Runs the program; returns status, standard output and standard error, or an error text if it exceeds the time."""
    try:
        done = subprocess.run(
            [PROGRAM, *(os.fsdecode(word) if isinstance(word, bytes) else str(word) for word in words)],
            capture_output=True,
            stdin=subprocess.DEVNULL,
            timeout=seconds,
        )
    except subprocess.TimeoutExpired:
        return 1, b"", b"no answer after %d seconds" % seconds
    return answer(done)


def answer(done):
    """Returns status, standard output and standard error of an ended call."""
    return done.returncode, done.stdout, done.stderr


def read(path):
    return path.read_bytes() if path.exists() else b""


def compare(name, wanted, given, complaints):
    for what, want, got in zip(("status", "standard output", "standard error"), wanted, given):
        if want != got:
            complaints.append(f"{name}: {what}: wanted {want!r}, got {got!r}")


def rejected(line, status):
    return (status, b"", line.encode() + b"\n")
