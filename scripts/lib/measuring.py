"""What the measurements of bench/ share: the programs that they measure, their inputs, and calls with their time and
memory."""
import os
import shutil
import statistics
import subprocess
import sys

from lib.command import PROGRAM, TOP

BENCH = TOP / "bench"
# The program of crates/net_bench, which measures tokens, parsing and solving by themselves.
MEASURE = TOP / "crates/net_bench/out/net_bench"


def build_program():
    """Builds the program, which proves it, if it is missing."""
    if not PROGRAM.exists():
        subprocess.run([TOP / "netflow", "help"], stdout=subprocess.DEVNULL, check=False)
    if not PROGRAM.exists():
        sys.exit("bench: crates/netflow was not built")


def make(path, script, *words):
    """Writes the output of a program of bench/ to a file, and returns its path."""
    with open(path, "wb") as out:
        subprocess.run([BENCH / script, *map(str, words)], stdout=out, check=True)
    return path


def compiled(source, folder, *flags):
    """Compiles a C++ file of bench/ into the folder; returns the program, or None if there is no compiler."""
    compiler = shutil.which("g++") or shutil.which("clang++")
    if compiler is None:
        return None
    program = folder / source.partition(".")[0]
    subprocess.run([compiler, "-std=c++17", "-O2", *flags, "-o", program, BENCH / source], check=True)
    return program


def call(words, out=subprocess.DEVNULL, wanted=0, environment=None):
    """Returns the seconds of processor time of a call and its greatest memory in MB. Another status than the wanted one
    ends the measurement."""
    words = list(map(str, words))
    child = subprocess.Popen(words, stdin=subprocess.DEVNULL, stdout=out, stderr=out, env=environment)
    _, status, usage = os.wait4(child.pid, 0)
    child.returncode = os.waitstatus_to_exitcode(status)
    if child.returncode != wanted:
        sys.exit(f"bench: {' '.join(words[:3])} ended with status {child.returncode}, not {wanted}")
    return usage.ru_utime + usage.ru_stime, usage.ru_maxrss / 1024


def medians(runs, calls):
    """Returns the median of each call. The calls take turns, so that other work on the machine affects all alike."""
    return [statistics.median(column) for column in zip(*([call() for call in calls] for _ in range(runs)))]
