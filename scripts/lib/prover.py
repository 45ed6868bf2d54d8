"""The toolchain for scripts/build, scripts/check_mutants, scripts/costs and scripts/answers: a check of one crate over
the libraries below it, with its processor time; the build of a crate; and how many checks the machine can run side by
side.

As a program: `-m lib.prover CRATE JOBS` builds a crate over libraries that are built, for scripts/build."""
import importlib.machinery
import importlib.util
import os
import pathlib
import shutil
import subprocess
import sys
import tempfile
import threading

from lib import processes
from lib.command import TOP


def toolchain():
    """Loads the command `rt` as a module."""
    path = shutil.which("rt")
    if path is None:
        sys.exit(f"{pathlib.Path(sys.argv[0]).name}: 'rt' is not on the PATH")
    spec = importlib.util.spec_from_loader("rt", importlib.machinery.SourceFileLoader("rt", os.path.realpath(path)))
    made = importlib.util.module_from_spec(spec)
    spec.loader.exec_module(made)
    made.rtlib.Crate = made.Crate
    # As in the gate, a crate reads the statements of the libraries below it and not their proofs.
    made.rtlib.Crate.cuts_libraries = True
    return made


RT = toolchain()


# The memory that a check takes at most, in bytes.
MEMORY = 4 * 2**30


def lanes():
    """Returns how many checks can run side by side: one per processor, as many as fit into memory."""
    return max(1, min(RT.processors(), RT.free() // MEMORY))


def crates_of(top):
    """Returns the crates of the repository in this folder by name, in the order of their dependencies."""
    os.chdir(top)
    return {crate.name: crate for crate in RT.rtlib.crates_below(str(top))}


def unbuilt(crate):
    """Returns the libraries below the crate that are not built."""
    return [below.name for below in crate.below() if not os.path.isdir(f"{below.folder}/out/rlib")]


def copy_of(folder, room):
    for part in RT.rtlib.PARTS:
        if os.path.isdir(f"{folder}/{part}"):
            shutil.copytree(f"{folder}/{part}", f"{room}/{part}")


class Stopped(Exception):
    """A check was ended, or not begun, because the run has failed."""


class Checks:
    """The running checks, which end together when the run fails."""

    running: set[int] = set()
    are_over = threading.Event()

    @classmethod
    def stop(cls):
        cls.are_over.set()
        for pid in list(cls.running):
            processes.kill(pid)


def check(crate, folder, *more):
    """Checks a copy of the crate with one job and from nothing; returns status, processor seconds and output."""
    words = [RT.rtlib.RATTLE, "check", *crate.words(["--jobs", "1"], keeps=False), *more]
    if Checks.are_over.is_set():
        raise Stopped
    with tempfile.TemporaryFile("w+", errors="replace") as output:
        running = subprocess.Popen(words, cwd=folder, stdin=subprocess.DEVNULL, stdout=output, stderr=subprocess.STDOUT)
        Checks.running.add(running.pid)
        _, status, usage = os.wait4(running.pid, 0)
        Checks.running.discard(running.pid)
        if Checks.are_over.is_set():
            raise Stopped
        running.returncode = os.waitstatus_to_exitcode(status)
        output.seek(0)
        return running.returncode, usage.ru_utime + usage.ru_stime, output.read()


def build(name, jobs):
    """Does what `rt lib` does in the crate's folder (for a program `rt run`), over libraries that are built, and
    without a lock, because crates share libraries and each `rt lib` would lock the others out. The caller holds the
    locks of all crates."""
    RT.rtlib.Crate.cuts_libraries = False
    crate = crates_of(TOP)[name]
    os.chdir(crate.folder)
    os.makedirs("out", exist_ok=True)
    RT.rtlib.guarded()
    if crate.is_program:
        # Locks are released before the program runs.
        crate.held = []
        return crate.run(["--jobs", jobs], [])
    return crate.build_rlib(["--jobs", jobs], anew=False)


if __name__ == "__main__":
    sys.exit(build(*sys.argv[1:]))
