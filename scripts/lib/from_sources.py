"""Runs a crate's program or tests from their sources: `-m lib.from_sources CRATE [FLAG ..] [-- WORD ..]` does what `rt
try` does in the crate's folder, in less processor time. `rt try` also checks all sources a second time at once, which
only tells whether a later check will reject a name; the checks of the gate and the build do that too."""
import os
import sys

from lib.prover import RT, TOP


def main(name, *words):
    os.chdir(TOP / "crates" / name)
    # preexec_fn of the toolchain's calls is not safe once threads run, so its guard starts here.
    RT.rtlib.guarded()
    # The second check ends at once.
    RT.rtlib.RATTLE = "true"
    return RT.rtlib.one("try", list(words))


if __name__ == "__main__":
    sys.exit(main(*sys.argv[1:]))
