"""The command line of a script: `--help` prints its documentation and does nothing else."""
import argparse
import pathlib
import sys

sys.dont_write_bytecode = True
TOP = pathlib.Path(__file__).resolve().parent.parent.parent
# The program, where a build writes it.
PROGRAM = TOP / "crates" / "netflow" / "out" / "netflow"


def parser(documentation):
    """Returns an argument parser whose help is the script's documentation."""
    name = pathlib.Path(sys.argv[0])
    program = f"{name.parent.name}/{name.name}" if name.parent.name in ("scripts", "bench") else name.name
    return argparse.ArgumentParser(
        prog=program, description=documentation.strip(), formatter_class=argparse.RawDescriptionHelpFormatter
    )


def count(word):
    """Parses a whole number of at least 1."""
    number = int(word)
    if number < 1:
        raise argparse.ArgumentTypeError(f"expected a number of at least 1, got {word}")
    return number
