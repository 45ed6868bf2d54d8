"""The checks of the examples: those of the folders, and of what no folder can hold."""
from lib.command import TOP
from lib.examples import folders, inputs, pages, rows, streams

# What is checked besides the folders.
CHECKS = (
    pages.check_errors_page,
    pages.check_modelling_page,
    pages.check_described_errors,
    streams.check_limits,
    rows.check_rows,
    inputs.check_odd_bytes,
    inputs.check_lengths,
    inputs.check_nesting,
    inputs.check_many,
    inputs.check_slow,
    inputs.check_items,
    inputs.check_more_limits,
    streams.check_prefixes,
    streams.check_ends,
    streams.check_endless,
    streams.check_standard_input,
    streams.check_long_lines,
    folders.check_pipe,
    folders.check_lean_alike,
    rows.check_problem_rows,
)


def example_folders():
    """Returns the folders with expected answers."""
    every = [folder for top in ("examples", "examples/faults") for folder in sorted((TOP / top).iterdir())]
    return [folder for folder in every if any((folder / kind).exists() for kind in ("status", "faults.txt"))]


def check_named(found, complaints):
    """Checks these folders, each by its kind."""
    for folder in found:
        if (folder / "problem.min").exists():
            folders.check_problem(folder, complaints)
        elif (folder / "faults.txt").exists():
            folders.check_line_faults(folder, complaints)
        else:
            folders.check_folder(folder, complaints)
