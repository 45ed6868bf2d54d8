"""usage: netflow-convert MODEL [DATA ..] --output FOLDER [--force]

Converts an AMPL or MathProg model of a network with variables and constraints (`var`, `subject to`) into nodes and arcs, and writes it
with its data to FOLDER, under the names of the files. Data can follow the model in its file, after `data;`. If a part cannot be expressed
as a network, such as a side constraint, each such part is printed with its line, and nothing is written. Files that exist are kept unless
--force is given. The exit status is 3 for a model that cannot be converted.
"""
from __future__ import annotations

import os
import shlex
import sys
from typing import Sequence

from ..convert.data import DataConversion
from ..convert.model import Conversion, Converted
from ..convert.problems import Rejected
from ..errors import DataError, ProgramError, ScaleError
from ..inputs.instance import Instance
from ..inputs.source import Input, unreadable
from ..program import REJECTED, UNREADABLE_FILE, USAGE
from ..reading.model import Shapes
from .command import ToolParser
from .command import run as run_tool

NAME = "netflow-convert"
# Errors of grammar in a converted model: the conversion itself is wrong.
GRAMMAR = ("E10", "E11", "E12", "E13", "E14", "E15", "E16")


def main(arguments: Sequence[str]) -> int:
    parser = ToolParser(__doc__, prog=NAME)
    parser.add_argument("model", metavar="MODEL")
    parser.add_argument("data", metavar="DATA", nargs="*", default=[])
    parser.add_argument("--output", metavar="FOLDER", required=True, help="where the new files are written")
    parser.add_argument("--force", action="store_true", help="replace files that exist")
    parsed = parser.parse_args(arguments)
    instance = readable_instance(parsed.model, parsed.data)
    try:
        files, made = converted(instance, parsed.model, parsed.data)
    except Rejected as problem:
        count = len(problem.lines)
        sys.stderr.write("".join(f"{line}\n" for line in problem.lines))
        sys.stderr.write(
            f"{NAME}: nothing was written, because of {count} part{'s' if count > 1 else ''} of the files\n"
        )
        return REJECTED
    notes = made.notes + checked(files)
    if made.is_plain:
        name, words = file_name(parsed.model, "the model"), shlex.join([parsed.model, *parsed.data])
        notes.insert(0, f"{name} has nodes and arcs, and nothing to convert: netflow-plan {words} takes it as it is")
    write(files, parsed.output, [parsed.model, *parsed.data], parsed.force)
    sys.stderr.write("".join(f"{NAME}: {note}\n" for note in notes))
    return 0


def readable_instance(model: str, data: Sequence[str]) -> Instance:
    """Returns the model with its data, which can follow it in its file; raises ProgramError for a file that cannot be
    read."""
    instance = Instance(Input(model), [Input(path) for path in data])
    for source in (instance.model, *instance.data):
        source.path = instance.session.lasting(source.path or "")
        reason = unreadable(source.path)
        if reason:
            raise ProgramError(UNREADABLE_FILE, f"{NAME}: {source.name}: {reason}\n")
    if not data:
        instance.split_model()
    return instance


def converted(instance: Instance, model: str, data: Sequence[str]) -> tuple[list[tuple[str, str]], Converted]:
    """Returns the names and texts of the new files, the model first, and the conversion of the model."""
    source = instance.model.text()
    made = Conversion(source, model).run()
    shapes, name = Shapes(made.decls, source), file_name(model, "model.mod")
    files, lines = [(name, made.text)], []
    for here, text in enumerate(instance.data):
        try:
            rows = DataConversion(text.text(), data[here] if data else model, shapes).run()
        except Rejected as problem:
            lines += problem.lines
            continue
        made.is_plain = made.is_plain and rows.split() == text.text().split()
        # Data from the model's file have empty lines in front, which keep the lines of messages.
        files.append((file_name(data[here], "data.dat"), rows) if data else (f"{stem(name)}.dat", rows.lstrip("\n ")))
    if lines:
        raise Rejected(lines)
    return files, made


def file_name(path: str, other: str) -> str:
    """Returns the name of the new file; another one for the data of a pipe."""
    return os.path.basename(path) if os.path.isfile(path) and not path.startswith("/dev/") else other


def stem(name: str) -> str:
    return os.path.splitext(name)[0]


def checked(files: Sequence[tuple[str, str]]) -> list[str]:
    """Calls netflow on the converted files; returns a note on an error of the data, and rejects one of the grammar."""
    texts = [Input(text=text, name=name) for name, text in files]
    with Instance(texts[0], texts[1:], add_bounds=True) as instance:
        try:
            instance.ask("compile")
        except ProgramError as problem:
            if problem.message.startswith(GRAMMAR):
                raise
            return [f"netflow rejects the converted files: {problem.message.strip()}"] if len(files) > 1 else []
        except (ScaleError, DataError) as problem:
            return [f"the tools reject the converted files: {problem}"]
    return []


def write(files: Sequence[tuple[str, str]], folder: str, sources: Sequence[str], is_forced: bool) -> None:
    """Writes the files; raises ProgramError before the first one if a file would be replaced."""
    paths = [os.path.join(folder, name) for name, _ in files]
    for path in paths:
        if len(set(paths)) < len(paths) or any(
            os.path.exists(path) and os.path.samefile(path, item) for item in sources
        ):
            raise ProgramError(USAGE, f"{NAME}: {path} is a file of the old model: choose another folder\n")
        if os.path.exists(path) and not is_forced:
            raise ProgramError(USAGE, f"{NAME}: {path} exists: remove it, or add --force\n")
    os.makedirs(folder, exist_ok=True)
    for path, (_, text) in zip(paths, files):
        with open(path, "w", encoding="utf-8", errors="surrogateescape", newline="") as file:
            file.write(text)
        print(path)


def command() -> None:
    run_tool(main)


if __name__ == "__main__":
    command()
