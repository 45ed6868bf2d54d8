"""usage: netflow-plan MODEL [DATA ..] [--used] [--all] [--json] [--objective NAME] [--set NAME=VALUE] [--scale NAME=FACTOR] [--bounds]
       netflow-plan OLD.mod [DATA ..] --convert FOLDER [OPTION..]

Solves a model with its data, and prints the best plan in netflow's form, or the reasons why there is none, as netflow-why does. Decimals
are scaled exactly, and later data files override earlier ones. If an input is rejected, the error line is followed by the place, a hint
what was probably meant, and what the error means. What is allowed and often a mistake is printed on standard error. With --convert, a
model with variables (`var`, `subject to`) is converted by netflow-convert into FOLDER first. The exit status is that of netflow.
"""
from __future__ import annotations

import argparse
import contextlib
import importlib
import io
import os
import re
import shlex
import sys
from typing import Sequence

from ..analysis.reasons import reasons
from ..analysis.suspicions import remark_lines
from ..errors import ProgramError
from ..hints.diagnostic import Diagnostic
from ..inputs.instance import Instance
from ..program import REJECTED, USAGE
from ..reading.headings import compared_texts
from ..reading.network import Network
from ..reading.output import written
from ..reading.text import tokens
from ..report.json_objects import dump_lines, no_plan_json, plan_columns
from .command import ToolParser, instance_of, note, note_fractions, note_grouped, print_error, print_error_json
from .command import run as run_tool
from .why import SHOWN, infeasible_lines

NAME = "netflow-plan"


def main(arguments: Sequence[str]) -> int:
    parser = ToolParser(__doc__ or "", prog=NAME).add_instance()
    parser.add_argument("--used", action="store_true", help="only arcs that carry something")
    parser.add_argument("--all", action="store_true", help="without a plan: every line of each list")
    parser.add_argument("--json", action="store_true", help="the answer as a JSON object")
    parser.add_argument(
        "--convert", metavar="FOLDER", default="", help="convert a model with variables to this folder first"
    )
    parsed = parser.parse_args(arguments)
    if parsed.convert:
        status = convert(parsed)
        if status:
            return status
    with instance_of(parsed) as instance:
        try:
            return answer(instance, parsed)
        except ProgramError as problem:
            if parsed.json:
                return print_error_json(problem, instance)
            found = Diagnostic.of_instance(problem, instance)
            print_error(problem, found, instance)
            offer_conversion(parsed, instance)
            return problem.status


def answer(instance: Instance, parsed: argparse.Namespace) -> int:
    """Prints the plan, or why there is none, and returns the status."""
    net = instance.network()[1]
    note_fractions(net)
    if parsed.json:
        note_grouped(instance)
        print(dump_lines(plan_columns(net) if net.cut is None else no_plan_json(net)))
        return 0 if net.cut is None else 2
    if net.cut is None:
        sys.stdout.write(written(net, parsed.used))
        sys.stdout.flush()
    else:
        print("\n".join(infeasible_lines(net, reasons(net), 10**9 if parsed.all else SHOWN)), flush=True)
    note_grouped(instance)
    note(odd_lines(instance, net))
    return 0 if net.cut is None else 2


def odd_lines(instance: Instance, net: Network) -> list[str]:
    """Returns what is allowed and often a mistake."""
    data = [source.text() for source in instance.data]
    return [*compared_texts(instance.model.text(), data), *remark_lines(instance, net)]


def has_variables(instance: Instance) -> bool:
    """Whether a model declares variables, as models for other solvers do."""
    words = [token.text for token in tokens(instance.model.text())]
    return any(
        word == "var" and here and re.fullmatch(r"[A-Za-z_]\w*", here) for word, here in zip(words, [*words[1:], ""])
    )


def offer_conversion(parsed: argparse.Namespace, instance: Instance) -> None:
    """Names the tool that converts a model with variables."""
    if has_variables(instance) and not parsed.convert:
        files = shlex.join([parsed.model, *parsed.data])
        note(
            [
                "the model has variables (var): if it is a network, netflow-convert writes it with nodes and arcs:",
                f"    netflow-convert {files} --output FOLDER",
                f"or convert and solve at once: netflow-plan {files} --convert FOLDER",
            ]
        )


def convert(parsed: argparse.Namespace) -> int:
    """Calls `netflow-convert MODEL [DATA ..] --output FOLDER`, and makes the new files those of the question.

    The converter prints the paths of its files, a line each, the model first. Its status is returned.
    """
    try:
        tool = importlib.import_module("..tools.convert", __package__)
    except ImportError:
        raise ProgramError(USAGE, f"{NAME}: --convert needs netflow-convert, which is not installed\n") from None
    printed = io.StringIO()
    with contextlib.redirect_stdout(printed):
        status = int(tool.main([parsed.model, *parsed.data, "--output", parsed.convert]))
    if status == 0:
        paths = printed.getvalue().splitlines()
        if not paths or not all(map(os.path.isfile, paths)):
            raise ProgramError(REJECTED, f"{NAME}: netflow-convert names no files\n")
        parsed.model, *parsed.data = paths
        note([f"converted to {', '.join(paths)}"])
    return status


def command() -> None:
    run_tool(main)


if __name__ == "__main__":
    command()
