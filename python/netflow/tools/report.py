"""usage: netflow-report MODEL [DATA ..] [--objective NAME] [--svg] [--json] > FILE.html

Writes one self-contained HTML page of the answer: the plan's value, a drawing of the network with its flows, and for each declaration
of arcs a table that a click sorts, and a grid if it has two keys or more. If there is no plan, the page says why, with the places and
arcs marked. With --svg only the drawing. The exit status is that of netflow.
"""
from __future__ import annotations

from typing import Sequence

from ..errors import ProgramError
from ..inputs.instance import Instance
from ..report.json_objects import dump_lines, no_plan_json, plan_columns
from ..report.report import Report
from .command import ToolParser, instance_of, note_fractions, print_error_json
from .command import run as run_tool
from .command import title_of


def main(arguments: Sequence[str]) -> int:
    parser = ToolParser(__doc__, prog="netflow-report").add_instance()
    parser.add_argument("--svg", action="store_true", help="only the drawing")
    parser.add_argument("--json", action="store_true", help="the plan as a JSON object")
    parser.add_argument("--unit", metavar="TEXT", default="", help="the unit of the value, such as EUR")
    parsed = parser.parse_args(arguments)
    with instance_of(parsed) as instance:
        if parsed.json:
            return print_json(instance)
        report = Report(instance, title_of(parsed), parsed.unit)
        note_fractions(report.net)
        print(report.picture(True)[0] if parsed.svg else report.html(), end="\n" if parsed.svg else "")
        return 0 if report.has_plan else 2


def print_json(instance: Instance) -> int:
    try:
        answer, net = instance.network()
    except ProgramError as problem:
        return print_error_json(problem, instance)
    print(dump_lines(plan_columns(net) if net.cut is None else no_plan_json(net)))
    return answer.status


def command() -> None:
    run_tool(main)


if __name__ == "__main__":
    command()
