"""Plans as tables: comma-separated values, grids, workbooks."""
from __future__ import annotations

import argparse
import csv
import io
import sys
from typing import Dict, Iterable, Iterator, Sequence

from ..analysis.reasons import reasons
from ..errors import ProgramError
from ..inputs.instance import Instance
from ..program import REJECTED
from ..reading.headings import headings
from ..reading.network import Arc, Network
from ..reading.output import divided_cut
from ..report.json_objects import dump_lines, no_plan_json, plan_columns
from ..tools.command import note_fractions, note_grouped, print_error_json
from ..types import Key, Member, Number
from .workbooks import write_xlsx

COLUMNS = ("flow", "lower", "upper", "price", "from", "to")


class Cells(Dict[object, str]):
    """Cells as comma-separated values have them, with quotes if they need some. It grows as rows are written."""

    def __missing__(self, value: object) -> str:
        out = io.StringIO()
        csv.writer(out, lineterminator="\n").writerow([value, ""])
        result = self[value] = out.getvalue()[:-2]
        return result


def write_rows(rows: Iterable[Sequence[object]]) -> None:
    """Writes rows with equally many cells, two or more, as `csv.writer` does; cells that occur often are made once."""
    text = Cells().__getitem__
    sys.stdout.write("".join([",".join(map(text, row)) + "\n" for row in rows]))


def arc_cells(net: Network, arc: Arc) -> list[object]:
    return [arc.flow, arc.lower, "" if arc.is_open else arc.upper, arc.price, net.end(arc.src), net.end(arc.dst)]


def list_of(net: Network, arcs: list[Arc], titles: list[str]) -> Iterator[list[object]]:
    """Yields the table of one declaration: its keys by their titles, then the numbers and ends."""
    yield [*titles, *COLUMNS]
    for arc in arcs:
        yield [*arc.key, *arc_cells(net, arc)]


def one_table(net: Network, arcs: list[Arc]) -> Iterator[list[object]]:
    """Yields one table of all declarations; an arc with fewer keys has empty cells."""
    width = max((len(arc.key) for arc in arcs), default=0)
    yield ["arc", *(f"key {index + 1}" for index in range(width)), *COLUMNS]
    for arc in arcs:
        yield [arc.name, *arc.key, *[""] * (width - len(arc.key)), *arc_cells(net, arc)]


def grid_of(name: str, arcs: list[Arc]) -> Iterator[list[object]]:
    """Yields rows by all keys but the last, columns by the last; an arc that does not exist is an empty cell."""
    across = list(dict.fromkeys(arc.key[-1] for arc in arcs))
    rows: dict[Key, dict[Member, Number]] = {}
    for arc in arcs:
        rows.setdefault(tuple(arc.key[:-1]), {})[arc.key[-1]] = arc.flow
    yield [name, *([""] * (len(arcs[0].key) - 2)), *across]
    for key, flows in rows.items():
        yield [*key, *(flows.get(member, "") for member in across)]


def tables_of(net: Network, model: str, arguments: argparse.Namespace) -> list[tuple[str, list[list[object]]]]:
    """Returns pairs of a declaration's name and the rows of its table, or its grid."""
    result = []
    for name, arcs in net.declared().items():
        used = [arc for arc in arcs if arc.flow or not arguments.used]
        if arguments.only in ("", name) and used:
            is_grid = arguments.grid and len(used[0].key) > 1
            result.append(
                (
                    name,
                    list(
                        grid_of(name, used) if is_grid else list_of(net, used, headings(model, name, len(used[0].key)))
                    ),
                )
            )
    return result


def plan(arguments: argparse.Namespace, instance: Instance) -> int:
    """Writes the plan of a question; without a plan its cut goes to standard error."""
    with instance:
        try:
            answer, net = instance.network()
        except ProgramError as problem:
            if arguments.json:
                return print_error_json(problem, instance)
            raise
        note_fractions(net)
        note_grouped(instance)
        if arguments.json:
            print(dump_lines(plan_columns(net) if net.cut is None else no_plan_json(net)))
            return answer.status
        if answer.status:
            sys.stderr.write(
                f"{divided_cut(answer.text, net)}netflow-sheet: no plan: {reasons(net)[0].headline(net)}\n"
            )
            return answer.status
        names = list(net.declared())
        if arguments.only and arguments.only not in names:
            raise ProgramError(
                REJECTED, f"netflow-sheet: --only {arguments.only}: the model has the arcs {', '.join(names)}\n"
            )
        model = instance.model.text()
        write(net, model, arguments)
    return 0


def write(net: Network, model: str, arguments: argparse.Namespace) -> None:
    out = csv.writer(sys.stdout, lineterminator="\n")
    if arguments.xlsx:
        summary: list[list[object]] = [["objective", net.objective], ["value", net.value]]
        write_xlsx(arguments.xlsx, [("Summary", summary), *tables_of(net, model, arguments)])
    elif arguments.only:
        for _, rows in tables_of(net, model, arguments):
            write_rows(rows)
    elif arguments.grid:
        out.writerow([net.objective, net.value])
        for _, rows in tables_of(net, model, arguments):
            out.writerow([])
            write_rows(rows)
    else:
        write_rows(one_table(net, [arc for arc in net.arcs if arc.flow or not arguments.used]))
        out.writerows([[], [net.objective, net.value]])
