"""usage: netflow-sheet plan MODEL [DATA ..] [--only NAME] [--grid] [--used] [--json] [--xlsx FILE] [--objective NAME]
       netflow-sheet scenarios MODEL [DATA ..] [--case "NAME=VALUE .."] [--vary NAME=VALUE,..] [--objective NAME]
       netflow-sheet diff MODEL [DATA ..] [--case "NAME=VALUE .."] [--with DATA] [--objective NAME]
       netflow-sheet set NAME SHEET [--heading] [--columns A,B]
       netflow-sheet list SHEET [--keys N] [--set NAME] [--columns A,B] [--scale NAME=FACTOR] [--comma]
       netflow-sheet grid NAME SHEET [--turned] [--scale NAME=FACTOR] [--comma]
       netflow-sheet data CONFIG

Between netflow and spreadsheets. plan writes the plan as comma-separated values: one table, with --only that of one declaration of arcs,
with --grid a grid for each declaration whose columns are the last key, with --xlsx a workbook. scenarios solves the model once for
each case and writes a table; diff writes the arcs whose flow differs between the model as it is and one case. The others write a
statement for a data text from a sheet: a file of comma-separated values (or with ; or tabs between the cells), a sheet of a workbook
(FILE.xlsx or FILE.xlsx:SHEET), or - for standard input:
  set   the members of a set, a row a member, or a tuple if a row has several cells; --heading: the first row is a heading;
  list  columns: first the keys (--keys N, else 1), then a column for each parameter, its name in the first row; with --set NAME
        the keys are the members of that set too;
  grid  a parameter with two keys: rows by the first key, columns by the second, whose members are in the first row; with --turned
        the other way round;
  data  all statements that a file lists: [set NAME], [list ANY] and [grid NAME], each with sheet = .. and the options above.
An empty cell has no value. A cell that no data text can have is reported by its place, as SHEET:B3, with the status 3.
"""
from __future__ import annotations

import argparse
import csv
import difflib
import sys
from fractions import Fraction
from typing import Sequence

from ..errors import ProgramError
from ..exact import common_factor, parse_numeral
from ..inputs.grouped_digits import GROUPED, meant
from ..program import REJECTED
from ..reading.data import PLAIN_NAME
from ..sheets.files import Cell, column_number, filled, read_sheet, stem
from ..sheets.keys import note_totals, require_keys_once
from ..sheets.plans import plan
from ..sheets.scenarios import diff, scenarios
from .command import ToolParser, instance_of
from .command import run as run_tool
from .command import scale_of

# The sections of a configuration, and their entries.
SECTIONS = ("set", "list", "grid")
ENTRIES = ("sheet", "heading", "columns", "keys", "set", "scale", "comma", "turned")
KINDS = ("plan", "scenarios", "diff", "set", "list", "grid", "data")


def chosen(rows: list[list[Cell]], columns: str) -> list[list[Cell]]:
    """Returns the columns by the titles of the first row, or by letters."""
    if not columns:
        return rows
    titles = [cell.text for cell in rows[0]]
    places = []
    for name in (name.strip() for name in columns.split(",")):
        if name in titles:
            places.append(titles.index(name))
        elif name.isalpha() and name.isupper() and len(name) <= 2 and column_number(name) < max(map(len, rows)):
            places.append(column_number(name))
        else:
            raise ProgramError(
                REJECTED, f"{rows[0][0].path}: no column is called {name!r}; it has {', '.join(filter(None, titles))}\n"
            )
    width = max(map(len, rows))
    return [[filled(row, width)[index] for index in places] for row in rows]


def as_set(name: str, rows: list[list[Cell]], has_heading: bool) -> list[str]:
    if has_heading:
        rows = rows[1:]
    elif looks_like_heading(name, rows):
        sys.stderr.write(
            f"netflow-sheet: {rows[0][0].place()}: {rows[0][0].text!r} becomes a member; if it is a heading, add"
            " --heading\n"
        )
    width = len(rows[0]) if rows else 1
    note_totals([row[0] for row in rows], [], f"a member of {name}")
    lines: dict[str, Cell] = {}
    for row in rows:
        members = [index.member() for index in filled(row, width)]
        lines.setdefault(members[0] if width == 1 else f"({','.join(members)})", row[0])
    if len(lines) < len(rows):
        sys.stderr.write(
            f"netflow-sheet: {rows[0][0].path}: members occur more than once and are written once: {len(lines)} of"
            f" {len(rows)} rows\n"
        )
    return [f"set {name} :=", *lines, ";"]


def looks_like_heading(name: str, rows: list[list[Cell]]) -> bool:
    first = rows[0][0].text.lower()
    return len(rows) > 1 and any(
        difflib.SequenceMatcher(None, first, other.lower()).ratio() > 0.75 for other in (name, stem(rows[0][0].path))
    )


def as_list(rows: list[list[Cell]], keys: int, members: str, scale: dict[str, int], has_comma: bool) -> list[str]:
    titles = rows[0][keys:]
    if not titles:
        rows[0][0].reject(
            f"is in the first row, which has {len(rows[0])} of at least {keys + 1} titles: the keys, then the"
            " parameters. Is it a title of the sheet?"
        )
    names = [cell.name() for cell in titles]
    require_once(titles)
    body = [filled(row, len(rows[0])) for row in rows[1:]]
    cells = [[cell.value(scale.get(name, 1), has_comma) for name, cell in zip(names, row[keys:])] for row in body]
    note_decimals(names, cells)
    note_points([cell for row in body for cell in row[keys:]], has_comma)
    require_keys_once(rows[0], body, cells)
    if keys:
        note_totals([row[0] for row in body], cells, f"a member of {members}" if members else "a key")
    lines = [" ".join([cell.member() for cell in row[:keys]] + values) for row, values in zip(body, cells)]
    return [f"param: {members + ': ' if members else ''}{' '.join(names)} :=", *lines, ";"]


def note_decimals(names: Sequence[str], cells: list[list[str]]) -> None:
    """Reports the parameters with decimals, which netflow itself rejects, and their factors."""
    factors: dict[str, int] = {}
    for row in cells:
        for name, cell in zip(names, row):
            number = parse_numeral(cell)
            if number is not None and number.denominator > 1:
                factors[name] = common_factor([Fraction(1, factors.get(name, 1)), number])
    if factors:
        scale = " ".join(f"--scale {name}={factor}" for name, factor in factors.items())
        sys.stderr.write(
            f"netflow-sheet: {', '.join(factors)}: decimals are kept, and the tools scale them; for netflow itself add"
            f" {scale}\n"
        )


def require_once(titles: Sequence[Cell]) -> None:
    """Rejects a heading that has a title twice."""
    seen: dict[str, Cell] = {}
    for cell in titles:
        if cell.text and cell.text in seen:
            cell.reject(f"is in the heading twice, in {seen[cell.text].place()} too")
        seen[cell.text] = cell


def note_dates(rows: list[list[Cell]]) -> None:
    """Reports cells that are dates, which are written as their numbers."""
    dates = [cell for row in rows for cell in row if cell.is_date]
    if dates:
        first, more = dates[0], f" ({len(dates) - 1} more cells are dates)" if len(dates) > 1 else ""
        sys.stderr.write(
            f"netflow-sheet: {first.place()}: a date, which is written as its number, {first.text}{more};"
            " format the column as text to keep it\n"
        )


def note_points(cells: list[Cell], has_comma: bool) -> None:
    """Reports the decimals of a text file that may be whole numbers with a point between groups of digits. With a comma
    as the decimal mark they are such numbers."""
    is_odd = [GROUPED.fullmatch(cell.text) and not cell.is_number and not has_comma for cell in cells]
    result = [cell for cell, odd in zip(cells, is_odd) if odd]
    for cell in result[:3]:
        sys.stderr.write(f"netflow-sheet: {cell.place()}: {cell.text}: {meant(cell.text)}\n")
    if len(result) > 3:
        sys.stderr.write(f"netflow-sheet: {len(result) - 3} more cells of {result[0].path} have such a point\n")


def as_grid(name: str, rows: list[list[Cell]], is_turned: bool, scale: dict[str, int], has_comma: bool) -> list[str]:
    columns = [cell.member() for cell in rows[0][1:]]
    require_once(rows[0][1:])
    if not columns:
        rows[0][0].reject("has no column to its right")
    body = [filled(row, len(rows[0])) for row in rows[1:]]
    cells = [[cell.value(scale.get(name, 1), has_comma) for cell in row[1:]] for row in body]
    note_decimals([name] * len(columns), cells)
    note_points([cell for row in body for cell in row[1:]], has_comma)
    note_totals([row[0] for row in body], cells, f"a key of {name}")
    note_totals(rows[0][1:], list(zip(*cells)), f"a key of {name}")
    lines = [" ".join([row[0].member(), *values]) for row, values in zip(body, cells)]
    return [f"param {name}{' (tr)' if is_turned else ''}: {' '.join(columns)} :=", *lines, ";"]


def statement(arguments: argparse.Namespace) -> list[str]:
    """Returns the lines of the statement that a sheet becomes."""
    rows = chosen(read_sheet(arguments.sheet), getattr(arguments, "columns", ""))
    note_dates(rows)
    if arguments.kind == "set":
        return as_set(arguments.name, rows, arguments.heading)
    scale = scale_of(arguments.scale)
    if arguments.kind == "list":
        return as_list(rows, arguments.keys, arguments.set_name, scale, arguments.comma)
    return as_grid(arguments.name, rows, arguments.turned, scale, arguments.comma)


def data(arguments: argparse.Namespace, parser: ToolParser) -> list[str]:
    """Returns all statements that a configuration lists."""
    import configparser
    import os

    config = configparser.ConfigParser(interpolation=None)
    config.optionxform = str  # type: ignore[assignment]
    with open(arguments.config, encoding="utf-8") as file:
        try:
            config.read_file(file)
        except configparser.Error as problem:
            raise ProgramError(
                REJECTED, f"netflow-sheet: {arguments.config}: {str(problem).splitlines()[0]}\n"
            ) from None
    folder, lines = os.path.dirname(arguments.config), []
    for title in config.sections():
        kind, _, name = title.partition(" ")
        entry = dict(config[title])
        require_section(arguments.config, title, entry)
        asked = [kind, *([name] if kind != "list" else []), os.path.join(folder, entry.pop("sheet"))]
        for option, value in entry.items():
            asked += (
                [f"--{option}"]
                if value in ("yes", "true")
                else [f"--{option}", value]
                if value not in ("no", "false")
                else []
            )
        lines += statement(parser.parse_args(asked))
    return lines


def require_section(config: str, title: str, entry: dict[str, str]) -> None:
    """Rejects a section of a configuration without a known kind, a name, or a sheet."""
    kind, _, name = title.partition(" ")
    if kind in SECTIONS and "sheet" in entry and (name or kind == "list"):
        return
    said = "expected [set NAME], [list NAME] or [grid NAME] with sheet = .."
    meant = difflib.get_close_matches(kind.lower(), SECTIONS, 1, 0.6)
    others = [option for option in entry if option not in ENTRIES]
    if kind not in SECTIONS and meant:
        said = f"{kind}: is {meant[0]} meant? {said}"
    elif kind in SECTIONS and "sheet" not in entry:
        said = f"{others[0]}: is sheet meant? {said}" if others else f"the entry sheet is missing: {said}"
    raise ProgramError(REJECTED, f"netflow-sheet: {config}: [{title}]: {said}\n")


def build_parser() -> ToolParser:
    usage, _, more = (__doc__ or "").partition("\n\n")
    parser = ToolParser(f"{usage}\n\n{more}", prog="netflow-sheet")
    kinds = parser.add_subparsers(dest="kind", metavar="|".join(KINDS), required=True, parser_class=ToolParser)
    usages = {
        line.replace("usage: ", "").split()[1]: line.replace("usage: ", "").strip() for line in usage.splitlines()
    }
    made = {kind: kinds.add_parser(kind, usage=usages[kind], prog="netflow-sheet") for kind in KINDS}
    for kind in ("plan", "scenarios", "diff"):
        made[kind].add_instance()
    add_plan_options(made)
    for kind in ("set", "grid"):
        made[kind].add_argument("name", metavar="NAME")
    for kind in ("set", "list", "grid"):
        made[kind].add_argument("sheet", metavar="SHEET")
    made["set"].add_argument("--heading", action="store_true", help="the first row is a heading")
    made["list"].add_argument(
        "--keys",
        metavar="N",
        type=int,
        default=1,
        help="how many columns are keys (1); 0: one row of values without a key",
    )
    made["list"].add_argument(
        "--set", metavar="NAME", default="", dest="set_name", help="the keys are the members of this set too"
    )
    made["grid"].add_argument("--turned", action="store_true", help="rows by the second key")
    for kind in ("set", "list"):
        made[kind].add_argument(
            "--columns", metavar="A,B", default="", help="the columns to take, by title or letter, keys first"
        )
    for kind in ("list", "grid"):
        made[kind].add_argument(
            "--scale", metavar="NAME=FACTOR", action="append", default=[], help="multiply a parameter's values"
        )
        made[kind].add_argument(
            "--comma", action="store_true", help="decimals have a comma, and a point groups thousands: 1.204,15"
        )
    made["data"].add_argument("config", metavar="CONFIG")
    return parser


def add_plan_options(made: dict[str, ToolParser]) -> None:
    made["plan"].add_argument("--only", metavar="NAME", default="", help="the table of one declaration of arcs")
    made["plan"].add_argument("--grid", action="store_true", help="a grid for each declaration")
    made["plan"].add_argument("--used", action="store_true", help="only arcs that carry something")
    made["plan"].add_argument("--json", action="store_true", help="the plan as a JSON object")
    made["plan"].add_argument("--xlsx", metavar="FILE", default="", help="write a workbook")
    for kind in ("scenarios", "diff"):
        made[kind].add_argument(
            "--case",
            metavar="CHANGES",
            action="append",
            default=[],
            help='changes of one case: "van=45 wants[hill]=35"',
        )
    made["scenarios"].add_argument(
        "--vary", metavar="NAME=VALUE,..", action="append", default=[], help="a case for each value"
    )
    made["diff"].add_argument(
        "--with",
        metavar="DATA",
        action="append",
        default=[],
        dest="extra_data",
        help="data that come last in the other plan",
    )


def main(arguments: Sequence[str]) -> int:
    parser = build_parser()
    parsed = parser.parse_args(arguments)
    for name in (getattr(parsed, "name", None), getattr(parsed, "set_name", None)):
        if name and not PLAIN_NAME.fullmatch(name):
            parser.error(f"{name!r} is no name of a set or parameter")
    if getattr(parsed, "keys", 1) < 0:
        parser.error("--keys takes a number from 0 up")
    if parsed.kind == "plan":
        return plan(parsed, instance_of(parsed))
    if parsed.kind in ("scenarios", "diff"):
        out = csv.writer(sys.stdout, lineterminator="\n")
        return (scenarios if parsed.kind == "scenarios" else diff)(parsed, out)
    print("\n".join(data(parsed, parser) if parsed.kind == "data" else statement(parsed)))
    return 0


def command() -> None:
    run_tool(main)


if __name__ == "__main__":
    command()
