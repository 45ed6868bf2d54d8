"""What if: the answers to several cases as a table, and the difference of two plans."""
from __future__ import annotations

import argparse
import copy
import itertools
import re
from typing import Any

from ..analysis.reasons import reasons
from ..errors import DataError, ProgramError, ScaleError, Unbounded
from ..hints.diagnostic import Diagnostic
from ..inputs.instance import Instance
from ..program import REJECTED, USAGE
from ..reading.network import Network
from ..tools.command import instance_of, note, note_grouped
from ..types import Number

# Two whole numbers for a value with a key, which can be one with a decimal comma, as in `cost[north,hill]=4,15`.
DECIMAL_COMMA = re.compile(r"[^=]*\]\s*=\s*[0-9]+,[0-9]{1,2}")
CHANGE = re.compile(r"\w+(?:\[[^\]]*\])?\s*=\s*(?:'[^']*'|\"[^\"]*\"|\S+)")


def cases_of(arguments: argparse.Namespace) -> list[list[str]]:
    """Returns the changes of each case: those of --case, then all combinations of the values of --vary."""
    result = [case_words(case) for case in arguments.case]
    varied = []
    for word in getattr(arguments, "vary", []):
        name, _, values = word.partition("=")
        if not values:
            raise ProgramError(USAGE, f"--vary {word}: expected NAME=VALUE,VALUE,..\n")
        if DECIMAL_COMMA.fullmatch(word):
            cases, meant = values.replace(",", " and "), values.replace(",", ".")
            note([f"--vary {word} is two cases, {cases}: if one number is meant, write {meant}"])
        varied.append([f"{name}={value.strip()}" for value in values.split(",")])
    return result + ([list(values) for values in itertools.product(*varied)] if varied else [])


def case_words(text: str) -> list[str]:
    """Returns the changes of one case; blanks inside brackets and quotes do not separate them."""
    result = CHANGE.findall(text)
    if "".join(result).replace(" ", "") != text.replace(" ", ""):
        raise ProgramError(USAGE, f"--case {text}: expected NAME=VALUE NAME[KEY]=VALUE ..\n")
    return result


def answer_of(arguments: argparse.Namespace, changes: list[str], extra_data: list[str] | None = None) -> Network:
    """Returns the network with the plan, or the cut, of a case."""
    asked = copy.copy(arguments)
    asked.data = [*arguments.data, *(extra_data or [])]
    with instance_of(asked, changes) as instance:
        net = instance.network()[1]
        if extra_data and instance.rewriting is not None:
            # A plan with more data can replace those of the first plan as a whole.
            instance.notes = [line for line in instance.notes if line not in instance.rewriting.idle_lines]
        note_grouped(instance)
        return net


def difference(value: Number, base: Number) -> str:
    change = value - base
    return f"+{change}" if change > 0 else str(change)


def scenarios(arguments: argparse.Namespace, out: Any) -> int:
    """Writes a row for the unchanged model, and one for each case. A case with an error does not end the table; the
    status is then 3."""
    cases = cases_of(arguments)
    if not cases:
        raise ProgramError(USAGE, "netflow-sheet scenarios: give at least one --case or --vary\n")
    base = answer_of(arguments, [])
    out.writerow(["case", "status", "value", "difference", "arcs that differ", "reason"])
    first: list[object] = ["optimal", base.value, 0, 0, ""]
    out.writerow(["as it is", *(first if base.cut is None else without_plan(base))])
    status = 0
    for case in cases:
        try:
            with instance_of(arguments, case) as instance:
                row = case_cells(base, instance.network()[1])
                note_grouped(instance)
        except ProgramError as problem:
            if problem.status != REJECTED:
                raise
            row, status = ["error", "", "", "", error_text(problem, instance)], REJECTED
        except (ScaleError, DataError, Unbounded) as problem:
            row, status = ["error", "", "", "", str(problem)], REJECTED
        out.writerow([" ".join(case), *row])
    return status


def error_text(problem: ProgramError, instance: Instance) -> str:
    """Returns the error line of a case, with a hint if there is one that is sure."""
    found, line = Diagnostic.of_instance(problem, instance), problem.message.split("\n")[0]
    return f"{line}: {found.hints()[0]}" if found is not None and found.has_sure_hint() else line


def without_plan(net: Network) -> list[object]:
    """Returns the cells of a case without a plan, with the largest shortage as the reason."""
    return ["infeasible", "", "", "", reasons(net)[0].headline(net)]


def case_cells(base: Network, net: Network) -> list[object]:
    """Returns the cells of a case: status, value, difference, how many arcs differ, and the reason without
    a plan."""
    if net.cut is not None:
        return without_plan(net)
    if base.cut is not None:
        return ["optimal", net.value, "", "", ""]
    flows = {arc.text: arc.flow for arc in base.arcs}
    differing = sum(flows.get(arc.text, 0) != arc.flow for arc in net.arcs) + sum(
        flows[name] != 0 for name in flows.keys() - {arc.text for arc in net.arcs}
    )
    return ["optimal", net.value, difference(net.value, base.value), differing, ""]


def diff(arguments: argparse.Namespace, out: Any) -> int:
    """Writes the objective, and each arc whose flow differs between the unchanged model and the case."""
    if not arguments.case and not arguments.extra_data:
        raise ProgramError(USAGE, "netflow-sheet diff: give --case or --with\n")
    first = answer_of(arguments, [])
    second = answer_of(
        arguments, [change for case in arguments.case for change in case_words(case)], arguments.extra_data
    )
    for net, name in ((first, "as it is"), (second, "as changed")):
        if net.cut is not None:
            raise ProgramError(2, f"netflow-sheet: no plan {name}: {reasons(net)[0].headline(net)}\n")
    arcs = {arc.text: arc for arc in [*second.arcs, *first.arcs]}
    flows = [{arc.text: arc.flow for arc in net.arcs} for net in (first, second)]
    width = max((len(arc.key) for arc in arcs.values()), default=0)
    out.writerow(["name", *(f"key {index + 1}" for index in range(width)), "before", "after", "difference"])
    out.writerow([first.objective, *[""] * width, first.value, second.value, difference(second.value, first.value)])
    order = dict.fromkeys([*(arc.text for arc in first.arcs), *(arc.text for arc in second.arcs)])
    for text in order:
        before, after = (flows_of_plan.get(text, 0) for flows_of_plan in flows)
        if before != after:
            arc = arcs[text]
            out.writerow([arc.name, *arc.key, *[""] * (width - len(arc.key)), before, after, difference(after, before)])
    return 0
