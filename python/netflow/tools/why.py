"""usage: netflow-why MODEL [DATA ..] [--objective NAME] [--all] [--json] [--set NAME=VALUE] [--scale NAME=FACTOR] [--bounds]

If a model has no plan, says why in its own names: which places, what they need together, which arcs lead there with their bounds, how
much is short, and the least change that gives a plan: first the numbers each of which is enough alone. If it has one, says which arcs
are at a bound, what one more unit at each place costs or saves, and how far that holds. Shows 20 lines of each list, with --all every
line. If a check of the model fails, it asks again without the check. The exit status is that of netflow.
"""
from __future__ import annotations

import re
from typing import Sequence

from ..analysis.changes import is_left_out, least_changes, left_out_text, single_title, total
from ..analysis.directions import opposite_sides
from ..analysis.gains import EXACT_WORK, Gains, Place, better, bottleneck
from ..analysis.reasons import Part, Reason, reasons
from ..analysis.sensitivity import Marginal
from ..analysis.suspicions import remark_lines
from ..errors import ProgramError
from ..exact import magnitude
from ..inputs.grouped_digits import grouped_lines_of
from ..inputs.instance import Instance
from ..inputs.source import Input
from ..reading.headings import compared_texts
from ..reading.model import Unparsed, parse
from ..reading.network import Arc, Network
from ..reading.text import few
from ..report.json_objects import arc_columns, dump_lines, no_plan_json, node_columns, plan_json_head
from ..types import Number
from .command import ToolParser, instance_of, note_fractions, note_grouped, print_error_json
from .command import run as run_tool

SHOWN, SETS = 20, 3


def rows(pairs: Sequence[tuple[object, object]], most: int) -> list[str]:
    """Returns amounts and texts, one below the other."""
    wide = max((len(str(amount)) for amount, _ in pairs[:most]), default=0)
    lines = [f"    {str(amount):>{wide}}  {text}" for amount, text in pairs[:most]]
    return lines + ([f"    {'':>{wide}}  and {len(pairs) - most} more (--all shows them)"] if len(pairs) > most else [])


def part_rows(parts: list[Part], most: int) -> list[str]:
    """Returns the lines of a list of amounts; a long one by declaration, with the closed arcs first."""
    if len(parts) <= most:
        return rows([(part.amount, part.text) for part in parts], most)
    groups: dict[str, list[Part]] = {}
    for part in parts:
        groups.setdefault(part.name, []).append(part)
    result: list[tuple[Number, str]] = [
        (sum(part.amount for part in group), group_text(name, group)) for name, group in groups.items()
    ]
    closed = [part for part in parts if part.is_arc and not part.amount]
    result.sort(key=lambda pair: pair[0], reverse=True)
    lines = rows(result, most)
    if closed:
        lines.append(f"    closed: {few([part.text[3:].rpartition(', which carries')[0] for part in closed], 5)}")
    largest = [part for part in parts if part.amount][:5]
    return [
        *lines,
        f"    the largest: {few([f'{part.text} ({part.amount})' for part in largest], 5)} (--all shows every line)",
    ]


def group_text(name: str, group: list[Part]) -> str:
    what = "arcs" if group[0].is_arc else "places"
    closed = sum(not part.amount for part in group)
    return f"{name}: {len(group)} {what[:-1] if len(group) == 1 else what}" + (
        f", {closed} of them 0" if closed and group[0].is_arc else ""
    )


# No plan


def reason_lines(net: Network, reason: Reason, most: int) -> list[str]:
    asked, helping, none, other = reason.words()
    lines = [reason.headline(net), f"  {asked}, {reason.needed()} in all:", *part_rows(reason.asks, most)]
    lines += (
        [f"  {helping}, {reason.given()} in all:", *part_rows(reason.helps, most)] if reason.helps else [f"  {none}"]
    )
    if reason.idle and (len(reason.idle) <= most or not reason.helps):
        lines += [f"  {other}:", *rows([("", part.text) for part in reason.idle], most)]
    quiet = reason.quiet(net)
    return lines + ([f"  pass on what they get: {few(quiet, most)}"] if quiet else [])


def change_lines(net: Network, most: int) -> list[str]:
    """Returns the changes at one place that are enough, then the least change of each other kind of bounds."""
    found = least_changes(net)
    if found.is_large:
        return ["", "The least change with which there is a plan is not computed: the model is too large."]
    title = single_title(found.single) if found.single else "all shortages together:"
    lines = [
        "",
        f"Least change with which there is a plan{':' if found.single else ','} {title}",
        *(f"    {change.sentence()}" for change in found.single),
    ]
    for what, changes in found.others().items():
        lines.append(f"  {what}: none is enough" if changes is None else f"  {what}: {total(changes)} in all")
        if changes is not None and is_left_out(changes):
            lines[-1] += f". {left_out_text(net, changes, most)}"
            continue
        listed = sorted(changes or [], key=lambda change: -change.amount)
        lines += rows([(change.amount, change.sentence()) for change in listed], most)
    return lines + ["  (Each unit counts the same, and other changes may be as small.)"]


def infeasible_lines(net: Network, found: list[Reason], most: int) -> list[str]:
    """Returns the text of a model without a plan."""
    lines = ["No plan.", *(text for line in opposite_sides(net) for text in ("", line))]
    for reason in found[: most if most > SHOWN else SETS]:
        lines += ["", *reason_lines(net, reason, most)]
    if len(found) > SETS and most <= SHOWN:
        lines += ["", f"{len(found) - SETS} more sets of places are short (--all shows them)"]
    return lines + change_lines(net, most)


# A plan


def bound_text(arc: Arc) -> str:
    return f"at its most, {arc.upper}" if arc.is_full() else f"at its least, {arc.lower}"


def bottleneck_lines(net: Network, gains: Gains, most: int) -> list[str]:
    cut = bottleneck(net, gains)
    if not cut:
        return []
    listed = sorted(cut, key=lambda arc: -arc.upper)
    return [
        "",
        f"Bottleneck: {len(cut)} {'arc' if len(cut) == 1 else 'arcs'}, {net.value} in all. No flow can be larger:",
        *rows([(arc.upper, f"{arc.text} from {net.end(arc.src)} to {net.end(arc.dst)}") for arc in listed], most),
    ]


def arc_lines(net: Network, gains: Gains, most: int) -> list[str]:
    count = len(gains.felt) + len(gains.free)
    if not count:
        return ["", "No arc is full, and none is at a lower bound other than 0."]
    lines = ["", f"Arcs at a bound: {count} of {len(net.arcs)}. Arcs at their lower bound 0 are not counted."]
    title = (
        f"  If the bound were one unit wider, the plan would {better(net)[:-1]}{'' if gains.is_exact else ' at most'}:"
    )
    # Only the lines that are shown get a limit.
    listed: list[tuple[object, object]] = [
        (amount, f"{arc.text} {bound_text(arc)}{gains.limit(arc)}") for amount, arc in gains.felt[:most]
    ]
    lines += [title, *rows([*listed, *gains.felt[most:]], most)] if gains.felt else []
    return lines + ([f"  A wider bound {better(net)} nothing at: {free_text(gains.free, most)}"] if gains.free else [])


def free_text(arcs: list[Arc], most: int) -> str:
    if len(arcs) <= most:
        return ", ".join(arc.text for arc in arcs)
    groups: dict[str, int] = {}
    for arc in arcs:
        groups[arc.name] = groups.get(arc.name, 0) + 1
    return ", ".join(f"{name} ({count} arcs)" for name, count in groups.items())


def matched_lines(net: Network, marginal: Marginal, places: list[Place], most: int) -> list[str]:
    """Returns what pairs of changes cost, if what places need and give matches exactly, so that none can change
    alone."""
    stuck = [place for place in places if place.side == "fixed" and place.wish and place.cost is None]
    if not stuck:
        return []
    whole = len(stuck) == sum(place.side == "fixed" and bool(place.wish) for place in places)
    lines = [
        "",
        (
            f"What {'the places' if whole else few([place.node.text for place in stuck], 3)} need and give matches"
            " exactly: none can change alone."
        ),
    ]
    needing = sorted(
        (place for place in stuck if not place.is_giver), key=lambda place: magnitude(place.node.low), reverse=True
    )
    for place in needing[: max(1, min(most, EXACT_WORK // max(1, len(net.arcs))))]:
        found = marginal.pair(place.number)
        if found is None:
            continue
        giver, cost = net.nodes[found[0]].text, found[1]
        verb = f"costs {cost}" if cost > 0 else f"{better(net)} {-cost}" if cost < 0 else "costs nothing"
        lines.append(f"    {place.node.text} {place.wish}: one more, with one more from {giver}, {verb}")
    shown = len(lines) - 2
    return lines + (
        [f"    and {len(needing) - shown} more (--all shows them)"] if shown and len(needing) > shown else []
    )


def place_lines(net: Network, marginal: Marginal, most: int) -> list[str]:
    places = [Place(net, marginal, number) for number in range(len(net.nodes))]
    matched = matched_lines(net, marginal, places, most)
    felt = sorted(
        (place for place in places if place.is_felt()), key=lambda place: magnitude(place.felt_cost), reverse=True
    )
    if not felt:
        return matched or ["", "One more unit at a place costs nothing, anywhere."]
    has_units = len(net.arcs) * len(felt[:most]) <= EXACT_WORK
    lines = [
        "",
        "One unit more at a place:",
        *(place.line(net, place.units(marginal) if has_units else 0) for place in felt[:most]),
    ]
    left = len(net.nodes) - len(felt[:most])
    others = f"    at the other {f'{left} places' if left > 1 else 'place'}: " + (
        "nothing" if len(felt) <= most else "--all shows them"
    )
    return lines + ([others] if left and not matched else []) + matched


def warning_lines(net: Network) -> list[str]:
    """Returns what is allowed and often a mistake: a value of 0, though arcs have prices."""
    prices = [bool(arc.flow) for arc in net.arcs if arc.price]
    return (
        ["", "The value is 0: the plan uses no arc with a price."]
        if net.value == 0 and prices and not any(prices)
        else []
    )


def feasible_lines(net: Network, most: int) -> list[str]:
    """Returns the text of a model with a plan; the network has its prices."""
    marginal = Marginal(net)
    gains = Gains(net, marginal)
    best = "No plan costs less." if net.sign > 0 else "No plan is worth more."
    lines = [
        f"There is a plan: {net.objective} = {net.value}. {best}",
        *bottleneck_lines(net, gains, most),
        *arc_lines(net, gains, most),
    ]
    lines += place_lines(net, marginal, most) + warning_lines(net)
    if not gains.is_exact:
        last = (
            "These changes are for the next unit; those of arcs are at most so much, since beyond it other arcs may"
            " become full."
        )
    elif any("; holds " in line for line in lines):
        last = "These changes are exact for each unit as far as they hold; beyond that other arcs are full."
    else:
        last = "These changes are exact for the next unit; beyond it other arcs may become full."
    return [*lines, "", last]


def without_check(instance: Instance, problem: ProgramError) -> Instance | None:
    """Returns the question without the check that fails; None if that is not the error."""
    match = re.match(r"E35 \w+ model (\d+):(\d+)", problem.message)
    if not match:
        return None
    text = instance.model.text()
    lines = text.split("\n")
    place = sum(len(line) + 1 for line in lines[: int(match[1]) - 1])
    place += len(
        lines[int(match[1]) - 1]
        .encode("utf-8", "surrogateescape")[: int(match[2]) - 1]
        .decode("utf-8", "surrogateescape")
    )
    try:
        decl = next(decl for decl in parse(text) if decl.kind == "check" and decl.start <= place <= decl.end)
    except (StopIteration, Unparsed):
        return None
    blank = re.sub(r"[^\n]", " ", text[decl.start : decl.end + 1])
    made = Instance(
        Input(text=text[: decl.start] + blank + text[decl.end + 1 :]),
        instance.data,
        objective=instance.objective,
        changes=instance.changes,
        scale=instance.scale,
        add_bounds=instance.add_bounds,
        ignore_outside=instance.ignore_outside,
    )
    print(f"The check in line {match[1]} fails: {' '.join(text[decl.start:decl.end + 1].split())}\nWithout it:\n")
    return made


def answer_lines(net: Network, most: int) -> list[str]:
    if net.cut is None:
        return feasible_lines(net, most)
    return infeasible_lines(net, reasons(net), most)


def text_lines(instance: Instance, net: Network, most: int) -> list[str]:
    """Returns the answer with what is worth a look; below `No plan.` the numbers that may be the reason come first."""
    lines, grouped = answer_lines(net, most), [*instance.notes, *grouped_lines_of(instance)]
    odd = [
        *compared_texts(instance.model.text(), [source.text() for source in instance.data]),
        *remark_lines(instance, net),
    ]
    if net.cut is not None and grouped:
        lines[1:1] = ["", *grouped]
        grouped = []
    return [*lines, *(["", *odd, *grouped] if odd or grouped else [])]


def print_json(net: Network) -> None:
    if net.cut is not None:
        print(dump_lines(no_plan_json(net, least_changes(net))))
        return
    arcs, nodes = arc_columns(net), node_columns(net)
    nodes["one_more_costs"] = Marginal(net).more
    arcs["reduced_cost"] = [arc.worth for arc in net.arcs]
    print(dump_lines({**plan_json_head(net), "arcs": arcs, "nodes": nodes}))


def main(arguments: Sequence[str]) -> int:
    parser = ToolParser(__doc__, prog="netflow-why").add_instance()
    parser.add_argument("--all", action="store_true", help="every line of each list")
    parser.add_argument("--json", action="store_true", help="the answer as a JSON object")
    parsed = parser.parse_args(arguments)
    instance, refused = instance_of(parsed), 0
    while True:
        with instance:
            try:
                net = instance.priced_network()
            except ProgramError as problem:
                if parsed.json:
                    return print_error_json(problem, instance)
                again = without_check(instance, problem)
                if again is None:
                    raise
                instance, refused = again, problem.status
                continue
            note_fractions(net)
            if parsed.json:
                note_grouped(instance)
                print_json(net)
            else:
                print("\n".join(text_lines(instance, net, 10**9 if parsed.all else SHOWN)))
            return refused or (0 if net.cut is None else 2)


def command() -> None:
    run_tool(main)


if __name__ == "__main__":
    command()
