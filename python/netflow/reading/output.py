"""Reads what netflow prints: compiled models, plans, prices and cuts, by the documented grammar.

Output that does not follow the grammar raises Unreadable; nothing is guessed.
"""
from __future__ import annotations

import operator
import re
from typing import Iterable, Sequence

from ..errors import Unreadable
from ..exact import divided
from ..types import Member, Number
from .keys import NUMBER, references, shown
from .network import Arc, Network, Node
from .text import lines_of

# The lines before the prices of nodes, and before the reduced costs of arcs.
PRICES, REDUCED_COSTS = "prices", "reduced costs"


def numbers(words: Sequence[str]) -> list[int]:
    try:
        return list(map(int, words))
    except ValueError:
        raise Unreadable(f"{' '.join(words)!r} has a word that is no number") from None


def columns(text: str, mark: str, width: int) -> list[list[int]]:
    """Returns the numbers of lines of one kind, which begin with its mark, column by column."""
    count = text.count("\n") + (text[-1:] not in ("", "\n"))
    words = text.rstrip("\n").replace("\n", " ").split(" ") if text else []
    if words[:: width + 1] != [mark] * count or len(words) != count * (width + 1):
        raise Unreadable(f"a line that begins with {mark!r} and has {width} numbers was expected")
    return [numbers(words[place :: width + 1]) for place in range(1, width + 1)]


def beginning(text: str, mark: str, start: int = 0) -> int:
    """Returns the place of the first line, from a line's start on, that begins with the mark; the text's end if there
    is none."""
    if text.startswith(mark, start):
        return start
    place = text.find(f"\n{mark}", start)
    return len(text) if place < 0 else place + 1


def read_compiled(text: str) -> Network:
    """Returns the network of a compiled model (without --lean)."""
    net = Network()
    # Comments come first, then the line with the counts, supplies, and arcs.
    start = beginning(text, "p ")
    net.problem = text[start:]
    links, lines = [], lines_of(text[:start])
    for line in lines:
        if line.startswith("c arc ") and line.count(" ") > 3:
            links.append(line.split(" ", 4))
        else:
            read_link(line, net)
    arcs = beginning(text, "a ", start)
    drawn = columns(text[arcs:], "a", 5)
    place_arcs(net, [link[4] for link in links], numbers([link[3] for link in links]), drawn)
    nodes, amounts = columns(text[text.find("\n", start) + 1 : arcs], "n", 2)
    place_nodes(net, dict(zip(nodes, amounts)), zip(drawn[0][len(links) :], drawn[3][len(links) :]))
    return net


def read_link(line: str, net: Network) -> None:
    """Reads a comment line of a compiled model that is not of an arc."""
    kind, rest = line[2:].split(" ", 1)
    if kind == "node":
        net.nodes.append(Node(rest.split(" ", 1)[1]))
    elif kind == "constant":
        net.constant = int(rest)
    elif kind == "sign":
        net.sign = int(rest)
    else:
        raise Unreadable(f"{line!r} is no line of a compiled model")


def place_arcs(net: Network, texts: list[str], offsets: list[int], drawn: list[list[int]]) -> None:
    """Makes the arcs from their names and offsets: ends, bounds without the offsets, prices, and what they allow at
    each node."""
    outside, sign, net.offsets = len(net.nodes), net.sign, offsets
    srcs, dsts, leasts, mosts, costs = (column[: len(texts)] for column in drawn)
    if len(costs) < len(texts):
        raise Unreadable("the problem has fewer arcs than the model")
    if any(offsets):
        leasts, mosts = (list(map(operator.add, bounds, offsets)) for bounds in (leasts, mosts))
    prices = costs if sign > 0 else [sign * cost for cost in costs]
    place = [
        *range(-1, outside),
        *[None] * (max(srcs + dsts, default=0) - outside),
    ]  # of the ends, which are counted from 1
    ends = ([place[end] for end in side] for side in (srcs, dsts))
    net.arcs = list(map(Arc, texts, *references(texts), *ends, leasts, mosts, prices))
    low, fewest, greatest = ([0] * len(place) for _ in range(3))
    for src, dst, least, most, offset in zip(srcs, dsts, leasts, mosts, offsets):
        fewest[src] -= most
        greatest[dst] += most
        if least:
            fewest[dst] += least
            greatest[src] -= least
        if offset:
            low[src] -= offset
            low[dst] += offset
    for node, *sums in zip(net.nodes, low[1:], fewest[1:], greatest[1:]):
        node.low, node.fewest, node.greatest = sums


def place_nodes(net: Network, supplies: dict[int, int], rooms: Iterable[tuple[int, int]]) -> None:
    """Sets the bounds of each node's net inflow: what the offsets bring minus the supply, and the range above."""
    for number, node in enumerate(net.nodes, 1):
        node.low -= supplies.get(number, 0)
        node.high = node.low
    for src, cap in rooms:
        net.nodes[src - 1].high += cap


def split_prices(text: str) -> tuple[str, str]:
    """Returns a plan and the prices that are printed after it; without prices an empty text."""
    plan, heading, rest = text.partition(f"\n{PRICES}\n")
    return (f"{plan}\n", f"{PRICES}\n{rest}") if heading else (text, "")


def read_plan(text: str, net: Network) -> None:
    """Sets the network's objective, value and flows; every line has to be that of the expected arc."""
    lines = lines_of(text)
    net.objective, net.value = valued(lines[0])
    net.declarations, flows = read_blocks(lines[1:], *columns_of_arcs(net))
    take_flows(net, flows)


def read_prices(net: Network) -> None:
    """Sets the worths of nodes and arcs from the prices that were printed after the plan. The network is divided."""
    lines = lines_of(net.prices_text)
    if lines[:1] != [PRICES] or REDUCED_COSTS not in lines:
        raise Unreadable("prices were expected after the plan")
    middle = lines.index(REDUCED_COSTS)
    nodes = [node.text for node in net.nodes]
    declared, prices = read_blocks(lines[1:middle], nodes, *references(nodes))
    costs = read_blocks(lines[middle + 1 :], *columns_of_arcs(net))[1]
    net.node_declarations = declared
    for node, price in zip(net.nodes, prices):
        node.worth = divided(net.sign * price, net.factors.cost)
    for arc, cost in zip(net.arcs, costs):
        arc.worth = divided(net.sign * cost, net.factors.cost)
    net.prices_text = ""


def columns_of_arcs(net: Network) -> tuple[list[str], list[str], list[list[Member]]]:
    """Returns the texts, the names and the keys of all arcs."""
    arcs = net.arcs
    return [arc.text for arc in arcs], [arc.name for arc in arcs], [arc.key for arc in arcs]


def read_blocks(
    lines: list[str], texts: list[str], names: list[str], keys: list[list[Member]]
) -> tuple[list[tuple[str, bool]], list[int]]:
    """Returns the declarations of a plan or of prices, each with whether it is a table, and all numbers; every line has
    to be that of the expected arc or node."""
    declared: list[tuple[str, bool]] = []
    result: list[int] = []
    line, at = 0, 0
    while line < len(lines):
        name, is_table = lines[line][:-3], lines[line].endswith(" :=")
        if is_table:
            count = next((here for here in range(at, len(names)) if names[here] != name), len(names)) - at
            rows = [row.rpartition(" ") for row in lines[line + 1 : line + 1 + count]]
            printed, values = [row[0] for row in rows], [row[2] for row in rows]
            if lines[line + 1 + count : line + 2 + count] != [";"]:
                raise Unreadable(f"the table of {name} does not end after {count} lines")
        else:
            name, value = valued(lines[line])
            count, printed, values = 1, [""], [str(value)]
        end = at + count
        if (
            "\n".join(printed) != printed_keys(name, texts[at:end], keys[at:end])
            or not is_table
            and names[at : at + 1] != [name]
        ):
            raise Unreadable(f"{name} has other keys than in the model")
        declared.append((name, is_table))
        result += numbers(values)
        at, line = end, line + (count + 2 if is_table else 1)
    if at != len(names):
        raise Unreadable("the answer ends before the last arc or node")
    return declared, result


def printed_keys(name: str, texts: list[str], keys: list[list[Member]]) -> str:
    """Returns the keys of a declaration as a plan prints them, one a line."""
    start = len(name) + 1
    result = "\n".join([text[start:-1] for text in texts])
    if result.count(",") <= sum(map(len, keys)) - len(keys):
        return result.replace(",", " ")
    # A comma inside a member stays a comma.
    return "\n".join([" ".join(map(shown, key)) for key in keys])


def take_flows(net: Network, flows: list[int]) -> None:
    """Sets the flows of all arcs, and adds them to the net inflows of their ends."""
    nodes = net.nodes
    for arc, flow in zip(net.arcs, flows):
        if flow:
            arc.flow = flow
            if arc.src is not None:
                nodes[arc.src].inflow -= flow
            if arc.dst is not None:
                nodes[arc.dst].inflow += flow


def valued(line: str) -> tuple[str, int]:
    match = re.fullmatch(rf"(\S+) = ({NUMBER})", line)
    if not match:
        raise Unreadable(f"{line!r} gives no name a number")
    return match[1], int(match[2])


def divided_cut(text: str, net: Network) -> str:
    """Returns a cut in netflow's form, its two numbers divided by the factor of flows."""
    first, second, *nodes = text.split("\n")
    side, *numbers = second.split(" ")
    return "\n".join(
        [first, " ".join([side, *(str(divided(int(number), net.factors.flow)) for number in numbers)]), *nodes]
    )


def read_cut(text: str, net: Network) -> tuple[str, set[int]]:
    """Returns the side and the node indices of a cut. A set that contains the outside is replaced by its complement,
    which shows the same from the other side."""
    lines = lines_of(text)
    if lines[:1] != ["infeasible"] or not re.fullmatch(rf"(?:over|under) {NUMBER} {NUMBER}", lines[1]):
        raise Unreadable("a cut was expected")
    places = {node.text: number for number, node in enumerate(net.nodes)}
    side, inside = lines[1].split(" ")[0], {places[line[5:]] for line in lines[2:] if line.startswith("node ")}
    return from_inside(side, inside | {len(net.nodes)} if lines[-1] == "outside" else inside, net)


def from_inside(side: str, inside: set[int], net: Network) -> tuple[str, set[int]]:
    """Returns a cut without the outside: the set itself, or its complement, which shows the same from its side."""
    if len(net.nodes) not in inside:
        return side, inside
    return {"over": "under", "under": "over"}[side], set(range(len(net.nodes))) - inside


def written(net: Network, used_only: bool = False) -> str:
    """Returns the plan in netflow's form; with `used_only` without the rows of arcs that carry nothing."""
    rows = [(arc.name, arc.key, arc.flow) for arc in net.arcs]
    return block_text([f"{net.objective} = {net.value}"], net.declarations, rows, used_only)


def written_prices(net: Network) -> str:
    """Returns the prices of nodes and the reduced costs of arcs in netflow's form."""
    names, keys = references([node.text for node in net.nodes])
    nodes = list(zip(names, keys, [net.sign * node.worth for node in net.nodes]))
    arcs = [(arc.name, arc.key, net.sign * arc.worth) for arc in net.arcs]
    return block_text([PRICES], net.node_declarations, nodes) + block_text([REDUCED_COSTS], net.declarations, arcs)


def block_text(
    lines: list[str],
    declared: list[tuple[str, bool]],
    rows: list[tuple[str, list[Member], Number]],
    used_only: bool = False,
) -> str:
    """Returns these lines and then the declarations with their rows, as a plan has them; with `used_only` without the
    rows of tables that have a 0."""
    found: dict[str, list[tuple[list[Member], Number]]] = {}
    for name, key, number in rows:
        found.setdefault(name, []).append((key, number))
    for name, is_table in declared:
        own = found.get(name, [])
        if is_table:
            printed = [(key, number) for key, number in own if number or not used_only]
            keyed = ("".join(f"{shown(member)} " for member in key) + str(number) for key, number in printed)
            lines += [f"{name} :=", *keyed, ";"]
        else:
            lines.append(f"{name} = {own[0][1]}")
    return "".join(f"{line}\n" for line in lines)
