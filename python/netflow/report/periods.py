"""Layers by the periods of a network, if a part of its keys is one: a group of layers for each period."""
from __future__ import annotations

import re
from typing import Sequence, Tuple

from ..reading.network import Arc, Network
from .layout import layers
from .names import key_of

WHOLE = re.compile(r"-?\d+")
# A period has so many nodes in the mean, and at most this part of the arcs leads back in time.
NODES, BACK = 2, 0.1

# The title of a period, and its first and last layer.
Band = Tuple[str, int, int]


def period_layers(net: Network, nodes: Sequence[int], arcs: Sequence[Arc]) -> tuple[dict[int, int], list[Band]] | None:
    """Returns the layer of each node and the bands of the periods; None if no key is a period."""
    names = {node: key_of(net.nodes[node].text) for node in nodes}
    period = periods_of(names)
    values = sorted(set(period.values()))
    if len(values) < 2 or values[-1] - values[0] != len(values) - 1 or len(period) < NODES * len(values):
        return None
    links = [(arc.src, arc.dst) for arc in arcs if arc.src in names and arc.dst in names and arc.src != arc.dst]
    steps = [period[dst] - period[src] for src, dst in links if src in period and dst in period]
    if not any(step > 0 for step in steps) or sum(step < 0 for step in steps) > BACK * len(steps):
        return None
    group = {node: period.get(node, values[0] - 1) for node in nodes}
    leading = {src for src, dst in links if dst in period}
    group.update({node: values[-1] + 1 for node in nodes if node not in period and node not in leading})
    return grouped_layers(nodes, arcs, group, {node: name for node, (name, _) in names.items()}, values)


def periods_of(names: dict[int, tuple[str, list[str]]]) -> dict[int, int]:
    """Returns the period of each node: the last part of the keys of its declaration that has only whole numbers, and
    more than one."""
    declared: dict[str, list[tuple[int, list[str]]]] = {}
    for node, (name, key) in names.items():
        declared.setdefault(name, []).append((node, key))
    result: dict[int, int] = {}
    for found in declared.values():
        for place in reversed(range(min(len(key) for _, key in found))):
            members = [key[place] for _, key in found]
            if len(set(members)) > 1 and all(WHOLE.fullmatch(member) for member in members):
                result.update({node: int(member) for (node, _), member in zip(found, members)})
                break
    return result


def grouped_layers(
    nodes: Sequence[int], arcs: Sequence[Arc], group: dict[int, int], names: dict[int, str], values: list[int]
) -> tuple[dict[int, int], list[Band]]:
    """Returns layers by group, within each by the rank of the node's declaration there."""
    rank: dict[str, int] = {}
    inside: dict[int, list[int]] = {}
    for node in nodes:
        inside.setdefault(group[node], []).append(node)
    for members in inside.values():
        known = set(members)
        for node, found in layers(members, [arc for arc in arcs if arc.src in known and arc.dst in known]).items():
            rank[names[node]] = max(rank.get(names[node], 0), found)
    result: dict[int, int] = {}
    bands: list[Band] = []
    first = 0
    for number in sorted(inside):
        ranks = sorted({rank[names[node]] for node in inside[number]})
        result.update({node: first + ranks.index(rank[names[node]]) for node in inside[number]})
        if values[0] <= number <= values[-1]:
            bands.append((str(number), first, first + len(ranks) - 1))
        first += len(ranks)
    return {node: result[node] for node in nodes}, bands
