"""Layers, orders and positions for the drawing of a network."""
from __future__ import annotations

import math
from typing import Iterable, Sequence

from ..reading.network import Arc


class Bend:
    """A point in a layer that a long arc passes."""


def layers(nodes: list[int], arcs: Iterable[Arc]) -> dict[int, int]:
    """Returns the layer of each node, from 0: by the longest path to the node, or by the shortest if the longest
    would stretch the picture."""
    into, out = neighbours(nodes, arcs)
    order, back = walked(nodes, into, out)
    longest: dict[int, int] = {}
    for node in order:
        longest[node] = 1 + max((longest[before] for before in into[node] if (before, node) not in back), default=-1)
    if back and max(longest.values(), default=0) > 3 + 2 * math.sqrt(len(nodes)):
        return nearest(nodes, into, out)
    return pulled(longest, out, back)


def walked(
    nodes: list[int], into: dict[int, list[int]], out: dict[int, list[int]]
) -> tuple[list[int], set[tuple[int, int]]]:
    """Returns the nodes in topological order, and the steps that close cycles and are left out."""
    order: list[int] = []
    back: set[tuple[int, int]] = set()
    state: dict[int, int] = {}
    for start in sorted(nodes, key=lambda node: (len(into[node]) > 0, node)):
        way = [] if start in state else [(start, iter(out[start]))]
        state.setdefault(start, 1)
        while way:
            here, rest = way[-1]
            there = next(rest, None)
            if there is None:
                way.pop()
                state[here] = 2
                order.append(here)
            elif there not in state:
                state[there] = 1
                way.append((there, iter(out[there])))
            elif state[there] == 1:
                back.add((here, there))
    return order[::-1], back


def nearest(nodes: list[int], into: dict[int, list[int]], out: dict[int, list[int]]) -> dict[int, int]:
    """Returns layers by the number of arcs from the sources."""
    line = [node for node in nodes if not into[node]] or list(nodes)[:1]
    result = dict.fromkeys(line, 0)
    none: list[int] = []
    for rest in (none, nodes):
        for node in [node for node in rest if node not in result]:
            if node not in result:
                result[node] = 0
                line.append(node)
        for node in line:
            for there in out[node]:
                if there not in result:
                    result[there] = result[node] + 1
                    line.append(there)
    return result


def pulled(found: dict[int, int], out: dict[int, list[int]], back: set[tuple[int, int]]) -> dict[int, int]:
    """Moves a node that nothing leads to just before its first successor."""
    for node in found:
        if found[node] == 0:
            after = [found[there] for there in out[node] if (node, there) not in back]
            found[node] = max(0, min(after) - 1) if after else 0
    return found


def apart(wanted: list[float], sizes: list[float]) -> list[float]:
    """Returns positions as near to the wanted ones as possible, in this order, with the distances that the sizes
    require."""
    shifts: list[float] = []
    total = 0.0
    for here, size in enumerate(sizes):
        total += (sizes[here - 1] + size) / 2 if here else 0
        shifts.append(total)
    blocks: list[tuple[float, int]] = []
    for want, shift in zip(wanted, shifts):
        blocks.append((want - shift, 1))
        while len(blocks) > 1 and blocks[-2][0] > blocks[-1][0]:
            (first, many), (second, more) = blocks[-2:]
            blocks[-2:] = [((first * many + second * more) / (many + more), many + more)]
    flat = [mean for mean, many in blocks for _ in range(many)]
    return [place + shift for place, shift in zip(flat, shifts)]


def components(nodes: list[int], arcs: Iterable[Arc]) -> list[list[int]]:
    """Returns the sets of nodes that the arcs connect, each in order."""
    head = {node: node for node in nodes}

    def top(node: int) -> int:
        while head[node] != node:
            head[node] = node = head[head[node]]
        return node

    for arc in arcs:
        if arc.src in head and arc.dst in head:
            one, two = sorted((top(arc.src), top(arc.dst)))
            head[two] = one
    result: dict[int, list[int]] = {}
    for node in nodes:
        result.setdefault(top(node), []).append(node)
    return list(result.values())


def has_cycle(nodes: list[int], arcs: Iterable[Arc]) -> bool:
    """Whether the arcs between these nodes contain a cycle."""
    into, out = neighbours(nodes, arcs)
    return bool(walked(nodes, into, out)[1])


def neighbours(nodes: list[int], arcs: Iterable[Arc]) -> tuple[dict[int, list[int]], dict[int, list[int]]]:
    into: dict[int, list[int]] = {node: [] for node in nodes}
    out: dict[int, list[int]] = {node: [] for node in nodes}
    for arc in arcs:
        if arc.src in into and arc.dst in into and arc.src != arc.dst:
            out[arc.src].append(arc.dst)
            into[arc.dst].append(arc.src)
    return into, out


def mean(numbers: Sequence[float], other: float) -> float:
    return sum(numbers) / len(numbers) if numbers else other
