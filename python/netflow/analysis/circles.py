"""Flow in a circle, and networks in which nothing can flow: what is allowed, and often a mistake of the data."""
from __future__ import annotations

from typing import AbstractSet, Mapping

from ..reading.network import OUTSIDE, Arc, Network
from ..reading.text import few

SHOWN = 5


def circle_lines(net: Network) -> list[str]:
    """Returns a line for each circle of arcs that improves the value, in a network that also sends flow between nodes:
    a longest path in data with a circle gets such a one."""
    if not any(node.low > 0 or node.high < 0 for node in net.nodes) and all(
        arc.src is not None and arc.dst is not None for arc in net.arcs if arc.flow
    ):
        return []  # all flow goes in circles, as in a rotation
    near: dict[int, list[Arc]] = {}
    for arc in net.arcs:
        if arc.flow > 0 and arc.src is not None and arc.dst is not None:
            near.setdefault(arc.src, []).append(arc)
    lines = []
    for group in components(near):
        arcs = [arc for number in group for arc in near.get(number, []) if arc.dst in group]
        if arcs and net.sign * sum(arc.price for arc in arcs) < 0:
            lines.append(
                f"flow goes in a circle: {few([arc.text for arc in arcs], SHOWN)}; only their bounds limit it."
                " A longest path needs data without a circle"
            )
    return lines


def components(near: Mapping[int, list[Arc]]) -> list[set[int]]:
    """Returns the strongly connected components of the arcs, by two searches (Kosaraju)."""
    order: list[int] = []
    seen: set[int] = set()
    for start in near:
        stack = [(start, iter(near[start]))] if start not in seen else []
        seen.add(start)
        while stack:
            here, rest = stack[-1]
            there = next((arc.dst for arc in rest if arc.dst is not None and arc.dst not in seen), None)
            if there is None:
                order.append(here)
                stack.pop()
            else:
                seen.add(there)
                stack.append((there, iter(near.get(there, []))))
    back: dict[int, list[int]] = {}
    for arcs in near.values():
        for arc in arcs:
            if arc.src is not None and arc.dst is not None:
                back.setdefault(arc.dst, []).append(arc.src)
    result: list[set[int]] = []
    done: set[int] = set()
    for start in reversed(order):
        if start not in done:
            result.append(reached(back, start, done))
            done |= result[-1]
    return result


def reached(near: Mapping[int, list[int]], start: int, besides: AbstractSet[int] = frozenset()) -> set[int]:
    """Returns the nodes that a search from one of them finds, without some."""
    found, line = {start}, [start]
    for here in line:
        for there in near.get(here, []):
            if there not in found and there not in besides:
                found.add(there)
                line.append(there)
    return found


def nothing_flows(net: Network) -> list[str]:
    """Returns why nothing can flow over an arc that improves the value: no path closes the circle."""
    if net.cut is not None or any(arc.flow for arc in net.arcs):
        return []
    out, outside = steps(net), len(net.nodes)
    for arc in net.arcs:
        if net.sign * arc.price < 0 and arc.upper > 0:
            start, end = (outside if number is None else number for number in (arc.dst, arc.src))
            found = reached(out, start)
            if end not in found:
                return [f"nothing can flow: {obstacle(net, out, found, end)}{question(out, start, end, found)}"]
    return []


def steps(net: Network) -> dict[int, list[int]]:
    """Returns to which nodes flow can go from each; the outside is `len(net.nodes)`."""
    outside = len(net.nodes)
    out: dict[int, list[int]] = {}
    for arc in net.arcs:
        src, dst = (outside if number is None else number for number in (arc.src, arc.dst))
        if arc.upper > 0:
            out.setdefault(src, []).append(dst)
        if arc.lower < 0:
            out.setdefault(dst, []).append(src)
    for number, node in enumerate(net.nodes):
        if node.low < 0 or node.is_low_open:
            out.setdefault(outside, []).append(number)
        if node.high > 0 or node.is_high_open:
            out.setdefault(number, []).append(outside)
    return out


def obstacle(net: Network, out: Mapping[int, list[int]], found: set[int], end: int) -> str:
    outside = len(net.nodes)
    into = {there for nodes in out.values() for there in nodes}
    parts = [
        f"no arc leads out of {net.nodes[number].text}"
        for number in sorted(found)
        if number != outside and not out.get(number)
    ][:2]
    parts += [f"no arc leads into {net.nodes[end].text}"] if end != outside and end not in into else []
    name = OUTSIDE if end == outside else net.nodes[end].text
    return ", and ".join(parts) if parts else f"no path leads to {name}"


def question(out: Mapping[int, list[int]], start: int, end: int, found: set[int]) -> str:
    """Asks whether two ends are exchanged, if a path leads the other way."""
    back = reached(out, end)
    return ": are the two ends exchanged?" if any(number in back and number != start for number in found) else ""
