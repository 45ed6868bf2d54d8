"""Where the nodes and the ends of arcs are in a drawing: sizes, layers, positions."""
from __future__ import annotations

import math
from typing import AbstractSet, Tuple, Union

from ..reading.network import Arc, Network
from ..types import Number
from .layout import Bend, apart, has_cycle, layers, mean
from .names import spoken
from .periods import Band, period_layers

Point = Tuple[float, float]
# A node's index, or a point that a long arc passes.
Vertex = Union[int, Bend]

LETTER, LABELLED = 7.4, 60
SWEEPS, SETTLINGS = 24, 16
# Pixels: between the ports of arcs with a number, of other arcs, and the length of an arc from or to the outside.
PORT, BARE_PORT, STUB = 17, 8, 34
# The most pixels that a node of a large picture gets for the ends of its arcs.
MOST_ROOM = 170


class Placement:
    """The places of some arcs of a network in a drawing. `marked` are node indices, `across` the ids of arcs across
    that set; `alone` draws all nodes. Positions are `u` along the layers and `v` across them. `nodes`, `known` and
    `is_small` are for a part of a picture: its nodes, the arcs between them, and whether arcs have numbers."""

    def __init__(
        self,
        net: Network,
        arcs: list[Arc],
        marked: AbstractSet[int] = frozenset(),
        across: AbstractSet[int] = frozenset(),
        alone: bool = False,
        is_down: bool = False,
        nodes: list[int] | None = None,
        known: list[Arc] | None = None,
        is_small: bool | None = None,
    ) -> None:
        self.net, self.arcs, self.marked, self.across, self.is_down = net, arcs, marked, across, is_down
        ends = {end for arc in arcs for end in (arc.src, arc.dst) if end is not None}
        self.nodes = nodes or (
            list(range(len(net.nodes))) if alone else sorted(ends | set(marked if len(marked) <= 80 else ()))
        )
        self.is_small = len(arcs) <= LABELLED if is_small is None else is_small
        self.links = [arc for arc in arcs if None not in (arc.src, arc.dst) and arc.src != arc.dst]
        self.stubs: dict[tuple[int | None, int | None], list[Arc]] = {}
        for arc in arcs:
            if (arc.src is None) != (arc.dst is None):
                self.stubs.setdefault((arc.src, arc.dst), []).append(arc)
        self.bands: list[Band] = []
        by_period = period_layers(net, self.nodes, net.arcs if known is None else known)
        if by_period is None:
            self.layer = self.ranked(net.arcs if known is None else known)
        else:
            self.layer, self.bands = by_period
        self.measure()
        self.place()

    def ranked(self, known: list[Arc]) -> dict[int, int]:
        """Returns layers by rank."""
        self.layer = layers(self.nodes, known)
        level = sum(self.is_level(arc) for arc in self.links)
        if 3 * level > len(self.links) and not has_cycle(self.nodes, self.links):
            # If arcs lead from anywhere to anywhere, only those that are drawn have an order.
            return layers(self.nodes, self.links)
        return self.layer

    # Sizes

    def text_width(self, text: str) -> float:
        return LETTER * columns(text)

    def number(self, arc: Arc) -> str:
        """Returns the text on an arc: the flow, or across a cut the bounds."""
        return grouped(arc.flow) if arc.flow else f"{arc.lower}..{arc.most()}" if id(arc) in self.across else ""

    def label(self, number: int) -> list[str]:
        """Returns the lines of a node: its name, and in a small picture its need or supply."""
        node = self.net.nodes[number]
        wish = node.wish() if self.is_small else ""
        lines = [line for line in (spoken(node.text), wish) if line] or [node.text.partition("[")[0]]
        return [line if columns(line) <= 34 else line[:33] + "\u2026" for line in lines]

    def measure(self) -> None:
        """Sets the width and height of each node: room for its name, and for the ends of its arcs on each side."""
        self.wide: dict[int, float] = {
            number: 22 + self.text_width(max(self.label(number), key=columns)) for number in self.nodes
        }
        self.tall: dict[int, float] = {
            number: 40 if self.is_small and len(self.label(number)) > 1 else 24 if self.is_small else 19
            for number in self.nodes
        }
        self.sides: dict[tuple[int, bool], list[tuple[Arc, bool]]] = {}
        for arc in self.links:
            src, dst = ends_of(arc)
            is_forward = self.layer[dst] > self.layer[src]
            if not self.is_level(arc):
                self.sides.setdefault((src, is_forward), []).append((arc, True))
                self.sides.setdefault((dst, not is_forward), []).append((arc, False))
        sizes = self.wide if self.is_down else self.tall
        for (number, _), ends in self.sides.items():
            room = 10 + sum(self.pitch(arc, is_tail) for arc, is_tail in ends)
            sizes[number] = max(sizes[number], room if self.is_small else min(room, MOST_ROOM))
        other = self.tall if self.is_down else self.wide
        for ends_of_stub, alike in self.stubs.items():
            room = (len(alike) - 1) * self.stub_step(alike) + 16
            for end in ends_of_stub:
                if self.is_small and end is not None:
                    other[end] = max(other[end], room)

    def is_level(self, arc: Arc) -> bool:
        """Whether the ends of an arc are in one layer."""
        src, dst = ends_of(arc)
        return self.layer[src] == self.layer[dst]

    def pitch(self, arc: Arc, is_tail: bool) -> float:
        """Returns the room that the end of an arc takes at its node; numbers are at heads."""
        text = self.number(arc) if self.is_small and not is_tail else ""
        return BARE_PORT if not text else self.text_width(text) + 8 if self.is_down else PORT

    def stub_step(self, alike: list[Arc]) -> float:
        return PORT if self.is_down else STUB + self.text_width(max((self.number(arc) for arc in alike), key=len))

    def extent(self, vertex: Vertex) -> float:
        """Returns how much of `v` a node or a bend takes, with the gap to the next."""
        if isinstance(vertex, Bend):
            return 14
        stub_room = self.stub_room(vertex)
        return (self.wide if self.is_down else self.tall)[vertex] + (18 if self.is_small else 7) + stub_room

    def stub_room(self, number: int) -> float:
        alike = [arc for ends in ((None, number), (number, None)) for arc in self.stubs.get(ends, [])]
        if not alike or not self.is_small:
            return 0
        return 2 * (STUB + (self.text_width(max(map(self.number, alike), key=len)) if self.is_down else 0))

    # Positions

    def place(self) -> None:
        near, rows = self.paths()
        self.order(rows, near)
        v = {vertex: here * 30.0 for row in rows for here, vertex in enumerate(row)}
        for turn in range(SETTLINGS):
            for row in rows if turn % 2 else reversed(rows):
                wanted = [mean([v[there] for there in near.get(vertex, [])], v[vertex]) for vertex in row]
                v.update(zip(row, apart(wanted, [self.extent(vertex) for vertex in row])))
        u: dict[Vertex, float] = {}
        left = 62.0
        for here, row in enumerate(rows):
            along = max(self.along(vertex) for vertex in row)
            u.update({vertex: left + along / 2 for vertex in row})
            left += along + self.gap(here, rows)
        half = {vertex: self.extent(vertex) / 2 for vertex in v}
        first = min((v[vertex] - half[vertex] for vertex in v), default=0) - 14
        self.u, self.v = u, {vertex: place - first for vertex, place in v.items()}
        last = max((u[vertex] + self.along(vertex) / 2 for vertex in u), default=0) + 62
        far = max((self.v[vertex] + half[vertex] for vertex in v), default=0) + 14
        self.sheet = (far, last) if self.is_down else (last, far)
        self.ports = self.spread_ports()

    def along(self, vertex: Vertex) -> float:
        """Returns how much of `u` a node takes; a bend takes nothing."""
        return 0 if isinstance(vertex, Bend) else (self.tall if self.is_down else self.wide)[vertex]

    def gap(self, here: int, rows: list[list[Vertex]]) -> float:
        """Returns the room between two layers: more for more arcs and for numbers."""
        if not self.is_small:
            return min(90 + 14 * math.sqrt(len(rows[here])), 280) if not self.is_down else 70
        spans = [sorted(self.layer[end] for end in ends_of(arc)) for arc in self.links]
        crossing = sum(first <= here < last for first, last in spans)
        if self.is_down:
            return min(64 + 4 * crossing, 140)
        text = max((self.text_width(self.number(arc)) for arc in self.links), default=0)
        return min(96 + text + 9 * crossing, 420)

    def paths(self) -> tuple[dict[Vertex, list[Vertex]], list[list[Vertex]]]:
        """Returns the neighbours of each node and bend, and the layers; a long arc has a bend in each layer between its
        ends."""
        self.bends: dict[int, list[Bend]] = {}
        near: dict[Vertex, list[Vertex]] = {}
        rows: dict[int, list[Vertex]] = {}
        layer: dict[Vertex, int] = dict(self.layer.items())
        has_bends = len(self.links) <= 400
        for arc in self.links:
            src, dst = ends_of(arc)
            first, last = layer[src], layer[dst]
            step = 1 if last > first else -1
            between = range(first + step, last, step) if has_bends and first != last else ()
            self.bends[id(arc)] = [Bend() for _ in between]
            layer.update(zip(self.bends[id(arc)], between))
            path: list[Vertex] = [src, *self.bends[id(arc)], dst]
            for one, two in zip(path, path[1:]):
                near.setdefault(one, []).append(two)
                near.setdefault(two, []).append(one)
        for vertex, number in layer.items():
            rows.setdefault(number, []).append(vertex)
        return near, [rows[number] for number in sorted(rows)]

    def order(self, rows: list[list[Vertex]], near: dict[Vertex, list[Vertex]]) -> None:
        """Orders each layer by the means of the neighbours, which keeps arcs short."""
        at = {vertex: (here + 0.5) / len(row) for row in rows for here, vertex in enumerate(row)}
        for turn in range(SWEEPS):
            for row in rows if turn % 2 else reversed(rows):
                row.sort(key=lambda vertex: mean([at[there] for there in near.get(vertex, [])], at[vertex]))
                at.update({vertex: (here + 0.5) / len(row) for here, vertex in enumerate(row)})

    def spread_ports(self) -> dict[tuple[int, bool], float]:
        """Returns for each end of an arc its distance from the middle of its node's side, in the order of the other
        ends."""
        result: dict[tuple[int, bool], float] = {}
        for (number, _), ends in self.sides.items():

            def other(end: tuple[Arc, bool]) -> float:
                arc, is_tail = end
                bends = self.bends[id(arc)]
                src, dst = ends_of(arc)
                return self.v[(bends[0] if is_tail else bends[-1]) if bends else dst if is_tail else src]

            ends.sort(key=other)
            room = (self.wide if self.is_down else self.tall)[number] - 10
            pitches = [self.pitch(*end) for end in ends]
            scale = min(1.0, room / sum(pitches)) if self.is_small else min(1.0, max(room, 1) / sum(pitches))
            at = -sum(pitches) * scale / 2
            for (arc, is_tail), size in zip(ends, pitches):
                result[id(arc), is_tail] = at + size * scale / 2
                at += size * scale
        return result


def ends_of(arc: Arc) -> tuple[int, int]:
    """Returns the nodes of an arc between two nodes."""
    if arc.src is None or arc.dst is None:
        raise ValueError(f"{arc.text} has an end outside")
    return arc.src, arc.dst


def grouped(number: Number) -> str:
    """Returns a number with a thin space between groups of three digits."""
    text = str(number)
    if "/" in text:
        return text
    whole, point, rest = text.partition(".")
    sign, digits = ("\u2212", whole[1:]) if whole.startswith("-") else ("", whole)
    if len(digits) > 4:
        digits = f"{int(digits):,}".replace(",", "\u202f")
    return sign + digits + point + rest


def columns(text: str) -> float:
    """Returns the width of a text in letters; those of East Asia take nearly two."""
    return sum(1.8 if ord(letter) > 0x2E80 else 1 for letter in text)
