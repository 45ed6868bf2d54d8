"""Draws a network as SVG: nodes in layers, arcs as curves, the flow of an arc next to its arrow head. It needs no other
program.

The layers run from left to right, or from top to bottom if that keeps a long network, such as one over many periods,
readable.
"""
from __future__ import annotations

import math
from html import escape
from typing import AbstractSet, Tuple

from ..exact import magnitude
from ..reading.network import Arc, Network
from ..types import Number
from .layout import components
from .names import spoken
from .placement import LABELLED, STUB, Placement, Point, ends_of
from .style import DRAWING_STYLE

# A Bezier curve: its ends, and two points that bend the line.
Curve = Tuple[Point, Point, Point, Point]
Box = Tuple[float, float, float, float]

# From this width on a drawing is tried from top to bottom.
WIDE = 1400
# From this height on the components of a drawing with so few layers become pictures of their own, which a page sets
# in rows.
HIGH, FLAT = 700, 4
# The room around a drawing, and for the titles of periods.
MARGIN, BAND = 12, 36


def draw(
    net: Network,
    arcs: list[Arc],
    marked: AbstractSet[int] = frozenset(),
    across: AbstractSet[int] = frozenset(),
    alone: bool = False,
) -> Picture:
    """Returns the picture that fits a page best."""
    picture = Picture(net, arcs, marked, across, alone)
    if picture.sheet[0] > WIDE:
        other = Picture(net, arcs, marked, across, alone, is_down=True)
        if other.sheet[0] <= max(WIDE, picture.sheet[0] / 2):
            return other
    if picture.sheet[1] > HIGH and len(set(picture.layer.values())) <= FLAT:
        picture.parts = split(picture)
    return picture


def split(whole: Picture) -> list[Picture]:
    """Returns a picture of each component of a picture; none for a single one."""
    groups = components(whole.nodes, whole.arcs)
    if len(groups) < 2:
        return []
    part = {node: number for number, nodes in enumerate(groups) for node in nodes}
    shown: list[list[Arc]] = [[] for _ in groups]
    known: list[list[Arc]] = [[] for _ in groups]
    for arcs, parts in ((whole.arcs, shown), (whole.net.arcs, known)):
        for arc in arcs:
            groups_of_ends = {part.get(end, -1) for end in (arc.src, arc.dst) if end is not None}
            group = groups_of_ends.pop() if len(groups_of_ends) == 1 else -1
            if group >= 0:
                parts[group].append(arc)
    is_small = max(map(len, shown)) <= LABELLED
    return [
        Picture(whole.net, shown[index], whole.marked, whole.across, nodes=nodes, known=known[index], is_small=is_small)
        for index, nodes in enumerate(groups)
    ]


class Picture(Placement):
    """A drawing of some arcs of a network, and its pictures of components, if any."""

    parts: list[Picture] = []

    # Curves

    def xy(self, u: float, v: float) -> Point:
        return (v, u) if self.is_down else (u, v)

    def half(self, number: int) -> float:
        """Returns half the size of a node along the layers."""
        return (self.tall if self.is_down else self.wide)[number] / 2

    def curves(self, arc: Arc) -> list[Curve]:
        """Returns the arc as Bezier curves of four points each."""
        if arc.src is None or arc.dst is None:
            return self.stub(arc) if arc.src != arc.dst else []
        if arc.src == arc.dst:
            x, y = self.xy(self.u[arc.src], self.v[arc.src])
            y -= self.tall[arc.src] / 2
            return [((x - 12, y), (x - 26, y - 30), (x + 26, y - 30), (x + 12, y - 3))]
        src, dst = ends_of(arc)
        if self.is_level(arc):
            return self.arch(src, dst)
        side = 1 if self.layer[src] < self.layer[dst] else -1
        first = (self.u[src] + side * self.half(src), self.v[src] + self.ports[id(arc), True])
        last = (self.u[dst] - side * (self.half(dst) + 4), self.v[dst] + self.ports[id(arc), False])
        path = [first, *((self.u[bend], self.v[bend]) for bend in self.bends[id(arc)]), last]
        return [
            (self.xy(u, v), self.xy((u + s) / 2, v), self.xy((u + s) / 2, w), self.xy(s, w))
            for (u, v), (s, w) in zip(path, path[1:])
        ]

    def arch(self, src: int, dst: int) -> list[Curve]:
        """Returns an arc within a layer, which bows out to the side; arcs one way bow after the layer, those back
        before."""
        side = 1 if self.v[src] < self.v[dst] else -1
        high = max(self.half(src), self.half(dst)) + 16 + abs(self.v[src] - self.v[dst]) * 0.22
        bow = self.u[src] + side * high
        first = self.xy(self.u[src] + side * self.half(src), self.v[src])
        last = self.xy(self.u[dst] + side * (self.half(dst) + 4), self.v[dst])
        return [(first, self.xy(bow, self.v[src]), self.xy(bow, self.v[dst]), last)]

    def stub(self, arc: Arc) -> list[Curve]:
        """Returns an arc from or to the outside: across the layers in a small picture, along them in a large one."""
        is_in = arc.src is None
        (number,) = (end for end in (arc.src, arc.dst) if end is not None)
        alike, side = self.stubs[arc.src, arc.dst], -1 if is_in else 1
        here = [id(other) for other in alike].index(id(arc)) - (len(alike) - 1) / 2
        u, v = self.u[number], self.v[number]
        if self.is_small:
            u += here * self.stub_step(alike)
            v += side * (self.wide if self.is_down else self.tall)[number] / 2
            ends = [(u, v + side * (STUB - 2)), (u, v + side * 3)]
        else:
            u += side * self.half(number)
            ends = [(u + side * 26, v), (u + side * 3, v)]
        first, last = (self.xy(*point) for point in (ends if is_in else ends[::-1]))
        return [(first, first, last, last)]

    def text_place(self, arc: Arc, text: str, curves: list[Curve]) -> Point:
        """Returns the middle of the arc's number: next to its head, next to a stub, or on the middle of an arch."""
        wide = self.text_width(text) + 6
        (x, y), (u, w) = curves[0][0], curves[-1][3]
        if arc.src is None or arc.dst is None:
            return (
                ((x + u) / 2 + 4 + wide / 2, (y + w) / 2)
                if not self.is_down
                else ((min(x, u) - wide / 2 - 2 if arc.src is None else max(x, u) + wide / 2 + 2), y)
            )
        src, dst = ends_of(arc)
        if self.is_level(arc):
            return self.free_place(wide, curves)
        back = -1 if self.layer[src] < self.layer[dst] else 1
        place = (u, w + back * 20) if self.is_down else (u + back * (wide / 2 + 11), w)
        self.boxes.append((place[0] - wide / 2, place[1] - 8, place[0] + wide / 2, place[1] + 8))
        return place

    def free_place(self, wide: float, curves: list[Curve]) -> Point:
        """Returns a place on the arc that is clear of nodes and of earlier numbers, if there is one."""
        places: list[tuple[int, Point, Box]] = []
        for part in (0.5, 0.4, 0.6, 0.3, 0.7, 0.22, 0.78, 0.15, 0.85):
            x, y = along(curves[0], part)
            box = (x - wide / 2, y - 8, x + wide / 2, y + 8)
            hits = sum(overlaps(box, other) for other in self.boxes)
            places.append((hits, (x, y), box))
            if not hits:
                break
        _, point, box = min(places, key=lambda place: place[0])
        self.boxes.append(box)
        return point

    # SVG

    def kind(self, arc: Arc) -> str:
        return (
            "across"
            if id(arc) in self.across
            else "full"
            if arc.flow and arc.is_tight()
            else "used"
            if arc.flow
            else "idle"
        )

    def arc_svg(self, arc: Arc, most: Number) -> tuple[str, str]:
        """Returns the arc, and its number, which is drawn after all arcs."""
        curves, flow, kind = self.curves(arc), magnitude(arc.flow), self.kind(arc)
        if not curves:
            return "", ""
        self.reach += [(x - 4, y - 4, x + 4, y + 4) for curve in curves for x, y in curve]
        path = f"M{spot(curves[0][0])}" + "".join(f"C{spot(b)} {spot(c)} {spot(d)}" for _, b, c, d in curves)
        thick = 4.8 if most > 1 else 0.8
        width = 1.2 + thick * math.sqrt(float(flow / most)) if flow else 2.5 if kind == "across" else 1.2
        ends = " ".join(f"n{number}" for number in sorted({end for end in (arc.src, arc.dst) if end is not None}))
        said = (
            f"{spoken(arc.text)}: {spoken(self.net.end(arc.src))} to {spoken(self.net.end(arc.dst))}, {arc.flow} of"
            f" {arc.lower} to {arc.most()}, price {arc.price}"
        )
        made = (
            f'<g class="arc {kind} {ends}"><title>{escape(said)}</title><path d="{path}" stroke-width="{width:.1f}"'
            f' marker-end="url(#{kind})"/></g>'
        )
        text = self.number(arc)
        if not text:
            return made, ""
        # In a large picture the numbers of the arcs of a place are shown under the pointer.
        x, y = self.text_place(arc, text, curves) if self.is_small else along(curves[len(curves) // 2], 0.5)
        half = self.text_width(text) / 2
        self.reach.append((x - half, y - 8, x + half, y + 8))
        # The background keeps a line from being read as a part of a digit or a decimal point.
        back = f'<rect x="{x - half:.0f}" y="{y - 8:.0f}" width="{2 * half:.0f}" height="16" rx="3"/>'
        return made, f'<g class="arc number {ends}">{back}<text x="{x:.0f}" y="{y + 4:.0f}">{text}</text></g>'

    def node_svg(self, number: int) -> str:
        (x, y), wide, high, lines = (
            self.xy(self.u[number], self.v[number]),
            self.wide[number],
            self.tall[number],
            self.label(number),
        )
        node = self.net.nodes[number]
        wish = node.wish().partition(" ")[0]
        kind = "marked" if number in self.marked else wish if wish in ("gives", "needs") else "plain"
        first = y + 4 - 7.5 * (len(lines) - 1)
        texts = "".join(
            f'<text class="line{here}" x="{x:.0f}" y="{first + 15 * here:.0f}">{escape(line)}</text>'
            for here, line in enumerate(lines)
        )
        said = f"{spoken(node.text)}: {node.wish() or 'passes on what it gets'}"
        rect = f'<rect x="{x - wide / 2:.0f}" y="{y - high / 2:.0f}" width="{wide:.0f}" height="{high:.0f}" rx="5"/>'
        return f'<g class="node {kind}" id="n{number}" tabindex="0"><title>{escape(said)}</title>{rect}{texts}</g>'

    def box(self, number: int) -> Box:
        x, y = self.xy(self.u[number], self.v[number])
        wide, high = self.wide[number] / 2, self.tall[number] / 2
        return x - wide, y - high, x + wide, y + high

    def svg(self, is_alone: bool = False) -> str:
        """Returns the text of the picture, or of its parts; one that is a file of its own has its style in it, and is
        whole."""
        most = max([magnitude(arc.flow) for arc in self.arcs] + [1])
        heads = "".join(
            f'<marker id="{kind}" class="head {kind}" viewBox="0 0 8 8" refX="6" refY="4" markerUnits="userSpaceOnUse"'
            ' markerWidth="9" markerHeight="9" orient="auto"><path d="M0,0L8,4L0,8z"/></marker>'
            for kind in ("idle", "used", "full", "across")
        )
        defs = f"{f'<style>{DRAWING_STYLE}</style>' * is_alone}<defs>{heads}</defs>"
        if is_alone or not self.parts:
            return self.sheet_svg(most, defs)
        return "\n".join(part.sheet_svg(most, "" if here else defs) for here, part in enumerate(self.parts))

    def bands_svg(self) -> list[str]:
        """Returns the titles of the periods, before or above their layers, with a line between two of them."""
        if not self.bands:
            return []
        ends = [0.0, 0.0, 0.0, 0.0]
        for side, pick in enumerate((min, min, max, max)):
            ends[side] = pick(box[side] for box in self.reach)
        start, far = (ends[0], ends[2]) if self.is_down else (ends[1], ends[3])
        made, edge = [], 0.0
        for here, (title, first, last) in enumerate(self.bands):
            inside = [number for number in self.nodes if first <= self.layer[number] <= last]
            low = min(self.u[number] - self.half(number) for number in inside)
            high = max(self.u[number] + self.half(number) for number in inside)
            if here:
                (x, y), (w, z) = self.xy((edge + low) / 2, start - BAND), self.xy((edge + low) / 2, far)
                made.append(f'<path class="band" d="M{x:.0f},{y:.0f}L{w:.0f},{z:.0f}"/>')
            x, y = self.xy((low + high) / 2, start - BAND / 2)
            made.append(f'<text class="period" x="{x:.0f}" y="{y + 4:.0f}">{escape(title)}</text>')
            self.reach.append((x - 16, y - 8, x + 16, y + 8))
            edge = high
        return made

    def sheet_svg(self, most: Number, defs: str) -> str:
        """Returns one picture, cut to its content; an arc that carries `most` has the thickest line."""
        self.boxes = [self.box(number) for number in self.nodes]
        self.reach = list(self.boxes)
        drawn = sorted(self.arcs, key=lambda arc: (id(arc) in self.across, magnitude(arc.flow)))
        # Numbers are placed from the largest flow on; arcs are drawn from the smallest.
        arcs = {id(arc): self.arc_svg(arc, most) for arc in reversed(drawn)}
        bands = self.bands_svg()
        left, top, right, low = (math.floor(pick(sides)) for pick, sides in zip((min, min, max, max), zip(*self.reach)))
        wide, high = right - left + 2 * MARGIN, low - top + 2 * MARGIN
        large = "" if self.is_small else 'class="large" '
        sheet = (
            f'{large}width="{wide}" height="{high}" viewBox="{left - MARGIN} {top - MARGIN} {wide} {high}"'
            f' style="--wide:{wide}px"'
        )
        return (
            f'<svg xmlns="http://www.w3.org/2000/svg" role="img" aria-label="the network" {sheet}>{defs}'
            + "\n".join(
                [
                    *bands,
                    *(arcs[id(arc)][0] for arc in drawn),
                    *(arcs[id(arc)][1] for arc in drawn),
                    *map(self.node_svg, self.nodes),
                ]
            )
            + "</svg>"
        )


def along(curve: Curve, part: float) -> Point:
    (x0, y0), (x1, y1), (x2, y2), (x3, y3) = curve
    back = 1 - part
    weights = back**3, 3 * back**2 * part, 3 * back * part**2, part**3
    return sum(w * x for w, x in zip(weights, (x0, x1, x2, x3))), sum(w * y for w, y in zip(weights, (y0, y1, y2, y3)))


def overlaps(one: Box, two: Box) -> bool:
    return one[0] < two[2] and two[0] < one[2] and one[1] < two[3] and two[1] < one[3]


def spot(point: Point) -> str:
    return f"{point[0]:.0f},{point[1]:.0f}"
