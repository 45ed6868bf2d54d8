"""The page of netflow-report: what the answer to a model has to show, section by section."""
from __future__ import annotations

import re

from ..analysis.changes import choices, least_changes
from ..analysis.directions import opposite_sides
from ..analysis.gains import Gains, better, bottleneck
from ..analysis.reasons import reasons
from ..analysis.sensitivity import Marginal
from ..analysis.suspicions import remark_lines
from ..exact import magnitude
from ..inputs.grouped_digits import grouped_lines_of
from ..inputs.instance import Instance
from ..reading.headings import compared_texts, first_comment, headings
from ..reading.network import Arc
from ..tools.command import fractions_text
from .drawing import draw
from .grids import grid_html, roster_html
from .page import Arcs, bullets, changes_html, page, places_html, reason_html, section, text
from .placement import grouped
from .summary import summary_html

DRAWN, ALL_DRAWN, SHOWN, SETS = 400, 60, 20, 5
# Pixels: the printed page, the least scale at which names can be read, and the height from which a drawing needs a page
# of its own.
PRINTED, READABLE, TALL = (688, 907), 0.36, 1890
# How many arcs are listed at which more capacity may help.
MOST_GAINS = 8
KINDS = (
    ("used", "carries something"),
    ("full", "full, and more would help"),
    ("across", "to or from the places in red"),
    ("idle", "carries nothing"),
)


class Report:
    """The answer to a question, by parts of a page."""

    def __init__(self, instance: Instance, files: str, unit: str = "") -> None:
        self.net = instance.priced_network()
        model = instance.model.text()
        self.files, self.model, self.reasons = files, model, []
        self.odd = [
            *compared_texts(model, [source.text() for source in instance.data]),
            *instance.notes,
            *grouped_lines_of(instance),
            *remark_lines(instance, self.net),
        ]
        self.title, self.unit = first_comment(model) or files, unit or objective_unit(model, self.net.objective)
        self.has_plan = self.net.cut is None
        self.marginal = Marginal(self.net) if self.has_plan else None
        self.gains = Gains(self.net, self.marginal) if self.marginal is not None else None
        if not self.has_plan:
            self.reasons = reasons(self.net)
        self.sets = [set(reason.nodes) for reason in self.reasons[:SETS]]
        self.marked = set().union(*self.sets)
        # If every place is in the set, a mark would say nothing.
        self.marked = set() if len(self.marked) == len(self.net.nodes) else self.marked
        self.cut = bottleneck(self.net, self.gains) if self.gains is not None else []
        self.across = {id(arc) for arc in self.net.arcs if self.sets and self.is_across(arc)} | {
            id(arc) for arc in self.cut
        }

    def is_across(self, arc: Arc) -> bool:
        """Whether the arc leads into one of the sets that are short, or out."""
        return any((arc.src in inside) != (arc.dst in inside) for inside in self.sets)

    def head(self) -> str:
        net = self.net
        counts = f"{grouped(len(net.nodes))} nodes, {grouped(len(net.arcs))} arcs"
        if not self.has_plan:
            why = "The next section says why: a set of places that cannot get, or send out, what they have to."
            return f'<p class="value none">No plan</p><p>{counts}. {why}</p>'
        best = "No plan costs less" if net.sign > 0 else "No plan is worth more"
        used = sum(arc.flow != 0 for arc in net.arcs)
        unit = f' <span class="unit">{text(self.unit)}</span>' if self.unit else ""
        return (
            f'<p class="value">{text(net.objective)} = {grouped(net.value)}{unit}</p><p>{best}. {counts},'
            f" {grouped(used)} in use.</p>{summary_html(net)}"
        )

    def drawn(self) -> list[Arc]:
        """Returns the arcs to draw: all of a small network; else those in use, or across the sets in red, the largest
        first."""
        arcs = self.net.arcs
        if len(arcs) <= ALL_DRAWN:
            return arcs
        if self.has_plan:
            return sorted(
                (arc for arc in arcs if arc.flow), key=lambda arc: (id(arc) not in self.across, -magnitude(arc.flow))
            )[:DRAWN]
        across = [arc for arc in arcs if id(arc) in self.across]
        inside = [arc for arc in arcs if arc.src in self.marked and arc.dst in self.marked]
        return (across + inside)[:DRAWN]

    def picture(self, is_alone: bool = False) -> tuple[str, int]:
        arcs = self.drawn()
        if not arcs:
            return "", 0
        return draw(self.net, arcs, self.marked, self.across, len(arcs) == len(self.net.arcs)).svg(is_alone), len(arcs)

    def drawing(self) -> str:
        picture, count = self.picture()
        if not picture:
            what = "carries anything" if self.has_plan else "crosses the line around these places"
            return f"<p>No arc {what}, so none is drawn.</p>"
        named = dict(KINDS)
        named.update({} if self.has_plan else {"idle": "another arc"})
        named.update({"across": "the bottleneck"} if self.cut else {})
        keys = "".join(
            f'<span><i class="{kind}"></i>{means}</span>'
            for kind, means in named.items()
            if f'class="arc {kind} ' in picture
        )
        marked = "<span>The places that are short are red.</span>" if self.marked else ""
        left = len(self.net.arcs) - count
        note = f"<span>{count} of {len(self.net.arcs)} arcs are drawn: {self.choice(count)}.</span>" if left else ""
        tools = (
            '<span class="tools"><button type="button" data-scale="1.25">larger</button> <button type="button"'
            ' data-scale="0.8">smaller</button> <button type="button" data-scale="fit">fit</button></span>'
        )
        point = (
            '<span class="dim point">Point at a place to see only its arcs.</span><span class="more-right">The drawing'
            ' goes on to the right.</span><span class="more-down">The drawing goes on below.</span>'
        )
        return f'<p class="key">{keys}{marked}{note}{point}{tools}</p>{framed(picture)}'

    def choice(self, count: int) -> str:
        what = "those that carry something" if self.has_plan else "those of the places that are short"
        return what + (
            f", the {count} largest"
            if count == DRAWN and self.has_plan
            else f", the first {count}"
            if count == DRAWN
            else ""
        )

    def why(self) -> str:
        parts = [f'<p class="reason">{text(line)}</p>' for line in opposite_sides(self.net)]
        parts += [reason_html(self.net, reason, SHOWN) for reason in self.reasons[:SETS]]
        left = len(self.reasons) - SETS
        parts += [f"<p>{left} more sets of places are short; netflow-why --all lists them.</p>"] if left > 0 else []
        changes = changes_html(self.net, least_changes(self.net), SHOWN)
        return section("Why", "<hr>".join(parts)) + section("Least change with which there is a plan", changes)

    def bottleneck(self) -> str:
        if not self.cut:
            return ""
        lines = [
            f"{arc.text} from {self.net.end(arc.src)} to {self.net.end(arc.dst)}: {grouped(arc.upper)}"
            for arc in sorted(self.cut, key=lambda arc: -arc.upper)
        ]
        more = [f"and {len(lines) - SHOWN} more"] if len(lines) > SHOWN else []
        return section(
            "Bottleneck",
            f"<p>{grouped(self.net.value)} in all. No flow can be larger.</p>" + bullets(lines[:SHOWN] + more),
        )

    def prices(self) -> str:
        """Returns the arcs at which one more unit of capacity saves most."""
        if self.gains is None:
            return ""
        gains, chosen = self.gains, choices(self.net)
        felt = [(amount, arc) for amount, arc in gains.felt if arc.is_full() and arc.name not in chosen]
        doubt = "" if gains.is_exact else " at most"
        saves = f"one more unit {better(self.net)}{doubt}"
        lines = [
            f"{arc.text}, full at {grouped(arc.upper)}: {saves} {grouped(amount)}{gains.limit(arc)}"
            for amount, arc in felt[:MOST_GAINS]
        ]
        left = len(felt) - MOST_GAINS
        lines += (
            [f"{left} more, each {grouped(felt[MOST_GAINS][0])} or less: netflow-why --all lists them"]
            if left > 0
            else []
        )
        return section("Where more capacity helps", bullets(lines)) if lines and not self.cut else ""

    def remarks(self) -> str:
        """Returns what is allowed, and often a mistake."""
        fractions = fractions_text(self.net)
        lines = [*([f"{fractions[:1].upper()}{fractions[1:]}."] if fractions else []), *self.odd]
        return section("Worth a look", bullets(lines)) if lines else ""

    def tables(self) -> list[str]:
        lead = {id(arc) for arc in self.net.arcs if arc.flow} if self.has_plan else self.across
        made = []
        for name, arcs in self.net.declared().items():
            titles = headings(self.model, name, len(arcs[0].key))
            grid = (roster_html(arcs, titles) or grid_html(arcs, titles)) if self.has_plan else ""
            made.append(Arcs(self.net, name, titles, arcs, lead, self.gains).html(grid))
        return made

    def html(self) -> str:
        why = [] if self.has_plan else [self.why()]
        prices, places = (
            ([self.bottleneck(), self.prices()], [places_html(self.net, self.marginal)]) if self.has_plan else ([], [])
        )
        parts = [*why, section("The network", self.drawing()), *prices, self.remarks(), *self.tables(), *places]
        return page(self.title, self.files, self.head(), parts)


def framed(picture: str) -> str:
    """Returns the frame of a drawing, or of its parts in columns. Print leaves out a drawing with names too small to
    read."""
    sizes = [tuple(map(int, size)) for size in re.findall(r'<svg [^>]*?width="(\d+)" height="(\d+)"', picture)]
    wide, high = max(sizes)[0], sizes[0][1]
    if len(sizes) > 1:
        return f'<div class="picture"><div class="parts" style="--widest:{wide}px">{picture}</div></div>'
    if min(PRINTED[0] / wide, PRINTED[1] / high) < READABLE:
        return (
            f'<div class="picture screen">{picture}</div><p class="print-note">The drawing is on the page for the'
            " screen: its names are too small for print.</p>"
        )
    return f'<div class="picture whole{" tall" if high > TALL else ""}">{picture}</div>'


def objective_unit(model: str, name: str) -> str:
    """Returns the unit that a comment on the objective's line gives: `minimize Total;  # in euros` or `# [t]`."""
    match = (
        re.search(
            rf"\b(?:minimize|maximize)\s+{re.escape(name)}\b[^\n]*#[^\n]*?(?:\bin\s+|\[)([^\]\n,.;]{{1,16}})", model
        )
        if name
        else None
    )
    return match[1].strip() if match else ""
