"""The parts of the page of netflow-report: tables of arcs and places, and reasons in words."""
from __future__ import annotations

import datetime
import os
from fractions import Fraction
from html import escape
from typing import Dict, Sequence

from .. import __version__
from ..analysis.changes import LeastChanges, is_left_out, left_out_text, single_title, total
from ..analysis.gains import Gains, Place, better
from ..analysis.reasons import Part, Reason
from ..analysis.sensitivity import Marginal
from ..exact import magnitude
from ..reading.network import Arc, Network
from ..types import Number
from .names import in_words
from .placement import grouped
from .style import PAGE_STYLE, SCRIPT

HIDDEN_FROM = 5_000
# From this many rows on a table has a line to find some of them; and the most totals.
FOUND_FROM, TOTALS = 15, 200


class Markup(str):
    """A text that is HTML already."""


def text(value: object) -> str:
    """Returns a text for HTML, with names as planners read them."""
    return escape(in_words(str(value)), quote=True)


def anchor(name: str) -> str:
    """Returns the id of the section of a declaration of arcs."""
    return f"arcs-{text(name)}"


def cell(value: object, kind: str) -> str:
    """Returns a cell; a number is printed in groups of three digits and sorted by its value."""
    if isinstance(value, (int, Fraction)) and not isinstance(value, bool) and "number" in kind:
        plain, shown = str(value), grouped(value)
        data = f' data-n="{float(value) if "/" in plain else plain}"' if shown != plain else ""
        return f'<td class="{kind}"{data}>{shown}</td>'
    return f'<td class="{kind}">{value if isinstance(value, Markup) else text(value)}</td>'


class Cells(Dict[object, str]):
    """The cells of a column by their values. It grows as rows are made, since most values occur often."""

    def __init__(self, kind: str) -> None:
        super().__init__()
        self.kind = kind

    def __missing__(self, value: object) -> str:
        result = self[value] = cell(value, self.kind)
        return result


def table(head: Sequence[tuple[str, str]], rows: Sequence[tuple[str, Sequence[object]]], classes: str = "") -> str:
    """Returns a table whose columns a click sorts; a column is (title, class), a row its own class and its cells. Empty
    columns are left out."""
    kept = [here for here in range(len(head)) if any(cells[here] != "" for _, cells in rows)]
    if len(kept) < len(head):
        head, rows = [head[here] for here in kept], [(kind, [cells[here] for here in kept]) for kind, cells in rows]
    titles = "".join(
        f'<th class="{kind}" scope="col"><button type="button">{text(title)}</button></th>' for title, kind in head
    )
    columns = [Cells(kind) for _, kind in head]
    lines = ["".join([column[cell] for cell, column in zip(cells, columns)]) for _, cells in rows]
    body = "\n".join(f'<tr class="{kind}">{line}</tr>' for (kind, _), line in zip(rows, lines))
    return (
        '<div class="scroll"><table'
        f' class="{classes}"><thead><tr>{titles}</tr></thead><tbody>\n{body}\n</tbody></table></div>'
    )


def section(title: str, inner: str, name: str = "") -> str:
    named = f' id="{name}"' if name else ""
    return f"<section{named}><h2>{text(title)}</h2>\n{inner}\n</section>"


def bullets(lines: Sequence[str]) -> str:
    return "<ul>" + "".join(f"<li>{text(line)}</li>" for line in lines) + "</ul>" if lines else ""


class Arcs:
    """The table of one declaration's arcs; `keys` are the titles of the parts of its keys. `lead` are the ids of the
    arcs that are shown first; a button shows the others."""

    def __init__(
        self, net: Network, name: str, keys: list[str], arcs: list[Arc], lead: set[int], gains: Gains | None
    ) -> None:
        self.net, self.name, self.keys, self.arcs, self.lead = net, name, keys, arcs, lead
        self.has_plan, self.is_exact = gains is not None, gains is not None and gains.is_exact
        self.gains = {id(arc): amount for amount, arc in gains.felt} if gains is not None else {}
        has_plan = self.has_plan
        self.has_least = any(arc.lower for arc in arcs)
        self.has_worth = has_plan and any(id(arc) in self.gains for arc in arcs)
        self.has_price = any(arc.price for arc in arcs)

    def head(self) -> list[tuple[str, str]]:
        titles = [(key, "") for key in self.keys]
        titles += [("from", "end"), ("to", "end")] + ([("flow", "number flow")] if self.has_plan else [])
        titles += (
            ([("least", "number")] if self.has_least else [])
            + [("most", "number")]
            + ([("price", "number")] if self.has_price else [])
        )
        titles += [("flow × price", "number")] if self.has_plan and self.has_price else []
        title = f"one more {better(self.net)}{'' if self.is_exact else ' at most'}"
        return titles + ([(title, "number")] if self.has_worth else [])

    def row(self, arc: Arc) -> tuple[str, list[object]]:
        cells: list[object] = [*arc.key, self.net.end(arc.src), self.net.end(arc.dst)] + (
            [arc.flow] if self.has_plan else []
        )
        cells += (
            ([arc.lower] if self.has_least else [])
            + ["no limit" if arc.is_open else arc.upper]
            + ([arc.price] if self.has_price else [])
        )
        cells += [arc.flow * arc.price] if self.has_plan and self.has_price else []
        cells += [self.gains.get(id(arc), "")] if self.has_worth else []
        bound = "full" if self.has_plan and arc.is_tight() else "lowest" if self.has_plan and arc.is_lowest() else ""
        return f"{bound}{'' if id(arc) in self.lead else ' more'}".strip(), cells

    def summary(self) -> str:
        used, count = sum(arc.flow != 0 for arc in self.arcs), len(self.arcs)
        if not self.has_plan:
            across = sum(id(arc) in self.lead for arc in self.arcs)
            return (
                f"{count} {arcs_word(count)}, {across or 'none'} of them to or from the places in red."
                if self.lead
                else f"{count} {arcs_word(count)}, all of them between these places."
            )
        full, lowest = sum(arc.is_tight() for arc in self.arcs), sum(arc.is_lowest() for arc in self.arcs)
        spent = f" Flow × price: {grouped(sum(arc.flow * arc.price for arc in self.arcs))}." if self.has_price else ""
        bounds = (full, "full", "full, and more would help"), (lowest, "lowest", "at the least")
        marks = "".join(f', {many} <span class="{kind}">{what}</span>' for many, kind, what in bounds if many)
        return f"{count} {arcs_word(count)}, {used} in use{marks}.{spent}"

    def finding(self, count: int) -> str:
        """Returns a line to find rows by their texts, and the full ones alone."""
        if count < FOUND_FROM:
            return ""
        full = (
            '<label><input type="checkbox"> full only</label>'
            if self.has_plan and any(arc.is_tight() for arc in self.arcs)
            else ""
        )
        return f'<p class="find"><label>find <input type="search"></label>{full}<span class="dim"></span></p>'

    def totals(self) -> str:
        """Returns the total flows by each part of the keys."""
        if not self.has_plan or len(self.keys) < 2:
            return ""
        made = [self.total(place, title) for place, title in enumerate(self.keys)]
        made = [item for item in made if item]
        return f'<details><summary>totals</summary><div class="pair">{"".join(made)}</div></details>' if made else ""

    def total(self, place: int, title: str) -> str:
        nothing: tuple[Number, Number] = (0, 0)
        sums = dict.fromkeys([arc.key[place] for arc in self.arcs], nothing)
        if not 1 < len(sums) <= TOTALS or len(sums) == len(self.arcs):
            return ""
        for arc in self.arcs:
            if arc.flow:
                flow, spent = sums[arc.key[place]]
                sums[arc.key[place]] = flow + arc.flow, spent + arc.flow * arc.price
        head = [(title, ""), ("flow", "number flow")] + [("flow × price", "number")] * self.has_price
        return f'<div>{table(head, [("", [member, *pair][:len(head)]) for member, pair in sums.items()])}</div>'

    def html(self, grid: str = "") -> str:
        shown = sorted(self.arcs, key=lambda arc: id(arc) not in self.lead)
        hidden = sum(id(arc) not in self.lead for arc in self.arcs)
        what = (
            f"the {hidden} that {'carries' if hidden == 1 else 'carry'} nothing"
            if self.has_plan
            else f"the {hidden} other{'s' * (hidden > 1)}"
        )
        note = f'<button type="button" class="toggle" aria-expanded="false">show {what}</button>' if hidden else ""
        if hidden and len(self.net.arcs) > HIDDEN_FROM:
            shown, note = (
                shown[: len(shown) - hidden],
                f"{capital(what)} are left out of this page; netflow-sheet writes them all.",
            )
        made = table(self.head(), [self.row(arc) for arc in shown], "numbers") if shown else ""
        # If every row is hidden, the heading is too.
        made = made if hidden < len(self.arcs) else f'<div class="later">{made}</div>'
        parts = f"<p>{self.summary()} {note}</p>{self.finding(len(shown))}{made}{grid}{self.totals()}"
        return section(self.name, parts, anchor(self.name))


def places_html(net: Network, marginal: Marginal | None = None) -> str:
    """Returns the table of the places: inflow, outflow, and what one more unit that they need or give costs, as
    netflow-why says."""
    came: list[Number] = [0] * len(net.nodes)
    went: list[Number] = [0] * len(net.nodes)
    for arc in (arc for arc in net.arcs if arc.flow):
        for counts, number, is_forward in ((came, arc.dst, arc.flow > 0), (went, arc.src, arc.flow > 0)):
            if number is not None:
                (counts if is_forward else went if counts is came else came)[number] += magnitude(arc.flow)
    places = [Place(net, marginal, number) for number in range(len(net.nodes))] if marginal else []
    worths = [place.cost if place.is_felt() else "" if place.cost is None else 0 for place in places]
    has_worth = any(worths)
    head = [("place", ""), ("needs or gives", ""), ("inflow", "number flow"), ("outflow", "number flow")]
    head += [(f"one more, needed or given, {'costs' if net.sign > 0 else 'takes away'}", "number wrap")] * has_worth
    rows = [
        ("", [node.text, node.wish(), came[number], went[number], *worths[number : number + has_worth]])
        for number, node in enumerate(net.nodes)
    ]
    rows, count = rows[:HIDDEN_FROM], len(rows)
    note = f" The first {HIDDEN_FROM} are shown." if count > HIDDEN_FROM else ""
    note += (
        f" One more unit that a place needs, or can give, changes the value; below 0 it {better(net)}."
        if has_worth
        else ""
    )
    return (
        section("Places", f"<p>{count} {'place' if count == 1 else 'places'}.{note}</p>{table(head, rows, 'numbers')}")
        if rows
        else ""
    )


def arcs_word(count: int) -> str:
    return "arc" if count == 1 else "arcs"


def parts_table(title: str, total: Number, parts: list[Part], most: int) -> str:
    rows = [("", [part.amount, part.text]) for part in parts[:most]]
    more = f"<p>and {len(parts) - most} more</p>" if len(parts) > most else ""
    return f"<h3>{text(title)}, {total} in all</h3>" + table([("amount", "number"), ("what", "")], rows) + more


def capital(words: str) -> str:
    return words[:1].upper() + words[1:]


def reason_html(net: Network, reason: Reason, most: int) -> str:
    """A set of places that is short, in words and two tables."""
    asked, helping, none, other = reason.words()
    lines = [f'<p class="reason">{text(capital(reason.headline(net)))}.</p>']
    lines += ['<div class="pair"><div>', parts_table(asked, reason.needed(), reason.asks, most), "</div><div>"]
    lines.append(parts_table(helping, reason.given(), reason.helps, most) if reason.helps else f"<p>{text(none)}.</p>")
    if reason.idle:
        lines.append(f"<h3>{text(other)}</h3>" + bullets([part.text for part in reason.idle[:most]]))
    lines.append("</div></div>")
    quiet = reason.quiet(net)
    if quiet:
        lines.append(
            f"<p>Pass on what they get: {text(', '.join(quiet[:most]))}{' ..' if len(quiet) > most else ''}.</p>"
        )
    return "".join(lines)


def changes_html(net: Network, found: LeastChanges, most: int) -> str:
    """The least changes: those at one place, then those of the other kinds of bounds."""
    if found.is_large:
        return "<p>It is not computed: the model is too large.</p>"
    lines = (
        [f"<h3>{text(single_title(found.single))}</h3>" + bullets([change.sentence() for change in found.single])]
        if found.single
        else []
    )
    for what, changes in found.others().items():
        if changes is None:
            lines.append(f"<p>{text(capital(what))}: none is enough.</p>")
            continue
        if is_left_out(changes):
            lines.append(
                f"<p>{text(capital(what))}: {total(changes)} in all. {text(left_out_text(net, changes, most))}.</p>"
            )
            continue
        rows = [
            ("", [change.amount, change.sentence()])
            for change in sorted(changes, key=lambda change: -change.amount)[:most]
        ]
        more = f"<p>and {len(changes) - most} more</p>" if len(changes) > most else ""
        lines.append(
            f"<h3>{text(capital(what))}: {total(changes)} in all</h3>"
            + table([("by", "number"), ("change", "")], rows)
            + more
        )
    return "".join(lines) + "<p>Each unit counts the same, and other changes may be as small.</p>"


def date() -> str:
    """Returns the date of today, or of SOURCE_DATE_EPOCH."""
    epoch = os.environ.get("SOURCE_DATE_EPOCH")
    day = (
        datetime.datetime.fromtimestamp(int(epoch), datetime.timezone.utc)
        if epoch and epoch.isdigit()
        else datetime.datetime.now()
    )
    return day.strftime("%Y-%m-%d")


def heading_size(title: str) -> str:
    """Returns the class of a heading, so that no heading takes more than two lines; a very long one ends with dots."""
    return ' class="longest"' if len(title) > 110 else ' class="long"' if len(title) > 60 else ""


def page(title: str, files: str, head: str, sections: list[str]) -> str:
    """Returns the whole page, which needs no other file."""
    return f"""<!DOCTYPE html>
<html lang="en"><head><meta charset="utf-8"><meta name="viewport" content="width=device-width, initial-scale=1">
<title>{escape(title)}</title><style>{PAGE_STYLE}</style></head>
<body><header><h1{heading_size(title)} title="{escape(title)}">{escape(title)}</h1>
<p class="dim">{text(files + ", ") if files != title else ""}{date()}</p>
{head}</header>
<main>
{chr(10).join(sections)}
</main>
<footer>Made by netflow-report {__version__} from the output of netflow.</footer>
<script>{SCRIPT}</script></body></html>
"""
