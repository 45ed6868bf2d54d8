"""The grid of a declaration of arcs with two keys or more: rows by columns, as planners print rosters and shipments."""
from __future__ import annotations

from ..reading.network import Arc
from ..types import Key, Member
from .page import text
from .placement import grouped

# The most rows and columns of a grid, and the smallest part of its cells that has to have arcs.
ROWS, COLUMNS, FILLED = 400, 60, 0.15
# From so many letters on the headings of columns are upright in a narrow window, and in any.
WORDY, LONG = 40, 110
# The most pixels of a grid that a printed page takes, made smaller.
PRINTED = 1100
NOTE = '<p class="print-note">The grid is on the page for the screen: it is too wide for print.</p>'


def grid_html(arcs: list[Arc], titles: list[str], is_open: bool = True) -> str:
    """Returns the grid of the flows; empty if the arcs have fewer than two keys or fill too little. Columns are
    the last key, or the last but one if that gives fewer."""
    if not arcs or len(arcs[0].key) < 2 or len(arcs) > ROWS * COLUMNS:
        return ""
    across = list(dict.fromkeys(arc.key[-1] for arc in arcs))
    rows: dict[Key, dict[Member, Arc]] = {}
    for arc in arcs:
        rows.setdefault(tuple(arc.key[:-1]), {})[arc.key[-1]] = arc
    if not 1 < len(across) <= COLUMNS or not 1 < len(rows) <= ROWS or len(arcs) < FILLED * len(across) * len(rows):
        return ""
    if {(member,) for member in across} == set(rows):
        across = [member for member, in rows]
    head = grid_head(titles[:-1], [*across, "total"], "number")
    lines = [grid_row(key, cells, across) for key, cells in rows.items()]
    sums = [sum(cells[member].flow for cells in rows.values() if member in cells) for member in across]
    last = "".join(f"<td>{grouped(total)}</td>" for total in [*sums, sum(sums)])
    title = f"{text(' and '.join(map(str, titles[:-1])))} by {text(titles[-1])}"
    foot = f'<tfoot><tr class="sum"><td class="key" colspan="{len(titles) - 1}">total</td>{last}</tr></tfoot>'
    letters = sum(len(str(member)) + 2 for member in across)
    kind = "grid long wordy" if letters > LONG else "grid wordy" if letters > WORDY else "grid"
    table = (
        f'<table class="{kind}"><thead><tr>{head}</tr></thead><tbody>\n{chr(10).join(lines)}\n</tbody>{foot}</table>'
    )
    digits = sum(
        max([len(str(cells[member].flow)) for cells in rows.values() if member in cells] + [len(grouped(sums[at]))])
        for at, member in enumerate(across)
    )
    kind, note = ("as-grid screen", NOTE) if digits * 5 + len(across) * 4 > PRINTED else ("as-grid", "")
    return (
        f'<details class="{kind}"{" open" if is_open else ""}><summary>{title}</summary><div'
        f' class="scroll">{table}</div></details>{note}'
    )


def grid_head(titles: list[str], across: list[Member], kind: str) -> str:
    heads = [*(("", title) for title in titles), *((kind, member) for member in across)]
    return "".join(
        f'<th class="{kind}" scope="col"><button type="button">{text(title)}</button></th>' for kind, title in heads
    )


def grid_row(key: Key, cells: dict[Member, Arc], across: list[Member]) -> str:
    made = [f'<td class="key">{text(member)}</td>' for member in key]
    for member in across:
        arc = cells.get(member)
        if arc is None:
            made.append('<td class="none"></td>')
        else:
            kind = "full" if arc.is_tight() and arc.flow else "" if arc.flow else "zero"
            made.append(f'<td class="{kind}" data-n="{float(arc.flow)}">{grouped(arc.flow) if arc.flow else "·"}</td>')
    total = sum(arc.flow for arc in cells.values())
    return f'<tr>{"".join(made)}<td class="sum" data-n="{float(total)}">{grouped(total)}</td></tr>'


def roster_html(arcs: list[Arc], titles: list[str]) -> str:
    """Returns a grid of choices with three keys, as a roster: rows by columns, and in each cell what was chosen; else
    an empty text."""
    if not arcs or len(arcs[0].key) != 3 or any(arc.lower < 0 or arc.upper > 1 for arc in arcs):
        return ""
    counts = [len({arc.key[place] for arc in arcs}) for place in range(3)]
    column, chosen = (1, 2) if counts[1] >= counts[2] else (2, 1)
    if not 1 < counts[column] <= COLUMNS or not 1 < counts[0] <= ROWS:
        return ""
    across = list(dict.fromkeys(arc.key[column] for arc in arcs))
    rows: dict[Member, dict[Member, list[str]]] = {}
    for arc in arcs:
        cell = rows.setdefault(arc.key[0], {}).setdefault(arc.key[column], [])
        cell += [str(arc.key[chosen])] if arc.flow else []
    head = grid_head(titles[:1], across, "chosen")
    lines = []
    for row, cells in rows.items():
        made = "".join(
            f'<td class="{"none" if member not in cells else "chosen"}">{text(", ".join(cells.get(member, [])))}</td>'
            for member in across
        )
        lines.append(f'<tr><td class="key">{text(row)}</td>{made}</tr>')
    table = f'<table class="grid"><thead><tr>{head}</tr></thead><tbody>\n{chr(10).join(lines)}\n</tbody></table>'
    title = f"{text(titles[0])} by {text(titles[column])}: {text(titles[chosen])}"
    return f'<details class="as-grid" open><summary>{title}</summary><div class="scroll">{table}</div></details>'
