"""The first table of the page: a line for each declaration of arcs."""
from __future__ import annotations

from ..reading.network import Arc, Network
from .page import Markup, anchor, table, text


def summary_html(net: Network) -> str:
    """Returns a table with the arcs, the flow and the part of the value of each declaration; empty if there is none."""
    declared = net.declared()
    has_price = any(arc.price for arc in net.arcs)
    rows = [("", row(name, arcs, has_price)) for name, arcs in declared.items()]
    if not rows:
        return ""
    head = [("arcs", ""), ("number", "number"), ("in use", "number"), ("full", "number"), ("flow", "number flow")]
    head += [(net.objective or "cost", "number")] * has_price
    return table(head, rows, "summary")


def row(name: str, arcs: list[Arc], has_price: bool) -> list[object]:
    full = sum(arc.is_tight() for arc in arcs)
    cells: list[object] = [
        Markup(f'<a href="#{anchor(name)}">{text(name)}</a>'),
        len(arcs),
        sum(arc.flow != 0 for arc in arcs),
        full or "",
        sum(arc.flow for arc in arcs),
    ]
    return cells + [sum(arc.flow * arc.price for arc in arcs)] * has_price
