"""Which sides of its range the condition of a node leaves open, by the text of the model."""
from __future__ import annotations

from .model import Expr, Unparsed, parse
from .network import Network


def mark_open_sides(net: Network, model: str) -> None:
    """Marks the open sides of the nodes; changes nothing if the model cannot be parsed."""
    try:
        sides = {
            decl.name: open_sides(decl.phrases[0].exprs[0])
            for decl in parse(model)
            if decl.kind == "node" and decl.phrases
        }
    except Unparsed:
        return
    for node in net.nodes:
        node.is_low_open, node.is_high_open = sides.get(node.text.partition("[")[0], (False, False))


def open_sides(condition: Expr) -> tuple[bool, bool]:
    """Returns whether a condition leaves the low side, and the high side, of the net inflow open."""
    relation = condition.value
    if relation not in ("<=", ">="):
        return False, False
    left, right = (net_sign(part) for part in condition.args)
    sign = left or -right
    is_high = (relation == "<=") == (sign > 0)  # whether the condition is an upper bound of the net inflow
    return bool(sign) and is_high, bool(sign) and not is_high


def net_sign(side: Expr) -> int:
    """Returns the sign with which the net inflow occurs in a side of a condition; 0 otherwise."""
    if side.op in ("+", "-"):
        return net_sign(side.args[0]) or (net_sign(side.args[1]) if side.op == "+" else -net_sign(side.args[1]))
    if side.op == "sign":
        return net_sign(side.args[0]) * (-1 if side.value == "-" else 1)
    return {"net_in": 1, "net_out": -1}.get(side.value, 0) if side.op == "name" else 0
