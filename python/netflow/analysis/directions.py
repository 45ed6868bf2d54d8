"""Conditions of nodes with the wrong sign: net_out instead of net_in, or the other way round, or arcs that are
reversed."""
from __future__ import annotations

from ..reading.network import Arc, Network, Node
from ..reading.text import few

GIVES, NEEDS = "gives units, but no arc leads out", "needs units, but no arc leads in"


class Declared:
    """The nodes of one declaration that must give or get something, by number, and the arcs of the network at each of
    them."""

    def __init__(self, name: str, nodes: dict[int, Node]) -> None:
        self.name, self.nodes = name, nodes
        self.arcs: list[Arc] = []
        self.giving = {node.high < 0 for node in nodes.values()}

    def is_opposite(self) -> bool:
        """Whether no arc of any of these nodes leads the way that the node needs: out of those that give, into those
        that need."""
        srcs, dsts = {arc.src for arc in self.arcs}, {arc.dst for arc in self.arcs}
        return bool(self.arcs) and not any(
            number in (srcs if node.high < 0 else dsts) for number, node in self.nodes.items()
        )

    def line(self, net: Network) -> str:
        """Returns what is opposite, with the question that the other ends of the arcs suggest."""
        who = (
            next(iter(self.nodes.values())).text
            if len(self.nodes) == 1
            else f"{self.name}: each of its {len(self.nodes)} places"
        )
        if len(self.giving) > 1:
            return f"{who} either {GIVES}, or {NEEDS}. Is the sign in the condition of {self.name} wrong?"
        gives = True in self.giving
        said, meant = ("net_out", "net_in") if gives else ("net_in", "net_out")
        ends = [arc.src if gives else arc.dst for arc in self.arcs]
        others = {net.nodes[number].wish().partition(" ")[0] for number in ends if number is not None}
        alike, contrary = ("gives", "needs") if gives else ("needs", "gives")
        names = few(list(dict.fromkeys(arc.name for arc in self.arcs)), 3)
        sign, turned = (
            f"{meant} meant instead of {said} in the condition of {self.name}",
            f"the direction of {names} reversed",
        )
        asked = sign if alike in others else turned if contrary in others else f"{sign}, or {turned}"
        return f"{who} {GIVES if gives else NEEDS}. Is {asked}?"


def opposite_sides(net: Network) -> list[str]:
    """Returns a line for each declaration of nodes all of which need the opposite of what their arcs can do."""
    result: dict[str, dict[int, Node]] = {}
    for number, node in enumerate(net.nodes):
        if node.low > 0 or node.high < 0:
            result.setdefault(node.text.partition("[")[0], {})[number] = node
    declared = [Declared(name, nodes) for name, nodes in result.items()]
    owners = {number: declaration for declaration in declared for number in declaration.nodes}
    for arc in net.arcs:
        for declaration in {owners[number] for number in (arc.src, arc.dst) if number in owners}:
            declaration.arcs.append(arc)
    return [declaration.line(net) for declaration in declared if declaration.is_opposite()]
