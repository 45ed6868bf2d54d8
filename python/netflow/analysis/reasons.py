"""Why there is no plan: the sets of nodes that are short, in the model's own numbers.

The amounts of a set are sums of bounds in the compiled model. `netflow check` confirms that the set shows that there is
no plan: nothing is reported that the program has not confirmed.
"""
from __future__ import annotations

import dataclasses
import os
import tempfile
from typing import AbstractSet, Iterator, Sequence

from ..exact import Number, magnitude
from ..program import run
from ..reading.network import Arc, Network

# How often a further set is looked for, and up to how many lines of problems in all.
ROUNDS, LARGEST = 12, 200_000


@dataclasses.dataclass
class Part:
    """One line of a reason: an amount, what has it, the name of that declaration, and the arc if it is one."""

    amount: Number
    text: str
    name: str = ""
    arc: str = ""

    @property
    def is_arc(self) -> bool:
        return bool(self.arc)


@dataclasses.dataclass
class Reason:
    """A set of nodes that needs more than can arrive (`under`), or has more than can leave (`over`). `asks` are the
    parts that have to be met, `helps` those that can meet them, at most; `idle` are arcs across its border
    that do not help.
    """

    side: str
    nodes: list[int]
    asks: list[Part]
    helps: list[Part]
    idle: list[Part]

    def words(self) -> tuple[str, str, str, str]:
        """Returns the titles of its two lists, what to say if nothing helps, and the direction of the idle arcs."""
        said, meant = ("net_in", "net_out") if self.side == "under" else ("net_out", "net_in")
        doubt = "" if self.helps else f" (is one reversed? or is {meant} meant instead of {said}?)"
        if self.side == "under":
            return "needed", "can come, at most", "no arc leads in, and nothing else helps", f"these lead out{doubt}"
        return "there, at least", "room, at most", "no arc leads out, and nothing else helps", f"these lead in{doubt}"

    def who(self, net: Network) -> str:
        count = len(self.nodes)
        if count <= 3 < len(net.nodes) or count == 1:
            return ", ".join(net.nodes[number].text for number in self.nodes) + " together" * (count > 1)
        return f"{'All' if count == len(net.nodes) else 'These'} {count} places together"

    def headline(self, net: Network) -> str:
        """Returns one sentence: who needs what, what can come, what is short."""
        needed, given, short = self.needed(), self.given(), self.short()
        if self.side == "under":
            return f"{self.who(net)}: {needed} needed, {given} can come at most: {short} short"
        return f"{self.who(net)}: {needed} there at least, room for {given} at most: {short} too much"

    def quiet(self, net: Network) -> list[str]:
        """Returns the places of the set that pass on what they get."""
        return [net.nodes[number].text for number in self.nodes if net.nodes[number].low == net.nodes[number].high == 0]

    def needed(self) -> Number:
        return sum(part.amount for part in self.asks)

    def given(self) -> Number:
        return sum(part.amount for part in self.helps)

    def short(self) -> Number:
        return self.needed() - self.given()

    def is_mirror(self, other: Reason) -> bool:
        """Whether both say the same from two sides: what cannot leave one set is short in the other, and mostly the
        same arcs carry too little."""
        ours, theirs = ({part.arc for part in reason.helps if part.arc and part.amount} for reason in (self, other))
        return self.side != other.side and self.short() == other.short() and 2 * len(ours & theirs) > len(ours | theirs)


class Cuts:
    """Sets of nodes of a network on one side, and how much each is short."""

    def __init__(self, net: Network, side: str) -> None:
        self.net, self.is_under = net, side == "under"
        self.side = side
        self.near: list[list[Arc]] = [[] for _ in net.nodes]
        for arc in net.arcs:
            for number in {arc.src, arc.dst}:
                if number is not None:
                    self.near[number].append(arc)

    def needs(self, number: int) -> Number:
        """Returns what has to come to the node, or to leave, by its own condition."""
        node = self.net.nodes[number]
        return node.low if self.is_under else -node.high

    def binds(self, number: int) -> bool:
        node = self.net.nodes[number]
        return node.has_low() if self.is_under else node.has_high()

    def carried(self, arc: Arc, is_inward: bool) -> Number:
        """Returns the most that the arc brings to a set, or takes away, across its border."""
        return arc.upper if is_inward == self.is_under else -arc.lower

    def short(self, nodes: AbstractSet[int]) -> Number:
        total = sum(self.needs(number) for number in nodes)
        for arc in self.crossing(nodes):
            total -= self.carried(arc, arc.dst in nodes)
        return total

    def crossing(self, nodes: AbstractSet[int]) -> list[Arc]:
        """Returns the arcs with one end in the set, each once."""
        return [arc for number in nodes for arc in self.near[number] if (arc.src in nodes) != (arc.dst in nodes)]

    def grown(self, number: int, nodes: AbstractSet[int]) -> Number:
        """Returns how much less short the set is without the node."""
        lost = self.needs(number)
        for arc in self.near[number]:
            src, dst = arc.src in nodes, arc.dst in nodes
            if src and dst and arc.src != arc.dst:
                lost += self.carried(arc, arc.src == number)
            elif src != dst:
                lost -= self.carried(arc, dst)
        return lost

    def thinned(self, nodes: AbstractSet[int]) -> set[int]:
        """Returns the set without nodes that add nothing to the shortage: those without a binding side, then others one
        by one."""
        nodes = {number for number in nodes if self.binds(number)}
        again = True
        while again:
            again = False
            for number in sorted(nodes, key=self.needs):
                if self.grown(number, nodes) <= 0:
                    nodes.discard(number)
                    again = True
        return nodes

    def parts(self, nodes: AbstractSet[int]) -> Iterator[set[int]]:
        """Yields the connected parts of the set."""
        left = set(nodes)
        while left:
            line = [left.pop()]
            for number in line:
                for arc in self.near[number]:
                    other = arc.dst if arc.src == number else arc.src
                    if other in left:
                        left.discard(other)
                        line.append(other)
            yield set(line)

    def reason(self, nodes: AbstractSet[int]) -> Reason:
        """Returns the set's reason: what asks, what helps, and the arcs across its border that do neither."""
        asks: list[Part] = []
        helps: list[Part] = []
        idle: list[Part] = []
        for number in sorted(nodes):
            amount = self.needs(number)
            if amount:
                text = self.net.nodes[number].text
                (asks if amount > 0 else helps).append(Part(magnitude(amount), text, text.partition("[")[0]))
        for arc in self.crossing(nodes):
            is_inward = arc.dst in nodes
            amount = self.carried(arc, is_inward)
            is_way = is_inward == self.is_under
            if amount or is_way:
                (asks if amount < 0 else helps).append(
                    Part(magnitude(amount), "by " + self.way(arc, is_inward), arc.name, arc.text)
                )
            else:
                idle.append(Part(0, self.way(arc, is_inward), arc.name, arc.text))
        for parts in (asks, helps, idle):
            parts.sort(key=lambda part: part.amount, reverse=True)
        return Reason(self.side, sorted(nodes), asks, helps, idle)

    def way(self, arc: Arc, is_inward: bool) -> str:
        other = f"from {self.net.end(arc.src)}" if is_inward else f"to {self.net.end(arc.dst)}"
        return f"{arc.text} {other}, which carries {arc.lower} to {arc.most()}"


def reasons(net: Network) -> list[Reason]:
    """Returns the sets of a network without a plan that are short, the largest shortage first, without those that say
    the same as one before them from its other side."""
    result: list[Reason] = []
    for reason in all_reasons(net, *net.cut) if net.cut is not None else ():
        if not any(reason.is_mirror(other) for other in result):
            result.append(reason)
    return sorted(result, key=lambda reason: -reason.short())


def all_reasons(net: Network, side: str, nodes: AbstractSet[int]) -> list[Reason]:
    """Returns the sets that are short: those of the cut, and further ones that remain short if the sets before them get
    what they lack."""
    result = reasons_of_cut(net, side, nodes)
    for _ in range(min(ROUNDS, LARGEST // len(net.lines))):
        cut = cut_besides(net, result)
        known = {(reason.side, *reason.nodes) for reason in result}
        more = (
            [reason for reason in reasons_of_cut(net, *cut) if (reason.side, *reason.nodes) not in known] if cut else []
        )
        if not more:
            break
        result += more
    return result


def reasons_of_cut(net: Network, side: str, nodes: AbstractSet[int]) -> list[Reason]:
    """Returns the smallest sets of a cut: each is a part, and together they are short by as much or more."""
    cuts, found = Cuts(net, side), []
    for part in cuts.parts(nodes):
        found += [nodes_of_part for nodes_of_part in cuts.parts(cuts.thinned(part)) if cuts.short(nodes_of_part) > 0]
    found = [inside for inside in found if shows(net, side, inside)] or [set(nodes)]
    return [cuts.reason(inside) for inside in found]


def cut_besides(net: Network, found: Sequence[Reason]) -> tuple[str, set[int]] | None:
    """Returns the side and the nodes of a set that is short although each set of `found` gets what is lacking, or can
    leave what is too much; None if there is no such set."""
    outside = len(net.nodes) + 1
    arcs = []
    for grant, reason in enumerate(found, outside + 1):
        amount = int(reason.short() * net.factors.flow)
        for src, dst in ((outside, grant), *((grant, number + 1) for number in reason.nodes)):
            arcs.append(f"a {src} {dst} 0 {amount} 0" if reason.side == "under" else f"a {dst} {src} 0 {amount} 0")
    head, _, rest = net.problem.partition("\n")
    counts = f"p min {outside + len(found)} {int(head.split(' ')[3]) + len(arcs)}\n"
    answer = run(["min", "/dev/stdin"], counts + rest + "".join(f"{arc}\n" for arc in arcs))
    lines = answer.stdout.split("\n")
    if answer.returncode != 2 or not lines[0].startswith("x "):
        return None
    side, inside = lines[0][2:], {int(line[2:]) for line in lines[1:] if line.startswith("m ")}
    nodes = {number for number in range(len(net.nodes)) if (number + 1 in inside) != (outside in inside)}
    return ({"over": "under", "under": "over"}[side] if outside in inside else side), nodes


def shows(net: Network, side: str, nodes: AbstractSet[int]) -> bool:
    """Whether `netflow check` accepts the set as a proof that there is no plan."""
    with tempfile.TemporaryDirectory(prefix="netflow-") as folder:
        problem, cut = os.path.join(folder, "problem"), os.path.join(folder, "cut")
        lines = [f"x {side}", *(f"m {number + 1}" for number in sorted(nodes))]
        for path, text in ((problem, net.problem), (cut, "\n".join(lines) + "\n")):
            with open(path, "w", encoding="ascii") as file:
                file.write(text)
        return run(["check", problem, cut]).returncode == 0
