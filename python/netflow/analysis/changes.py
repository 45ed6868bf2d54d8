"""The least change of a model's bounds with which there is a plan, computed by `netflow min`."""
from __future__ import annotations

import dataclasses
from typing import Iterator, Sequence

from ..exact import Number, divided
from ..program import call
from ..reading.network import Network
from ..reading.text import few
from .single_moves import SingleMoves

# The most lines of a problem; how many moves are preferred one by one, how many by their size, and up to how
# many lines in all.
LARGEST, TRIES, RANKS = 200_000, 6, 20
TRIED = 30_000
FAR, MOST_COST = 10**15, 10**12
NODES, ARCS, BOTH = "of what places need and give", "of what arcs may carry", "of both"


@dataclasses.dataclass
class Change:
    """By how much a bound of the model is moved, from its old value; `is_exact` for both sides of an equation."""

    amount: Number
    text: str
    was: Number
    becomes: Number
    what: str
    is_exact: bool = False

    @property
    def name(self) -> str:
        return self.text.partition("[")[0]

    def sentence(self) -> str:
        if self.becomes < 0 and self.what in ("needs", "gives"):
            other, doing = ("gives", "needing") if self.what == "needs" else ("takes", "giving")
            return (
                f"{self.text}: {other}{'' if self.is_exact else ' at most'} {-self.becomes} in place of"
                f" {doing} {self.was}"
            )
        return f"{self.text}: {self.what} {self.becomes} in place of {self.was}"


@dataclasses.dataclass
class Move:
    """A bound that can be moved: the ends of its arc in the problem, and the change that
    a flow on this arc means."""

    ends: str
    text: str
    was: Number
    sign: int
    what: str
    is_exact: bool = False

    @property
    def is_node(self) -> bool:
        return self.what not in ("at most", "at least")

    def change(self, amount: Number) -> Change:
        return Change(amount, self.text, self.was, self.was + self.sign * amount, self.what, self.is_exact)


def choices(net: Network) -> set[str]:
    """Returns the declarations whose arcs all carry 0 or 1: such an arc is a choice, and a larger bound is no
    advice."""
    return {
        name
        for name, arcs in net.declared().items()
        if len(arcs) > 1
        and all(arc.lower >= 0 and arc.upper <= 1 for arc in arcs)
        and any(arc.upper == 1 for arc in arcs)
    }


def moves_of_arcs(net: Network) -> Iterator[Move]:
    outside, left_alone = len(net.nodes) + 1, choices(net)
    for arc in net.arcs:
        if arc.name in left_alone or arc.is_open:
            continue
        src, dst = (outside if end is None else end + 1 for end in (arc.src, arc.dst))
        yield Move(f"{src} {dst}", arc.text, arc.upper, 1, "at most")
        if arc.lower:
            yield Move(f"{dst} {src}", arc.text, arc.lower, -1, "at least")


def moves_of_nodes(net: Network) -> Iterator[Move]:
    """Yields for each node with a condition: a low side can be lower, a high side higher."""
    outside = len(net.nodes) + 1
    for number, node in enumerate(net.nodes, 1):
        if node.low == node.high == 0:
            continue
        is_exact = node.low == node.high
        gives, takes = ("gives", "needs") if is_exact else ("gives at most", "takes at most")
        if node.has_low():
            yield Move(
                f"{outside} {number}",
                node.text,
                *((node.low, -1, "needs") if node.low > 0 else (-node.low, 1, gives)),
                is_exact,
            )
        if node.has_high():
            yield Move(
                f"{number} {outside}",
                node.text,
                *((-node.high, -1, "gives") if node.high < 0 else (node.high, 1, takes)),
                is_exact,
            )


class Costless:
    """The problem of a network without its costs, to which moves are added as arcs. Sides that the model leaves open
    limit nothing, whatever the bounds of arcs become."""

    def __init__(self, net: Network) -> None:
        outside = len(net.nodes) + 1
        supplies = [line for line in net.lines if line.startswith("n ")]
        arcs = [line.rpartition(" ")[0] + " 0" for line in net.lines if line.startswith("a ")]
        for number, node in enumerate(net.nodes, 1):
            arcs += [f"a {outside} {number} 0 {FAR} 0"] * node.is_low_open + [
                f"a {number} {outside} 0 {FAR} 0"
            ] * node.is_high_open
        self.nodes, self.arcs, self.size = outside, len(arcs), len(net.lines)
        self.text = "\n".join([*supplies, *arcs])

    def least_flows(self, moves: Sequence[Move], costs: Sequence[int]) -> list[int] | None:
        """Returns by how much each bound is moved at least cost; None if there is no plan even so."""
        status, lines = self.answer(moves, costs)
        # The lines of arcs follow the line with the value.
        return (
            None
            if status
            else [int(line.rpartition(" ")[2]) for line in lines[1 + self.arcs : 1 + self.arcs + len(moves)]]
        )

    def least_total(self, moves: Sequence[Move]) -> list[int] | None:
        """Returns by how much each bound is moved with the least total; None if no such moves are enough."""
        return self.least_flows(moves, [1] * len(moves)) if moves else None

    def cut_with(self, move: Move) -> tuple[str, set[int]] | None:
        """Returns the side and the nodes, counted from 1, of a set that is short even with one bound moved; None if
        there is a plan."""
        status, lines = self.answer([move], [1])
        return (lines[0][2:], {int(line[2:]) for line in lines if line.startswith("m ")}) if status else None

    def answer(self, moves: Sequence[Move], costs: Sequence[int]) -> tuple[int, list[str]]:
        """Returns the status and the lines of the program's answer with the moves as arcs."""
        lines = [f"p min {self.nodes} {self.arcs + len(moves)}", *([self.text] if self.text else [])]
        lines += [f"a {move.ends} 0 {FAR} {cost}" for move, cost in zip(moves, costs)]
        answer = call(["min", "/dev/stdin"], "\n".join(lines) + "\n")
        return answer.status, answer.text.split("\n")


@dataclasses.dataclass
class LeastChanges:
    """The least changes with which there is a plan. `single` are changes at one place, each of which is enough alone,
    the oddest number first. `kinds` has the least change of each kind of bounds, None if none is enough. `is_large` if
    they were not computed.
    """

    single: list[Change] = dataclasses.field(default_factory=list)
    kinds: dict[str, list[Change] | None] = dataclasses.field(default_factory=dict)
    is_large: bool = False

    def others(self) -> dict[str, list[Change] | None]:
        """Returns the kinds of bounds that have no change at one place."""
        return {
            kind: changes for kind, changes in self.kinds.items() if changes is None or changes[0] not in self.single
        }


def concentrated(problem: Costless, moves: Sequence[Move], flows: list[int]) -> list[int]:
    """Returns moves of the same total in fewer places, if some are found: first each of the largest ones is preferred
    to all others, then those of the best answer by their size."""
    whole, limit = sum(flows), min(TRIES, TRIED // (problem.size + len(moves)))
    largest = sorted((index for index, flow in enumerate(flows) if flow), key=lambda index: -flows[index])
    for first in [[index] for index in largest[:limit]] + [None]:
        if sum(map(bool, flows)) == 1:
            break
        order = (
            first
            or sorted((index for index, flow in enumerate(flows) if flow), key=lambda index: -flows[index])[:RANKS]
        )
        ranks = {index: rank for rank, index in enumerate(order)}
        base = whole * len(ranks) + 1  # one unit more in all costs more than any order saves
        if base > MOST_COST:
            break
        found = problem.least_flows(moves, [base + ranks.get(index, len(ranks)) for index in range(len(moves))])
        if found is not None and sum(found) == whole and sum(map(bool, found)) < sum(map(bool, flows)):
            flows = found
    return flows


def least_changes(net: Network) -> LeastChanges:
    """Returns the least changes at one place, those of each kind of bounds, and that of both kinds if less than
    each alone."""
    moves = {NODES: list(moves_of_nodes(net)), ARCS: list(moves_of_arcs(net))}
    both = [*moves[NODES], *moves[ARCS]]
    if len(net.lines) + len(both) > LARGEST:
        return LeastChanges(is_large=True)
    problem = Costless(net)
    flows = {kind: problem.least_total(moves_of_kind) for kind, moves_of_kind in moves.items()}
    totals, least = [sum(amounts) for amounts in flows.values() if amounts], problem.least_total(both)
    if least and sum(least) < min(totals, default=FAR):
        moves[BOTH], flows[BOTH] = both, least
    whole = sum(least or [])
    search, single = SingleMoves(net, problem, divided(whole, net.factors.flow)), {}
    for kind, amounts in flows.items():
        single[kind] = (
            search.enough(moves[kind], amounts) if amounts and sum(amounts) == whole and BOTH not in flows else []
        )
    changes = LeastChanges()
    for kind, amounts in flows.items():
        best = [move.change(search.amount) for _, move in single[kind][:1]]
        changes.kinds[kind] = best or least_change(net, problem, moves[kind], amounts)
    pairs = sorted((pair for ranked in single.values() for pair in ranked), key=lambda pair: pair[0])
    changes.single = [move.change(search.amount) for _, move in pairs]
    return changes


def least_change(
    net: Network, problem: Costless, moves: Sequence[Move], flows: list[int] | None
) -> list[Change] | None:
    """Returns the changes of least total in few places; None if no moves are enough."""
    if flows is None:
        return None
    flows = concentrated(problem, moves, flows)
    return [move.change(divided(flow, net.factors.flow)) for move, flow in zip(moves, flows) if flow]


def is_left_out(changes: Sequence[Change] | None) -> bool:
    """Whether the changes take from several places all that they ask for."""
    return (
        changes is not None
        and len(changes) > 1
        and all(change.becomes == 0 and change.what in ("needs", "gives") for change in changes)
    )


def left_out_text(net: Network, changes: Sequence[Change], most: int) -> str:
    """Returns which places get or give nothing with the changes; only how many if they are most of those that ask for
    something."""
    verbs = [
        verb for what, verb in (("needs", "get"), ("gives", "give")) if any(change.what == what for change in changes)
    ]
    asking = sum(node.low > 0 or node.high < 0 for node in net.nodes)
    names = few([change.text for change in changes], most) if 2 * len(changes) <= asking else ""
    return f"{len(changes)} places would {' or '.join(verbs)} nothing{names and ': '}{names}"


def total(changes: Sequence[Change]) -> Number:
    return sum(change.amount for change in changes)


def units(amount: Number) -> str:
    return f"{amount} unit{'s' * (amount != 1)}"


def single_title(single: Sequence[Change]) -> str:
    """Returns the title of a list of changes at one place."""
    return f"{units(single[0].amount)} at one place{'. Any one of these is enough' if len(single) > 1 else ''}:"
