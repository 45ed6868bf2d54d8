"""Which bounds are enough alone: with one of them moved there is a plan.

Each set of nodes that is short rules out the bounds that cannot help, so few are tried. What one bound needs is what
the set that is most short lacks, which no other change can do with less. So these changes are least changes.
"""
from __future__ import annotations

import math
from typing import TYPE_CHECKING, Dict, Sequence, Tuple

from ..reading.network import Network
from ..types import Number

if TYPE_CHECKING:
    from .changes import Costless, Move

# The name, the kind and the direction of bounds, the usual bound of each, and how likely a move is the right
# one (less is better).
Group = Tuple[str, str, int]
Usual = Dict[Group, Number]
Rank = Tuple[bool, float]

# How many bounds of one kind are listed and tried, and up to how many lines of problems they are tried.
LISTED, TRIED, LINES = 5, 20, 300_000


class SingleMoves:
    """The search for bounds of a network without a plan, each of which is enough alone, moved by `amount`."""

    def __init__(self, net: Network, problem: Costless, amount: Number) -> None:
        side, inside = net.cut if net.cut is not None else ("", set())
        # A set with an open side is short only as long as the bounds of its arcs are what they are.
        is_open = any(
            net.nodes[number].is_low_open if side == "under" else net.nodes[number].is_high_open for number in inside
        )
        self.problem, self.amount, self.cuts = (
            problem,
            amount,
            [] if is_open else [(side, {number + 1 for number in inside})],
        )

    def enough(self, moves: Sequence[Move], flows: Sequence[int]) -> list[tuple[Rank, Move]]:
        """Returns pairs of a rank and a move, the best rank first. `flows` say how far a least change moves
        each bound."""
        known = [move for move, flow in zip(moves, flows) if flow]
        result: list[tuple[Rank, Move]] = []
        usual, tried = usual_bounds(moves), 0
        candidates = [(self.rank(move, usual), move) for move in moves if self.is_sensible(move) and self.helps(move)]
        for rank, move in sorted(candidates, key=lambda pair: pair[0]):
            if len(result) == LISTED or tried > min(TRIED, LINES // self.problem.size):
                break
            if not self.helps(move):
                continue
            is_known = known == [move]
            cut = None if is_known else self.problem.cut_with(move)
            tried += not is_known
            if cut is None:
                result.append((rank, move))
            else:
                self.cuts.append(cut)
        return result

    def rank(self, move: Move, usual: Usual) -> Rank:
        """Returns the rank of a move: the oddest bound comes first, and a place that would need or give nothing at all
        last."""
        return move.was + move.sign * self.amount == 0 and move.is_node, -oddness(move, usual)

    def is_sensible(self, move: Move) -> bool:
        """Whether the moved bound does not change its sign: a place that needs something does not have to give."""
        return move.was < 0 or move.was + move.sign * self.amount >= 0

    def helps(self, move: Move) -> bool:
        """Whether the move helps each known set that is short."""
        src, dst = map(int, move.ends.split(" "))
        return all(
            (dst in inside and src not in inside) if side == "under" else (src in inside and dst not in inside)
            for side, inside in self.cuts
        )


def usual_bounds(moves: Sequence[Move]) -> Usual:
    """Returns the middle one of the bounds of a declaration, by kind and direction, if there are more than two."""
    groups: dict[Group, list[Number]] = {}
    for move in moves:
        groups.setdefault(group_of(move), []).append(move.was)
    return {group: sorted(bounds)[len(bounds) // 2] for group, bounds in groups.items() if len(bounds) > 2}


def group_of(move: Move) -> Group:
    return move.text.partition("[")[0], move.what, move.sign


def oddness(move: Move, usual: Usual) -> float:
    """Returns how many times a bound is above the usual one, or below, to be raised; 1 if not
    known."""
    other = usual.get(group_of(move), move.was)
    large, small = (move.was, other) if move.sign < 0 else (other, move.was)
    return float(large / small) if small > 0 else math.inf if large > 0 else 1.0
