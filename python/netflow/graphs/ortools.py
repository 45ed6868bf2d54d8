"""The classes of OR-Tools for networks, solved by netflow: what they share. Nodes are numbers from 0."""
from __future__ import annotations

from fractions import Fraction
from typing import Any, Sequence

from ..errors import DataError
from ..exact import as_fraction
from .problem import Arc, Numbers


class SimpleGraph:
    """Arcs between nodes with numbers from 0. Without `decimals` amounts are whole, as in OR-Tools."""

    def __init__(self, decimals: bool = False) -> None:
        self.decimals, self._number = decimals, Numbers()
        self._arcs: list[Arc] = []

    def _amount(self, value: Any, what: str) -> Fraction | None:
        """Returns an amount exactly, None for an infinite one; raises TypeError for one that is not allowed."""
        result = self._number(value, what)
        if result is not None and result.denominator > 1 and not self.decimals:
            raise TypeError(
                f"{what}: {value!r} is not whole, and amounts are integers; {type(self).__name__}(decimals=True) takes"
                " decimals"
            )
        return result

    def _finite(self, value: Any, what: str) -> Fraction:
        result = self._amount(value, what)
        if result is None:
            raise DataError(f"{what} is infinite")
        return result

    def num_nodes(self) -> int:
        """Returns the greatest number of a node, plus 1."""
        return 1 + max([-1, *(arc.src for arc in self._arcs), *(arc.dst for arc in self._arcs)])

    def num_arcs(self) -> int:
        return len(self._arcs)

    def tail(self, arc: int) -> int:
        return self._arcs[arc].src

    def head(self, arc: int) -> int:
        return self._arcs[arc].dst


def node_of(value: object) -> int:
    found = as_fraction(value)
    if found is None or found.denominator != 1 or found < 0:
        raise DataError(f"{value!r} is no node: nodes are numbers from 0")
    return int(found)


def same_lengths(name: str, *columns: Sequence[Any]) -> list[tuple[Any, ...]]:
    """Returns the rows of columns; raises ValueError if one is longer than another."""
    lists = [list(column) for column in columns]
    if len(set(map(len, lists))) > 1:
        raise ValueError(f"{name}: the arrays have {', '.join(str(len(column)) for column in lists)} items")
    return list(zip(*lists))
