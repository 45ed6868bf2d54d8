"""The network of a model: its nodes and arcs with bounds, prices and the flows of a plan."""
from __future__ import annotations

import contextlib
import dataclasses
import functools
import gc
import itertools
import operator
from typing import Iterator

from ..exact import divided
from ..inputs.scaling import BOUND, Factors
from ..types import Member, Number
from .text import lines_of

OUTSIDE = "the outside"


@contextlib.contextmanager
def collection_paused() -> Iterator[None]:
    """Pauses the collection of circular garbage while a network is made: it has many objects and none in circles."""
    was_enabled = gc.isenabled()
    gc.disable()
    try:
        yield
    finally:
        if was_enabled:
            gc.enable()


class Arc:
    """An arc of the model. `src` and `dst` are node indices from 0, None for the outside. `worth` is the reduced cost:
    by how much one more unit on the arc makes the value worse, at the current node prices. `is_open` if the model gives
    it no upper bound.
    """

    __slots__ = ("text", "name", "key", "src", "dst", "lower", "upper", "price", "flow", "worth", "is_open")

    def __init__(
        self,
        text: str,
        name: str,
        key: list[Member],
        src: int | None,
        dst: int | None,
        lower: Number,
        upper: Number,
        price: Number,
    ) -> None:
        self.text, self.name, self.key, self.src, self.dst = text, name, key, src, dst
        self.lower, self.upper, self.price = lower, upper, price
        self.flow: Number = 0
        self.worth: Number = 0
        self.is_open = upper == BOUND

    def is_full(self) -> bool:
        return self.flow == self.upper and self.lower < self.upper

    def is_tight(self) -> bool:
        """Whether the arc is full and more capacity would help; a bound that no plan feels is not tight."""
        return self.is_full() and self.worth < 0

    def is_lowest(self) -> bool:
        return self.flow == self.lower and 0 < self.lower < self.upper

    def most(self) -> str:
        """The upper bound as a text."""
        return "no limit" if self.is_open else str(self.upper)


@dataclasses.dataclass
class Node:
    """A node of the model: its net inflow is from `low` to `high`, and its arcs allow from `fewest` to `greatest`.
    If the model leaves a side open, the compiled model has what the arcs allow in its place; `is_low_open` and
    `is_high_open` say so if the text of the model is known. `worth` is the node's price: by how much one more required
    unit makes the value worse, to first order.
    """

    text: str
    low: Number = 0
    high: Number = 0
    fewest: Number = 0
    greatest: Number = 0
    inflow: Number = 0
    worth: Number = 0
    is_low_open: bool = False
    is_high_open: bool = False

    def has_low(self) -> bool:
        """Whether the low side requires more than the arcs bring in any case."""
        return self.low > self.fewest

    def has_high(self) -> bool:
        return self.high < self.greatest

    def wish(self) -> str:
        """Returns what the node needs or gives, in a few words; an empty text for a node that only passes
        on."""
        low, high = self.low, self.high
        if low == high:
            return f"needs {low}" if low > 0 else f"gives {-low}" if low < 0 else ""
        is_low, is_high = low != min(high, self.fewest), high != max(low, self.greatest)
        if is_low and is_high:
            return between(low, high)
        if is_low:
            return f"needs {low} or more" if low > 0 else f"gives up to {-low}"
        if is_high:
            return f"takes up to {high}" if high >= 0 else f"gives {-high} or more"
        return "takes or gives what comes"


def between(low: Number, high: Number) -> str:
    if low >= 0:
        return f"needs {low} to {high}" if low else f"takes up to {high}"
    if high <= 0:
        return f"gives {-high} to {-low}" if high else f"gives up to {-low}"
    return f"gives up to {-low} or takes up to {high}"


class Network:
    """Nodes and arcs with the model's own bounds and prices. `problem` is the problem's text without comments;
    `declarations` are the names of a plan's declarations of arcs, each a table or not, and `node_declarations` those
    of the nodes once prices are read; `factors` are those of a scaled model; `prices_text` has the prices that were
    printed after the plan, until they are read."""

    def __init__(self) -> None:
        self.nodes: list[Node] = []
        self.arcs: list[Arc] = []
        self.problem = self.prices_text = ""
        self.declarations: list[tuple[str, bool]] = []
        self.node_declarations: list[tuple[str, bool]] = []
        self.constant, self.sign, self.objective = 0, 1, ""
        self.offsets: list[int] = []  # what a flow of the problem lacks to that of its arc
        self.value: Number = 0
        self.factors = Factors()
        # The side and the node indices of a cut, if there is no plan.
        self.cut: tuple[str, set[int]] | None = None

    @functools.cached_property
    def lines(self) -> list[str]:
        """The lines of the problem."""
        return lines_of(self.problem)

    def divide(self, factors: Factors) -> None:
        """Brings the numbers of a scaled model back to those of the model; `problem` does not change."""
        self.factors = factors
        if factors.is_plain():
            return
        self.value = divided(self.value, factors.value)
        for arc in self.arcs:
            arc.lower, arc.upper, arc.flow = (
                divided(amount, factors.flow) for amount in (arc.lower, arc.upper, arc.flow)
            )
            arc.price = divided(arc.price, factors.cost)
        for node in self.nodes:
            node.low, node.high, node.inflow = (
                divided(amount, factors.flow) for amount in (node.low, node.high, node.inflow)
            )
            node.fewest, node.greatest = divided(node.fewest, factors.flow), divided(node.greatest, factors.flow)

    def end(self, number: int | None) -> str:
        return OUTSIDE if number is None else self.nodes[number].text

    @functools.cached_property
    def _declared(self) -> dict[str, list[Arc]]:
        result: dict[str, list[Arc]] = {}
        for name, arcs in itertools.groupby(self.arcs, operator.attrgetter("name")):
            result.setdefault(name, []).extend(arcs)
        return result

    def declared(self) -> dict[str, list[Arc]]:
        """Returns the arcs by the names of their declarations, in the model's order."""
        return self._declared
