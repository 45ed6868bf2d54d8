"""The result of `solve`, a `Solution`."""
from __future__ import annotations

from fractions import Fraction
from html import escape
from typing import TYPE_CHECKING, Dict, Iterator, Mapping, Sequence, Union

from .analysis.sensitivity import Marginal
from .certificate import Certificate
from .inputs.instance import Instance
from .keyed import FlowKey, Flows
from .prices import Prices, number_of
from .reading.network import Arc, Network, Node, collection_paused
from .reading.output import read_prices
from .report.json_objects import arc_rows, dumps, plan_json
from .types import Amount, Member, Number

if TYPE_CHECKING:
    import pandas


class Solution(Mapping[str, Union[Flows, Number]]):
    """A plan of least cost, or of greatest value: `objective` is the objective's name, `value` its value.

    It maps the name of each declaration of arcs to its `Flows`, or to a number if the declaration has no keys; `arcs`
    are all arcs.
    """

    status = "optimal"

    def __init__(self, net: Network, instance: Instance, headings: Mapping[str, Sequence[str]], title: str) -> None:
        self.network, self.instance, self.headings, self.title = net, instance, headings, title
        self.objective, self.value = net.objective, net.value
        self._is_table = dict(net.declarations)
        self._flows: dict[str, Flows] = {}
        self._marginal: Marginal | None = None
        self._prices: Prices | None = None

    @property
    def arcs(self) -> list[Arc]:
        """All arcs in the model's order, each with its name, key, ends, bounds, price and flow."""
        return self.network.arcs

    def __getitem__(self, name: str) -> Flows | Number:
        if name not in self._is_table:
            raise KeyError(f"the model declares no arcs {name!r}; it has {', '.join(self)}")
        arcs = self.network.declared().get(name, [])
        if not self._is_table[name]:
            return arcs[0].flow
        if name not in self._flows:
            self._flows[name] = Flows(name, arcs, self.headings.get(name, ()))
        return self._flows[name]

    def __iter__(self) -> Iterator[str]:
        return iter(self._is_table)

    def __len__(self) -> int:
        return len(self._is_table)

    def __repr__(self) -> str:
        return f"<Solution {self.objective} = {self.value}, {len(self.arcs)} arcs>"

    def to_rows(self, name: str | None = None, used_only: bool = False) -> list[dict[str, object]]:
        """Returns the arcs as dicts, with the key's parts by the names that the model gives them."""
        return arc_rows(self.network, self.headings, name, used_only)

    def to_dict(self) -> dict[str, object]:
        """Returns the documented JSON object as Python objects."""
        return plan_json(self.network)

    def to_json(self, indent: int | None = None) -> str:
        return dumps(self.to_dict(), indent)

    def to_pandas(self, name: str | None = None) -> pandas.DataFrame:
        """Returns a pandas DataFrame of the arcs."""
        import pandas

        rows = [
            {title: float(value) if isinstance(value, Fraction) else value for title, value in row.items()}
            for row in self.to_rows(name)
        ]
        return pandas.DataFrame(rows)

    def _priced(self) -> Network:
        """Returns the network with its prices, which are read when they are first used."""
        if self.network.prices_text:
            with collection_paused():
                read_prices(self.network)
        return self.network

    def _margins(self) -> Marginal:
        """Returns what one unit more costs at each node."""
        if self._marginal is None:
            self._marginal = Marginal(self._priced())
        return self._marginal

    @property
    def nodes(self) -> list[Node]:
        """All nodes in the model's order, each with its text, the bounds of its net inflow, and the inflow."""
        return self.network.nodes

    @property
    def prices(self) -> Prices:
        """By how much the value changes if a node requires one more unit, by declaration and key. Of a node whose need
        cannot change alone the price is the potential: `price_range` is 0 there, and `pair_price` the exact price."""
        if self._prices is None:
            self._prices = Prices(self.network, self._margins().more)
        return self._prices

    def price_range(self, node: str, *key: Member) -> Amount:
        """For how many more required units at a node, such as `"Shop", "hill"`, its price holds; infinity for any
        number, 0 if the need of the node cannot change alone."""
        return self._margins().units_more(number_of(self.network, node, key))

    def pair_price(self, node: str, *key: Member) -> tuple[str, Number] | None:
        """By how much the value changes if a node requires one more unit and the best node that supplies units has one
        more: that node, and the exact change. None if there is no plan with such a pair."""
        pair = self._margins().pair(number_of(self.network, node, key))
        return None if pair is None else (self.network.nodes[pair[0]].text, self.network.sign * pair[1])

    @property
    def reduced_costs(self) -> dict[str, dict[FlowKey, Number]]:
        """The reduced cost of each arc, by declaration and key: by how much one more unit on it makes the value worse,
        at the prices of `certificate`."""
        self._priced()
        costs: Dict[str, Dict[FlowKey, Number]] = {}
        for arc in self.arcs:
            costs.setdefault(arc.name, {})[arc.key[0] if len(arc.key) == 1 else tuple(arc.key)] = arc.worth
        return costs

    def certificate(self) -> Certificate:
        """Returns the prices that prove the plan, with what a check of them needs."""
        return Certificate.of(self._priced())

    def report(self) -> str:
        """Returns the page of `netflow-report` as HTML."""
        from .report.report import Report

        return Report(self.instance, self.title).html()

    def _repr_html_(self) -> str:
        height = 720 if len(self.arcs) > 20 else 560
        style = f"width:100%;height:{height}px;border:0"
        return f'<iframe style="{style}" srcdoc="{escape(self.report(), quote=True)}"></iframe>'
