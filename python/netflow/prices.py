"""The prices of a plan: what one more unit at each node costs, by declaration and key."""
from __future__ import annotations

import difflib
from typing import Iterator, Mapping, Sequence, Union

from .analysis.sensitivity import Lengths
from .keyed import Keyed
from .reading.keys import references, shown
from .reading.network import Network
from .types import Key, Member, Number


class NodePrices(Keyed):
    """The prices of one declaration of nodes by key; the key of one index is the member itself."""

    what = "node"


class Prices(Mapping[str, Union[NodePrices, Number]]):
    """The prices of all nodes: a mapping from the declarations of nodes to prices by key, or to a number if a
    declaration has no keys. The text of one node, such as `"Shop['hill']"`, gives its price too."""

    def __init__(self, net: Network, more: Lengths) -> None:
        texts = [node.text for node in net.nodes]
        values = [net.sign * (potential if cost is None else cost) for cost, potential in zip(more, potentials(net))]
        self._of_nodes = dict(zip(texts, values))
        tables: dict[str, dict[Key, Number]] = {}
        for name, key, value in zip(*references(texts), values):
            tables.setdefault(name, {})[tuple(key)] = value
        self._declared: dict[str, NodePrices | Number] = {
            name: table[()] if () in table else NodePrices(name, table) for name, table in tables.items()
        }

    def __getitem__(self, name: str) -> NodePrices | Number:
        if name in self._declared:
            return self._declared[name]
        if name in self._of_nodes:
            return self._of_nodes[name]
        raise KeyError(no_node(name, [*self._declared, *self._of_nodes]))

    def __iter__(self) -> Iterator[str]:
        return iter(self._declared)

    def __len__(self) -> int:
        return len(self._declared)

    def __repr__(self) -> str:
        return f"Prices({dict(self)!r})"


def potentials(net: Network) -> list[Number]:
    """Returns the potential of each node, at which no arc is worth a change. In a part of the network that nothing
    enters or leaves only their differences count, and the least one is 0."""
    parent = list(range(len(net.nodes) + 1))

    def root(number: int) -> int:
        while parent[number] != number:
            parent[number] = parent[parent[number]]
            number = parent[number]
        return number

    outside = len(net.nodes)
    for arc in net.arcs:
        parent[root(outside if arc.src is None else arc.src)] = root(outside if arc.dst is None else arc.dst)
    for number, node in enumerate(net.nodes):
        if node.low != node.high:
            parent[root(number)] = root(outside)
    least: dict[int, Number] = {}
    for number, node in enumerate(net.nodes):
        least[root(number)] = min(least.get(root(number), node.worth), node.worth)
    least[root(outside)] = 0
    return [node.worth - least[root(number)] for number, node in enumerate(net.nodes)]


def number_of(net: Network, node: str, key: Sequence[Member]) -> int:
    """Returns the index of a node, which is named by its declaration and its key, or by its text."""
    text = f"{node}[{','.join(map(shown, key))}]" if key else node
    numbers = {other.text: number for number, other in enumerate(net.nodes)}
    if text not in numbers:
        raise KeyError(no_node(text, list(numbers)))
    return numbers[text]


def no_node(text: str, known: Sequence[str]) -> str:
    meant = difflib.get_close_matches(text, known[:5_000], 1, 0.6)
    return f"the model has no node {text}" + (f": is {meant[0]} meant?" if meant else "")
