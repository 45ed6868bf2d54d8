"""The network that a model comes to, as plain numbers."""
import dataclasses

from models.expressions import shown
from models.linear import Linear


@dataclasses.dataclass
class Node:
    name: str
    key: tuple
    is_table: bool
    low: int = None
    high: int = None


@dataclasses.dataclass
class Arc:
    """Ends are places in the list of nodes, or None for the outside."""

    name: str
    key: tuple
    is_table: bool
    src: int
    dst: int
    low: int
    high: int
    price: int = 0


def reference(thing):
    """A node or an arc as netflow shows it."""
    return thing.name + ("[" + ",".join(map(shown, thing.key)) + "]" if thing.is_table else "")


class Instance:
    """Nodes with their ranges, arcs, and an objective: its name, its sense and its constant."""

    def __init__(self, layout):
        self.nodes: list[Node] = []
        self.arcs: list[Arc] = []
        self.constant = 0
        self.objective, self.sense = None, "minimize"
        self.decls = layout.nodes
        places = {}
        for decl in layout.nodes:
            for key in decl.keys:
                places[decl.name, key] = len(self.nodes)
                self.nodes.append(Node(decl.name, key, decl.braces is not None))
        for decl in layout.arcs:
            for key, env in decl.steps:
                src, dst = (self.end(end, env, places) for end in (decl.end["from"], decl.end["to"]))
                low, high = decl.low.value(env), decl.high.value(env)
                self.arcs.append(Arc(decl.name, key, decl.braces is not None, src, dst, low, high))

    @staticmethod
    def end(end, env, places):
        return end and places[end[0].name, tuple(subscript.value(env) for subscript in end[1])]

    def take_ranges(self):
        """The nodes' ranges, once every parameter has its values."""
        place = 0
        for decl in self.decls:
            for _, env in decl.steps:
                node = self.nodes[place]
                node.low, node.high = decl.condition.range(env) if decl.condition else (0, 0)
                place += 1

    def take_objective(self, chosen, layout):
        self.objective, self.sense = chosen.name, chosen.sense
        total = chosen.expression.value({}) if chosen.expression else Linear()
        for decl in layout.arcs:
            for objective, price in decl.prices:
                if objective is chosen:
                    total += Linear(0, {(decl.name, key): price.value(env) for key, env in decl.steps})
        total = total if isinstance(total, Linear) else Linear(total)
        self.constant = total.constant
        for arc in self.arcs:
            arc.price = total.terms.get((arc.name, arc.key), 0)

    def inflows(self, plan):
        sums = [0] * len(self.nodes)
        for arc, number in zip(self.arcs, plan):
            if arc.dst is not None:
                sums[arc.dst] += number
            if arc.src is not None:
                sums[arc.src] -= number
        return sums

    def worth(self, plan):
        return self.constant + sum(arc.price * number for arc, number in zip(self.arcs, plan))


class Normal:
    """The normal form of docs/reference/command-line.md, or its lean form: supplies by node, the outside last, and arcs
    as (src, dst, low, cap, cost); and for each arc of the model its offset and its number, which is 0 if it is left
    out."""

    def __init__(self, instance, lean=False):
        outside, sign = len(instance.nodes), 1 if instance.sense == "minimize" else -1
        self.sign, self.offsets = sign, [arc.low if lean else min(0, arc.low) for arc in instance.arcs]
        self.numbers = []
        self.constant = instance.worth(self.offsets)
        self.supplies, self.arcs, most, least = instance.inflows(self.offsets), [], [0] * outside, [0] * outside
        for arc, offset in zip(instance.arcs, self.offsets):
            ends = [outside if node is None else node for node in (arc.src, arc.dst)]
            if not lean or arc.low < arc.high:
                self.arcs.append((*ends, arc.low - offset, arc.high - offset, sign * arc.price))
            self.numbers.append(0 if lean and arc.low == arc.high else len(self.arcs))
            if arc.dst is not None:
                most[arc.dst] += arc.high
                least[arc.dst] += arc.low
            if arc.src is not None:
                most[arc.src] -= arc.low
                least[arc.src] -= arc.high
        for place, node in enumerate(instance.nodes):
            low = min(node.high, least[place]) if node.low is None else node.low
            high = max(low, most[place]) if node.high is None else node.high
            self.supplies[place] -= low
            if None in (node.low, node.high) or low < high:
                self.arcs.append((place, outside, 0, high - low, 0))
        self.supplies.append(-sum(self.supplies))

    def text(self):
        lines = [f"p min {len(self.supplies)} {len(self.arcs)}"]
        lines += [f"n {place + 1} {supply}" for place, supply in enumerate(self.supplies) if supply]
        lines += [f"a {src + 1} {dst + 1} {low} {cap} {cost}" for src, dst, low, cap, cost in self.arcs]
        return "".join(line + "\n" for line in lines)

    def links(self, instance):
        lines = [f"c constant {self.constant}", f"c sign {self.sign}"]
        lines += [f"c node {place} {reference(node)}" for place, node in enumerate(instance.nodes, 1)]
        lines += [
            f"c arc {number} {offset} {reference(arc)}"
            for number, arc, offset in zip(self.numbers, instance.arcs, self.offsets)
        ]
        return "".join(line + "\n" for line in lines)

    def across(self, places):
        """Of a set of nodes: what it supplies, the most that can leave it, and the least that must."""
        leaving = [arc for arc in self.arcs if arc[0] in places and arc[1] not in places]
        entering = [arc for arc in self.arcs if arc[1] in places and arc[0] not in places]
        supply = sum(self.supplies[place] for place in places)
        most = sum(arc[3] for arc in leaving) - sum(arc[2] for arc in entering)
        return supply, most, sum(arc[2] for arc in leaving) - sum(arc[3] for arc in entering)
