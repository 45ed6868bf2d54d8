"""What a model has left out, if its answer suggests so: an end of arcs, a requirement, a lower bound, an index."""
from __future__ import annotations

from ..inputs.scaling import BOUND
from ..reading.model import Shapes, Unparsed, parse
from ..reading.network import Arc, Network, Node
from ..reading.text import few

SHOWN = 5


def omission_lines(net: Network, model: str) -> list[str]:
    return [*missing_ends(net), *negative_flows(net), *loops(net, model)]


def declared_nodes(net: Network) -> dict[str, dict[int, Node]]:
    """Returns the nodes with their numbers by the names of their declarations."""
    groups: dict[str, dict[int, Node]] = {}
    for number, node in enumerate(net.nodes):
        groups.setdefault(node.text.partition("[")[0], {})[number] = node
    return groups


def missing_ends(net: Network) -> list[str]:
    """Returns a line for each declaration of nodes without any arc, if arcs come from outside or go there in its
    place."""
    lines = []
    met = {end for arc in net.arcs for end in (arc.src, arc.dst)}
    sides = (
        ("from", "come from", [arc for arc in net.arcs if arc.src is None and arc.dst is not None]),
        ("to", "go to", [arc for arc in net.arcs if arc.dst is None and arc.src is not None]),
    )
    for name, nodes in declared_nodes(net).items():
        gives, takes = any(node.low < 0 for node in nodes.values()), any(node.high > 0 for node in nodes.values())
        word, verb, arcs = sides[0] if gives else sides[1]
        if met & set(nodes) or not arcs or gives == takes:
            continue
        subscripts = "[..]" if "[" in next(iter(nodes.values())).text else ""
        names = list(dict.fromkeys(arc.name for arc in arcs))
        has = f"{few(names, SHOWN)} {'has' if len(names) == 1 else 'have'} no {word}"
        lines.append(
            f"no arc touches {name}, and {has}, so that its units {verb} the outside: is {word} {name}{subscripts}"
            " missing?"
        )
    return lines


def nothing_required(net: Network) -> list[str]:
    """Returns why the best plan of a minimum carries nothing: places take something, and none requires it."""
    if net.cut is not None or net.sign < 0 or not net.arcs or any(arc.flow for arc in net.arcs):
        return []
    if any(node.low > 0 or node.high < 0 for node in net.nodes):
        return []
    entered = {arc.dst for arc in net.arcs if arc.upper > 0}
    taking = [
        name
        for name, nodes in declared_nodes(net).items()
        if any(node.high > 0 and number in entered for number, node in nodes.items())
    ]
    asked = f": is net_in = or net_in >= meant in the condition of {few(taking, SHOWN)}?" if taking else ""
    return [f"all flows are 0, since no place requires anything{asked}"]


def negative_flows(net: Network) -> list[str]:
    """Returns a line for each declaration of arcs that has negative flows and no lower bound in the model."""
    lines = []
    for name, arcs in net.declared().items() if net.cut is None else ():
        below = [arc for arc in arcs if arc.flow < 0 and has_no_lower(net, arc)]
        if below:
            flows = f"{len(below)} of its flows {'is' if len(below) == 1 else 'are'} negative"
            lines.append(
                f"{name} has no lower bound, and {flows} ({few([arc.text for arc in below], 3)}): is >= 0 missing?"
            )
    return lines


def has_no_lower(net: Network, arc: Arc) -> bool:
    """Whether an arc has the lower bound that the tools add to one without."""
    return arc.lower * net.factors.flow <= -BOUND


def loops(net: Network, model: str) -> list[str]:
    """Returns a line for each declaration all of whose arcs lead from a node to itself, with an index that its braces
    have twice."""
    lines = []
    for name, arcs in net.declared().items():
        if any(arc.src is None or arc.src != arc.dst for arc in arcs):
            continue
        twice = repeated_index(model, name)
        if len(arcs) == 1 and not twice:
            continue
        meant = f": the second {twice[0]} of {twice[1]} is the first one, so use two names" if twice else ""
        what = "its only arc leads" if len(arcs) == 1 else f"each of its {len(arcs)} arcs leads"
        lines.append(f"{name}: {what} from a node to itself{meant}")
    return lines


def repeated_index(model: str, name: str) -> tuple[str, str] | None:
    """Returns an index that the braces of a declaration have twice, and the braces; None if there is none."""
    try:
        braces = Shapes(parse(model), model).decls[name].braces
    except (Unparsed, KeyError):
        return None
    items = [part.args[0] for part in braces.args if part.op == "in"] if braces is not None else []
    indices = [part.value for item in items for part in item.walk() if part.op == "name" and not part.args]
    twice = next((index for index in indices if indices.count(index) > 1), "")
    return (twice, " ".join(model[braces.start : braces.end].split())) if twice and braces is not None else None
