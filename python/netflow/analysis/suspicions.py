"""What netflow accepts and is often a mistake: limits without an effect, declarations of arcs without arcs, codes that
are read as numbers."""
from __future__ import annotations

import re

from ..exact import parse_numeral
from ..inputs.instance import Instance
from ..reading.model import Shapes, Unparsed, parse
from ..reading.network import Network, Node
from ..reading.text import tokens
from .circles import circle_lines, nothing_flows
from .omissions import nothing_required, omission_lines

NAMED = 6


def remark_lines(instance: Instance, net: Network) -> list[str]:
    """Returns what is worth a look, for all tools."""
    model, data = instance.model.text(), [source.text() for source in instance.data]
    nothing = [*nothing_required(net), *nothing_flows(net)]
    lines = [*omission_lines(net, model), *limits_without_effect(net), *without_arcs(net, model, data), *nothing]
    lines += [*(circle_lines(net) if net.cut is None else []), *unused_parameters(instance, model, data)]
    return [*lines, *ranges_in_data(data), *codes_in_data(data), *idle_lines(net, bool(nothing))]


def idle_lines(net: Network, is_explained: bool = False) -> list[str]:
    """Returns a sentence for each kind of nodes and arcs without an effect: without arcs, flow or costs. `is_explained`
    leaves out that nothing flows, if another line says why. In a maximum most arcs have no price."""
    declared, has_plan = net.declared().items(), net.cut is None
    met = {end for arc in net.arcs for end in (arc.src, arc.dst)}
    unpriced = [name for name, arcs in declared if not any(arc.price for arc in arcs)]
    found = (
        ([node.text for number, node in enumerate(net.nodes) if number not in met], "has no arc", "have no arc"),
        ([arc.text for arc in net.arcs if arc.lower == arc.upper == 0], "can carry nothing", "can carry nothing"),
        (
            unpriced if has_plan and net.sign > 0 and len(unpriced) < len(declared) else [],
            "has no price",
            "have no price",
        ),
        (
            [name for name, arcs in declared if has_plan and not is_explained and not any(arc.flow for arc in arcs)],
            "carries nothing",
            "carry nothing",
        ),
    )
    lines = [
        f"{', '.join(names[:NAMED])}{' and others' * (len(names) > NAMED)} {one if len(names) == 1 else many}."
        for names, one, many in found
        if names
    ]
    if has_plan and declared and len(unpriced) == len(declared):
        lines.append(f"No arc has a price, so every plan is worth {net.value}: is `obj {net.objective} ..` missing?")
    return lines


def unused_parameters(instance: Instance, model: str, data: list[str]) -> list[str]:
    """Returns a line for each parameter that has data, and that the model declares and uses nowhere."""
    # A token can have several names, as 1..T has.
    words = [name for token in tokens(model) for name in re.findall(r"[A-Za-z_]\w*", token.bare())]
    declared = [name for word, name in zip(words, words[1:]) if word == "param"]
    unused = [name for name in declared if words.count(name) == 1]
    given = {token.bare() for text in data for token in tokens(text)} if unused else set()
    return [
        f"{name} has data, and the model uses it nowhere: is a bound or a cost meant to be {name}?"
        for name in unused
        if name in given or name in instance.changes
    ]


def ranges_in_data(data: list[str]) -> list[str]:
    """Returns a line for each set of the data with a range, which is one text there."""
    lines, name, word = [], "", ""
    for text in data:
        for token in tokens(text) if ".." in text else ():
            if word == "set":
                name = token.text
            word = token.text if token.text in ("set", "param") else ""
            match = re.fullmatch(r"(-?[0-9]+)\.\.(-?[0-9]+)", token.text)
            if match and name:
                meant = f"set {name} := {token.text};"
                lines.append(
                    f"{name} has the text '{token.text}' as a member: data have no ranges: {meant} in the model?"
                )
            name = "" if token.text == ";" or word == "param" else name
    return lines


def codes_in_data(data: list[str]) -> list[str]:
    """Returns a line for each set of the data with a member such as 3E2, which is the number 300."""
    lines: list[str] = []
    statement = [""]
    for text in data:
        for token in tokens(text) if re.search(r"\d[EeDd]\d", text) else ():
            statement = [""] if token.text == ";" else [*statement[:3], token.text]
            number = parse_numeral(token.text) if re.fullmatch(r"\d+[EeDd]\d+", token.text) else None
            if (
                number is not None
                and statement[1] == "set"
                and not any(f"{statement[2]} has" in line for line in lines)
            ):
                lines.append(
                    f"{statement[2]} has the number {number} as a member, written as {token.text}: if it is a code,"
                    f" quote it everywhere, '{token.text}'"
                )
    return lines


def limits_without_effect(net: Network) -> list[str]:
    """Returns a line for each declaration of nodes whose condition is one limit that no flow can reach, since no arc
    leads that way."""
    groups: dict[str, dict[int, Node]] = {}
    for number, node in enumerate(net.nodes):
        groups.setdefault(node.text.partition("[")[0], {})[number] = node
    owners = {number: name for name, nodes in groups.items() for number in nodes}
    into = {owners[arc.dst] for arc in net.arcs if arc.dst is not None} | {
        owners[arc.src] for arc in net.arcs if arc.src is not None and arc.lower < 0
    }
    out_of = {owners[arc.src] for arc in net.arcs if arc.src is not None} | {
        owners[arc.dst] for arc in net.arcs if arc.dst is not None and arc.lower < 0
    }
    lines = []
    for name, nodes in groups.items():
        first = next(iter(nodes.values()))
        more = f" ({len(nodes) - 1} more of {name})" if len(nodes) > 1 else ""
        if name in out_of - into and all(node.is_low_open and node.high >= 0 for node in nodes.values()):
            lines.append(
                f"{first.text}: no arc leads in, so net_in <= {first.high} limits nothing: is net_out meant?{more}"
            )
        elif name in into - out_of and all(node.is_high_open and node.low <= 0 for node in nodes.values()):
            lines.append(
                f"{first.text}: no arc leads out, so net_out <= {-first.low} limits nothing: is net_in meant?{more}"
            )
    return lines


def without_arcs(net: Network, model: str, data: list[str]) -> list[str]:
    """Returns a line for each declaration of arcs that has no arc, with a set of its braces that the data give no
    member."""
    try:
        shapes = Shapes(parse(model), model)
    except Unparsed:
        return []
    lines, declared = [], net.declared()
    for name in shapes.names("arc"):
        if name in declared:
            continue
        braces = shapes.decls[name].braces
        sets = (
            [part.value for part in braces.walk() if part.op == "name" and part.value in shapes.sets] if braces else []
        )
        empty = [
            name
            for name in dict.fromkeys(sets)
            if any(re.search(rf"\bset\s+{re.escape(name)}\s*:=\s*;", text) for text in data)
        ]
        lines.append(
            f"{name} has no arcs:"
            f" {f'the set {empty[0]} is empty' if empty else 'no key fulfils the condition of its braces'}"
        )
    return lines
