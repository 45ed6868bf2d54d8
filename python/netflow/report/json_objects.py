"""The machine-readable outputs: JSON objects with one schema, and rows of arcs. docs has the schema; `SCHEMA` is its
version."""
from __future__ import annotations

import json
import re
from fractions import Fraction
from typing import Any, Dict, Mapping, Sequence

from ..analysis.changes import Change, LeastChanges
from ..analysis.reasons import Reason
from ..analysis.reasons import reasons as reasons_of
from ..errors import ModelError
from ..reading.network import Network

SCHEMA = 1


# Marks an exact decimal inside a JSON text until its quotes are taken away.
MARK = "\0"
MARKED = re.compile(r'"\\u0000([-0-9.]+)"')


def marked(value: object) -> int | str:
    """Returns what the JSON encoder does not know, a fraction: a decimal with a mark, and one such as 1/3 as a text."""
    if isinstance(value, Fraction):
        text = str(value)
        return int(value) if value.denominator == 1 else text if "/" in text else MARK + text
    raise TypeError(f"{value!r} has no JSON form")


def dumps(value: object, indent: int | None = None) -> str:
    """Returns the JSON text of an object; exact decimals are numbers with all their digits."""
    return MARKED.sub(r"\1", json.dumps(value, default=marked, indent=indent, ensure_ascii=False))


# The JSON text of a string; an encoder that is made once is fast.
quoted = json.JSONEncoder(ensure_ascii=False).encode


class Columns(Dict[str, Sequence[Any]]):
    """A list of objects with the same fields, as a list for each field."""

    def items_of(self) -> list[dict[str, object]]:
        """Returns the objects as dicts."""
        return [dict(zip(self, row)) for row in zip(*self.values())]


class JsonTexts(Dict[Any, str]):
    """JSON texts by value. Each is made once, since a large network has few members, bounds and prices."""

    def __missing__(self, value: object) -> str:
        text = quoted(value) if isinstance(value, str) else str(value) if isinstance(value, int) else dumps(value)
        self[value] = text
        return text

    def of_column(self, values: Sequence[Any]) -> list[str]:
        if values and isinstance(values[0], list):
            return ["[" + ", ".join(map(self.__getitem__, value)) + "]" for value in values]
        return list(map(self.__getitem__, values))


def dump_lines(value: Mapping[str, object]) -> str:
    """Returns the JSON text of an object with a line for each field and for each item of its lists: readable, and fast
    for many arcs."""
    fields, texts = [], JsonTexts()
    for name, field in value.items():
        lines = []
        if isinstance(field, Columns):
            lines, field = column_lines(field, texts), []
        elif isinstance(field, list) and field and isinstance(field[0], Mapping):
            lines = list(map(dumps, field))
        text = "[\n    " + ",\n    ".join(lines) + "\n  ]" if lines else dumps(field)
        fields.append(f"  {dumps(name)}: {text}")
    return "{\n" + ",\n".join(fields) + "\n}"


def column_lines(columns: Columns, texts: JsonTexts) -> list[str]:
    """Returns the JSON text of each object; `dumps` of the object gives the same and takes longer."""
    template = "{" + ", ".join(f'"{name}": %s' for name in columns) + "}"
    return list(map(template.__mod__, zip(*map(texts.of_column, columns.values()))))


def arc_columns(net: Network) -> Columns:
    arcs = net.arcs
    ends: dict[int | None, str | None] = {None: None, **{number: node.text for number, node in enumerate(net.nodes)}}
    return Columns(
        {
            "name": [arc.name for arc in arcs],
            "key": [arc.key for arc in arcs],
            "from": [ends[arc.src] for arc in arcs],
            "to": [ends[arc.dst] for arc in arcs],
            "flow": [arc.flow for arc in arcs],
            "lower": [arc.lower for arc in arcs],
            "upper": [None if arc.is_open else arc.upper for arc in arcs],
            "price": [arc.price for arc in arcs],
        }
    )


def node_columns(net: Network) -> Columns:
    nodes = net.nodes
    return Columns(
        {
            "name": [node.text for node in nodes],
            "lower": [node.low for node in nodes],
            "upper": [node.high for node in nodes],
            "net_in": [node.inflow for node in nodes],
        }
    )


def plan_columns(net: Network) -> dict[str, object]:
    """Returns the object of a plan, its arcs and nodes as columns."""
    return {**plan_json_head(net), "arcs": arc_columns(net), "nodes": node_columns(net)}


def plan_json_head(net: Network) -> dict[str, object]:
    """Returns the object of a plan without its arcs and nodes."""
    sense = "minimize" if net.sign > 0 else "maximize"
    objective = {"name": net.objective, "sense": sense, "value": net.value}
    return {"schema": SCHEMA, "status": "optimal", "objective": objective}


def plan_json(net: Network) -> dict[str, object]:
    """Returns the object of a plan."""
    return {
        name: field.items_of() if isinstance(field, Columns) else field for name, field in plan_columns(net).items()
    }


def reason_json(net: Network, reason: Reason) -> dict[str, object]:
    return {
        "side": reason.side,
        "nodes": [net.nodes[number].text for number in reason.nodes],
        "required": reason.needed(),
        "possible": reason.given(),
        "short": reason.short(),
        "sentence": reason.headline(net),
        "asks": [{"amount": part.amount, "what": part.text} for part in reason.asks],
        "helps": [{"amount": part.amount, "what": part.text} for part in reason.helps],
    }


def change_json(change: Change) -> dict[str, object]:
    return {
        "amount": change.amount,
        "what": change.text,
        "bound": change.what,
        "was": change.was,
        "becomes": change.becomes,
    }


def cut_json(
    side: str, cut: Sequence[str], reasons: Sequence[Reason], net: Network | None, changes: LeastChanges | None = None
) -> dict[str, object]:
    """Returns the object of a model without a plan, with its least changes if they are given and were computed."""
    result: dict[str, object] = {"schema": SCHEMA, "status": "infeasible", "cut": {"side": side, "nodes": list(cut)}}
    result["reasons"] = [reason_json(net, reason) for reason in reasons] if net is not None else []
    if changes is not None and not changes.is_large:
        result["single_changes"] = list(map(change_json, changes.single))
        result["least_changes"] = {
            kind: None if changes_of_kind is None else list(map(change_json, changes_of_kind))
            for kind, changes_of_kind in changes.kinds.items()
        }
    return result


def no_plan_json(net: Network, changes: LeastChanges | None = None) -> dict[str, object]:
    """Returns the object of a network without a plan."""
    side, inside = net.cut if net.cut is not None else ("", set())
    return cut_json(side, [net.nodes[number].text for number in sorted(inside)], reasons_of(net), net, changes)


def error_json(error: ModelError) -> dict[str, object]:
    """Returns the object of a ModelError."""
    return {"schema": SCHEMA, **error.to_dict()}


def arc_rows(
    net: Network, headings: Mapping[str, Sequence[str]], name: str | None = None, used_only: bool = False
) -> list[dict[str, object]]:
    """Returns a dict for each arc, with its key's parts by their headings."""
    result: list[dict[str, object]] = []
    for arc in net.arcs:
        if (name is None or arc.name == name) and (arc.flow or not used_only):
            keys = dict(zip(headings.get(arc.name, ()), arc.key))
            result.append(
                {
                    "arc": arc.name,
                    **keys,
                    "from": net.end(arc.src),
                    "to": net.end(arc.dst),
                    "flow": arc.flow,
                    "lower": arc.lower,
                    "upper": None if arc.is_open else arc.upper,
                    "price": arc.price,
                }
            )
    return result
