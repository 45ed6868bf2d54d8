"""Decimals that may be whole numbers with a point between groups of digits: 1.200 is 1.2 for netflow and the tools."""
from __future__ import annotations

import re
from typing import TYPE_CHECKING, Iterable, Iterator, Sequence

from ..reading.data import DataText, Token
from ..reading.keys import shown
from ..reading.model import Shapes, Unparsed, parse, tokens_of
from ..types import Key

if TYPE_CHECKING:
    from .instance import Instance

# A first 0, as in 0.125, begins a decimal.
GROUPED = re.compile(r"[+-]?[1-9][0-9]{0,2}(?:\.[0-9]{3})+")
MAYBE = re.compile(r"(?<![\w.])[1-9][0-9]{0,2}\.[0-9]{3}(?![0-9])")
SOME = 5


def meant(text: str) -> str:
    return f"is {text.replace('.', '')} meant? A point begins decimals"


def grouped_lines(model: str, data: Iterable[tuple[str | None, str]], changes: Iterable[str] = ()) -> list[str]:
    """Returns a line for each parameter with such values, with the place of the first one. `data` are pairs of a name
    and a text, and `changes` what the user wrote for a change, such as `--set van=1.200`."""
    lines = [
        f"{said}: {meant(said.rpartition('=')[2])}"
        for said in dict.fromkeys(changes)
        if GROUPED.fullmatch(said.rpartition("=")[2])
    ]
    try:
        pieces = [(name, text) for name, text in data if MAYBE.search(text)]
        lines += [line for name, text in pieces for line in lines_of_data(model, name, text)]
        lines += lines_of_model(model) if MAYBE.search(model) else []
    except (Unparsed, ValueError, IndexError):
        pass
    return lines


def grouped_lines_of(instance: Instance) -> list[str]:
    data = [(source.name if len(instance.data) > 1 else None, source.text()) for source in instance.data]
    return grouped_lines(instance.model.text(), data, instance.origins.values())


def lines_of_model(model: str) -> Iterator[str]:
    for token in tokens_of(model):
        if token.kind == "num" and GROUPED.fullmatch(token.text):
            yield f"{token.text} in line {model.count(chr(10), 0, token.start) + 1} of the model: {meant(token.text)}"


def lines_of_data(model: str, name: str | None, text: str) -> Sequence[str]:
    shapes = Shapes(parse(model), model)
    params = {decl: shapes.keys[decl] for decl in shapes.names("param")}
    result: dict[str, list[tuple[Key, Token]]] = {}
    for statement in DataText(text, params, shapes.sets, True).statements:
        values = [(cell.name, cell.key, cell.token) for cell in statement.cells]
        values += [(f"the default of {statement.name}", (), statement.default)] if statement.default is not None else []
        for param, key, token in values:
            if token.kind == "word" and GROUPED.fullmatch(token.text):
                result.setdefault(param, []).append((key, token))
    lines = []
    for param, cells in result.items():
        key, token = cells[0]
        title = f"{param}[{','.join(map(shown, key))}]" if key else param
        line = f"line {text.count(chr(10), 0, token.start) + 1}{f' of {name}' if name else ''}"
        more = f" ({len(cells) - 1} more of {param})" if len(cells) > 1 else ""
        lines.append(f"{title} is {token.text} in {line}: {meant(token.text)}{more}")
    return lines[:SOME]
