"""The arguments of `solve` and `Model`: which values they take, and what they stand for."""
from __future__ import annotations

import os
import re
from typing import Dict, List, Mapping, Sequence

from ..errors import DataError
from ..reading.model import Shapes, Unparsed, parse
from ..reading.text import decoded
from .python_data import override
from .source import Input


def require_no_parameter(
    model: Input, options: Mapping[str, object], texts: Sequence[Input], values: Mapping[str, object]
) -> None:
    """Raises DataError if the model has a set or parameter with the name of an option that is given, and no data have
    it.

    In a model with `param scale`, `scale=5` would be an option, and the parameter would have no value.
    """
    text = model.text()
    named = [name for name in options if re.search(rf"\b(?:set|param)\s+{name}\b", text)]
    if not named:
        return
    try:
        shapes = Shapes(parse(text), text)
    except Unparsed:
        return
    for name in named:
        kind = shapes.decls[name].kind if name in shapes.decls else ""
        has_data = name in values or any(re.search(rf"\b{name}\b", source.text()) for source in texts)
        if kind in ("set", "param") and not has_data:
            raise DataError(
                f"{name}: the model declares {kind} {name}, and {name} is also an option of solve: "
                f"give the {kind} in a dict, data={{'{name}': ..}}"
            )


def require_options(objective: object, scale: object, bounds: object) -> None:
    """Raises TypeError or DataError if an option of `solve` has no usable value."""
    if objective is not None and not isinstance(objective, str):
        raise TypeError(f"objective: expected the name of an objective as a text, not {objective!r}")
    if not isinstance(bounds, bool):
        raise TypeError(f"bounds: expected True or False, not {bounds!r}")
    if scale is not None and not isinstance(scale, Mapping):
        raise TypeError(f"scale: expected a dict of parameters and factors, such as {{'cost': 100}}, not {scale!r}")
    for name, factor in (scale or {}).items():
        if isinstance(factor, bool) or not hasattr(factor, "__index__") or factor < 1:
            raise DataError(
                f"scale of {name}: {factor!r} is no factor; expected a whole number of 1 or more, such as 100"
            )


def input_of(value: object, what: str = "model", expected: str = "a path, a file or the text of the model") -> Input:
    """Returns a model or data text; raises TypeError for a value that is none. What can be read only once, such as a
    pipe or an open file, is read."""
    if isinstance(value, str) and ("\n" in value or ";" in value):
        return Input(text=value)
    if isinstance(value, (str, os.PathLike)):
        path = os.fspath(value)
        if isinstance(path, str):
            return Input(path) if not is_stream(path) else Input(text=read_stream(path), name=path)
    if hasattr(value, "read"):
        content = value.read()
        name = getattr(value, "name", None)
        text = decoded(content) if isinstance(content, bytes) else content
        if isinstance(text, str):
            return Input(text=text, name=name if isinstance(name, str) else None)
    raise TypeError(f"{what}: expected {expected}, not {value!r}")


def is_stream(path: str) -> bool:
    """Whether a path is that of a pipe or another file that can be read only once."""
    is_whole = os.path.isfile(path) or os.path.isdir(path) or os.path.realpath(path) == os.devnull
    return os.path.exists(path) and not is_whole


def read_stream(path: str) -> str:
    with open(path, "rb") as file:
        return decoded(file.read())


def inputs_of(data: object) -> tuple[list[Input], dict[str, object]]:
    """Returns the data texts, and the sets and parameters of dicts."""
    texts: List[Input] = []
    changes: Dict[str, object] = {}
    for source in data if isinstance(data, (list, tuple)) else [data] if data is not None else []:
        if isinstance(source, Mapping):
            override(changes, source)
        else:
            texts.append(input_of(source, "data", "a path, a file, a text, a dict, or a list of these"))
    return texts, changes
