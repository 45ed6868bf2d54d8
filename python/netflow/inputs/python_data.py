"""Turns Python values into the sets and parameters of a model."""
from __future__ import annotations

import dataclasses
import difflib
from fractions import Fraction
from typing import Any, Iterable, List, Mapping

from ..errors import DataError
from ..exact import decimal_text, rounded_together
from ..reading.data import member_text, set_statement
from ..reading.model import Shapes
from ..reading.text import few
from ..types import Key, Member, Value
from .python_values import Leaf, key_text, leaves_of, members_of, read_once
from .scaling import BOUND, scaled_value

OPTIONS = ("objective", "scale", "bounds")


class Layers(List[Any]):
    """Several values of one set or parameter: a later one replaces a set as a whole, and a parameter key by key."""


def override(values: dict[str, Any], others: Mapping[str, Any]) -> None:
    """Adds sets and parameters to those of a dict, which they override."""
    for name, value in others.items():
        before = values.get(name)
        value = read_once(name, value)
        values[name] = (
            Layers([*(before if isinstance(before, Layers) else [before]), value]) if name in values else value
        )


@dataclasses.dataclass
class Remark:
    """What a reader has to know of a value from Python: that NaN or None gave none (`missing`), or the rounding
    (`value`)."""

    name: str
    key: Key
    value: Fraction | None
    missing: str = ""

    def cell(self) -> str:
        return f"{self.name}[{', '.join(map(repr, self.key))}]" if self.key else self.name


class PythonData:
    """Sets and parameters by name; `sets` are lists of tuples, `params` dicts from keys to a Fraction or a text.
    `origins` has for each line of the text its content: a name, with the key of its value or the member, or None if
    the line is a statement's first or last. `rounded` has the floats with too many digits, `missing` the keys at which
    NaN or None gives no value.

    A part of a key that is a text in the form of a number becomes that number, unless a set has the text as a member:
    `texts` are those of the model and of data texts. With None every text stays one."""

    def __init__(
        self,
        values: dict[str, Any],
        sets: dict[str, int],
        keys: dict[str, int],
        texts: set[Member] | None = None,
        shapes: Shapes | None = None,
    ) -> None:
        shapes = shapes or Shapes([])
        layers = {name: value if isinstance(value, Layers) else Layers([value]) for name, value in values.items()}
        self.sets: dict[str, list[Key]] = {
            name: members_of(name, value[-1], sets[name]) for name, value in layers.items() if name in sets
        }
        self.params: dict[str, dict[Key, Value]] = {}
        self.origins: list[tuple[str, Key | None]] = []
        self.rounded: list[Remark] = []
        self.missing: list[Remark] = []
        kept = None if texts is None else texts | {part for rows in self.sets.values() for row in rows for part in row}
        for name, given in layers.items():
            if name in keys:
                head = shapes.head(name)
                self.fill(name, [pair for value in given for pair in leaves_of(name, value, keys[name], kept, head)])
            elif name not in sets:
                raise DataError(
                    f"{name}: the model declares no such set or parameter{declared_text(shapes, name, 'set', 'param')}"
                )

    def fill(self, name: str, leaves: Iterable[tuple[Key, Leaf]]) -> None:
        """Gives a parameter its values, of which later ones override earlier ones."""
        rows: dict[Key, Value] = {}
        computed: dict[Key, Fraction] = {}
        for key, leaf in leaves:
            if leaf.value is None:
                self.missing.append(Remark(name, key, None, leaf.missing))
                continue
            rows[key] = leaf.value
            if leaf.is_computed and isinstance(leaf.value, Fraction):
                computed[key] = leaf.value
            else:
                computed.pop(key, None)
        numbers = [number for number in rows.values() if isinstance(number, Fraction)]
        for key, value in zip(computed, rounded_together(list(computed.values()), numbers)):
            self.rounded.append(Remark(name, key, computed[key]))
            rows[key] = value
        self.params[name] = rows

    def numbers(self, name: str) -> list[Fraction]:
        return [number for number in self.params[name].values() if isinstance(number, Fraction)]

    def text(self, factors: dict[str, int], add_bounds: bool) -> str:
        """Returns the statements, the numbers times the factors of their parameters."""
        parts = [set_statement(name, members) for name, members in self.sets.items()]
        self.origins = [
            (name, key) for name, rows in (*self.sets.items(), *self.params.items()) for key in (None, *rows, None)
        ]
        for name, rows in self.params.items():
            factor = factors.get(name, 1)
            lines = [
                " ".join([*map(member_text, key), value_text(name, value, factor, add_bounds)])
                for key, value in rows.items()
            ]
            parts.append("\n".join([f"param {name} :=", *lines, ";"]) + "\n")
        return "".join(parts)

    def place(self, row: int) -> tuple[str, Key | None, Value | None]:
        """Returns the name, the key or member, and the value of a line of the text, counted from 1."""
        name, key = self.origins[min(row, len(self.origins)) - 1]
        return name, key, None if key is None else self.params.get(name, {}).get(key)

    def described(self, row: int) -> str:
        """Returns what a line of the text says: `the value of van`, `key ('north', 'hill') of cost`, `member 'hill' of
        SHOPS`."""
        name, key, _ = self.place(row)
        if not key:
            return f"{'the members' if name in self.sets else 'the value' if key == () else 'the values'} of {name}"
        return f"{'member' if name in self.sets else 'key'} {key_text(key)} of {name}"

    def rounding_lines(self) -> list[str]:
        """Returns a line for each parameter whose floats were rounded."""
        lines: dict[str, str] = {}
        for remark in self.rounded:
            others = sum(other.name == remark.name for other in self.rounded) - 1
            taken = self.params[remark.name][remark.key]
            lines.setdefault(
                remark.name,
                f"{remark.cell()} = {decimal_text(remark.value or Fraction())} has more digits than netflow takes and"
                f" is rounded to {decimal_text(taken) if isinstance(taken, Fraction) else taken}"
                + (f" ({others} more of {remark.name})" if others else ""),
            )
        return list(lines.values())


def value_text(name: str, value: Value, factor: int, add_bounds: bool) -> str:
    """Returns a value in the form of a data text; a number times its factor."""
    if isinstance(value, Fraction):
        return str(scaled_value(name, value, factor))
    if isinstance(value, float):
        if not add_bounds:
            raise DataError(f"{name}: {value} is no number of a model; bounds=True adds a bound that no plan reaches")
        return str(BOUND if value > 0 else -BOUND)
    return member_text(value)


def declared_text(shapes: Shapes, name: str, *kinds: str) -> str:
    """Returns which name of the model is probably meant by an unknown one, or what the model declares by these
    words."""
    known = [name for kind in kinds for name in shapes.names(kind)]
    meant = difflib.get_close_matches(name, known, 1, 0.6)
    if meant:
        return f"; is {meant[0]} meant?"
    if name in shapes.decls:
        return (
            f": {name} is {'an' if shapes.decls[name].kind == 'arc' else 'a'} {shapes.decls[name].kind}, and only sets"
            " and parameters have data"
        )
    option = difflib.get_close_matches(name, OPTIONS, 1, 0.7)
    if option:
        return f"; is the option {option[0]} meant?"
    return f"; it has {few(known, 8)}" if known else ""
