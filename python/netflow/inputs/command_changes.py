"""Checks changes of a command, such as `--set wants[lake]=50`, against the declarations of the model."""
from __future__ import annotations

from fractions import Fraction
from typing import Any, Iterator, Mapping, Sequence

from ..errors import DataError
from ..exact import decimal_text
from ..reading.data import DataText, member_text
from ..reading.model import Shapes
from ..types import Key, Member


def require_changes(changes: Mapping[str, Any], shapes: Shapes, pieces: Sequence[DataText]) -> None:
    """Raises DataError for a set, for a key that is missing or has another number of parts than the parameter, and for
    a member in place of a parameter. The error names the change that is probably meant."""
    for name, given in changes.items():
        for key, value in given.items() if isinstance(given, dict) else [((), given)]:
            said = change_text(name, key, value)
            if name in shapes.names("set"):
                raise DataError(
                    f"{said}: {name} is a set, and an option changes one value: give the set in a data file"
                )
            if name in shapes.names("param") and len(key) != shapes.keys[name]:
                raise DataError(f"{said}: {key_advice(name, key, value, shapes, pieces)}")
            meant = [] if name in shapes.decls or key else changes_of_member(name, value, pieces)
            if meant:
                raise DataError(
                    f"{name}: the model declares no such set or parameter, and the data have {name} as a member: is"
                    f" {' or '.join(meant[:3])} meant?"
                )


def key_advice(name: str, key: Key, value: Any, shapes: Shapes, pieces: Sequence[DataText]) -> str:
    """Returns what is wrong with the number of parts of a key, with an example from the data."""
    size = shapes.keys[name]
    if not size:
        return f"{name} has one value and no key: is {change_text(name, (), value)} meant?"
    example = next((cell for cell in cells_of(pieces) if cell[0] == name and len(cell[1]) == size), None)
    said = f"{shapes.head(name)} needs a key"
    if key:
        said = f"the key has {len(key)} part{'s' * (len(key) != 1)}, and {shapes.head(name)} needs {size}"
    return said + (f", as in {change_text(*example, value)}" if example else "")


def changes_of_member(member: Member, value: Any, pieces: Sequence[DataText]) -> list[str]:
    """Returns a change of each parameter that has a value for a member, of those with the shortest keys."""
    found: dict[str, Key] = {}
    for name, key in cells_of(pieces):
        if member in key:
            found.setdefault(name, key)
    least = min(map(len, found.values()), default=0)
    return [change_text(name, key, value) for name, key in found.items() if len(key) == least]


def cells_of(pieces: Sequence[DataText]) -> Iterator[tuple[str, Key]]:
    """Yields the name and the key of each value of the data."""
    for piece in pieces:
        for cell in piece.cells():
            yield cell.name, cell.key


def change_text(name: str, key: Key, value: Any) -> str:
    """Returns a change as an option has it: `wants[lake]=50`."""
    inside = f"[{','.join(map(member_text, key))}]" if key else ""
    return f"{name}{inside}={decimal_text(value) if isinstance(value, Fraction) else value}"
