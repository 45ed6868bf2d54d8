"""Warns if no edge or node of a graph has an attribute, so that a default counts in its place."""
from __future__ import annotations

from typing import Any, Hashable, Iterable, Mapping, Sequence, Tuple

from ..exact import as_fraction
from ..warning import warn

# How names begin that are probably meant by an attribute's usual name; all names, if it is not here.
SIMILAR: Mapping[str, Tuple[str, ...]] = {
    "demand": ("demand", "need", "suppl", "balance"),
    "capacity": ("cap", "limit", "upper", "max"),
}


def warn_of_missing(
    kind: str, name: Hashable, usual: str, rows: Sequence[Mapping[Any, Any]], used: Iterable[Hashable], effect: str
) -> None:
    """Warns if none of the edges or nodes (`kind`) has an attribute, with those that they have. `effect` says what then
    holds. A graph can lack the attribute with the usual name on purpose, so that others have to be there that may be
    meant; `used` are not meant."""
    if name is None or not rows or any(name in row for row in rows):
        return
    others = {other: None for row in rows for other, value in row.items() if as_fraction(value) is not None}
    meant = [other for other in others if other not in used]
    if name == usual and usual in SIMILAR:
        meant = [other for other in meant if str(other).lower().startswith(SIMILAR[usual])]
    if meant or name != usual:
        have = f": {kind}s have {', '.join(map(repr, meant[:5]))}" if meant else ""
        warn(f"no {kind} has the attribute {name!r}, so {effect}{have}")
