"""Numbers by the keys of a declaration: flows, and the prices of nodes."""
from __future__ import annotations

import difflib
from typing import TYPE_CHECKING, Iterator, Mapping, Sequence, Union

from .reading.network import Arc
from .types import Key, Member, Number

if TYPE_CHECKING:
    import pandas

# A key in the form of `Flows`: that of one index is the member itself.
FlowKey = Union[Member, Key]
# Among how many keys the nearest one is looked for.
MOST_KEYS = 5_000


class Keyed(Mapping[FlowKey, Number]):
    """The numbers of one declaration by key; the key of one index is the member itself. `what` says what has a number,
    `titles` what the parts of a key are called."""

    what = "value"

    def __init__(self, name: str, numbers: Mapping[Key, Number], titles: Sequence[str] = ()) -> None:
        self.name, self.titles = name, tuple(titles)
        self._numbers = dict(numbers)

    def __getitem__(self, key: FlowKey) -> Number:
        return self._numbers[self.parts(key)]

    def parts(self, key: FlowKey) -> Key:
        """Returns a key as a tuple; raises KeyError, which names the nearest key, for one that is none."""
        parts = tuple(key) if isinstance(key, (tuple, list)) else (key,)
        if parts in self._numbers:
            return parts
        meant = nearest(parts, self._numbers)
        hint = "" if meant is None else f": is {meant[0]!r} meant?" if len(meant) == 1 else f": is {meant!r} meant?"
        raise KeyError(f"{self.name} has no {self.what} {parts[0] if len(parts) == 1 else parts!r}{hint}")

    def __iter__(self) -> Iterator[FlowKey]:
        return (key[0] if len(key) == 1 else key for key in self._numbers)

    def __len__(self) -> int:
        return len(self._numbers)

    def __repr__(self) -> str:
        return f"{type(self).__name__}({self.name}, {dict(self)!r})"

    def to_pandas(self) -> pandas.Series:
        """Returns a pandas Series of the numbers, its index named as the model names the parts of a key."""
        import pandas

        keys = list(self)
        is_multiple = bool(keys) and isinstance(keys[0], tuple)
        names = list(self.titles) if self.titles else None
        index = (
            pandas.MultiIndex.from_tuples(keys, names=names)
            if is_multiple
            else pandas.Index(keys, name=names[0] if names else None)
        )
        series = pandas.Series(list(self._numbers.values()), index, name=self.name, dtype=object)
        return series.infer_objects() if all(isinstance(number, int) for number in series) else series.astype(float)


class Flows(Keyed):
    """The flows of one declaration of arcs by key; the key of one index is the member itself."""

    what = "arc"

    def __init__(self, name: str, arcs: Sequence[Arc], titles: Sequence[str] = ()) -> None:
        self.arcs: dict[Key, Arc] = {tuple(arc.key): arc for arc in arcs}
        super().__init__(name, {key: arc.flow for key, arc in self.arcs.items()}, titles)

    def arc(self, key: FlowKey) -> Arc:
        """Returns the arc with its bounds, price and ends."""
        return self.arcs[self.parts(key)]


def nearest(parts: Key, keys: Mapping[Key, Number]) -> Key | None:
    """Returns the key that is most like another one; None if no key is similar."""
    texts = {repr(key): key for key, _ in zip(keys, range(MOST_KEYS))}
    if len(texts) < len(keys):  # only keys that differ in one part
        texts = {
            repr(key): key
            for key in keys
            if len(key) == len(parts) and sum(one != other for one, other in zip(key, parts)) == 1
        }
    found = difflib.get_close_matches(repr(parts), texts, 1, 0.7) if len(texts) <= MOST_KEYS else []
    return texts[found[0]] if found else None
