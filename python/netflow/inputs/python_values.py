"""The forms that Python values of sets and parameters can have: dicts, lists of tuples, rows, and objects of pandas."""
from __future__ import annotations

import dataclasses
import inspect
from typing import Any, Iterable, Iterator, Sized, Tuple

from ..errors import DataError
from ..exact import as_fraction, has_many_digits, parse_numeral
from ..reading.data import KEY_NUMBER
from ..types import Key, Member, Value
from ..warning import warn

# A key and a value as Python gives them.
Pair = Tuple[Tuple[Any, ...], Any]

# The title that pandas gives to a column without one, as the first column of a grid in a file.
UNNAMED = "Unnamed: 0"
FORMS = "give a dict by key, a list of tuples (key, .., value), a list of dicts, or a Series or DataFrame of pandas"


@dataclasses.dataclass
class Leaf:
    """A value of a parameter: None if missing, and `missing` is then its word, None or NaN. `is_computed` for a float
    with more digits than netflow takes."""

    value: Value | None
    is_computed: bool = False
    missing: str = ""


def read_once(name: str, value: Any) -> Any:
    """Returns a value; what can be read only once, such as a generator, as a list. Raises DataError for a generator
    that was read before, and warns if another iterator has nothing."""
    if not hasattr(value, "__next__"):
        return value
    kind = "generator" if inspect.isgenerator(value) else type(value).__name__
    if inspect.isgenerator(value) and inspect.getgeneratorstate(value) == inspect.GEN_CLOSED:
        raise DataError(f"{name}: the {kind} has been read, and can be read only once: give a list, such as list(..)")
    items = list(value)
    if not items and kind != "generator":
        warn(f"{name}: the {kind} has no items; it can be read only once, so give a list if it was read before")
    return items


def members_of(name: str, value: Any, size: int) -> list[Key]:
    """Returns the members of a set as tuples."""
    if isinstance(value, str) or not hasattr(value, "__iter__"):
        members = value.replace(",", " ").split() if isinstance(value, str) else [value]
        raise DataError(
            f"set {name}: {value!r} is {'a text' if isinstance(value, str) else 'no list'}; expected a list of members,"
            f" such as {members!r}"
        )
    if is_frame(value):
        if len(value.columns) != size:
            raise DataError(
                f"set {name}: the table has {parts(value.columns, 'column')}; expected {size}, one for each part of a"
                " member"
            )
        value = value.itertuples(index=False, name=None)
    result = [tuple(plain(part, f"set {name}") for part in (row if is_row(row) else (row,))) for row in value]
    seen = set()
    for member in result:
        if len(member) != size:
            raise DataError(f"set {name}: the member {key_text(member)} has {parts(member)}; expected {size}")
        if member in seen:
            raise DataError(f"set {name}: the member {key_text(member)} is given twice")
        seen.add(member)
    return result


def key_text(key: Key) -> str:
    """Returns a key in Python's form; one of one part without parentheses."""
    return repr(key[0]) if len(key) == 1 else repr(key)


def plain(member: Any, owner: str) -> Member:
    """Returns a member as an int or a str; `owner` is the set or parameter that an error names."""
    if isinstance(member, str) or (isinstance(member, int) and not isinstance(member, bool)):
        return member
    if is_truth_value(member):
        raise DataError(
            f"{owner}: {bool(member)} is no member: a member is a whole number or a text, so use int(..) or str(..)"
        )
    number = as_fraction(member)
    if number is not None and number.denominator == 1:
        return int(number)
    raise DataError(f"{owner}: {member!r} is no member: a member is a whole number or a text, so use str(..)")


def is_truth_value(value: Any) -> bool:
    """Whether a value is True or False, also as a value of NumPy, which as_fraction takes for 1 or 0."""
    is_of_numpy = getattr(getattr(value, "dtype", None), "kind", None) == "b" and getattr(value, "size", None) == 1
    return isinstance(value, bool) or is_of_numpy


def parts(row: Sized, what: str = "part") -> str:
    """Returns how many parts there are, in words."""
    return f"{len(row)} {what}{'s' * (len(row) != 1)}"


def leaves_of(name: str, value: Any, size: int, texts: set[Member] | None, head: str) -> Iterator[tuple[Key, Leaf]]:
    """Yields the values of a parameter with their keys, also missing ones. `texts` are members that stay texts; `head`
    is the name with the braces of its declaration."""
    seen = set()
    for key, item in pairs_of(name, value, size):
        key = tuple(key_part(plain(part, f"param {name}"), texts) for part in key)
        if len(key) != size:
            raise DataError(
                f"param {name}: the key {key_text(key)} has {parts(key)}; expected {size}, one member for each index of"
                f" {head}"
                if size
                else (
                    f"param {name}: {name} has one value and no keys; expected a number or a text, not the key"
                    f" {key_text(key)}"
                )
            )
        if key in seen:
            raise DataError(f"param {name}: the key {key_text(key)} is given twice")
        seen.add(key)
        yield key, leaf_of(name, key, item)


def key_part(part: Member, texts: set[Member] | None) -> Member:
    """Returns a part of a key as a member: a text as its number, as in a sheet, except one of `texts`, or if these
    are None."""
    is_number = texts is not None and isinstance(part, str) and part not in texts and KEY_NUMBER.fullmatch(part)
    return int(part) if is_number else part


def leaf_of(name: str, key: Key, value: Any) -> Leaf:
    """Returns a number as a Fraction, a text, an infinite float, or a missing value."""
    if is_missing(value):
        return Leaf(None, missing="None" if value is None else "NaN")
    if isinstance(value, str):
        number = parse_numeral(value)
        return Leaf(value if number is None else number)
    if is_truth_value(value):
        raise wrong_value(name, key, f"{bool(value)} is no number", f"; int({bool(value)}) is {int(bool(value))}")
    number = as_fraction(value)
    if number is not None:
        return Leaf(number, has_many_digits(value, number))
    if isinstance(value, float) or hasattr(value, "__float__"):
        return Leaf(float(value))
    raise wrong_value(name, key, f"{value!r} is no value")


def wrong_value(name: str, key: Key, what: str, hint: str = "") -> DataError:
    """Returns the error of a value that is neither a number nor a text."""
    cell = f"param {name}[{', '.join(map(repr, key))}]" if key else f"param {name}"
    return DataError(f"{cell}: {what}; expected a number (int, float, Fraction or Decimal) or a text{hint}")


def is_missing(value: Any) -> bool:
    """Whether a value is None, NaN, or pandas' NA, whose comparisons have no truth value."""
    try:
        return value is None or bool(value != value)
    except TypeError:
        return True
    except ValueError:
        return False  # an array


def is_frame(value: Any) -> bool:
    """Whether a value is a DataFrame of pandas."""
    return hasattr(value, "columns") and hasattr(value, "itertuples")


def is_row(value: Any) -> bool:
    """Whether a member is a tuple, a list, or a row of an array."""
    return isinstance(value, (tuple, list)) or bool(getattr(value, "ndim", 0))


def pairs_of(name: str, value: Any, size: int) -> Iterable[Pair]:
    """Yields keys (tuples) and values."""
    if is_frame(value):
        return frame_pairs(name, value, size)
    if size == 0 and hasattr(value, "items") and hasattr(value, "index") and len(value) == 1:
        return [((), item) for item in value]  # a Series with one value
    if hasattr(value, "items"):
        return flat(value, size)
    if size == 0:
        return [((), value)]
    if isinstance(value, str) or not hasattr(value, "__iter__"):
        raise DataError(
            f"param {name}: {value!r} has no keys; expected a key of {parts(range(size))} for each value: {FORMS}"
        )
    return row_pairs(name, value, size)


def flat(value: Any, size: int) -> Iterable[Pair]:
    """The entries of a dict, or of dicts in a dict."""
    for key, item in value.items():
        key = tuple(key) if isinstance(key, (tuple, list)) else (key,)
        if hasattr(item, "items"):
            yield from ((key + inner, leaf) for inner, leaf in flat(item, size - len(key)))
        else:
            yield key, item


def frame_pairs(name: str, frame: Any, size: int) -> Iterable[Pair]:
    """A pandas DataFrame: a column of values with the keys in the index or in other columns, or a grid of two keys."""
    if list(frame.columns[:1]) == [UNNAMED]:
        frame = frame.set_index(UNNAMED)
    columns, index = list(frame.columns), frame.index
    # The index has keys unless these only number the rows, as after a file is read or rows are chosen.
    has_keys = index.nlevels > 1 or index.name is not None or index.dtype.kind not in "iu"
    if name in columns:
        if size and (index.nlevels >= size if has_keys else len(columns) <= size):
            return flat(frame[name], size)
        frame = frame.reset_index() if has_keys and size else frame
        keys = [column for column in frame.columns if column != name][:size]
        return [(row[:-1], row[-1]) for row in frame[[*keys, name]].itertuples(index=False, name=None)]
    if len(columns) == 1:
        return flat(frame[columns[0]], size)
    if size == 2 and index.nlevels == 1 and (has_keys or all(isinstance(column, int) for column in columns)):
        return [((row, column), item) for column in columns for row, item in frame[column].items()]
    grid = ", or make the first key the index of a grid" if size == 2 else ""
    raise DataError(f"param {name}: the table has no column {name!r}: give the column of its values this name{grid}")


def row_pairs(name: str, rows: Iterable[Any], size: int) -> Iterable[Pair]:
    for row in rows:
        if hasattr(row, "items"):
            keys = [value for title, value in row.items() if title != name]
            if name not in row:
                raise DataError(
                    f"param {name}: the row {row!r} has no column {name!r}; expected the value in a column of this name"
                )
            if len(keys) < size:
                raise DataError(
                    f"param {name}: the row {row!r} has {parts(keys, 'column')} for the key; expected {size}"
                )
            yield tuple(keys[:size]), row[name]
        else:
            if isinstance(row, str) or not hasattr(row, "__iter__"):
                raise DataError(
                    f"param {name}: {row!r} in the list has no key; expected a key of {parts(range(size))} and a value:"
                    f" {FORMS}"
                )
            row = tuple(row)
            if len(row) != size + 1:
                raise DataError(f"param {name}: {row!r} has {parts(row)}; expected {size + 1}, the key and the value")
            yield row[:-1], row[-1]
