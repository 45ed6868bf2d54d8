"""The types that the modules of the package share."""
from __future__ import annotations

import os
from fractions import Fraction
from typing import Iterable, SupportsFloat, Tuple, Union

# A member of a set, a tuple of members (the key of a value or an arc), and an exact number.
Member = Union[int, str]
Key = Tuple[Member, ...]
Number = Union[int, Fraction]
# An amount that can be `math.inf`, for any number.
Amount = Union[int, Fraction, float]
# A replacement of a part of a text: start, end, new text.
Edit = Tuple[int, int, str]
# A value of a parameter after reading: a number, a text, or an infinite float.
Value = Union[Fraction, str, float]
# What a set or parameter can be given as: a text, a number, or a dict, a list or an object of pandas.
Data = Union[str, SupportsFloat, Iterable[object]]
# A file, or for a `str` with a line end or a `;` the text itself.
Path = Union[str, "os.PathLike[str]"]
