"""What the modules of hints share: a hint is a text, sure or not, and a table says which errors a function
has hints for."""
from __future__ import annotations

from typing import Callable, Iterator, Tuple

from .diagnostic import Diagnostic

Hints = Iterator[Tuple[str, bool]]
HintTable = Tuple[Tuple[Tuple[str, ...], Callable[[Diagnostic], Hints]], ...]
