"""Warnings that name the caller's line."""
from __future__ import annotations

import sys
import warnings

PACKAGE = f"{__name__.partition('.')[0]}."


def warn(message: str) -> None:
    """Warns at the line outside this package that made the call."""
    level, frame = 1, sys._getframe(0)
    while frame.f_back is not None and frame.f_globals.get("__name__", "").startswith(PACKAGE):
        level, frame = level + 1, frame.f_back
    warnings.warn(message, stacklevel=level)
