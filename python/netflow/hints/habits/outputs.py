"""Hints for an output of the tools in place of a model or data: a plan, or what netflow-why prints."""
from __future__ import annotations

import os
import re

from ..diagnostic import Diagnostic
from ..hint import Hints, HintTable

NAME = r"[A-Za-z_]\w*"
PLAN = re.compile(rf"{NAME} = -?[0-9][0-9.]*\r?\n(?:{NAME} (?::=|= -?[0-9][0-9.]*)\r?\n|\Z)")
REASONS = re.compile(r"(?:No plan\.|There is a plan: .*)\r?\n")


def printed(diagnostic: Diagnostic) -> Hints:
    """`netflow-why plan.txt`, for the plan that netflow-plan printed."""
    text = diagnostic.texts.get(diagnostic.text, "")
    what = "a plan" if PLAN.match(text) else "an answer" if REASONS.match(text) else ""
    if what and not diagnostic.is_change() and diagnostic.text in ("model", "data"):
        name = os.path.basename(diagnostic.called or "") or "this"
        kind = "a model" if diagnostic.text == "model" else "data"
        yield f"{name} is {what} that netflow printed, not {kind}: give the files of the question, MODEL DATA", True


# As in hints_tables.
ALONE: HintTable = ((("E01", "E04", "E10", "E14", "E20"), printed),)
