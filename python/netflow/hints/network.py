"""Hints for models whose author thinks of variables and constraints: variables in conditions, words of AMPL's arcs,
brackets and signs."""
from __future__ import annotations

import re
from typing import Any

from ..reading.model import RESERVED
from ..reading.text import TOKEN, tokens
from .diagnostic import Diagnostic
from .hint import Hints, HintTable

NAME = r"[A-Za-z_]\w*"
KEY = r"(?:\s*\[[^\]]*\])?"


def node_with(diagnostic: Diagnostic, name: str) -> Any:
    """Returns the match of the node in whose condition a name is a term, with its `node`, `braces`, `net`, `sign` and
    `key`; None if there is none."""
    model = re.sub(r"#[^\n]*", "", diagnostic.texts.get("model", ""))
    head = rf"\bnode\s+(?P<node>{NAME})\s*(?P<braces>\{{[^{{}}]*\}})?\s*:\s*(?P<net>net_in|net_out)\s*="
    term = rf"(?P<sign>[-+]?)\s*(?:sum\s*\{{[^{{}}]*\}}\s*)?\b{re.escape(name)}\b\s*(?:\[(?P<key>[^\]]*)\])?"
    return re.search(rf"{head}[^;]*?{term}[^;]*;", model)


def indices_of(braces: str | None) -> list[str]:
    """Returns the indices of braces such as `{p in PLANTS, (i,j) in L: i <> j}`, and for an item without one an empty
    text."""
    inside = (braces or "")[1:-1].partition(":")[0]
    return (
        [
            part.strip("() ") if is_in else ""
            for part, is_in, _ in (item.partition(" in ") for item in inside.split(","))
        ]
        if inside.strip()
        else []
    )


def variable_in_condition(diagnostic: Diagnostic) -> Hints:
    """`var Feed {p in PLANTS}` or `arc Feed`, and `node Plant {p in PLANTS}: net_out = Feed[p]`."""
    name = diagnostic.detail if diagnostic.number == "E12" else (TOKEN.findall(diagnostic.at())[1:2] or [""])[0]
    if (
        diagnostic.text != "model"
        or not re.fullmatch(NAME, name)
        or not (diagnostic.number == "E12" or diagnostic.word() == "var")
    ):
        return
    declared = re.search(rf"\b(?:var|arc)\s+{re.escape(name)}\b\s*(\{{[^{{}}]*\}})?[^;]*", diagnostic.texts["model"])
    found = node_with(diagnostic, name)
    if (
        found is None or declared is None or re.search(r"\b(?:from|to)\b", declared[0])
    ):  # an arc with ends has been understood
        return
    # The indices of the arc, by those of the term that the node's indices are.
    key, own = [part.strip() for part in (found["key"] or "").split(",")], indices_of(declared[1])
    names = {part: index for part, index in zip(key, own) if index}
    subscripts = ",".join(names.get(index, index) for index in indices_of(found["braces"]))
    enters = (found["net"] == "net_out") != (found["sign"] == "-")
    end, without = (
        f"{word} {found['node']}{f'[{subscripts}]' if subscripts else ''}"
        for word in (("to", "from") if enters else ("from", "to"))
    )
    is_var = "var " if diagnostic.number == "E14" else ""
    yield (
        f"{is_var}{name} is a term of the condition of {found['node']}: write an arc {end} without"
        f" {without.partition(' ')[0]}, and leave {name} out of the condition: arc"
        f" {name}{' ' + declared[1] if declared[1] else ''} .., {end}"
    ), True


def coefficient(diagnostic: Diagnostic) -> Hints:
    """`coeff Shop[s] 1` and `coeff Shop[s] -1`."""
    match = re.match(rf"coeff\s+({NAME}{KEY})\s*(-?\s*[\d.]*)", diagnostic.at())
    if diagnostic.text != "model" or not match:
        return
    number = match[2].replace(" ", "")
    if number in ("1", "-1"):
        yield f"coeff {match[1]} {number}: write {'to' if number == '1' else 'from'} {match[1]}", True
    else:
        said = "another coefficient is a gain, which no network has"
        yield f"coeff N 1 is `to N`, and coeff N -1 is `from N`; {said}", True


def equals_after_objective(diagnostic: Diagnostic) -> Hints:
    """`obj Total = cost[b,s]`."""
    match = re.search(rf"\bobj\s+({NAME})\s*$", diagnostic.before)
    if diagnostic.text == "model" and match and diagnostic.at().startswith(("=", ":=")):
        price = re.match(r":?=\s*((?:\[[^\]]*\]|[^,;\[])*)", diagnostic.at())
        yield f"no = comes after the objective's name: obj {match[1]} {price[1].strip() if price else '..'}", True


def end_with_parentheses(diagnostic: Diagnostic) -> Hints:
    """`from Bakery(b)`."""
    match = re.search(rf"\b(?:from|to)\s+({NAME})\s*$", diagnostic.before)
    inside = re.match(rf"\(((?:\s*{NAME}\s*,?)+)\)", diagnostic.at())
    has_index = match and re.search(rf"\bnode\s+{match[1]}\s*\{{", diagnostic.texts["model"])
    if diagnostic.text == "model" and match and has_index and inside:
        yield f"subscripts are in brackets: {match[1]}[{','.join(part.strip() for part in inside[1].split(','))}]", True


def second_brackets(diagnostic: Diagnostic) -> Hints:
    """`cost[b][s]`."""
    found, after = re.search(rf"({NAME})\s*\[([^\[\]]*)\]\s*$", diagnostic.before), re.match(
        r"((?:\[[^\[\]]*\]\s*)+)", diagnostic.at()
    )
    if diagnostic.text == "model" and found and after:
        rest = re.findall(r"\[([^\[\]]*)\]", after[1])
        yield f"subscripts are in one pair of brackets: {found[1]}[{','.join([found[2], *rest])}]", True


def index_in_brackets(diagnostic: Diagnostic) -> Hints:
    """`arc Drive [b in BAKERIES]`."""
    words = [token.text for token in diagnostic.statement_before()]
    inside = re.match(r"\[([^\[\]]*)\]", diagnostic.at())
    if (
        diagnostic.text == "model"
        and len(words) == 2
        and words[0] in ("arc", "node", "param")
        and diagnostic.at().startswith("[")
    ):
        yield f"an index is in braces: {words[0]} {words[1]} {{{inside[1].strip() if inside else '..'}}}", True


def comma_in_braces(diagnostic: Diagnostic) -> Hints:
    """`{BAKERIES SHOPS}` and `{b in BAKERIES s in SHOPS}`."""
    words = [token.text for token in diagnostic.statement_before()]
    is_operand = words and (words[-1] in (")", "}") or re.fullmatch(r"\w+", words[-1]) and words[-1] not in RESERVED)
    is_next = re.fullmatch(NAME, diagnostic.word()) and diagnostic.word() not in RESERVED
    if (
        diagnostic.text == "model"
        and is_operand
        and is_next
        and words.count("{") > words.count("}")
        and words.count("[") == words.count("]")
    ):
        declared = {
            following
            for word, following in zip(diagnostic.words("model"), diagnostic.words("model")[1:])
            if word == "set"
        }
        after = [token.text for token in tokens(diagnostic.at())][1:2]
        if diagnostic.word() in declared or after == ["in"]:
            yield f"is a , missing before {diagnostic.word()}?", True


# As in hints_tables.
ALONE: HintTable = (
    (("E12", "E14"), variable_in_condition),
    (("E14", "E10"), coefficient),
    (("E10", "E14"), equals_after_objective),
    (("E15", "E10"), end_with_parentheses),
    (("E10",), second_brackets),
    (("E10",), index_in_brackets),
    (("E10", "E14"), comma_in_braces),
)
