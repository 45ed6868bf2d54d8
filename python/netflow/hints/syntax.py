"""Hints for models and data whose grammar is wrong in a usual way: each names the form that was probably meant."""
from __future__ import annotations

import re

from ..reading.headings import CLOSING, items
from ..reading.text import TOKEN
from .diagnostic import Diagnostic
from .hint import Hints, HintTable

NAME = r"[A-Za-z_]\w*"
OPERAND = r"[\w.]+(?:\[[^\]]*\])?"
BOUND = re.compile(rf"(?P<low>{OPERAND})\s*<=\s*(?:{NAME}(?:\[[^\]]*\])?\s*<=\s*)?(?P<high>{OPERAND})\s*(?=[,;]|$)")
RANGE = re.compile(
    r"(?P<low>[^:;]*?)\s*(?P<one><=|>=|=)\s*(?P<net>net_in|net_out)\s*(?P<two><=|>=|=)\s*(?P<high>[^;]*)"
)


def declared(diagnostic: Diagnostic, *kinds: str) -> set[str]:
    """Returns the names that the model declares by these words."""
    words = diagnostic.words("model")
    return {words[here + 1] for here in range(len(words) - 1) if words[here] in kinds}


def chained(diagnostic: Diagnostic) -> Hints:
    """A second comparison of the same expression inside braces or a check: `1 <= t <= n`."""
    if diagnostic.text != "model" or not diagnostic.at().startswith(("<", ">", "=")):
        return
    match = re.search(rf"({OPERAND})\s*(<=?|>=?)\s*({OPERAND})\s*$", diagnostic.before)
    after = re.match(rf"(<=?|>=?)\s*({OPERAND})", diagnostic.at())
    words = [token.text for token in diagnostic.statement_before()]
    is_inside = words.count("{") > words.count("}")
    if not match or not after or not (is_inside or words[:1] == ["check"]):
        return
    left, first, middle, second, right = *match.groups(), *after.groups()
    last_item = "".join(words[len(words) - words[::-1].index("{") :]) if is_inside else ":"
    if is_inside and ":" not in last_item and re.fullmatch(NAME, middle) and (first, second) == ("<=", "<="):
        yield f"an index is named with its set: {middle} in {left}..{right}", True
    else:
        yield f"write two comparisons: {left} {first} {middle} and {middle} {second} {right}", True


def reversed_sign(diagnostic: Diagnostic) -> Hints:
    """`=<` and `=>`."""
    place = len(diagnostic.before)
    for wrong, right in (("=<", "<="), ("=>", ">="), ("=!", "!=")):
        if diagnostic.text == "model" and wrong in (
            diagnostic.shown[place : place + 2],
            diagnostic.shown[max(place - 1, 0) : place + 1],
        ):
            yield f"{wrong}: is {right} meant?", True


def round_subscripts(diagnostic: Diagnostic) -> Hints:
    """`needed{p,t}` and `needed(p,t)`."""
    name = re.search(rf"({NAME})\s*$", diagnostic.before)
    mark = diagnostic.at()[:1]
    if (
        diagnostic.text != "model"
        or not name
        or mark not in ("{", "(")
        or name[1] not in declared(diagnostic, "param", "node", "arc", "set")
    ):
        return
    inside = re.match(r"[{(]([^{}()]*)[})]", diagnostic.at())
    yield f"subscripts are in square brackets: {name[1]}[{inside[1].strip() if inside else '..'}]", True


def missing_comma(diagnostic: Diagnostic) -> Hints:
    """Two subscripts without a comma."""
    if (
        diagnostic.text == "model"
        and re.search(r"\[[^\]{};]*\w\s+$", diagnostic.before)
        and re.match(r"[\w']", diagnostic.at())
    ):
        yield f"is a , missing before {diagnostic.word()}?", True


def bounds_in_one(diagnostic: Diagnostic) -> Hints:
    """`0 <= yard[p]` or `0 <= Lease <= 5` for the bounds of an arc."""
    words = [token.text for token in diagnostic.statement_before()]
    if (
        diagnostic.text != "model"
        or words[:1] != ["arc"]
        or words.count("{") > words.count("}")
        or not re.search(r"(?:[},]|\w)\s*$", diagnostic.before)
    ):
        return
    match = BOUND.match(diagnostic.at())
    if match:
        yield f"the bounds of an arc are two phrases: >= {match['low']}, <= {match['high']}", True


def mixed_range(diagnostic: Diagnostic) -> Hints:
    """`5 <= net_in >= 10`."""
    statement = diagnostic.statement()
    if diagnostic.text != "model" or not statement or statement[0].text != "node":
        return
    line = diagnostic.shown[diagnostic.shown.rfind(":", 0, len(diagnostic.before)) + 1 :]
    match = RANGE.search(line)
    if match and match["low"].strip() and match["one"] != match["two"]:
        yield (
            f"both signs of a range are the same: {match['low'].strip()} <= {match['net']} <= {match['high'].strip()}",
            True,
        )


def comma_for_colon(diagnostic: Diagnostic) -> Hints:
    """A condition after a comma in braces."""
    if diagnostic.text != "model" or not diagnostic.at().startswith("{"):
        return
    depth, inside = 0, []
    for word in [token.text for token in diagnostic.statement()[len(diagnostic.statement_before()) :]]:
        depth += (word in CLOSING) - (word in CLOSING.values())
        if depth == 0:
            break
        inside.append(word)
    parts = items(inside[1:])
    for here, part in enumerate(parts):
        if here and "in" not in part and {"<", ">", "="} & set("".join(part)) and ":" not in part:
            text = " ".join(part).replace("< =", "<=").replace("> =", ">=").replace("< >", "<>").replace("! =", "!=")
            text = re.sub(r"\s*([\[\]])\s*", r"\1", text).replace("]", "] ").strip()
            yield f"a condition comes after a colon: {{.. : {text}}}", True
            return


def no_objective(diagnostic: Diagnostic) -> Hints:
    """`obj freight[p,q]`: the objective's name is missing."""
    names = sorted(declared(diagnostic, "minimize", "maximize"))
    match = re.search(rf"\bobj\s+(?:({NAME})\s*)?$", diagnostic.before)
    if diagnostic.text != "model" or not match or not names:
        return
    word = re.match(NAME, diagnostic.at())
    head = match[1] or (word[0] if word and diagnostic.number == "E12" and diagnostic.detail not in names else "")
    is_price = head in declared(diagnostic, "param") if head else re.match(r"[\d(]", diagnostic.at()) is not None
    if is_price:
        price = (match[1] or "") + re.match(r"(?:\[[^\]]*\]|[^,;])*", diagnostic.at())[0].strip()  # type: ignore[index]
        price = re.sub(rf"\s+(?:{'|'.join(names)})$", "", price)
        yield f"the objective's name comes after obj: obj {names[0]} {price}", True


def check_without_colon(diagnostic: Diagnostic) -> Hints:
    if (
        diagnostic.text == "model"
        and [token.text for token in diagnostic.statement_before()] == ["check"]
        and not diagnostic.at().startswith((":", "{"))
    ):
        yield "is a : missing after check?", True


def colon_range(diagnostic: Diagnostic) -> Hints:
    """`{1:last}` and `{t in 1:last}`."""
    match = re.match(rf"\{{?\s*(?:{NAME}\s+in\s+)?(\w+)\s*:\s*(\w+)\s*[}},]", diagnostic.at())
    if diagnostic.text == "model" and match and not match[1].isidentifier():
        yield f"{match[1]}:{match[2]}: is {match[1]}..{match[2]} meant?", True


def nothing_after(diagnostic: Diagnostic) -> Hints:
    """`default;`, `>= ,`: a phrase without its value."""
    match = re.search(r"(\bdefault|\bwithin|\bdimen|\bobj|\bfrom|\bto|:=|<=|>=|[-+*=:(\[])\s*$", diagnostic.before)
    if diagnostic.text == "model" and match and diagnostic.at()[:1] in (";", ",", "}", "]", ")"):
        yield f"what comes after {match[1]} is missing", True


def tuple_without_comma(diagnostic: Diagnostic) -> Hints:
    """`(GOA HAM)` in data."""
    match = re.search(r"\(\s*([^\s,()]+)\s+$", diagnostic.before)
    if diagnostic.text == "data" and match and diagnostic.word() not in (",", ")", ";"):
        yield f"the members of a tuple have commas between them: ({match[1]},{diagnostic.word()})", True


def braces_in_data(diagnostic: Diagnostic) -> Hints:
    if diagnostic.text == "data" and diagnostic.at()[:1] in ("{", "}"):
        inside = re.match(r"\{([^}]*)\}", diagnostic.at())
        members = " ".join(re.split(r"[\s,]+", inside[1].strip())) if inside else ""
        whole = [word[0] for word in TOKEN.finditer(diagnostic.before)][-3:]
        name = whole[1] if whole[:1] == ["set"] and whole[-1] == ":=" else ""
        yield f"data have no braces{f': set {name} := {members};' if name and members else ''}", True


HINTS: HintTable = (
    (("E10",), chained),
    (("E10", "E14"), reversed_sign),
    (("E10",), round_subscripts),
    (("E10",), missing_comma),
    (("E10",), bounds_in_one),
    (("E10",), mixed_range),
    (("E36",), comma_for_colon),
    (("E10", "E12"), no_objective),
    (("E10", "E14"), check_without_colon),
    (("E36",), colon_range),
    (("E10",), nothing_after),
    (("E20",), tuple_without_comma),
    (("E01",), braces_in_data),
)
