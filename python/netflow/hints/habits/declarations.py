"""Hints for declarations of models: a cost that is missing, a colon after `minimize`, reserved words as names,
operators in capitals, grouped digits, ranges as in mathematics, conservation that is written out."""
from __future__ import annotations

import re

from ...reading.headings import items
from ...reading.model import RESERVED
from ...reading.text import TOKEN
from ..diagnostic import DECLARING, Diagnostic
from ..hint import Hints, HintTable

NAME = r"[A-Za-z_]\w*"
# Words that are written in small letters, in capitals in SQL, spreadsheets and other modelling languages.
OPERATORS = frozenset("and by cross diff div else if in inter mod not or sum then union within".split())
# Words that can come after a name that is missing.
PHRASES, ENDS = {"default", "within", "in", "dimen", "symbolic", "integer"}, {"from", "to", "obj"}
KIND_NAMES = {"set": "members", "param": "value", "node": "place", "arc": "flow"}
# The members before three dots, or before two with a comma, and the last one.
SERIES = re.compile(r"(?<![\w.])(?P<first>\w+)(?:\s*,\s*(?P<second>\w+))?\s*,\s*\.\.\.?\s*,?\s*(?P<last>\w+)")
CONSERVED = re.compile(
    rf"\bnode\s+({NAME}\s*(?:\{{[^{{}}]*\}})?)\s*:\s*(?:net_in\s*=\s*net_out|net_out\s*=\s*net_in"
    r"|net_in\s*-\s*net_out\s*=\s*0|net_out\s*-\s*net_in\s*=\s*0)\s*;"
)


def own_sets(braces: str) -> list[list[str]]:
    """Returns the sets of the braces of a declaration, each as words, without indices and a condition."""
    words = TOKEN.findall(braces)
    return [item[item.index("in") + 1 :] if "in" in item else item for item in items(words)]


def cost_of(diagnostic: Diagnostic) -> str:
    """Returns a parameter with the keys of the arc at the place, such as `cost[b,s]`; an empty text if there is none.
    One that the model does not use comes first."""
    braces = re.match(rf"arc {NAME} \{{(.*?)[:}}]", " ".join(token.text for token in diagnostic.statement()))
    keys = [item[0] for item in items(TOKEN.findall(braces[1])) if item[1:2] == ["in"]] if braces else []
    words = diagnostic.words("model")
    fitting = [
        name
        for name, inside in re.findall(rf"\bparam\s+({NAME})\s*\{{([^{{}}:]*)\}}", diagnostic.texts["model"])
        if braces and own_sets(inside) == own_sets(braces[1]) and len(keys) == len(own_sets(inside))
    ]
    fitting.sort(key=lambda name: words.count(name) > 1)
    return f"{fitting[0]}[{','.join(keys)}]" if fitting else ""


def no_coefficient(diagnostic: Diagnostic) -> Hints:
    """`obj Total;`"""
    match = re.search(rf"\bobj\s+({NAME})\s*$", diagnostic.before)
    words = diagnostic.words("model")
    objectives = {name for word, name in zip(words, words[1:]) if word in ("minimize", "maximize")}
    if diagnostic.text == "model" and match and match[1] in objectives and diagnostic.at()[:1] in (";", ","):
        cost = cost_of(diagnostic)
        meant = f"obj {match[1]} {cost}, or " if cost else ""
        yield f"obj {match[1]} has no cost: {meant}obj {match[1]} 1 if each unit counts 1", True


def colon_after_minimize(diagnostic: Diagnostic) -> Hints:
    """`minimize: Total;`"""
    words = [token.text for token in diagnostic.statement_before()]
    if diagnostic.text != "model" or words not in (["minimize"], ["maximize"]) or not diagnostic.at().startswith(":"):
        return
    name = re.match(rf":\s*({NAME})\s*;", diagnostic.at())
    form = f"{words[0]} {name[1]};" if name else f"{words[0]} Total: .."
    yield f"the objective's name comes directly after {words[0]}: {form}", True


def comma_in_number(diagnostic: Diagnostic) -> Hints:
    """`<= 40,000` and `<= 4,5`."""
    first = re.search(r"(?<![\w.,])(\d+(?:,\d{3})*),$", diagnostic.before)
    rest = re.match(r"\d+(?:,\d{3})*(?![\w.])", diagnostic.at())
    if diagnostic.text != "model" or not first or not rest:
        return
    text = f"{first[1]},{rest[0]}"
    if re.fullmatch(r"[1-9]\d{0,2}(?:,\d{3})+", text):
        yield f"{text}: is {text.replace(',', '')} meant? Digits are not grouped", True
    elif text.count(",") == 1:
        yield f"{text}: is {text.replace(',', '.')} meant? Decimals have a point", True


def capital_operator(diagnostic: Diagnostic) -> Hints:
    """`b <> 'north' AND s <> 'hill'`, `NOT (..)` and `Sum {..}`."""
    before = TOKEN.findall(diagnostic.before)[-1:]
    declared = diagnostic.words("model")
    names = {name for word, name in zip(declared, declared[1:]) if word in DECLARING}
    for word in (diagnostic.word(), *before, diagnostic.detail):
        is_operator = word.lower() in OPERATORS and word != word.lower()
        if diagnostic.text == "model" and is_operator and word not in names:
            yield f"{word}: is {word.lower()} meant?", True
            return


def conserved(diagnostic: Diagnostic) -> Hints:
    """`node Depot: net_in = net_out;`"""
    words = " ".join(token.text for token in diagnostic.statement())
    match = CONSERVED.match(words) if diagnostic.text == "model" else None
    if match:
        head = re.match(r"\s*node\s+([^:]*?(?:\{[^{}]*\})?)\s*:\s*net", diagnostic.shown)
        named = head[1] if head else match[1].strip()
        yield f"a node without a condition passes on what it gets: write node {named};", True


def series(diagnostic: Diagnostic) -> Hints:
    """`{1, ..., n}` and `{1, 3, ..., n}`."""
    if diagnostic.text != "model":
        return
    for match in SERIES.finditer(diagnostic.shown):
        if match.start() <= len(diagnostic.before) <= match.end():
            first, second, last = match["first"], match["second"], match["last"]
            step = int(second) - int(first) if second and second.isdigit() and first.isdigit() else 1
            by = f" by {step}" if step != 1 else ""
            yield f"{' '.join(match[0].split())}: is {first}..{last}{by} meant?", True


def reserved_name(diagnostic: Diagnostic) -> Hints:
    """`param max >= 0;`"""
    words, word = [token.text for token in diagnostic.statement_before()], diagnostic.word()
    if diagnostic.text != "model" or len(words) != 1 or words[0] not in DECLARING - {"check"} or word not in RESERVED:
        return
    following = (TOKEN.findall(diagnostic.at())[1:2] or [""])[0]
    is_name = re.fullmatch(NAME, following) is not None
    if words[0] in ("minimize", "maximize") and following in ("{", "("):
        yield f"the objective's name comes directly after {words[0]}: {words[0]} Total: {word} ..", True
    elif word in PHRASES or word in ENDS and is_name:
        yield f"{words[0]} is followed by a name, and {word} is a reserved word: {words[0]} NAME {word}", True
    elif not (word in DECLARING and is_name):
        other = f"{word}_{KIND_NAMES.get(words[0], 'total')}"
        yield f"{word} is a reserved word: choose another name, such as {other}", True


# As in hints_tables.
ALONE: HintTable = (
    (("E10",), no_coefficient),
    (("E10",), colon_after_minimize),
    (("E10", "E14"), comma_in_number),
    (("E10", "E12", "E14"), capital_operator),
    (("E16", "E10"), conserved),
    (("E10", "E14"), series),
    (("E10",), reserved_name),
)
