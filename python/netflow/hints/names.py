"""Hints for names: misspelt ones, by the kind that their place needs, and declarations and phrases with a name or a
word at the wrong place."""
from __future__ import annotations

import difflib
import re

from ..reading.text import tokens
from .ampl import REPLACEMENTS
from .data import declared, declared_as, declared_below, indices, members_in_data
from .diagnostic import DECLARING, Diagnostic
from .hint import Hints, HintTable

NAME = r"[A-Za-z_]\w*"
# What comes before a name in a model, or begins its statement in data, and the words that declare such names.
PLACES = ((r"\bin\s+$", ("set",)), (r"\b(?:from|to)\s+$", ("node",)), (r"\bobj\s+$", ("minimize", "maximize")))


def wanted_kinds(diagnostic: Diagnostic) -> tuple[str, ...]:
    """Returns the words that declare the kind of name that is needed here; none if any kind can be."""
    if diagnostic.text == "data":
        return tuple(token.text for token in diagnostic.statement_before()[:1])
    return next((kinds for before, kinds in PLACES if re.search(before, diagnostic.before)), ())


def nearest(name: str, others: list[str]) -> list[str]:
    return [other for other in others if other.lower() == name.lower()] or difflib.get_close_matches(
        name, others, 1, 0.7
    )


def respelled(diagnostic: Diagnostic) -> Hints:
    """Names near one that is not known; indices of other declarations are not known here."""
    name = diagnostic.detail.partition("[")[0]
    if (
        diagnostic.number == "E12"
        and (declared_below(diagnostic, name) or name in members_in_data(diagnostic))
        or name in REPLACEMENTS
    ):
        return
    known = list(dict.fromkeys(diagnostic.words("model")))
    gone = (
        set(indices(list(tokens(diagnostic.texts.get("model", "")))))
        - set(indices(diagnostic.statement()))
        - declared(diagnostic)
        if diagnostic.number == "E12"
        else set()
    )
    same = [other for other in known if other in gone and other.lower() == name.lower()]
    fitting = [other for kind in wanted_kinds(diagnostic) for other in known if other in declared_as(diagnostic, kind)]
    others = [other for other in known if other != name and other not in DECLARING | gone and other[:1].isalnum()]
    found = nearest(name, fitting) or (
        fitting if re.search(r"\bobj\s+$", diagnostic.before) and len(fitting) == 1 else nearest(name, others)
    )
    if found:
        yield f"{name}: is {found[0]} meant?", True
    elif same and not list(equals_in_braces(diagnostic)):
        yield (
            f"{same[0]} is an index of another declaration and ends with it: index this one too, as in"
            f" {{{same[0]} in ..}}",
            True,
        )


def equals_in_braces(diagnostic: Diagnostic) -> Hints:
    """`{s = SHOPS}`."""
    match = re.match(rf"({NAME})\s*=\s*({NAME})", diagnostic.at())
    words = [token.text for token in diagnostic.statement_before()]
    if (
        diagnostic.text == "model"
        and match
        and words[-1:] in (["{"], [","])
        and words.count("{") > words.count("}")
        and match[2] in declared_as(diagnostic, "set")
    ):
        yield f"an index is named with its set by in: {match[1]} in {match[2]}", True


def odd_name(diagnostic: Diagnostic) -> Hints:
    """`arc Drive-out`, `param max.load`, `from 'Bakery'[b]`, `param {S} a`, `param 0 <= a`."""
    words, at = [token.text for token in diagnostic.statement_before()], diagnostic.at()
    rest, before = re.match(r"[-.](\w+)", at), re.match(rf"(\{{[^}}]*\}})\s*({NAME})", at)
    quoted = re.match(rf"(['\"])({NAME})\1\s*[\[{{]", at)
    bound = re.match(rf"([\w.]+)\s*(<=|<)\s*({NAME})", at)
    if diagnostic.text != "model" or not words:
        return
    if rest and len(words) == 2 and re.fullmatch(NAME, words[1]):
        yield f"a name has letters, digits and _: {words[1]}_{rest[1]}", True
    elif quoted:
        yield f"a name has no quotes: {quoted[2]}", True
    elif before and len(words) == 1:
        yield f"the name comes before its braces: {words[0]} {before[2]} {before[1]}", True
    elif bound and words == ["param"]:
        yield f"the name comes first: param {bound[3]} {bound[2].replace('<', '>')} {bound[1]}", True


def two_names(diagnostic: Diagnostic) -> Hints:
    """`param van, truck;`"""
    words = [token.text for token in diagnostic.statement_before()]
    if (
        diagnostic.text == "model"
        and words[2:] == [","]
        and words[0] in ("set", "param", "node", "arc")
        and re.match(NAME, diagnostic.at())
    ):
        yield f"each declaration has one name: {words[0]} {words[1]}; {words[0]} {diagnostic.word()};", True


def no_obj(diagnostic: Diagnostic) -> Hints:
    """`to Shop[s], Total cost[b,s]`: the word obj is missing."""
    words = [token.text for token in diagnostic.statement_before()]
    if (
        diagnostic.text == "model"
        and words[:1] == ["arc"]
        and words[-1:] == [","]
        and diagnostic.word() in declared_as(diagnostic, "minimize") | declared_as(diagnostic, "maximize")
    ):
        phrase = re.match(r"(?:\[[^\]]*\]|[^,;])*", diagnostic.at())
        meant = phrase[0].strip() if phrase else diagnostic.word()
        yield f"is obj missing before {diagnostic.word()}? obj {meant}", True


def no_to(diagnostic: Diagnostic) -> Hints:
    """`from Bakery[b] Shop[s]`, and `between A and B`."""
    if (
        diagnostic.text == "model"
        and diagnostic.number == "E15"
        and diagnostic.word() in declared_as(diagnostic, "node")
    ):
        yield f"is , to missing before {diagnostic.word()}?", True
    match = re.match(r"(?:between|connects)\s+([^,;]*?)\s+(?:and|to)\s+([^,;]*)", diagnostic.at())
    if diagnostic.text == "model" and diagnostic.number != "E15" and match:
        yield f"the ends of an arc are two phrases: from {match[1]}, to {match[2].strip()}", True


def early_end(diagnostic: Diagnostic) -> Hints:
    """A `;` before the last phrase of an arc."""
    above = [token for token in diagnostic.tokens_before()]
    if (
        diagnostic.text == "model"
        and not diagnostic.statement_before()
        and above
        and re.match(r"(?:from|to|obj)\b|[<>]=", diagnostic.at())
    ):
        yield f"is the ; at the end of {diagnostic.line_text(above[-1].row)} one too many, or meant as a comma?", True


def two_conditions(diagnostic: Diagnostic) -> Hints:
    """`net_in >= 2, net_in <= 5`."""
    match = re.search(r"(net_in|net_out)\s*(<=|>=|=)\s*([^,;:]*?)\s*$", diagnostic.before)
    after = re.match(r"(?:,|and\b|&&)\s*(?:(net_in|net_out)\s*)?(<=|>=|=)\s*([^,;]*)", diagnostic.at())
    if diagnostic.text != "model" or not match or not after or not after[1]:
        return
    sides = {match[2]: match[3], after[2]: after[3].strip()}
    if after[1] == match[1] and set(sides) == {"<=", ">="}:
        yield f"a node has one condition: {sides['>=']} <= {match[1]} <= {sides['<=']}", True
    else:
        yield f"a node has one condition, and {after[1]} {after[2]} {after[3].strip()} is a second one", True


HINTS: HintTable = (
    (("E12", "E30", "E61"), respelled),
    (("E12", "E10"), equals_in_braces),
    (("E10", "E14"), odd_name),
    (("E14", "E10"), two_names),
    (("E14", "E10"), no_obj),
    (("E14", "E15", "E10"), no_to),
    (("E14", "E10"), early_end),
    (("E10",), two_conditions),
)
