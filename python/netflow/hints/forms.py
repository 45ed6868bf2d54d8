"""Hints for models: functions that do not exist, relations and words at the wrong place, numbers of subscripts, kinds
of names."""
from __future__ import annotations

import difflib
import re

from ..reading.headings import items
from ..reading.model import RESERVED, Shapes, Unparsed, parse
from ..reading.text import TOKEN, tokens
from .ampl import REPLACEMENTS
from .diagnostic import Diagnostic
from .hint import Hints, HintTable

NAME = r"[A-Za-z_]\w*"
KINDS = {
    "set": "a set",
    "param": "a parameter",
    "node": "a node",
    "arc": "an arc",
    "minimize": "an objective",
    "maximize": "an objective",
}


def kinds(diagnostic: Diagnostic) -> dict[str, tuple[str, int]]:
    """Returns the word that declares each name, with its row."""
    words = list(tokens(diagnostic.texts.get("model", "")))
    return {
        name.text: (word.text, word.row)
        for word, name in zip(words, words[1:])
        if word.text in KINDS and re.fullmatch(NAME, name.text)
    }


def statement_words(diagnostic: Diagnostic) -> list[str]:
    return [token.text for token in diagnostic.statement()]


def no_function(diagnostic: Diagnostic) -> Hints:
    """`card(S)`, `max(a, b)`, `sqrt(x)`."""
    match = re.search(rf"({NAME})\s*$", diagnostic.before)
    if diagnostic.text != "model" or not diagnostic.at().startswith("(") or not match or match[1] in kinds(diagnostic):
        return
    name = match[1]
    if name in ("max", "min"):
        yield f"{name}(a, b): write {name} {{v in {{a, b}}}} v", True
    elif name in REPLACEMENTS:
        yield f"{name}: {REPLACEMENTS[name]}", True
    elif name == "sum":
        yield "sum is followed by its index in braces: sum {i in S} x[i]", True
    elif name not in (
        "to",
        "from",
        "if",
        "and",
        "or",
        "not",
        "in",
        "within",
        "cross",
        "then",
        "else",
        "obj",
        "div",
        "mod",
        "by",
        "default",
    ):
        yield f"there is no function {name}: give its values in the data", True


def bare_sum(diagnostic: Diagnostic) -> Hints:
    """`sum supply[i]` without an index."""
    match = re.search(r"\b(sum|min|max)\s*$", diagnostic.before)
    if diagnostic.text == "model" and match and diagnostic.at()[:1] not in ("{", "("):
        yield f"{match[1]} is followed by its index in braces: {match[1]} {{i in S}} {diagnostic.word()}..", True


def end_in_parentheses(diagnostic: Diagnostic) -> Hints:
    """`to (if t < last then Shop[t + 1])`."""
    if (
        diagnostic.text == "model"
        and re.search(r"\b(?:from|to)\s*$", diagnostic.before)
        and diagnostic.at().startswith("(")
    ):
        yield (
            "an end of an arc is one node: index the arc by those keys alone that have it, such as {t in 1..last - 1}",
            True,
        )


def indexed_set(diagnostic: Diagnostic) -> Hints:
    words = statement_words(diagnostic)
    if (
        diagnostic.text == "model"
        and words[:1] == ["set"]
        and diagnostic.at().startswith("{")
        and len(list(diagnostic.statement_before())) == 2
    ):
        yield f"a set has no index: declare one set of longer tuples, such as set {words[1]} dimen 3", True


def no_net(diagnostic: Diagnostic) -> Hints:
    """A node's condition without net_in and net_out."""
    from .engine import condition_word

    words = statement_words(diagnostic)
    if (
        diagnostic.text != "model"
        or words[:1] != ["node"]
        or ":" not in words
        or {"net_in", "net_out"} & set(words)
        or list(condition_word(diagnostic))
    ):
        return
    depth = 0
    for here, word in enumerate(words):
        depth += (word in "{[(") - (word in "}])")
        if word == ":" and not depth:
            rest = words[here + 1 :]
            known = kinds(diagnostic)
            names = [
                part
                for part, after in zip(rest, [*rest[1:], ""])
                if re.fullmatch(NAME, part) and part not in known and after not in ("[", "in")
            ]
            odd = next(
                (part for part in names if "net" in part.lower() or "flow" in part.lower() or "bal" in part.lower()),
                None,
            )
            said = "a node's condition has net_in (what arrives minus what leaves) or net_out"
            yield (f"{odd}: is net_in or net_out meant?" if odd else said), True
            return


def strict_bound(diagnostic: Diagnostic) -> Hints:
    """`< van` for a bound."""
    words, sign = statement_words(diagnostic), diagnostic.at()[:1]
    inside = [token.text for token in diagnostic.statement_before()]
    if diagnostic.text != "model" or words[:1] not in (["arc"], ["node"]) or sign not in ("<", ">"):
        return
    if diagnostic.at()[1:2] in ("=", "<", ">") or diagnostic.before.endswith(("=", "<")):
        return
    if inside.count("{") == inside.count("}"):
        yield f"{sign}: is {sign}= meant? Bounds include their ends", True


def colon_in_arc(diagnostic: Diagnostic) -> Hints:
    words = statement_words(diagnostic)
    before = [token.text for token in diagnostic.statement_before()]
    if diagnostic.text == "model" and before[-2:-1] == ["obj"] and diagnostic.at().startswith(":"):
        yield "an obj phrase has no : after the objective", True
    elif (
        diagnostic.text == "model"
        and words[:1] == ["arc"]
        and diagnostic.at().startswith(":")
        and before.count("{") == before.count("}")
    ):
        yield (
            "an arc has no : after its index; its phrases have commas between them: >= 0, <= room, from A[i], to B[j]",
            True,
        )


def slices(diagnostic: Diagnostic) -> Hints:
    """`[*,paint,*]` in data."""
    if diagnostic.text == "data" and diagnostic.at().startswith("["):
        yield (
            "data have no slices: write each row with all its keys, as in param demand := Bern paint 1 15  Bern"
            " paint 2 18;",
            True,
        )


def many_keys(diagnostic: Diagnostic) -> Hints:
    """Braces with more than four members."""
    count = diagnostic.at().partition("}")[0].count(",") + 1
    if (
        diagnostic.text == "model"
        and diagnostic.at().startswith("{")
        and count > 4
        and not {"(", ":"} & set(diagnostic.at().partition("}")[0])
    ):
        said = "join two sets into one set of names, or use one model for each member"
        yield f"a key has at most four members: {said}", True


def net_outside_node(diagnostic: Diagnostic) -> Hints:
    words = statement_words(diagnostic)
    if diagnostic.text == "model" and diagnostic.word() in ("net_in", "net_out") and words[:1] not in ([], ["node"]):
        yield f"{diagnostic.word()} belongs to a node's condition: node A {{..}}: {diagnostic.word()} = ..", True


def hyphen_range(diagnostic: Diagnostic) -> Hints:
    """`t in 1-last` for `t in 1..last`."""
    match = re.search(r"\bin\s+(\w+)\s*-\s*(\w+)\s*[,:}]", diagnostic.at().split("\n")[0])
    if diagnostic.text == "model" and match:
        yield f"{match[1]}-{match[2]}: is {match[1]}..{match[2]} meant?", True


def redeclared(diagnostic: Diagnostic) -> Hints:
    word, row = kinds_of_first(diagnostic)
    if word:
        yield f"{diagnostic.detail} is already {KINDS[word]}, declared in line {row}", True


def kinds_of_first(diagnostic: Diagnostic) -> tuple[str, int]:
    words = list(tokens(diagnostic.texts.get("model", "")))
    return next(
        (
            (word.text, word.row)
            for word, name in zip(words, words[1:])
            if word.text in KINDS and name.text == diagnostic.detail
        ),
        ("", 0),
    )


def wrong_kind(diagnostic: Diagnostic) -> Hints:
    """A name that is declared as something else than is needed."""
    known = kinds(diagnostic)
    wanted = re.search(r"\b(from|to|obj)\s*$", diagnostic.before)
    if (
        diagnostic.text == "model"
        and diagnostic.detail not in known
        and wanted
        and wanted[1] == "obj"
        and not any(KINDS[word] == "an objective" for word, _ in known.values())
    ):
        yield f"declare the objective: minimize {diagnostic.detail};", True
    if diagnostic.text != "model" or diagnostic.detail not in known:
        return
    kind = KINDS[known[diagnostic.detail][0]]
    need = ("minimize", "maximize") if wanted and wanted[1] == "obj" else ("node",)
    names = [name for name, (word, _) in known.items() if word in need]
    if wanted and known[diagnostic.detail][0] not in need:
        what = "an objective" if wanted[1] == "obj" else "a node"
        meant = difflib.get_close_matches(diagnostic.detail, names, 1, 0.6)
        others = f": {', '.join(names[:3])}" if names else ""
        yield (
            f"{diagnostic.detail} is {kind}, and {wanted[1]} takes"
            f" {what}{f'; is {meant[0]} meant?' if meant else others}",
            True,
        )
    elif known[diagnostic.detail][0] == "arc" and statement_words(diagnostic)[:1] == ["node"]:
        yield (
            f"{diagnostic.detail} is an arc: net_in already counts the arcs that arrive at the node and subtracts"
            " those that leave it",
            True,
        )
    elif known[diagnostic.detail][0] == "node" and not wanted:
        yield f"{diagnostic.detail} is a node, which has no value here", True


def unknown_index(diagnostic: Diagnostic) -> Hints:
    """A short name that is no index of its declaration."""
    from .data import declared, indices, members_in_data

    words = list(diagnostic.statement())
    result = [name for name in dict.fromkeys(indices(words)) if name not in RESERVED]
    others = set(re.findall(NAME, diagnostic.texts.get("model", "")))
    is_near = [name for name in others if name != diagnostic.detail and name.lower() == diagnostic.detail.lower()]
    if (
        diagnostic.text == "model"
        and len(diagnostic.detail) <= 2
        and result
        and diagnostic.detail not in declared(diagnostic) | set(result) | members_in_data(diagnostic)
        and not is_near
    ):
        if diagnostic.detail not in set(indices(list(tokens(diagnostic.texts.get("model", ""))))):
            yield f"{diagnostic.detail} is no index here; this declaration has {', '.join(result)}", True


def subscripts(diagnostic: Diagnostic) -> Hints:
    """How many subscripts a name has, and how many are given."""
    try:
        shapes = Shapes(parse(diagnostic.texts.get("model", "")), diagnostic.texts.get("model", ""))
    except (Unparsed, ValueError):
        return
    name = diagnostic.word()
    if diagnostic.text != "model" or name not in shapes.keys:
        return
    words = [match[0] for match in TOKEN.finditer(diagnostic.at())][1:]
    given = len(items(inside(words))) if words[:1] == ["["] else 0
    count = shapes.keys[name]
    if count != given:
        has = f"{shapes.head(name)} has {count} subscript{'s' * (count != 1)}" if count else f"{name} has no subscript"
        yield f"{has}, and {given} {'is' if given == 1 else 'are'} given", True


def inside(words: list[str]) -> list[str]:
    """Returns the words between a bracket, the first word, and the closing one."""
    depth = 0
    for here, word in enumerate(words):
        depth += (word in ("[", "{", "(")) - (word in ("]", "}", ")"))
        if not depth:
            return words[1:here]
    return words[1:]


HINTS: HintTable = (
    (("E10",), no_function),
    (("E10",), bare_sum),
    (("E10", "E12"), end_in_parentheses),
    (("E14", "E10"), indexed_set),
    (("E10",), no_net),
    (("E10", "E14"), strict_bound),
    (("E10", "E14"), colon_in_arc),
    (("E16", "E10", "E14"), net_outside_node),
    (("E36",), hyphen_range),
    (("E13",), redeclared),
    (("E12",), wrong_kind),
    (("E12",), unknown_index),
    (("E37",), subscripts),
    (("E37",), many_keys),
    (("E20",), slices),
)
