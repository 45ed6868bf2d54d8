"""Hints for the errors of models: what the text suggests was meant.

A hint can be wrong, so it is a question unless the text leaves no doubt; each hint is a pair of its text and
whether this is sure.
"""
from __future__ import annotations

import difflib
import itertools
import re

from ..reading.text import TOKEN, tokens
from . import data as hints_data
from . import files as hints_files
from . import forms as hints_forms
from . import keys as hints_keys
from . import names as hints_names
from . import network as hints_network
from . import numbers as hints_numbers
from . import pasted as hints_pasted
from . import sets as hints_sets
from . import sizes as hints_sizes
from . import syntax as hints_syntax
from . import tables as hints_tables
from . import values as hints_values
from .ampl import KEYWORDS, MEANT, REPLACEMENTS
from .diagnostic import DECLARING, Diagnostic
from .files import empty_model, exchanged, not_utf8, odd_character, unread_file
from .habits import cells as hints_cells
from .habits import declarations as hints_declarations
from .habits import members as hints_members
from .hint import Hints, HintTable

FUNCTIONS = {"card", "abs", "next", "prev", "first", "last"}
SIDE = r"(?:[^,;\[\]]|\[[^\]]*\])+?"
PAIRS = {")": "(", "]": "[", "}": "{"}


def hints_of(diagnostic: Diagnostic) -> Hints:
    """Yields the hints for an error. Some leave no doubt, and come without others, which would be wrong next to
    them."""
    tables = (hints_files, hints_members, hints_cells, hints_declarations)
    others = (hints_pasted, hints_numbers, hints_tables, hints_network)
    found = (
        hint
        for table in (*tables, *others)
        for numbers, hints in table.ALONE
        if diagnostic.number in numbers
        for hint in hints(diagnostic)
    )
    yield from list(itertools.islice(found, 1)) or all_hints(diagnostic)


def all_hints(diagnostic: Diagnostic) -> Hints:
    for numbers, hint in (
        *hints_syntax.HINTS,
        *hints_forms.HINTS,
        *hints_sets.HINTS,
        *HINTS,
        *hints_keys.HINTS,
        *hints_values.HINTS,
        *hints_names.HINTS,
        *hints_data.HINTS,
        *hints_sizes.HINTS,
    ):
        if diagnostic.number in numbers:
            yield from hint(diagnostic)


def replaced_word(diagnostic: Diagnostic) -> Hints:
    """A word or mark of AMPL that netflow lacks."""
    word = diagnostic.detail if diagnostic.detail in REPLACEMENTS else diagnostic.word()
    if diagnostic.text != "model":
        return
    at = diagnostic.at()
    if (
        at.startswith("--")
        and not diagnostic.before.strip(" ;").endswith(tuple("+-*([{,=<>"))
        and not diagnostic.statement_before()
    ):
        yield REPLACEMENTS["//"], True
    if at.startswith("//"):
        yield REPLACEMENTS["//"], True
    elif at.startswith("!") and diagnostic.before.endswith("="):
        return
    elif word == "forall" and not diagnostic.statement_before():
        yield "forall: index the declaration itself: node B {j in S}: net_in = need[j]; or check {j in S}: ..", True
    elif at.startswith("/*"):
        return
    elif word in REPLACEMENTS and not (word == "data" and diagnostic.row == 1) and is_meant(word, at):
        yield f"{word}: {REPLACEMENTS[word]}", True
    elif at and (at[:2] in REPLACEMENTS or at[:1] in "/^!&") and not diagnostic.before.endswith("="):
        mark = at[:2] if at[:2] in REPLACEMENTS else at[:1]
        yield f"{mark}: {REPLACEMENTS[mark]}", True
    elif word == "s" and at.startswith("s.t"):
        yield f"s.t.: {REPLACEMENTS['s.t.']}", True


def is_meant(word: str, at: str) -> bool:
    """Whether a word is the one of AMPL: some can also be names, and are functions only before a bracket."""
    following = TOKEN.findall(at)[1:2]
    return following == ["("] if word in FUNCTIONS else not (following and following[0] in DECLARING)


def misspelt_keyword(diagnostic: Diagnostic) -> Hints:
    word = diagnostic.word()
    if (
        diagnostic.text != "model"
        or not re.fullmatch(r"[A-Za-z_.]+", word)
        or word in DECLARING
        or word in REPLACEMENTS
        or diagnostic.number == "E12"
        and diagnostic.before.strip()
    ):
        return
    declared = {name.bare() for name in tokens(diagnostic.texts["model"])}
    lower = word.lower()
    at_start = not diagnostic.statement_before()
    meant = MEANT.get(lower) or (lower if lower in KEYWORDS else None)
    if meant is None:
        near = difflib.get_close_matches(lower, KEYWORDS, 1, 0.75)
        meant = near[0] if near else None
    if meant is None or meant == word or meant not in KEYWORDS:
        return
    if at_start and meant not in DECLARING:
        return
    if lower in MEANT or lower in KEYWORDS or at_start or word not in declared - {word}:
        yield f"{word}: is {meant} meant?", True


def condition_word(diagnostic: Diagnostic) -> Hints:
    """A node's condition without net_in, written netin or in three parts."""
    statement = diagnostic.statement()
    if diagnostic.text != "model" or not statement or statement[0].text != "node":
        return
    for token in statement:
        if token.text.lower().replace("-", "_") in ("netout", "netin", "net.in", "net.out") or token.text in (
            "net_In",
            "Net_in",
            "Net_out",
        ):
            yield f"{token.text}: is {'net_out' if 'out' in token.text.lower() else 'net_in'} meant?", True
            return
        if token.text in ("to_come", "cover", "coeff"):
            yield f"{token.text}: {REPLACEMENTS[token.text]}", True
            return
    match = re.search(rf"(net_(?:in|out))\s*>=\s*({SIDE})\s*,\s*<=\s*({SIDE})\s*(?:;|$)", diagnostic.shown)
    if match:
        yield f"a range is one condition: {match[2]} <= {match[1]} <= {match[3]}", True


def unended_declaration(diagnostic: Diagnostic) -> Hints:
    if diagnostic.text != "model" or diagnostic.word() not in DECLARING:
        return
    before = [word for word in TOKEN.findall(diagnostic.before) if not word.startswith(("#", "/*"))]
    above = max((token.row for token in tokens(diagnostic.texts["model"]) if token.row < diagnostic.row), default=0)
    if before and before[-1] not in DECLARING:
        yield f"is a ; missing before {diagnostic.word()}?", True
    elif not before and above:
        yield f"is a ; missing at the end of line {above}?", True


def unended_text(diagnostic: Diagnostic) -> Hints:
    """The text ends before its last `;`."""
    rest = [token for token in tokens(diagnostic.texts.get(diagnostic.text, ""))]
    if rest and rest[-1].text != ";" and rest[-1].row == diagnostic.row and not list(tokens(diagnostic.at())):
        opened = [token.text for token in rest if token.text in PAIRS.values()]
        closed = [token.text for token in rest if token.text in PAIRS]
        if len(opened) == len(closed):
            yield f"is a ; missing at the end of {diagnostic.line_text(diagnostic.row)}?", True


def in_braces(diagnostic: Diagnostic) -> bool:
    """Whether the place is inside braces of its statement."""
    text = " ".join(token.text for token in diagnostic.statement_before())
    return text.count("{") > text.count("}")


def misplaced(diagnostic: Diagnostic) -> Hints:
    """Words of a model that are right elsewhere."""
    before, statement = diagnostic.before.rstrip(), diagnostic.statement()
    if diagnostic.word() == "if":
        yield "put an if that is an operand in parentheses: (if .. then .. else ..)", True
    if (
        diagnostic.word() == "="
        and any(token.text == "arc" for token in statement)
        and diagnostic.at()[:2] not in ("=<", "=>")
    ):
        yield "an arc has a lower and an upper bound: are >= and <= meant?", True
    if diagnostic.word() == "=" and any(token.text == "param" for token in statement[:1]):
        yield "a parameter gets its value by :=, not by =", True
    if diagnostic.word() == "in" and [token.text for token in statement[:1]] == ["set"] and not in_braces(diagnostic):
        yield "in: is within meant?", True
    if diagnostic.word() == "=" and any(token.text == "set" for token in statement[:1]):
        yield "a set gets its members by :=, not by =", True
    if (
        before.endswith(",")
        and diagnostic.word() not in REPLACEMENTS
        and re.search(r"\bfrom\b[^,]*(\[[^\]]*\])?,$", before)
    ):
        yield f"is a to missing before {diagnostic.detail or diagnostic.word()}?", True
    mark = diagnostic.at()[:2]
    if (
        statement
        and statement[0].text == "arc"
        and mark in ("<=", ">=")
        and mark in before
        and not in_braces(diagnostic)
    ):
        yield f"an arc has one lower and one upper bound, and this is a second {mark}", True


def dots(diagnostic: Diagnostic) -> Hints:
    """Three dots for the two of a range."""
    match = re.search(r"(\w+)\s*\.\.\.\s*(\w+)", diagnostic.shown)
    if diagnostic.text == "model" and match and match.start() <= len(diagnostic.before) <= match.end():
        yield f"is {match[1]}..{match[2]} meant?", True


def doubled(diagnostic: Diagnostic) -> Hints:
    """A word that occurs twice in a row."""
    words, here = [word[0] for word in TOKEN.finditer(diagnostic.before)][-2:], diagnostic.word()
    if here == ";" and words[-1:] == [";"]:
        yield "is this ; one too many?", True
    elif here and words[-1:] == [here] and re.match(r"\w", here):
        yield f"is {here} written twice?", True
    elif len(words) == 2 and words[0] == words[1] and re.match(r"\w", words[0]):
        yield f"is {words[0]} written twice?", True


def unclosed(diagnostic: Diagnostic) -> Hints:
    """A bracket that is open at the end of the declaration, or when another kind is closed, or a phrase begins."""
    if diagnostic.text != "model":
        return
    text = "\n".join([*diagnostic.texts["model"].split("\n")[: diagnostic.row - 1], diagnostic.before])
    opened: list[str] = []
    here, is_closer = diagnostic.word(), False
    for token in tokens(text):
        if token.text in PAIRS.values():
            opened.append(token.text)
        elif token.text in PAIRS and opened[-1:] == [PAIRS[token.text]]:
            opened.pop()
        elif token.text == ";":
            opened = []
    is_closer = here in PAIRS
    if opened and (here == ";" or is_closer and PAIRS[here] != opened[-1] or not diagnostic.at().strip()):
        yield f"is the {opened[-1]} before it not closed?", True
    elif (
        opened
        and opened[-1] == "{"
        and not list(hints_syntax.chained(diagnostic))
        and (here in ("from", "to", "obj", ":=", "default", "net_in", "net_out") or here[:1] in "<>=")
    ):
        yield "is the { before it not closed?", True
    elif is_closer and not opened:
        yield f"is this {here} one too many, or its {PAIRS[here]} missing?", True


def unopened(diagnostic: Diagnostic) -> Hints:
    """A second comparison inside braces: the brace is not closed before a bound."""
    opened = diagnostic.shown.count("{") - diagnostic.shown.count("}")
    if (
        diagnostic.text == "model"
        and opened > 0
        and re.search(r"\{[^}]*>=", diagnostic.shown)
        and diagnostic.word() not in (";",)
        and diagnostic.word() not in PAIRS
    ):
        yield "is the { before it not closed?", True


def exchanged_words(diagnostic: Diagnostic) -> Hints:
    """A name before its declaring word."""
    if diagnostic.text == "model" and diagnostic.before.strip() == "":
        words = TOKEN.findall(diagnostic.at())[:2]
        if len(words) == 2 and words[1] in DECLARING and re.fullmatch(r"\w+", words[0]):
            yield f"are {words[0]} and {words[1]} the wrong way round?", True


def no_colon(diagnostic: Diagnostic) -> Hints:
    if diagnostic.word() in ("net_in", "net_out") and re.search(
        r"\bnode\s+\w+\s*(\{[^{}]*\})?$", diagnostic.before.rstrip()
    ):
        yield f"is a : missing before {diagnostic.word()}?", True


def bare_text(diagnostic: Diagnostic) -> Hints:
    """A text without quotes in a model."""
    statement = diagnostic.statement()
    words = [token.text for token in statement]
    if (
        diagnostic.text == "model"
        and words[:1] == ["set"]
        and ":=" in words
        and "{" in words
        and diagnostic.word() == diagnostic.detail
    ):
        yield f"quote a text in a model: '{diagnostic.detail}'", True


def unused_parameter(diagnostic: Diagnostic) -> Hints:
    """A parameter that is declared and used nowhere, which may be the bound that was forgotten."""
    words = [name for word in diagnostic.words("model") for name in re.findall(r"[A-Za-z_]\w*", word)]
    names = [words[here + 1] for here, word in enumerate(words[:-1]) if word == "param"]
    unused = [name for name in names if words.count(name) == 1]
    if diagnostic.text == "model" and unused:
        many = len(unused) > 1
        yield (
            f"{', '.join(unused[:3])} {'are' if many else 'is'} declared and used nowhere: "
            f"is the bound meant to be {'one of them' if many else 'it'}?"
        ), True
    elif diagnostic.text == "model":
        yield "the tools add a bound that no plan reaches with --bounds", False


HINTS: HintTable = (
    (("E90",), unread_file),
    (("E01",), odd_character),
    (("E06",), not_utf8),
    (("E30", "E56"), empty_model),
    (("E01", "E10", "E14"), exchanged),
    (("E10", "E14", "E04"), dots),
    (("E10", "E14", "E12"), bare_text),
    (("E10", "E14", "E16", "E12"), condition_word),
    (("E10", "E14"), doubled),
    (("E10", "E14"), misplaced),
    (("E10", "E14", "E12"), replaced_word),
    (("E10", "E14"), exchanged_words),
    (("E10", "E14"), unended_declaration),
    (("E10", "E14", "E16"), unclosed),
    (("E10", "E14"), unopened),
    (("E10", "E20"), unended_text),
    (("E10", "E16"), no_colon),
    (("E10", "E12", "E14"), misspelt_keyword),
    (("E51", "E52"), unused_parameter),
)
