"""What the texts of a model say to a reader: what the parts of keys are called, the first comment, texts that look like
numbers.

These are readings without the grammar: they can be wrong, and only texts for people depend on them.
"""
from __future__ import annotations

import re
from typing import Iterable, Iterator, Sequence

from .text import tokens

CLOSING = {"{": "}", "(": ")", "[": "]"}


def braces_of(text: str, name: str) -> list[str]:
    """Returns the words between the braces of a declaration of arcs, without a condition; none without braces."""
    words = [token.text for token in tokens(text)]
    for here in range(len(words) - 3):
        if words[here] == "arc" and words[here + 1] == name and words[here + 2] == "{":
            return list(before_condition(words[here + 3 :]))
    return []


def before_condition(words: Sequence[str]) -> Iterator[str]:
    """Yields the words up to the `:` or `}` of the braces around them."""
    depth = 0
    for word in words:
        if depth == 0 and word in (":", "}"):
            return
        depth += (word in CLOSING) - (word in CLOSING.values())
        yield word


def items(words: Sequence[str]) -> list[list[str]]:
    """Returns the items of braces: the words between their commas."""
    result: list[list[str]] = [[]]
    depth = 0
    for word in words:
        depth += (word in CLOSING) - (word in CLOSING.values())
        if word == "," and depth == 0:
            result.append([])
        else:
            result[-1].append(word)
    return result


NAME = re.compile(r"[A-Za-z_]\w*")


def headings(text: str, name: str, count: int) -> list[str]:
    """Returns what the parts of a key are called: the sets that the braces name, or the dummies if a set is used twice,
    is written out, or another part has a dummy's name; `key 1` and so on if the text does not say so many."""
    result: list[tuple[str, str]] = []
    lone: list[str] = []
    for item in items(braces_of(text, name)):
        cut = item.index("in") if "in" in item else 0
        dummies, a_set = [word for word in item[:cut] if NAME.fullmatch(word)], " ".join(item[cut and cut + 1 :])
        lone += [a_set] if not dummies and NAME.fullmatch(a_set) else []
        is_named = len(dummies) <= 1 and NAME.fullmatch(a_set)
        result += [(a_set if is_named else dummy, dummy) for dummy in dummies or [a_set]]
    more = count - len(result)
    if more > 0 and len(lone) == 1:
        # A set of tuples without dummies has as many parts as are left.
        place = result.index((lone[0], lone[0]))
        result[place : place + 1] = [(f"{lone[0]} {index + 1}",) * 2 for index in range(more + 1)]
    sets = [name for name, _ in result]
    # Either all titles are sets, or all are dummies: a mixture of `GRADES` and `t` reads badly.
    are_sets = len(set(sets)) == len(sets) and all(NAME.fullmatch(name) for name, _ in result)
    titles = sets if are_sets else [dummy for _, dummy in result]
    return (
        titles
        if len(titles) == count and all(titles) and len(set(titles)) == count
        else [f"key {index + 1}" for index in range(count)]
    )


def compared_texts(model: str, data: Iterable[str]) -> list[str]:
    """Returns what a reader may miss: a numeral in quotes that the model compares with something, and that no data text
    has in quotes. Such a text equals no number, and netflow accepts such texts."""
    compared, before = [], ""
    for token in tokens(model):
        if before in ("=", ">") and re.fullmatch(r"(['\"])-?\d+\1", token.text):
            compared.append(token)
        before = token.text
    # Data can be long, and few models compare such texts.
    known = {token.text for text in data for token in tokens(text)} if compared else ()
    return [
        f"{token.text} in line {token.row} of the model is a text, which equals no number: is {token.bare()} meant?"
        for token in compared
        if token.text not in known
    ]


COMMENT = re.compile(r"(?P<gap>\s*)(?:#+[ \t]*(?P<line>[^\n]*)|/\*+\s*(?P<block>.*?)\s*\**\*/)", re.S)
# The end of a sentence: not that of an abbreviation such as `e.g.` or `St.`
SENTENCE = re.compile(r"(?<=[^\W\d_]{3}[.!?])\s+(?![a-z0-9])|(?<=[\d)\"'%][.!?])\s+(?=[A-Z])")
# From how many letters on a line was wrapped.
WRAPPED = 50


def first_comment(text: str) -> str:
    """Returns the first sentence of the comment that the model begins with; an empty text without one."""
    return SENTENCE.split(paragraph(comment_lines(text)))[0].rstrip(".:")


def comment_lines(text: str) -> Iterator[str]:
    """Yields the lines of the comments at the beginning of a text, without their marks and rules."""
    at, found = 0, COMMENT.match(text)
    while found:
        yield from [""] * (found["gap"].count("\n") > 1)
        for line in (found["line"] if found["block"] is None else found["block"]).split("\n"):
            yield " ".join(line.strip(" \t#*-=").split())
        at = found.end()
        found = COMMENT.match(text, at)


def paragraph(lines: Iterable[str]) -> str:
    """Joins lines up to the first empty one, or to one that begins anew: with a capital letter after a short line."""
    words = last = ""
    for line in lines:
        if words and (not line or line[0].isupper() and len(last) < WRAPPED):
            break
        words, last = f"{words} {line}".strip(), line
    return words
