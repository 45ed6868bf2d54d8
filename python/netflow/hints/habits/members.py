"""Hints for members and keys of data: a set that a later file replaces, pairs written as one name, values without their
keys, columns over different sets."""
from __future__ import annotations

import re

from ...errors import Unreadable
from ...reading.model import Shapes, Unparsed, parse
from ...reading.text import Token, few, tokens
from ..diagnostic import Diagnostic
from ..hint import Hints, HintTable
from ..keys import Key, Sets
from ..tables import columns_of, head_of

NUMBER = re.compile(r"[+-]?(?:\d+\.?\d*|\.\d+)(?:[eE][+-]?\d+)?")
SHOWN = 6


def set_statements(diagnostic: Diagnostic, name: str) -> list[list[Token]]:
    """Returns the words of each statement `set NAME := ..` of the data, the word `set` first."""
    found: list[list[Token]] = [[]]
    for token in tokens(diagnostic.texts.get("data", "")):
        found[-1].append(token)
        if token.text == ";":
            found.append([])
    heads = [(words, [token.bare() for token in words[:3]]) for words in found]
    return [words for words, head in heads if head[:2] == ["set", name] and head[2:] == [":="]]


def replaced_set(diagnostic: Diagnostic) -> Hints:
    """A set that a later data file gives again, without a member that the first one has."""
    instance = diagnostic.instance
    try:
        key = Key(diagnostic)
    except (Unreadable, Unparsed, ValueError):
        return
    for first, _, title, _ in key.outside(key.key) if instance is not None and len(instance.data) > 1 else ():
        statements = set_statements(diagnostic, title)
        if len(statements) < 2 or diagnostic.instance is None:
            continue
        last, others = statements[-1], statements[:-1]
        member, place = str(key.key[first]), diagnostic.instance.source_of(last[0].row)
        before = next((words for words in others if member in [token.bare() for token in words[3:]]), None)
        if place[0] is None or before is None or diagnostic.instance.source_of(before[0].row)[0] == place[0]:
            continue
        names = few([token.text for token in before[3:] if token.text not in (",", ";")], SHOWN)
        origin = diagnostic.instance.source_of(before[0].row)[0]
        yield f"{place[0]}:{place[1]} replaces the set {title} of {origin} ({names}): list all members there", True
        return


def joined_pairs(diagnostic: Diagnostic) -> Hints:
    """`set LINKS := PITT-NE PITT-SE;` for `(PITT,NE) (PITT,SE)`."""
    try:
        sets = Sets(diagnostic)
    except (Unparsed, ValueError, IndexError):
        return
    known = {token.bare() for token in tokens(diagnostic.texts.get("data", ""))}
    for name, width in sets.shapes.sets.items():
        for words in set_statements(diagnostic, name) if width > 1 else ():
            parts = [token.bare().split("-") for token in words[3:] if token.text not in (",", ";")]
            if parts and all(len(part) == width and set(part) <= known for part in parts):
                kind = "pairs" if width == 2 else f"tuples of {width}"
                said = f"{name} has {kind}, and {'-'.join(parts[0])} is one name"
                yield f"{said}: write ({','.join(parts[0])}) in {diagnostic.rows_text([words[0].row])}", True
                return


def values_alone(diagnostic: Diagnostic) -> Hints:
    """`param bakes := 60 50;`"""
    words = diagnostic.statement()
    head = [token.bare() for token in words[:3]]
    if diagnostic.text != "data" or diagnostic.is_change() or head[:1] != ["param"] or head[2:] != [":="]:
        return
    values = [token.text for token in words[3:] if token.text not in (",", ";")]
    keys = [
        token.text
        for statement in set_statements(diagnostic, only_set(diagnostic, head[1]))[-1:]
        for token in statement[3:]
        if token.text not in (",", ";")
    ]
    # An even number of values can be rows with another key.
    fits = len(values) == len(keys) or len(values) % 2 == 1
    if keys and values and fits and all(map(NUMBER.fullmatch, values)) and not any(map(NUMBER.fullmatch, keys)):
        pairs = " ".join(f"{name} {value}" for name, value in list(zip(keys, values))[:SHOWN])
        yield f"{head[1]} has values without keys: give each its key, {pairs}{' ..' * (len(values) > SHOWN)}", True


def only_set(diagnostic: Diagnostic, name: str) -> str:
    """Returns the set whose members are the keys of a parameter; an empty text if there is no such set."""
    try:
        model = diagnostic.texts.get("model", "")
        shapes = Shapes(parse(model), model)
        braces = shapes.decls[name].braces
    except (Unparsed, ValueError, KeyError):
        return ""
    if braces is None or braces.value or len(braces.args) != 1 or shapes.keys[name] != 1:
        return ""
    item = braces.args[0].args[1] if braces.args[0].op == "in" else braces.args[0]
    return item.value if item.op == "name" and item.value in shapes.sets else ""


def columns_of_sets(diagnostic: Diagnostic) -> Hints:
    """`param: bakes wants := ..` for parameters over different sets."""
    columns = columns_of(head_of(diagnostic))
    try:
        key, sets = Key(diagnostic), Sets(diagnostic)
    except (Unreadable, Unparsed, ValueError, IndexError):
        return
    if diagnostic.text != "data" or key.name not in columns or not key.outside(key.key):
        return
    for other in [name for name in columns if name != key.name and name in sets.decls]:
        at, is_inside = 0, True
        for width, _, members in sets.of_name(other):
            is_inside = is_inside and members is not None and tuple(key.key[at : at + width]) in members
            at += width
        if is_inside and at == len(key.key):
            heads = " and ".join(sets.shapes.head(name) for name in (other, key.name))
            yield f"the columns {heads} have keys of different sets: give each a param statement of its own", True
            return


# As in hints_tables.
ALONE: HintTable = (
    (("E33",), replaced_set),
    (("E33", "E34", "E37"), joined_pairs),
    (("E31", "E33", "E36", "E37"), values_alone),
    (("E33",), columns_of_sets),
)
