"""Hints for models that are too large (E40, E59, E60): how many keys the braces have, and how they have fewer."""
from __future__ import annotations

import math

from ..reading.model import Decl, Expr, Unparsed
from .diagnostic import Diagnostic
from .hint import Hints, HintTable
from .keys import Sets

MOST = {
    "E40": "tuples, and 1,000,000 are the most",
    "E59": "nodes, and 10,000 are the most",
    "E60": "arcs, and 100,000 are the most",
}


def size(sets: Sets, expr: Expr) -> int:
    """Returns how many members a plain set has; 0 if its text does not say."""
    if expr.op == "..":
        ends = [sets.number(part) for part in expr.args]
        first, last = ends if len(ends) == 2 else (None, None)
        return 0 if first is None or last is None else max(0, last - first + 1)
    if expr.op == "cross":
        return math.prod(size(sets, part) for part in expr.args)
    if expr.op == "group":
        return size(sets, expr.args[0])
    if expr.op == "name" and expr.value in sets.members:
        return len(sets.members[expr.value]) // sets.shapes.sets.get(expr.value, 1)
    phrase = sets.decls[expr.value].phrase(":=") if expr.op == "name" and expr.value in sets.decls else None
    return size(sets, phrase.exprs[0]) if phrase else 0


def at_place(sets: Sets, diagnostic: Diagnostic) -> tuple[Decl | None, Expr | None]:
    """Returns the declaration with the error and its braces or cross product at the place; (None, None) if there are
    none."""
    model = diagnostic.texts["model"]
    place = sum(len(line) + 1 for line in model.split("\n")[: diagnostic.row - 1]) + len(diagnostic.before)
    for decl in sets.decls.values():
        if decl.start <= place <= decl.end:
            whole = [decl.braces, *(expr for phrase in decl.phrases for expr in phrase.exprs)]
            parts = [part for expr in whole if expr is not None for part in expr.walk()]
            crossed = [part for part in parts if part.op == "cross" and part.start <= place < part.end]
            exact = [part for part in parts if part.op == "braces" and part.start == place]
            return decl, next(iter([*exact, *crossed]), decl.braces)
    return None, None


def too_many(diagnostic: Diagnostic) -> Hints:
    """How many keys the braces at the place, or those of the declaration, have, if their sets are plain."""
    try:
        sets = Sets(diagnostic)
        decl, found = (
            at_place(sets, diagnostic) if diagnostic.text == "model" else (sets.decls.get(diagnostic.detail), None)
        )
    except (Unparsed, ValueError, IndexError):
        return
    if decl is None or found is None:
        return
    if found.op == "cross":
        yield from too_large_product(sets, decl, found, diagnostic)
        return
    items = found.args[:-1] if found.value else found.args
    total = product(sets, [part.args[1] if part.op == "in" else part for part in items])
    if not total:
        return
    condition = found.args[-1] if found.value else None
    said = (
        MOST[diagnostic.number].replace(",", " before the condition is evaluated,", 1)
        if condition is not None
        else MOST[diagnostic.number]
    )
    smaller = fewer(sets, diagnostic.texts["model"], items, condition)
    yield (
        f"{decl.name or decl.kind} has {total} {said}:"
        f" {f'write {smaller}' if smaller else 'index it by a set of the tuples that exist'}",
        True,
    )


def product(sets: Sets, parts: list[Expr]) -> str:
    """Returns the sizes of plain sets and their product, as text; an empty text if there is no such product."""
    sizes = [size(sets, part) for part in parts]
    if not all(sizes) or len(sizes) < 2:
        return ""
    return f"{' x '.join(f'{count:,}' for count in sizes)} = {math.prod(sizes):,}"


def factors(expr: Expr) -> list[Expr]:
    """Returns the factors of a chain of products."""
    if expr.op == "group":
        return factors(expr.args[0])
    return [factor for part in expr.args for factor in factors(part)] if expr.op == "cross" else [expr]


def too_large_product(sets: Sets, decl: Decl, found: Expr, diagnostic: Diagnostic) -> Hints:
    """A product that would be built. After `within` none is, so a set of the tuples that exist takes its place."""
    total = product(sets, factors(found))
    if total:
        text = " ".join(diagnostic.texts["model"][found.start : found.end].split())
        named = decl.name if decl.kind == "set" else "LINKS"
        yield (
            f"{text} has {total} {MOST[diagnostic.number]}: declare `set {named} within {text};`, which does not build"
            f" the product, and list the tuples that exist",
            True,
        )


def fewer(sets: Sets, model: str, items: list[Expr], condition: Expr | None) -> str:
    """Returns braces in which an equality of two indices is no condition; an empty text if there is none."""
    terms = [condition] if condition is not None else []
    while any(part.op in ("and", "group") for part in terms):
        terms = [inner for part in terms for inner in (part.args if part.op in ("and", "group") else [part])]
    named = [part.args[0].value if part.op == "in" and part.args[0].op == "name" else "" for part in items]
    for term in terms:
        names = (
            [part.value if part.op == "name" and not part.args else "" for part in term.args]
            if term.op in ("=", "==")
            else []
        )
        if len(names) == 2 and all(name and name in named for name in names) and names[0] != names[1]:
            first, second = sorted(map(named.index, names))
            texts = [" ".join(model[part.start : part.end].split()) for part in items]
            texts[first] += (
                ""
                if is_within(sets, items[first].args[1], items[second].args[1])
                else f" inter {texts[second].partition(' in ')[2]}"
            )
            texts[second] = f"{named[second]} in {{{named[first]}}}"
            rest = " and ".join(" ".join(model[part.start : part.end].split()) for part in terms if part is not term)
            return f"{{{', '.join(texts)}{f': {rest}' if rest else ''}}}"
    return ""


def is_within(sets: Sets, inner: Expr, outer: Expr) -> bool:
    """Whether all members of a set are known to be in another one."""
    members, others = sets.of(inner)[1], sets.of(outer)[1]
    return members is not None and others is not None and members <= others


HINTS: HintTable = ((("E40", "E59", "E60"), too_many),)
