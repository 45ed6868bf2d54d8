"""Indexes with a dummy for each part of the key, and the keys at which an indexed variable occurs in a constraint."""
from __future__ import annotations

import dataclasses
from fractions import Fraction
from typing import Iterable, Mapping

from ..exact import decimal_text
from ..reading.model import Expr
from .facts import linear
from .linear import Around
from .sets import SetFacts
from .trees import braces, conjuncts, items_of, make, mapped, name, names_in, number, substituted, text


class Names:
    """Chooses names that a model does not use."""

    def __init__(self, used: Iterable[str]) -> None:
        self.used = set(used)

    def fresh(self, wanted: str) -> str:
        count, found = 1, wanted
        while found in self.used:
            count += 1
            found = f"{wanted}{count}"
        self.used.add(found)
        return found


def letter(expr: Expr, taken: set[str]) -> str:
    """Returns a dummy for a member of a set that is not taken, the set's first letter if possible."""
    word = next((part.value for part in expr.walk() if part.op == "name"), "")
    wanted = "t" if expr.op == ".." else word[:1].lower() if word[:1].isalpha() else "k"
    return next(entry for entry in (f"{wanted}{count or ''}" for count in (0, *range(2, 100))) if entry not in taken)


@dataclasses.dataclass
class Index:
    """Items of braces, all with `in`, their conditions, and the new dummies in the order of the key."""

    items: list[Expr]
    conditions: list[Expr]
    dummies: list[str]

    def braces(self, more: Iterable[Expr] = ()) -> str:
        """Returns the text of the braces with more conditions; an empty text without items."""
        conditions = [*self.conditions, *more]
        return text(braces(self.items, conditions)) if self.items or conditions else ""


def index_of(parts: Expr | None, sets: SetFacts) -> Index:
    """Returns the index of braces with a dummy for each component."""
    items, conditions = items_of(parts) if parts is not None else ([], [])
    return with_dummies(items, conditions, sets)


def with_dummies(items: Iterable[Expr], conditions: Iterable[Expr], sets: SetFacts, known: Iterable[str] = ()) -> Index:
    """Returns items with a dummy for each component. `known` are the dummies around them."""
    items, result, bound = list(items), Index([], list(conditions), []), set(known) | set(sets.shapes.decls)
    words = {word for part in [*items, *result.conditions] for word in names_in(part)}
    for item in items:
        if item.op != "in":
            count = sets.dimension(item)
            domains = sets.components(item)
            domains = domains if len(domains) == count else [None] * count
            made: list[Expr] = []
            for domain in domains:
                made.append(name(letter(domain or item, bound | {entry.value for entry in made} | words)))
            item = make("in", made[0] if count == 1 else make("tuple", *made), item, at=item.start)
        left = item.args[0]
        for part in left.args if left.op == "tuple" else [left]:
            if part.op == "name" and not part.args and part.value not in bound:
                bound.add(part.value)
                result.dummies.append(part.value)
        result.items.append(item)
    return result


def without_capture(expr: Expr, values: Mapping[str, Expr], names: Names) -> Expr:
    """Returns the expression with values for names; dummies inside that clash with the values get new names."""
    used = {word for value in values.values() for word in names_in(value)}
    inner: set[str] = set()
    for part in expr.walk():
        if part.op == "braces":
            for item in items_of(part)[0]:
                left = item.args[0] if item.op == "in" else None
                parts = left.args if left is not None and left.op == "tuple" else [left] if left is not None else []
                inner |= {entry.value for entry in parts if entry.op == "name" and not entry.args}
    renamed = {word: name(names.fresh(word)) for word in sorted(inner & used) if word not in values}
    return substituted(substituted(expr, renamed) if renamed else expr, values)


@dataclasses.dataclass
class Match:
    """Where a variable's key occurs: the values of the dummies by the key, and its conditions. `free` are the
    dummies that the key does not fix: the variable occurs once for each of their values."""

    values: dict[str, Expr]
    conditions: list[Expr]
    free: list[str]


def match(variable: Expr, around: Around, outer: Index, own: Index, sets: SetFacts, names: Names) -> Match:
    """Solves the subscripts of a variable's reference for the dummies around the reference."""
    loops = with_dummies(around.items, around.conditions, sets, outer.dummies)
    unknown = [*outer.dummies, *loops.dummies]
    keys = [name(dummy) for dummy in own.dummies]
    equations = list(zip(keys, variable.args))
    values: dict[str, Expr] = {}
    conditions = [*outer.conditions, *loops.conditions]
    pending: list[tuple[Expr, Expr]] = equations
    while True:
        rest = [pair for pair in pending if not solved(pair, unknown, values)]
        if len(rest) == len(pending):
            break
        pending = rest
    for condition in [part for entry in conditions for part in conjuncts(entry)]:
        solve_equality(condition, unknown, values)
    free = [dummy for dummy in unknown if dummy not in values]
    values.update({dummy: name(names.fresh(dummy)) for dummy in free})
    fixed = {text(part): key for key, part in pending}
    guards = [make("=", key, without_capture(part, values, names)) for key, part in pending]
    guards += [membership(item, values, fixed, names) for item in [*outer.items, *loops.items]]
    guards += [without_capture(condition, values, names) for condition in conditions]
    guards = [simplified_sums(guard) for guard in guards]
    return Match(values, [entry for entry in guards if not is_identity(entry)], free)


def membership(item: Expr, values: Mapping[str, Expr], fixed: Mapping[str, Expr], names: Names) -> Expr:
    """Returns an item with values; a component that a part of the key equals is written as that part."""
    left, right = item.args
    parts = [fixed.get(text(part), without_capture(part, values, names)) for part in left.args or [left]]
    whole = make("tuple", *parts) if left.op == "tuple" else fixed.get(text(left), without_capture(left, values, names))
    return make("in", whole, without_capture(right, values, names))


def is_identity(condition: Expr) -> bool:
    return condition.op == "=" and text(condition.args[0]) == text(condition.args[1])


def solved(pair: tuple[Expr, Expr], unknown: list[str], values: dict[str, Expr]) -> bool:
    """Solves `key = subscript` for the one dummy of the subscript that has no value yet, if its coefficient is 1."""
    key, part = pair
    open_names = [word for word in sorted(names_in(part)) if word in unknown and word not in values]
    if len(open_names) != 1:
        return False
    found = isolated(key, part, open_names[0], values)
    if found is None:
        return False
    values[open_names[0]] = found
    return True


def isolated(key: Expr, part: Expr, dummy: str, values: Mapping[str, Expr]) -> Expr | None:
    """Returns the value of a dummy in `key = part`; None if the part is not the dummy plus or minus something."""
    if part.op == "name" and not part.args:
        return key
    form = linear(part)
    if form is None or form.get(dummy) != 1:
        return None
    rest = {word: value for word, value in form.items() if word != dummy}
    constant = rest.pop("", Fraction(0))
    result = key
    for word, factor in rest.items():
        if abs(factor) != 1:
            return None
        result = make("-" if factor > 0 else "+", result, values.get(word, name(word)))
    if constant:
        result = make("-" if constant > 0 else "+", result, number(int(abs(constant))))
    return result


def solve_equality(condition: Expr, unknown: list[str], values: dict[str, Expr]) -> None:
    """Takes `dummy = expression` as the value of a dummy that has none."""
    if condition.op != "=":
        return
    for side, other in (condition.args, condition.args[::-1]):
        is_open = side.op == "name" and not side.args and side.value in unknown and side.value not in values
        if is_open and all(word in values or word not in unknown for word in names_in(other)):
            values[side.value] = substituted(other, values)
            return


def simplified_sums(expr: Expr) -> Expr:
    """Returns an expression with numbers added: `t + 1 - 1` becomes `t`."""

    def change(part: Expr) -> Expr | None:
        if part.op not in ("+", "-"):
            return None
        form = linear(part)
        words = [word for word in form or {} if word]
        if form is not None and not words and form.get("", Fraction(0)) >= 0:
            return make("num", value=decimal_text(form.get("", Fraction(0))))
        if form is None or len(words) != 1 or form[words[0]] != 1 or form.get("", Fraction(0)).denominator != 1:
            return None
        atom = next(entry for entry in part.walk() if entry.op == "name" and text(entry) == words[0])
        constant = int(form.get("", Fraction(0)))
        return make("+" if constant > 0 else "-", atom, number(abs(constant))) if constant else atom

    return mapped(expr, change)
