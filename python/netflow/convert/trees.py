"""Makes, compares and prints expressions of netflow's language."""
from __future__ import annotations

from typing import Callable, Mapping, Sequence

from ..exact import parse_numeral
from ..reading.model import Expr

# How tightly an operator binds, from `if` (0) to names (11). A reduction is looser than a product, so that it gets
# parentheses to the left of another factor.
LEVEL = {"if": 0, "or": 1, "and": 2, "union": 4, "diff": 4, "symdiff": 4, "inter": 5, "cross": 6, "..": 7}
LEVEL.update({"+": 8, "-": 8, "*": 9, "div": 9, "mod": 9, "sign": 10})
RELATION_LEVEL, REDUCTION_LEVEL, PRIMARY = 3, 8.5, 11
RELATIONS = ("=", "<>", "<", "<=", ">", ">=", "in", "not in", "within", "not within")
NEGATED = {"=": "<>", "<>": "=", "<": ">=", ">=": "<", ">": "<=", "<=": ">", "in": "not in", "not in": "in"}
NEGATED.update({"within": "not within", "not within": "within"})


def make(op: str, *args: Expr, value: str = "", at: int = 0) -> Expr:
    """Returns an expression at the position `at` of the original text."""
    return Expr(op, list(args), at, at, value)


def name(word: str, *subscripts: Expr, at: int = 0) -> Expr:
    return make("name", *subscripts, value=word, at=at)


def number(value: int) -> Expr:
    return make("num", value=str(value)) if value >= 0 else make("sign", number(-value), value="-")


def braces(items: Sequence[Expr], conditions: Sequence[Expr] = ()) -> Expr:
    if not conditions:
        return make("braces", *items)
    return make("braces", *items, join("and", conditions), value=":")


def items_of(index: Expr) -> tuple[list[Expr], list[Expr]]:
    """Returns the items and the conditions of braces."""
    if not index.value:
        return index.args, []
    return index.args[:-1], conjuncts(index.args[-1])


def conjuncts(expr: Expr) -> list[Expr]:
    while expr.op == "group":
        expr = expr.args[0]
    if expr.op == "and":
        return conjuncts(expr.args[0]) + conjuncts(expr.args[1])
    return [expr]


def join(op: str, parts: Sequence[Expr]) -> Expr:
    """Returns parts joined by a binary operator from the left."""
    result = parts[0]
    for part in parts[1:]:
        result = make(op, result, part)
    return result


def negated(expr: Expr) -> Expr:
    while expr.op == "group":
        expr = expr.args[0]
    if expr.op == "not":
        return expr.args[0]
    if expr.op in NEGATED:
        return Expr(NEGATED[expr.op], expr.args, expr.start, expr.end)
    if expr.op in ("and", "or"):
        return make("or" if expr.op == "and" else "and", *map(negated, expr.args))
    return make("not", expr)


def mapped(expr: Expr, change: Callable[[Expr], Expr | None]) -> Expr:
    """Returns a copy in which `change` replaced parts, from the outside; None leaves a part and enters its parts."""
    found = change(expr)
    if found is not None:
        return found
    return Expr(expr.op, [mapped(part, change) for part in expr.args], expr.start, expr.end, expr.value)


def substituted(expr: Expr, values: Mapping[str, Expr]) -> Expr:
    """Returns a copy in which names without subscripts have values."""
    return mapped(expr, lambda part: values.get(part.value) if part.op == "name" and not part.args else None)


def names_in(expr: Expr) -> set[str]:
    return {part.value for part in expr.walk() if part.op == "name"}


def extreme(word: str, values: Sequence[Expr], at: int = 0) -> Expr:
    """Returns the least (`min`) or greatest (`max`) of some expressions; numbers are compared here."""
    numerals = {entry.value: parse_numeral(entry.value) for entry in values if entry.op == "num"}
    known = [value for value in numerals.values() if value is not None]
    if known:
        chosen = (min if word == "min" else max)(known)
        first = next(entry for entry in values if entry.op == "num" and numerals[entry.value] == chosen)
        values = [*(entry for entry in values if entry.op != "num"), first]
    result = values[0]
    for value in values[1:]:
        result = make("if", make("<" if word == "min" else ">", result, value), result, value, at=at)
    return result


def ungrouped(expr: Expr) -> Expr:
    return mapped(expr, lambda part: ungrouped(part.args[0]) if part.op == "group" else None)


def text(expr: Expr, least: float = 0) -> str:
    """Returns an expression as text, in parentheses if the operator binds less tightly than `least`."""
    said, level = _printed(expr)
    return f"({said})" if level < least else said


def _printed(expr: Expr) -> tuple[str, float]:
    op, args = expr.op, expr.args
    if op in ("num", "text"):
        return expr.value, PRIMARY
    if op == "name":
        return expr.value + (f"[{','.join(map(text, args))}]" if args else ""), PRIMARY
    if op == "tuple":
        return f"({','.join(map(text, args))})", PRIMARY
    if op == "group":
        return _printed(args[0])
    if op == "braces":
        items, last = (args[:-1], f": {text(args[-1])}") if expr.value else (args, "")
        return "{" + ", ".join(text(item, RELATION_LEVEL) for item in items) + last + "}", PRIMARY
    if op == "reduce":
        return f"{expr.value} {text(args[0])} {text(args[1], REDUCTION_LEVEL)}", REDUCTION_LEVEL
    if op == "not":
        return f"not ({text(args[0])})", PRIMARY
    if op == "sign":
        return f"{expr.value}{text(args[0], PRIMARY)}", LEVEL["sign"]
    if op == "if":
        rest = f" else {text(args[2])}" if len(args) > 2 else ""
        return f"if {text(args[0], 1)} then {text(args[1], 1)}{rest}", 0
    if op == "net":
        words = expr.value.split()
        return "".join([text(args[0], 1), *(f" {word} {text(part, 1)}" for word, part in zip(words, args[1:]))]), 0
    if op in RELATIONS:
        return f"{text(args[0], 4)} {op} {text(args[1], 4)}", RELATION_LEVEL
    return _operation(op, args)


def _operation(op: str, args: list[Expr]) -> tuple[str, float]:
    level = LEVEL[op]
    if op == "..":
        step = f" by {text(args[2], 8)}" if len(args) > 2 else ""
        return f"{text(args[0], 8)}..{text(args[1], 8)}{step}", level
    # `(a + b) * c` needs parentheses on the left, `a - (b - c)` on the right.
    return f"{text(args[0], level)} {op} {text(args[1], level + 1 if op != 'or' and op != 'and' else level)}", level
