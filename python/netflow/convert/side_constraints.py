"""Names the constraints of usual models that no network can express: fixed charges, and ratios between arcs."""
from __future__ import annotations

from typing import Mapping, Sequence

from .cases import Variable
from .indices import Index
from .linear import Term
from .trees import text


def side_constraint(
    name: str, term: Term, terms: Sequence[Term], index: Index, variables: Mapping[str, Variable]
) -> str:
    """Returns in words what a constraint with a coefficient other than 1 and -1 is; an empty text if it is neither a
    fixed charge nor a ratio, such as a balance with losses. `term` has the coefficient."""
    others = [other for other in terms if other is not term]
    variable = term.variable.value
    if others and is_choice(variables[variable]):
        tied = " and ".join(dict.fromkeys(other.variable.value for other in others))
        return (
            f"{name} ties {tied} to a multiple of the choice {variable}, as a fixed charge does: this is a side"
            " constraint, which a network cannot express"
        )
    if any(other.variable.value == variable and has_same_places(term, other, index) for other in others):
        return f"{name} ties arcs of {variable} by a ratio: this is a side constraint, which a network cannot express"
    return ""


def is_choice(variable: Variable) -> bool:
    """Whether a variable is 0 or 1."""
    return variable.is_integer and {(limit.op, text(limit.value)) for limit in variable.limits} >= {
        (">=", "0"),
        ("<=", "1"),
    }


def has_same_places(first: Term, second: Term, index: Index) -> bool:
    """Whether two terms of one variable have the dummies of the constraint as the same subscripts, and at least one
    subscript is the same. What enters a node and what leaves it, `x[i,j]` and `x[j,i]`, have not."""
    rows = [[text(argument) for argument in term.variable.args] for term in (first, second)]
    same = [left == right for left, right in zip(*rows)]
    places = [[row.index(dummy) if dummy in row else -1 for dummy in index.dummies] for row in rows]
    return any(same) and places[0] == places[1]
