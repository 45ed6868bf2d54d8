"""Expressions with arcs: a constant, and a coefficient for each arc."""
from models.expressions import SUM, Expr, Fault


class Linear:
    def __init__(self, constant=0, terms=None):
        self.constant, self.terms = constant, terms or {}

    def __add__(self, other):
        other = other if isinstance(other, Linear) else Linear(other)
        terms = dict(self.terms)
        for arc, price in other.terms.items():
            terms[arc] = terms.get(arc, 0) + price
        return Linear(self.constant + other.constant, terms)

    __radd__ = __add__

    def __mul__(self, number):
        if isinstance(number, Linear):
            raise Fault("not linear")
        return Linear(self.constant * number, {arc: price * number for arc, price in self.terms.items()})

    __rmul__ = __mul__

    def __neg__(self):
        return self * -1

    def __sub__(self, other):
        return self + other * -1

    def __rsub__(self, other):
        return -self + other


class ArcRef(Expr):
    """An arc as a variable of an objective's expression."""

    def __init__(self, declared, subscripts):
        self.declared, self.subscripts = declared, subscripts

    def value(self, env):
        key = tuple(subscript.value(env) for subscript in self.subscripts)
        if key not in self.declared.keys:
            raise Fault("no such arc")
        return Linear(0, {(self.declared.name, key): 1})

    def text(self):
        inside = ",".join(subscript.at(SUM) for subscript in self.subscripts)
        return f"{self.declared.name}[{inside}]" if self.subscripts else self.declared.name

    def twin(self):
        inside = ",".join(subscript.twin() for subscript in self.subscripts) or "1"
        return f"{self.declared.name}[{inside}]" if self.declared.braces else self.declared.name
