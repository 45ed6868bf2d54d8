"""Declarations, as netflow's language and MathProg write them."""
from models.expressions import PRODUCT, SET, SUM, VALUE, Fault


class Declared:
    """Declared things stay the same when an expression that names them is copied."""

    def __deepcopy__(self, memo):
        return self


def in_order(rng, phrases):
    """Phrases in any order, with commas or without."""
    phrases = list(phrases)
    rng.shuffle(phrases)
    return "".join(rng.choice([" ", " ", ", ", ",\n    "]) + phrase for phrase in phrases)


class SetDecl(Declared):
    """A set with its rows, which come from `made`, an expression, or from the data."""

    def __init__(self, name, rows, kinds, domains, made=None):
        self.name, self.rows, self.kinds, self.domains, self.made = name, rows, kinds, domains, made
        self.dimen, self.within, self.phrases = len(kinds), [], ""

    def finish(self, rng):
        is_explicit = self.made is None and not self.within and self.dimen > 1
        phrases = [f"dimen {self.dimen}"] if is_explicit or rng.random() < 0.2 else []
        phrases += [f"within {outer.at(SET)}" for outer in self.within]
        phrases += [f":= {self.made.at(VALUE)}"] if self.made else []
        self.phrases = in_order(rng, phrases)
        return self

    def text(self):
        return f"set {self.name}{self.phrases};"

    def twin(self):
        within = "".join(f" within {outer.twin()}" for outer in self.within)
        return f"set {self.name} dimen {self.dimen}{within}" + (f" := {self.made.twin()};" if self.made else ";")


class Param(Declared):
    """A parameter: its keys, and its values by key; those of `rows` are given by the data."""

    def __init__(self, name, braces, kind="number", domain=None):
        self.name, self.braces, self.kind, self.domain = name, braces, kind, domain
        self.keys = [key for key, _ in braces.walk({})] if braces else [()]
        self.values, self.rows, self.data_default = {}, None, None
        self.made = self.default = self.inside = None
        self.tests, self.phrases, self.ready, self.there = [], "", False, set(self.keys)

    def at_key(self, key):
        if key not in self.there or key not in self.values:
            raise Fault("no value")
        return self.values[key]

    def steps(self):
        """Each key with its dummies."""
        return self.braces.walk({}) if self.braces else [((), {})]

    def fill(self):
        """Values from `made`, or from rows and defaults, by key."""
        self.values = {}
        for key, env in self.steps():
            if self.made:
                self.values[key] = self.made.value(env)
            elif key in self.rows:
                self.values[key] = self.rows[key]
            elif self.data_default is not None:
                self.values[key] = self.data_default
            elif self.default:
                self.values[key] = self.default.value(env)
        self.ready = True

    def finish(self, rng):
        phrases = ["symbolic"] if self.kind == "name" else ["integer"] if rng.random() < 0.2 else []
        phrases += [f"{operator} {limit.at(SUM)}" for operator, limit in self.tests]
        phrases += [f"in {self.inside.at(SET)}"] if self.inside else []
        phrases += [f"default {self.default.at(VALUE)}"] if self.default else []
        phrases += [f":= {self.made.at(VALUE)}"] if self.made else []
        self.phrases = in_order(rng, phrases)
        return self

    def text(self):
        return f"param {self.name}{' ' + self.braces.text() if self.braces else ''}{self.phrases};"

    def twin(self):
        made, domain = self.braces.keys_twin(self.name) if self.braces else ("", "")
        out = f"{made}param {self.name}{domain}{' symbolic' if self.kind == 'name' else ''}"
        out += "".join(f", {operator} {limit.twin()}" for operator, limit in self.tests)
        out += f", in {self.inside.twin()}" if self.inside else ""
        if self.default and self.data_default is None:
            out += f", default {self.default.twin()}"
        return out + (f", := {self.made.twin()};" if self.made else ";")


class Check(Declared):
    def __init__(self, braces, condition):
        self.braces, self.condition = braces, condition

    def text(self):
        return f"check {self.braces.text() if self.braces else ''}: {self.condition.text()};"

    def twin(self):
        return f"check{self.braces.twin() if self.braces else ''}: {self.condition.twin()};"


class NetCondition:
    """`terms` are signed expressions, of which one is None for the net term; `sides` are (operator, side, is_left)."""

    def __init__(self, word, terms, sides):
        self.word, self.terms, self.sides = word, terms, sides

    def base(self, env):
        """What the terms come to without the net term."""
        return sum(sign * term.value(env) for sign, term in self.terms if term)

    def sign(self):
        """Returns 1 if the middle grows with inflow, else -1."""
        own = next(sign for sign, term in self.terms if term is None)
        return own if self.word == "net_in" else -own

    def middle_range(self, env):
        low = high = None
        for operator, side, is_left in self.sides:
            value = side.value(env)
            operator = {"<=": ">=", ">=": "<="}.get(operator, operator) if is_left else operator
            low = value if operator in ("=", ">=") else low
            high = value if operator in ("=", "<=") else high
        return low, high

    def range(self, env):
        """Returns the least and the greatest net inflow; None for a missing side."""
        low, high = (None if bound is None else bound - self.base(env) for bound in self.middle_range(env))
        if self.sign() == 1:
            return low, high
        return None if high is None else -high, None if low is None else -low

    def written(self, net, middle):
        left = "".join(f"{side} {operator} " for operator, side, is_left in net if is_left)
        return left + middle + "".join(f" {operator} {side}" for operator, side, is_left in net if not is_left)

    def text(self):
        middle = ""
        for sign, term in self.terms:
            said = self.word if term is None else term.at(PRODUCT)
            middle += (f" {'+' if sign == 1 else '-'} " if middle else "" if sign == 1 else "- ") + said
        return self.written([(o, side.at(SUM), is_left) for o, side, is_left in self.sides], middle)

    def twin(self, inflow):
        net = inflow if self.word == "net_in" else f"(-({inflow}))"
        parts = [f"{'+' if sign == 1 else '-'} ({net if term is None else term.twin()})" for sign, term in self.terms]
        return self.written([(o, side.twin(), is_left) for o, side, is_left in self.sides], f"(0 {' '.join(parts)})")


class NodeDecl(Declared):
    def __init__(self, name, braces, condition, free=None):
        self.name, self.braces, self.condition, self.free = name, braces, condition, free
        self.steps = braces.walk({}) if braces else [((), {})]
        self.keys = [key for key, _ in self.steps]

    def text(self):
        said = f": {self.condition.text()}" if self.condition else ""
        return f"node {self.name}{' ' + self.braces.text() if self.braces else ''}{said};"

    def twin(self, arcs):
        """With all arcs whose ends are here, wherever their subscripts agree."""
        own = [dummy.twin() for dummy in self.braces.key()] if self.braces else []
        parts = []
        for arc in arcs:
            for sign, end in (("+", arc.end["to"]), ("-", arc.end["from"])):
                if end and end[0] is self:
                    same = [f"({name} = {subscript.twin()})" for name, subscript in zip(own, end[1])]
                    front = (
                        f"sum{arc.braces.twin(*same)} "
                        if arc.braces
                        else f"if {' and '.join(same)} then "
                        if same
                        else ""
                    )
                    parts.append(f"{sign} ({front}{arc.variable()})")
        inflow = f"(0 {' '.join(parts)})"
        said = self.condition.twin(inflow) if self.condition else f"{inflow} = 0"
        made, domain = self.braces.keys_twin(self.name) if self.braces else ("", "")
        return f"{made}s.t. {self.name}{domain}: {said};"


class ArcDecl(Declared):
    """`end` has, for from and to, None or (node declaration, subscripts); `prices` are (objective, expression)."""

    def __init__(self, name, braces, ends, bounds):
        self.name, self.braces, self.end = name, braces, ends
        self.low, self.high = bounds
        self.steps = braces.walk({}) if braces else [((), {})]
        self.keys, self.prices, self.phrases = [key for key, _ in self.steps], [], ""

    def finish(self, rng):
        phrases = [f">= {self.low.at(SUM)}", f"<= {self.high.at(SUM)}"]
        for word, end in self.end.items():
            if end:
                inside = ",".join(subscript.at(SUM) for subscript in end[1])
                phrases.append(f"{word} {end[0].name}" + (f"[{inside}]" if end[1] else ""))
        phrases += [f"obj {objective.name} {price.at(SUM)}" for objective, price in self.prices]
        self.phrases = in_order(rng, phrases + (["integer"] if rng.random() < 0.1 else []))
        return self

    def text(self):
        return f"arc {self.name}{' ' + self.braces.text() if self.braces else ''}{self.phrases};"

    def variable(self):
        return (
            f"{self.name}[{','.join(dummy.twin() for dummy in self.braces.key()) or 1}]" if self.braces else self.name
        )

    def twin(self):
        made, domain = self.braces.keys_twin(self.name) if self.braces else ("", "")
        return f"{made}var {self.name}{domain} >= {self.low.twin()}, <= {self.high.twin()};"


class Objective(Declared):
    """With an expression, or with what the arcs say of it."""

    def __init__(self, name, sense, expression=None):
        self.name, self.sense, self.expression = name, sense, expression

    def text(self):
        return f"{self.sense} {self.name}{': ' + self.expression.text() if self.expression else ''};"

    def twin(self, arcs):
        if self.expression:
            return f"{self.sense} {self.name}: {self.expression.twin()};"
        parts = [
            (f"sum{arc.braces.twin()} " if arc.braces else "") + f"({price.twin()} * {arc.variable()})"
            for arc in arcs
            for objective, price in arc.prices
            if objective is self
        ]
        return f"{self.sense} {self.name}: 0 {''.join(f'+ ({part})' for part in parts)};"
