"""Sets, tuples and braces."""
import itertools

from models.expressions import CONDITION, CROSS, INTER, RANGE, RELATION, SET, SUM, Choice, Dummy, Expr, Fault, Parens

MOST = 400


class SetExpr(Expr):
    """MathProg allows no braces after `in`, so a set has two more texts there: `wider` is a set without braces that
    contains it, and `has` the condition that a tuple of texts is in it. `twin` is its text after `:=`."""

    is_exact = True

    def has(self, parts):
        return f"({tupled(parts)} in {self.twin()})"

    def wider(self):
        return self.twin()

    def through(self, names):
        """The item that runs through the set, and a condition or None."""
        return f"{tupled(names)} in {self.wider()}", None if self.is_exact else self.has(names)


def tupled(parts):
    return f"({', '.join(parts)})" if len(parts) > 1 else parts[0]


class SetRef(SetExpr):
    """A declared set."""

    def __init__(self, declared):
        self.declared, self.dimen, self.kinds, self.domains = declared, declared.dimen, declared.kinds, declared.domains

    def value(self, env):
        return self.declared.rows

    def text(self):
        return self.declared.name

    def twin(self):
        return self.declared.name


class Range(SetExpr):
    level = RANGE
    dimen = 1

    def __init__(self, first, last, step=None, domain="#"):
        self.first, self.last, self.step = first, last, step
        self.kinds, self.domains = ("number",), (domain,)

    def value(self, env):
        first, last = self.first.value(env), self.last.value(env)
        step = self.step.value(env) if self.step else 1
        if any(isinstance(bound, str) for bound in (first, last, step)) or step < 1 or last - first > MOST:
            raise Fault("range")
        return [(number,) for number in range(first, last + 1, step)]

    def text(self):
        front = f"{self.first.at(SUM)} .. {self.last.at(SUM)}"
        return f"{front} by {self.step.at(SUM)}" if self.step else front

    def twin(self):
        first, last = self.first.twin(), self.last.twin()
        if self.step is None:
            return f"({first} .. {last})"
        # glpsol fails if the last number is not a step of the range.
        step = self.step.twin()
        return f"({first} .. ({first} + {step} * floor(({last} - {first}) / {step})) by {step})"


class Tuple(Expr):
    def __init__(self, parts):
        self.parts = parts

    def value(self, env):
        return tuple(part.value(env) for part in self.parts)

    def text(self):
        return "(" + ", ".join(part.at(SUM) for part in self.parts) + ")"

    def twin(self):
        return "(" + ", ".join(part.twin() for part in self.parts) + ")"


class Literal(SetExpr):
    """The set of some members or tuples, each once."""

    def __init__(self, items, kinds, domains):
        self.items, self.kinds, self.domains, self.dimen = items, kinds, domains, len(kinds)

    def value(self, env):
        rows = [item.value(env) for item in self.items]
        return list(dict.fromkeys(row if isinstance(row, tuple) else (row,) for row in rows))

    def text(self):
        return "{" + ", ".join(item.at(SET) for item in self.items) + "}"

    def twin(self):
        # A member can occur twice, which MathProg rejects within one pair of braces.
        return "(" + " union ".join("{" + item.twin() + "}" for item in self.items) + ")" if self.items else "{}"


class SetBinary(SetExpr):
    """`union diff symdiff inter cross`."""

    def __init__(self, word, left, right):
        self.word, self.left, self.right = word, left, right
        self.level = {"cross": CROSS, "inter": INTER}.get(word, SET)
        both = (left, right) if word == "cross" else (left,)
        self.kinds = sum((operand.kinds for operand in both), ())
        self.domains = sum((operand.domains for operand in both), ())
        if word in ("union", "symdiff"):
            self.kinds = tuple(a if a == b else "mixed" for a, b in zip(left.kinds, right.kinds))
            self.domains = tuple(a if a == b else None for a, b in zip(left.domains, right.domains))
        self.dimen, self.is_exact = len(self.kinds), left.is_exact and right.is_exact

    def value(self, env):
        left, right = self.left.value(env), self.right.value(env)
        there, others = set(left), set(right)
        if self.word == "cross":
            if len(left) * len(right) > MOST:
                raise Fault("cross")
            return [a + b for a in left for b in right]
        kept = [row for row in left if (row in others) == (self.word == "inter")]
        return {
            "union": left + [row for row in right if row not in there],
            "diff": kept,
            "inter": kept,
            "symdiff": kept + [row for row in right if row not in there],
        }[self.word]

    def text(self):
        return f"{self.left.at(self.level)} {self.word} {self.right.at(self.level + 1)}"

    def twin(self):
        return f"({self.left.twin()} {self.word} {self.right.twin()})"

    def wider(self):
        if self.is_exact or self.word in ("cross", "union", "symdiff"):
            word = self.word if self.is_exact or self.word == "cross" else "union"
            return f"({self.left.wider()} {word} {self.right.wider()})"
        return self.left.wider()

    def has(self, parts):
        if self.word == "cross":
            return f"({self.left.has(parts[:self.left.dimen])} and {self.right.has(parts[self.left.dimen:])})"
        left, right = self.left.has(parts), self.right.has(parts)
        return {
            "union": f"({left} or {right})",
            "inter": f"({left} and {right})",
            "diff": f"({left} and not {right})",
            "symdiff": f"(({left} and not {right}) or ({right} and not {left}))",
        }[self.word]


class Comprehension(SetExpr):
    """Braces as a set: their keys. Each item has one new dummy, and no set that uses those before it."""

    is_exact = False

    def __init__(self, braces):
        self.braces = braces
        self.kinds = tuple(dummy.kind for dummy in braces.key())
        self.domains = tuple(dummy.domain for dummy in braces.key())
        self.dimen = len(self.kinds)

    def value(self, env):
        for item in self.braces.items:
            # MathProg evaluates every set, even after an empty one.
            item.members.value(env)
        return [key for key, _ in self.braces.walk(env)]

    def text(self):
        return self.braces.text()

    def twin(self):
        return f"(setof{self.braces.twin()} {tupled([dummy.twin() for dummy in self.braces.key()])})"

    def wider(self):
        return f"({' cross '.join(item.members.wider() for item in self.braces.items)})"

    def has(self, parts):
        same = [f"({dummy.twin()} = {part})" for dummy, part in zip(self.braces.key(), parts)]
        return f"(exists{self.braces.twin(*same)} 1 = 1)"


class Keys(Comprehension):
    """The keys of any braces, of which MathProg is asked only whether it has a tuple."""

    def value(self, env):
        return [key for key, _ in self.braces.walk(env)]


class SetChoice(Choice, SetExpr):
    def __init__(self, condition, yes, no):
        super().__init__(condition, yes, no)
        self.dimen, self.domains, self.is_exact = yes.dimen, yes.domains, yes.is_exact and no.is_exact
        self.kinds = tuple(a if a == b else "mixed" for a, b in zip(yes.kinds, no.kinds))

    def wider(self):
        return f"(if {self.condition.twin()} then {self.yes.wider()} else {self.no.wider()})"

    def has(self, parts):
        condition = self.condition.twin()
        return f"(({condition} and {self.yes.has(parts)}) or (not {condition} and {self.no.has(parts)}))"


class SetParens(Parens, SetExpr):
    def __init__(self, inner):
        super().__init__(inner)
        self.dimen, self.kinds, self.domains, self.is_exact = inner.dimen, inner.kinds, inner.domains, inner.is_exact

    def wider(self):
        return self.inner.wider()

    def has(self, parts):
        return self.inner.has(parts)


class Membership(Expr):
    """`in` and `not in`."""

    level = RELATION

    def __init__(self, left, members, negated=False):
        self.left, self.members, self.negated = left, members, negated

    def value(self, env):
        left = self.left.value(env)
        return ((left if isinstance(left, tuple) else (left,)) in self.members.value(env)) != self.negated

    def text(self):
        return f"{self.left.at(SET)} {'not in' if self.negated else 'in'} {self.members.at(SET)}"

    def twin(self):
        parts = self.left.parts if isinstance(self.left, Tuple) else [self.left]
        return f"({'not ' if self.negated else ''}{self.members.has([part.twin() for part in parts])})"


class Within(Expr):
    level = RELATION

    def __init__(self, left, right, negated=False):
        self.left, self.right, self.negated = left, right, negated

    def value(self, env):
        return (set(self.left.value(env)) <= set(self.right.value(env))) != self.negated

    def text(self):
        return f"{self.left.at(SET)} {'not within' if self.negated else 'within'} {self.right.at(SET)}"

    def twin(self):
        slots = [f"c{next(Item.slots)}" for _ in self.left.kinds]
        item, condition = self.left.through(slots)
        every = f"forall{{{item}{': ' + condition if condition else ''}}} {self.right.has(slots)}"
        return f"({'not ' if self.negated else ''}({every}))"


class Item:
    """`pattern in set`, or a set alone: then the pattern is dummies without names. A component of a pattern that is no
    new dummy selects."""

    def __init__(self, pattern, members, new):
        self.pattern, self.members, self.new = pattern, members, new

    def components(self):
        """Each component, and whether it is a new dummy there: in `(i, i)` the first alone."""
        return [
            (dummy, dummy in self.new and dummy not in self.pattern[:place]) for place, dummy in enumerate(self.pattern)
        ]

    def steps(self, env):
        components = self.components()
        for row in self.members.value(env):
            each = dict(env)
            for (component, is_new), member in zip(components, row):
                if is_new:
                    each[component] = member
                elif component.value(each) != member:
                    break
            else:
                yield each

    def text(self):
        if self.pattern[0] in self.new and self.pattern[0].name is None:
            return self.members.at(SET)
        inside = ", ".join(dummy.at(SUM) for dummy in self.pattern)
        return f"{f'({inside})' if len(self.pattern) > 1 else inside} in {self.members.at(SET)}"

    def twin(self):
        """Returns the item and the conditions that express its selection in MathProg."""
        names = [dummy.twin() if is_new else f"c{next(Item.slots)}" for dummy, is_new in self.components()]
        item, condition = self.members.through(names)
        selects = [
            f"({name} = {dummy.twin()})" for name, (dummy, is_new) in zip(names, self.components()) if not is_new
        ]
        return item, ([condition] if condition else []) + selects

    slots = itertools.count(1)


class Braces:
    """Items and a condition, which may be None. Items without new dummies give the empty key, for which MathProg has a
    1."""

    def __init__(self, items, condition=None):
        self.items, self.condition = items, condition

    def key(self):
        return [dummy for item in self.items for dummy in item.new]

    def named(self):
        return [dummy for dummy in self.key() if dummy.name]

    def walk(self, env):
        """Each key with the dummies in scope at it; the list is made before the condition is asked."""
        every = [env]
        for item in self.items:
            every = [each for before in every for each in item.steps(before)]
            if len(every) > MOST:
                raise Fault("too many keys")
        key = self.key()
        return [
            (tuple(each[place] for place in key), each)
            for each in every
            if self.condition is None or self.condition.value(each)
        ]

    def text(self):
        inside = ", ".join(item.text() for item in self.items)
        return "{" + inside + (f": {self.condition.at(CONDITION)}" if self.condition else "") + "}"

    def twin(self, *more):
        """With further conditions, in MathProg's words."""
        items, conditions = [], []
        for item in self.items:
            text, selects = item.twin()
            items.append(text)
            conditions += selects
        conditions += [self.condition.twin()] if self.condition else []
        conditions += more
        return "{" + ", ".join(items) + (f": {' and '.join(conditions)}" if conditions else "") + "}"

    def keys_twin(self, name):
        """A set of the keys, which MathProg can look a subscript up in, and the braces that run through it."""
        key = tupled([dummy.twin() for dummy in self.key()] or ["1"])
        made = f"set KEYS_{name} dimen {len(self.key()) or 1} := setof{self.twin()} {key};\n"
        return made, f"{{{key} in KEYS_{name}}}" if self.key() else f"{{c{next(Item.slots)} in KEYS_{name}}}"


def whole(set_expr, names):
    """The item that runs through a whole set with new dummies; a name of None means a set alone."""
    new = [Dummy(name, kind, domain) for name, kind, domain in zip(names, set_expr.kinds, set_expr.domains)]
    return Item(new, set_expr, new)


def restart_names():
    """A model's twin has the same names whatever was made before it."""
    Dummy.numbers, Item.slots = itertools.count(1), itertools.count(1)
