"""Random expressions over what is declared so far."""
from models.expressions import (
    Binary,
    Choice,
    Dummy,
    Fault,
    Joined,
    Member,
    Negated,
    Not,
    ParamRef,
    Parens,
    Reduced,
    Relation,
    every_dummy,
)
from models.sets import (
    Braces,
    Comprehension,
    Item,
    Literal,
    Membership,
    Range,
    SetBinary,
    SetChoice,
    SetExpr,
    SetParens,
    SetRef,
    Tuple,
    Within,
)

DUMMIES = "i j k l m n p q s t u v".split() + ["from_city", "day", "P", "T", "_x", "a1"]
SPELLED = {"=": ["=", "=", "=="], "<>": ["<>", "<>", "!="]}
LARGEST = 2000


class Author:
    """`sets` and `params` are the declarations so far, `domains` the members of each domain by its label."""

    def __init__(self, rng):
        self.rng, self.sets, self.params, self.domains, self.names = rng, [], [], {}, set()

    def chance(self, share):
        return self.rng.random() < share

    def dummy_names(self, count, scope):
        """Makes names that mean nothing yet in the scope."""
        taken = self.names | {dummy.name for dummy in scope}
        free = [name for name in DUMMIES if name not in taken]
        free += [f"z{number}" for number in range(40) if f"z{number}" not in taken][: max(0, count - len(free))]
        return self.rng.sample(free, count)

    def dummy_name(self, scope):
        return self.dummy_names(1, scope)[0]

    # Members

    def subscript(self, scope, kind, domain):
        """Makes a subscript, usually a member of the domain; None if nothing fits."""
        fitting = [dummy for dummy in scope if dummy.domain == domain and dummy.kind == kind]
        numbers = [dummy for dummy in fitting if dummy.kind == "number"]
        if numbers and self.chance(0.12):
            return Binary(self.rng.choice("+-"), self.rng.choice(numbers), Member(1))
        if fitting and self.chance(0.06):
            other = self.subscript(scope, kind, domain)
            return other and Choice(self.condition(scope, 0), other, self.rng.choice(fitting))
        if fitting and self.chance(0.9):
            return self.rng.choice(fitting)
        named = [
            param
            for param in self.params
            if param.ready and param.kind == "name" and param.domain == domain and not param.braces
        ]
        if named and self.chance(0.5):
            return ParamRef(self.rng.choice(named), [])
        if self.domains.get(domain):
            return self.member(self.rng.choice(self.domains[domain]))
        return None

    def member(self, member):
        return Member(member, self.rng.choice("'\""))

    def param(self, scope, kind="number"):
        fitting = [candidate for candidate in self.params if candidate.ready and candidate.kind == kind]
        self.rng.shuffle(fitting)
        for param in fitting[:3]:
            key = param.braces.key() if param.braces else []
            parts = [self.subscript(scope, part.kind, part.domain) for part in key]
            if None not in parts:
                return ParamRef(param, parts)
        return None

    # Numbers

    def leaf(self, scope):
        numbers = [dummy for dummy in scope if dummy.kind == "number"]
        if numbers and self.chance(0.3):
            return self.rng.choice(numbers)
        found = self.param(scope) if self.chance(0.7) else None
        return found or Member(self.rng.choice([0, 1, 2, 3, 5, 7, 10, 12, -1, -4]))

    def number(self, scope, depth=2):
        if depth <= 0 or self.chance(0.3):
            return self.leaf(scope)
        kind = self.rng.choices(
            ["sum", "product", "div", "reduced", "choice", "sign", "parens"], [6, 3, 2, 4, 2, 1, 1]
        )[0]
        if kind == "sum":
            return Binary(self.rng.choice("++-"), self.number(scope, depth - 1), self.number(scope, depth - 1))
        if kind == "product":
            return Binary("*", self.number(scope, depth - 1), self.number(scope, depth - 1))
        if kind == "div":
            divisor = Member(self.rng.randint(2, 6)) if self.chance(0.7) else self.number(scope, depth - 1)
            return Binary(self.rng.choice(["div", "mod"]), self.number(scope, depth - 1), divisor)
        if kind == "reduced":
            return self.reduced(scope, depth)
        if kind == "choice":
            no = self.number(scope, depth - 1) if self.chance(0.8) else None
            return Choice(self.condition(scope, depth - 1), self.number(scope, depth - 1), no)
        inner = self.number(scope, depth - 1)
        return Parens(inner) if kind == "parens" else Negated(inner, self.rng.choice("-+"))

    def reduced(self, scope, depth):
        braces = self.braces(scope, depth - 1)
        word = self.rng.choice(["sum", "sum", "sum", "min", "max"])
        return Reduced(word, braces, self.number(scope + braces.named(), depth - 1))

    # Conditions

    def condition(self, scope, depth=2):
        kind = self.rng.choices(
            ["compare", "same", "member", "joined", "not", "within"], [4, 4, 4, 2 * depth, depth, 1]
        )[0]
        if kind == "joined":
            return Joined(
                self.rng.choice(["and", "or"]), self.condition(scope, depth - 1), self.condition(scope, depth - 1)
            )
        if kind == "not":
            return Not(self.condition(scope, depth - 1))
        if kind == "within":
            left, right = (self.set_of(scope, 1, 1) for _ in "ab")
            return Within(left, right, self.chance(0.4))
        if kind == "member":
            return self.membership(scope) or self.compared(scope, depth)
        return (self.same(scope) if kind == "same" else None) or self.compared(scope, depth)

    def compared(self, scope, depth):
        operator = self.rng.choice(["<", "<=", ">", ">=", "=", "<>"])
        left, right = self.number(scope, min(depth, 1)), self.number(scope, depth - 1)
        return Relation(operator, left, right, self.rng.choice(SPELLED.get(operator, [operator])))

    def same(self, scope):
        """Two members that are the same or not."""
        if not scope:
            return None
        left = self.rng.choice(scope)
        others = [dummy for dummy in scope if dummy is not left and dummy.domain == left.domain]
        right = self.rng.choice(others) if others else self.subscript([], left.kind, left.domain)
        operator = self.rng.choice(["=", "<>", "<>", "<>"])
        return right and Relation(operator, left, right, self.rng.choice(SPELLED[operator]))

    def membership(self, scope):
        members = self.set_of(scope, 1, self.rng.choice([1, 1, 2]))
        parts = [self.subscript(scope, kind, domain) for kind, domain in zip(members.kinds, members.domains)]
        if None in parts:
            return None
        return Membership(Tuple(parts) if len(parts) > 1 else parts[0], members, self.chance(0.3))

    # Sets and braces

    def declared_set(self, dimen):
        fitting = [decl for decl in self.sets if decl.dimen == dimen]
        return SetRef(self.rng.choice(fitting)) if fitting else None

    def range(self, scope):
        first = Member(self.rng.choice([1, 1, 0, 2])) if self.chance(0.8) else self.number(scope, 1)
        last = self.number(scope, 1) if self.chance(0.5) else Member(self.rng.randint(2, 6))
        step = Member(self.rng.randint(1, 3)) if self.chance(0.25) else None
        return Range(first, last, step)

    def literal(self, scope, dimen):
        model = self.declared_set(dimen)
        if model is None or not model.declared.rows:
            return None
        rows = [self.rng.choice(model.declared.rows) for _ in range(self.rng.randint(1, 3))]
        items = [[self.member(component) for component in row] for row in rows]
        if dimen == 1 and model.kinds[0] == "number" and self.chance(0.5):
            items.append([self.number(scope, 1)])
        return Literal([Tuple(item) if dimen > 1 else item[0] for item in items], model.kinds, model.domains)

    def set_of(self, scope, depth, dimen):
        """A set of this dimension; declared ones most of all."""
        kind = self.rng.choices(
            ["declared", "range", "literal", "binary", "cross", "braces", "parens", "choice"],
            [8, 2 * (dimen == 1), 1, 2 * depth, 2 * (dimen == 2), depth, 0.5 * depth, 0.3 * depth],
        )[0]
        made = None
        if kind == "range":
            made = self.range(scope)
        elif kind == "literal":
            made = self.literal(scope, dimen)
        elif kind == "binary":
            made = SetBinary(
                self.rng.choice(["union", "diff", "symdiff", "inter"]),
                self.set_of(scope, depth - 1, dimen),
                self.set_of(scope, depth - 1, dimen),
            )
        elif kind == "cross":
            made = SetBinary("cross", self.set_of(scope, depth - 1, 1), self.set_of(scope, depth - 1, 1))
        elif kind == "braces":
            made = self.set_braces(scope, depth - 1, dimen)
        elif kind == "parens":
            made = SetParens(self.set_of(scope, depth - 1, dimen))
        elif kind == "choice":
            made = SetChoice(self.condition(scope, 0), *(self.set_of(scope, depth - 1, dimen) for _ in "ab"))
        return made or self.declared_set(dimen) or self.plain(dimen)

    def plain(self, dimen):
        """A set that needs no declaration."""
        made: SetExpr = Range(Member(1), Member(3))
        for _ in range(dimen - 1):
            made = SetBinary("cross", made, Range(Member(1), Member(2)))
        return made

    def set_braces(self, scope, depth, dimen):
        items, inside, every = [], list(scope), [self.set_of(scope, depth, 1) for _ in range(dimen)]
        for place, members in enumerate(every):
            later = [name for following in every[place + 1 :] for name in every_dummy(following)]
            items.append(self.item(inside + later, members, fresh=True))
            inside += items[-1].new
        return Comprehension(Braces(items, self.condition(inside, 1) if self.chance(0.7) else None))

    def item(self, scope, members, fresh=False):
        """`pattern in members`; a component may be a dummy of before, which selects, unless all have to be fresh."""
        pattern: list = []
        new: list[Dummy] = []
        for kind, domain in zip(members.kinds, members.domains):
            selects = None
            if not fresh and self.chance(0.35 if members.dimen > 1 else 0.04):
                selects = self.selecting(scope + new, kind, domain, members.dimen > 1)
            if selects:
                pattern.append(selects)
            else:
                new.append(Dummy(self.dummy_name(scope + new), kind, domain))
                pattern.append(new[-1])
        return Item(pattern, members, new)

    def selecting(self, scope, kind, domain, is_tuple):
        """Makes a component that is not a new dummy, or None: an earlier dummy, a number next to it, or a member."""
        old = [dummy for dummy in scope if dummy.domain == domain and dummy.kind == kind]
        if old and kind == "number" and self.chance(0.15):
            return Binary(self.rng.choice("+-"), self.rng.choice(old), Member(1))
        if old and self.chance(0.9):
            return self.rng.choice(old)
        # A name alone would be a new dummy, and a number alone no item.
        there = self.domains.get(domain)
        return self.member(self.rng.choice(there)) if there and is_tuple and self.chance(0.3) else None

    def braces(self, scope, depth, dimens=None):
        items, inside = [], list(scope)
        for dimen in dimens or self.rng.choice([[1], [1], [1, 1], [2], [1, 2]]):
            items.append(self.item(inside, self.set_of(inside, depth, dimen)))
            inside += items[-1].new
        return Braces(items, self.condition(inside, 1) if self.chance(0.35) else None)

    # What is without fault

    def sound(self, make, envs, good=lambda value, env: True, tries=25):
        """Returns what `make` gives when it has a good value for each dummy; None if that does not happen."""
        for _ in range(tries):
            made = make()
            try:
                if all(is_small(value := made.value(env)) and good(value, env) for env in envs):
                    return made
            except Fault:
                continue
        return None


def is_small(value):
    return not isinstance(value, int) or isinstance(value, bool) or abs(value) <= LARGEST
