"""Random sets and parameters, with their data."""
from typing import Any

from models.author import DUMMIES, Author
from models.declarations import Check, Param, SetDecl
from models.expressions import Expr, Fault, Member, ParamRef, Relation, every_dummy
from models.sets import Braces, Item, Literal, Range, SetBinary, SetRef, whole

SET_NAMES = "CITIES PLANTS SHOPS DAYS GOODS LINKS ROADS MILLS ZONES CREWS WEEKS A B S i P day".split()
PARAM_NAMES = "cost room need most rate last days_of start home supply demand weight first p q k cap2 base".split()
TEXTS = "PITT NE SE BOS EWR a b c x1 2nd Zürich".split() + ["New York", "O'Hare", 'say "so"']
TEXTS += "set end default a.b --x a/b (x) #1 7up 1..5 .5x - + data x:y tr param 12 -3".split()


class World(Author):
    """Declarations in the order of the text, in `declared`."""

    def __init__(self, rng):
        super().__init__(rng)
        self.declared = []
        self.domains["#"] = [1, 2, 3]

    def new_name(self, names, scope=()):
        fitting = [
            candidate for candidate in names if candidate not in self.names and candidate not in {d.name for d in scope}
        ]
        plain = [candidate for candidate in fitting if len(candidate) > 1] or fitting
        name = self.rng.choice(plain if self.chance(0.9) and plain else fitting or ["more"])
        while name in self.names:
            name = f"{name}{self.rng.randint(1, 99)}"
        self.names.add(name)
        return name

    def add_set(self, made, rows, kinds, domains, within=()):
        declared = SetDecl(self.new_name(SET_NAMES), rows, kinds, domains, made)
        if declared.domains == (None,):
            declared.domains = (declared.name,)
            self.domains[declared.name] = [row[0] for row in rows]
        declared.within = list(within)
        self.declared.append(declared.finish(self.rng))
        self.sets.append(declared)
        return declared

    # Sets

    def base_set(self):
        kind = self.rng.choice(["texts", "texts", "numbers", "range", "mixed"])
        count = self.rng.randint(2, 5)
        if kind == "range":
            return self.range_set(count)
        texts, numbers = self.rng.sample(TEXTS, count), self.rng.sample(range(-3, 40), count)
        members = texts if kind == "texts" else numbers if kind == "numbers" else texts[:2] + numbers[: count - 1]
        word = {"texts": "name", "numbers": "number", "mixed": "mixed"}[kind]
        rows = [(member,) for member in members]
        made = Literal([self.member(member) for member in members], (word,), (None,)) if self.chance(0.2) else None
        return self.add_set(made, rows, (word,), (None,))

    def range_set(self, count):
        last: Expr = Member(count)
        scalars = [
            param
            for param in self.params
            if param.ready and not param.braces and param.kind == "number" and 1 <= param.values[()] <= 6
        ]
        if scalars and self.chance(0.5):
            last = ParamRef(self.rng.choice(scalars), [])
        made = Range(Member(1), last, Member(2) if self.chance(0.1) else None)
        return self.add_set(made, made.value({}), made.kinds, made.domains)

    def tuple_set(self):
        """Some tuples of a product; given by the data, or made by braces."""
        base = [decl for decl in self.sets if decl.dimen == 1 and decl.rows]
        parts = [SetRef(self.rng.choice(base)) for _ in range(self.rng.choice([2, 2, 2, 3]))]
        product: Any = parts[0]
        for part in parts[1:]:
            product = SetBinary("cross", product, part)
        try:
            every = product.value({})
        except Fault:
            return None
        if self.chance(0.3):
            return self.derived_set(product.dimen)
        rows = self.rng.sample(every, min(len(every), self.rng.randint(2, 9)))
        within = [product] if self.chance(0.6) else []
        return self.add_set(None, rows, product.kinds, product.domains, within)

    def derived_set(self, dimen=1):
        made = self.sound(lambda: self.set_of([], 2, dimen), [{}], lambda rows, _: 0 < len(rows) <= 30)
        if made is None:
            return None
        within = [SetRef(decl) for decl in self.sets if decl.dimen == dimen and set(made.value({})) <= set(decl.rows)][
            :1
        ]
        return self.add_set(made, made.value({}), made.kinds, made.domains, within if self.chance(0.3) else [])

    # Parameters

    def plain_index(self, dimens, named):
        """Whole sets, with dummies or alone."""
        items: list[Item] = []
        there = {decl.dimen for decl in self.sets}
        for dimen in dimens or self.rng.choice([[1], [1], [1, 1], [2], [1, 2], [3]]):
            if dimen not in there and self.chance(0.8):
                dimen = 1
            members = self.declared_set(dimen) or self.plain(dimen)
            names = self.dummy_names(dimen, [dummy for before in items for dummy in before.new])
            items.append(whole(members, names if named else [None] * dimen))
        return Braces(items)

    def index(self, dimens=None, named=False):
        """Braces of a declaration: sets alone, or dummies, with a condition at times; with at most 60 keys and four
        members."""
        for _ in range(20):
            if self.chance(0.45):
                braces = self.plain_index(dimens, named or self.chance(0.6))
            else:
                braces = self.braces([], 1, dimens)
            try:
                if 0 < len(braces.walk({})) <= 60 and 0 < len(braces.key()) <= 4:
                    return braces
            except Fault:
                continue
        return Braces([whole(self.plain(1), [self.dummy_name([])])])

    def scope_of(self, braces):
        return braces.named() if braces else []

    def new_param(self, braces, kind="number", domain=None, is_apart=False):
        """Makes a name that no dummy in scope has."""
        names = [name for name in PARAM_NAMES if name not in DUMMIES] if is_apart else PARAM_NAMES
        return Param(self.new_name(names, every_dummy(braces)), braces, kind, domain)

    def scalar(self):
        param = self.new_param(None)
        if self.chance(0.4):
            param.made = self.sound(lambda: self.number([], 2), [{}]) or Member(4)
        else:
            param.rows = {(): self.rng.randint(1, 6)}
        return self.add_param(param)

    def symbol(self):
        """A parameter whose values are members of a set."""
        texts = [decl for decl in self.sets if decl.dimen == 1 and decl.kinds[0] == "name" and decl.rows]
        if not texts:
            return None
        inside = self.rng.choice(texts)
        param = self.new_param(self.index([1]) if self.chance(0.4) else None, "name", inside.domains[0])
        param.rows = {key: self.rng.choice(inside.rows)[0] for key in param.keys}
        param.inside = SetRef(inside) if self.chance(0.7) else None
        return self.add_param(param)

    def table(self, braces=None):
        """A numeric parameter over braces: by data, by data and a default, or by an expression."""
        param = self.new_param(braces or self.index())
        envs = [env for _, env in param.steps()]
        kind = self.rng.choices(["rows", "default", "data default", "made", "holes"], [5, 3, 2, 3, 1])[0]
        span = self.rng.choice([(0, 9), (0, 30), (-9, 9), (1, 99)])
        if kind == "made":
            param.made = self.sound(
                lambda: self.number(self.scope_of(param.braces), self.rng.choice([2, 4])), envs
            ) or Member(3)
            return self.add_param(param)
        share = 1 if kind == "rows" else 0.6
        param.rows = {key: self.rng.randint(*span) for key in param.keys if self.chance(share)}
        if kind == "default" or (kind == "data default" and self.chance(0.3)):
            param.default = self.sound(lambda: self.number(self.scope_of(param.braces), 1), envs) or Member(0)
        if kind == "data default":
            param.data_default = self.rng.randint(*span)
        return self.add_param(param)

    def add_param(self, param):
        param.fill()
        values = list(param.values.values())
        if param.kind == "number" and values:
            for operator, limit in ((">=", min(values)), ("<=", max(values)), ("<>", 777)):
                if self.chance(0.25):
                    param.tests.append((operator, Member(limit)))
        self.declared.append(param.finish(self.rng))
        self.params.append(param)
        return param

    # Checks

    def check(self):
        braces = self.index() if self.chance(0.6) else None
        envs = [env for _, env in braces.walk({})] if braces else [{}]
        scope = self.scope_of(braces)
        condition = self.sound(
            lambda: self.condition(scope, self.rng.randint(1, 3)), envs, lambda value, _: value is True
        )
        if condition is None:
            condition = Relation(">=", Member(1), Member(0))
        self.declared.append(Check(braces, condition))
