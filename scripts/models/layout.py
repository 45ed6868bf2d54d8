"""Random nodes, arcs and objectives over a world."""
from models.declarations import ArcDecl, NetCondition, NodeDecl, Objective
from models.expressions import (
    Binary,
    Choice,
    Fault,
    Joined,
    Member,
    Negated,
    ParamRef,
    Parens,
    Reduced,
    copied,
    every_dummy,
)
from models.linear import ArcRef
from models.sets import Braces, Item, Keys, Membership, SetRef, Tuple
from models.world import World

NODE_NAMES = "Balance Stock Mill Shop Depot Hub N M node_ F".split()
ARC_NAMES = "Ship Keep Move Drive Work X Y Z Back arc_ from_".split()
OBJECTIVE_NAMES = "Total Cost Gain Profit Time".split()


class Free:
    """A parameter that the plan decides: the side of a node's condition is its value plus `more`."""

    def __init__(self, param, more):
        self.param, self.more = param, more


class Layout(World):
    def __init__(self, rng):
        super().__init__(rng)
        self.nodes, self.arcs, self.objectives = [], [], []

    def renamed(self, braces, scope):
        """The same braces with dummies of other names than those of the scope."""
        made, dummies = copied(braces)
        named = [candidate for candidate in dummies if candidate.name]
        for dummy, name in zip(named, self.dummy_names(len(named), scope)):
            dummy.name = name
        return made

    def named_copy(self, braces, scope):
        """The same, and every component of the key has a name."""
        made = self.renamed(braces, scope)
        lacking = [dummy for dummy in made.key() if dummy.name is None]
        for dummy, name in zip(lacking, self.dummy_names(len(lacking), [*scope, *every_dummy(made)])):
            dummy.name = name
        return made

    # Nodes

    def node(self):
        braces = self.index() if self.chance(0.8) else self.empty_key() if self.chance(0.15) else None
        scope = self.scope_of(braces)
        whole_key = braces is None or len(scope) == len(braces.key())
        kind = self.rng.choices(["free", "fixed", "none"], [6 if whole_key else 0, 2, 2])[0]
        terms = self.terms(braces, scope)
        sides, frees = [], []
        if kind == "free":
            sides, frees = self.free_sides(braces, scope)
        elif kind == "fixed":
            sides = self.fixed_sides(braces, scope, terms)
        condition = NetCondition(self.rng.choice(["net_in", "net_out"]), terms, sides) if sides else None
        node = NodeDecl(self.new_name(NODE_NAMES, every_dummy(braces)), braces, condition, frees)
        if kind == "fixed" and any(is_crossed(condition.range(env)) for _, env in node.steps):
            node.condition = None
        self.declared.append(node)
        self.nodes.append(node)

    def empty_key(self):
        """Makes braces whose one key has no members, by an item that selects and binds nothing; None if there is no
        set."""
        there = [decl for decl in self.sets if decl.rows]
        if not there:
            return None
        chosen = self.rng.choice(there)
        return Braces(
            [Item([self.member(component) for component in self.rng.choice(chosen.rows)], SetRef(chosen), [])]
        )

    def terms(self, braces, scope):
        """Signed terms, of which one is the net flow."""
        envs = [env for _, env in braces.walk({})] if braces else [{}]
        terms = [(1 if self.chance(0.85) else -1, None)]
        while self.chance(0.25):
            term = self.sound(lambda: self.number(scope, 1), envs)
            if term and self.chance(0.5):
                terms.append((self.rng.choice([1, -1]), term))
            elif term:
                terms.insert(0, (1, term))
        return terms

    def free_sides(self, braces, scope):
        envs = [env for _, env in braces.walk({})] if braces else [{}]
        operators = self.rng.choice([["="], ["="], ["="], ["<="], [">="], ["<=", "<="], [">=", ">="]])
        sides, frees = [], []
        for place, operator in enumerate(operators):
            param = self.new_param(self.named_copy(braces, []) if braces and braces.key() else None, is_apart=True)
            param.ready = False
            self.declared.append(param.finish(self.rng))
            side = ParamRef(param, list(scope))
            more = self.sound(lambda: self.number(scope, 1), envs) if self.chance(0.2) else None
            is_left = place == 0 if len(operators) == 2 else self.chance(0.3)
            sides.append((operator, Binary("+", side, more) if more else side, is_left))
            frees.append(Free(param, more))
        return sides, frees

    def fixed_sides(self, braces, scope, terms):
        """Sides that the plan has to meet: an expression, or two numbers around the other terms."""
        envs = [env for _, env in braces.walk({})] if braces else [{}]
        if self.chance(0.4):
            side = self.sound(lambda: self.number(scope, 1), envs) or Member(3)
            return [(self.rng.choice(["<=", ">="]), side, self.chance(0.3))]
        low, high = sorted([self.rng.randint(-20, 3), self.rng.randint(-3, 25)])
        sides = [("<=", Member(low), True), ("<=", Member(high), False)]
        return sides if self.chance(0.6) else [(">=", Member(high), True), (">=", Member(low), False)]

    # Arcs

    def arc(self):
        for _ in range(40):
            ends = self.chosen_ends()
            made = self.try_arc(ends)
            if made:
                braces, ends = made
                break
        else:
            return
        name = self.new_name(ARC_NAMES, every_dummy(braces))
        arc = ArcDecl(name, braces, ends, (Member(0), Member(9)))
        arc.low, arc.high = self.bounds(arc)
        scope = self.scope_of(braces)
        envs = [env for _, env in arc.steps]
        for objective in self.objectives:
            if objective.expression is None and self.chance(0.85):
                for _ in range(self.rng.choice([1, 1, 1, 2])):
                    price = self.sound(lambda: self.number(scope, self.rng.choice([1, 2, 2, 4])), envs)
                    arc.prices.append((objective, price or Member(self.rng.randint(1, 9))))
        self.declared.append(arc.finish(self.rng))
        self.arcs.append(arc)

    def chosen_ends(self):
        ends = [self.rng.choice(self.nodes), self.rng.choice(self.nodes)]
        if self.chance(0.25):
            ends[self.rng.choice([0, 1])] = None
        return ends

    def try_arc(self, ends):
        """Braces, and the ends with their subscripts; only keys at which both nodes are there."""
        braces = self.arc_braces(ends)
        scope = self.scope_of(braces)
        subscripts = [
            node
            and [self.subscript(scope, part.kind, part.domain) for part in (node.braces.key() if node.braces else [])]
            for node in ends
        ]
        if any(parts and None in parts for parts in subscripts):
            return None
        try:
            steps = braces.walk({}) if braces else [((), {})]
            there = [self.are_there(ends, subscripts, env) for _, env in steps]
            if not any(there) or (not all(there) and braces is None) or len(braces.key() if braces else []) > 4:
                return None
            if not all(there) and scope:
                braces.condition = self.guarded(braces, ends, subscripts)
            keys = braces.walk({}) if braces else [((), {})]
        except Fault:
            return None
        if not 0 < len(keys) <= 40 or not all(self.are_there(ends, subscripts, env) for _, env in keys):
            return None
        return braces, {word: end and (end, parts) for word, end, parts in zip(("from", "to"), ends, subscripts)}

    def arc_braces(self, ends):
        kind = self.rng.choice(["restated", "random", "random", "plain", "plain", "none"])
        own = [node for node in ends if node and node.braces]
        if kind == "none" and self.chance(0.6):
            return self.empty_key() if self.chance(0.15) else None
        if kind == "restated" and own:
            made = self.named_copy(self.rng.choice(own).braces, [])
            if len(own) == 2 and self.chance(0.5) and own[1].braces:
                other = self.named_copy(own[1].braces, every_dummy(made))
                both = [condition for condition in (made.condition, other.condition) if condition]
                joined = Joined("and", *both) if len(both) == 2 else (both or [None])[0]
                made = Braces(made.items + other.items, joined)
            return made
        return self.index(named=True) if kind == "plain" else self.braces([], 1)

    def are_there(self, ends, subscripts, env):
        return all(
            node is None or tuple(part.value(env) for part in parts) in node.keys
            for node, parts in zip(ends, subscripts)
        )

    def guarded(self, braces, ends, subscripts):
        """The condition of the braces, and that the nodes are there."""
        conditions = [braces.condition] if braces.condition else []
        scope = every_dummy(braces)
        for end, parts in zip(ends, subscripts):
            if end and end.braces and end.braces.key():
                keys = Keys(self.named_copy(end.braces, scope))
                only = end.braces.items[0]
                if len(end.braces.items) == 1 and end.braces.condition is None and only.pattern == only.new:
                    keys = only.members
                    if every_dummy(keys):
                        keys = self.renamed(keys, scope)
                conditions.append(Membership(Tuple(parts) if len(parts) > 1 else parts[0], keys))
        joined = conditions[0]
        for condition in conditions[1:]:
            joined = Joined("and", joined, condition)
        return joined

    def bounds(self, arc):
        scope, envs = self.scope_of(arc.braces), [env for _, env in arc.steps]
        low = Member(0)
        if self.chance(0.35):
            low = self.sound(lambda: self.number(scope, 1), envs, lambda value, _: -25 <= value <= 12) or low
        high = self.sound(lambda: self.number(scope, 2), envs, lambda value, env: low.value(env) <= value <= 150, 8)
        return low, high or (
            Member(self.rng.randint(3, 25))
            if isinstance(low, Member) and low.member == 0
            else Binary("+", low, Member(self.rng.randint(0, 20)))
        )

    # Objectives

    def objective(self, has_expression):
        name = self.new_name(OBJECTIVE_NAMES)
        made = Objective(name, self.rng.choice(["minimize", "minimize", "maximize"]))
        if has_expression:
            made.expression = self.sound_total()
        self.declared.append(made)
        self.objectives.append(made)

    def sound_total(self):
        for _ in range(30):
            made = self.total()
            try:
                made.value({})
                return made
            except Fault:
                continue
        return Member(0)

    def total(self):
        """A sum over arcs, and numbers."""
        made = self.number([], 1) if self.chance(0.4) else None
        for arc in self.rng.sample(self.arcs, self.rng.randint(1, len(self.arcs))):
            term = self.over_arc(arc)
            made = Binary(self.rng.choice("++-"), made, term) if made else Negated(term) if self.chance(0.2) else term
        if self.chance(0.2):
            made = Choice(
                self.condition([], 1), made, self.over_arc(self.rng.choice(self.arcs)) if self.chance(0.6) else None
            )
        elif self.chance(0.2):
            made = Binary("*", Parens(made), self.number([], 1))
        return made

    def over_arc(self, arc):
        if arc.braces is None:
            return self.term(ArcRef(arc, []), [])
        braces = self.named_copy(arc.braces, [])
        if self.chance(0.25):
            extra = self.condition(braces.key(), 1)
            braces.condition = Joined("and", braces.condition, extra) if braces.condition else extra
        key = braces.key()
        return Reduced("sum", braces, self.term(ArcRef(arc, key), key))

    def term(self, arc, scope):
        """An arc times a number, in one of the forms that the language has."""
        price = self.number(scope, 1)
        kind = self.rng.choice(["left", "left", "right", "alone", "sign", "choice", "parens"])
        return {
            "left": Binary("*", price, arc),
            "right": Binary("*", arc, price),
            "alone": arc,
            "sign": Negated(arc),
            "choice": Parens(Choice(self.condition(scope, 1), arc, Binary("*", price, arc))),
            "parens": Binary("*", Parens(Binary("-", arc, Member(2))), price),
        }[kind]


def is_crossed(sides):
    return None not in sides and sides[0] > sides[1]
