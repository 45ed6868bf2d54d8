"""A random model: its texts, and the network that it comes to."""
import random
from typing import Callable

from models.declarations import Check, Param, SetDecl
from models.instance import Instance, Normal
from models.layout import Layout
from models.plan import chosen_plan, decide_free, fixed_ranges, relax
from models.sets import restart_names
from models.tables import Tables, twin_text

MARKS = "+ - * = <> < <= > >= .. :=".split()


class Model:
    """A model of a seed; another `attempt` gives another model of the same seed."""

    def __init__(self, seed, attempt=0):
        self.seed, self.rng = seed, random.Random(f"model {seed} {attempt}")
        restart_names()
        self.layout = Layout(self.rng)
        self.declare()
        self.instance = Instance(self.layout)
        plan = chosen_plan(self.instance, fixed_ranges(self.instance), self.rng)
        relax(self.instance, plan, self.rng)
        decide_free(self.instance, plan, self.rng, self.rng.random() < 0.24)
        self.instance.take_ranges()
        self.chosen = self.rng.choice(self.layout.objectives)
        self.instance.take_objective(self.chosen, self.layout)
        self.normal, self.lean = Normal(self.instance), Normal(self.instance, lean=True)
        self.is_named = len(self.layout.objectives) > 1 or self.rng.random() < 0.1

    def declare(self):
        layout, rng = self.layout, self.rng
        if rng.random() < 0.5:
            layout.scalar()
        for _ in range(rng.randint(1, 3)):
            layout.base_set()
        counts: dict[Callable, list[int]] = {
            layout.tuple_set: [0, 1, 1, 2],
            layout.derived_set: [0, 1, 2],
            layout.symbol: [0, 1],
            layout.scalar: [0, 1],
            layout.table: [1, 2, 3, 4],
            layout.check: [0, 1, 2],
        }
        steps = [step for step, count in counts.items() for _ in range(rng.choice(count))]
        rng.shuffle(steps)
        for step in steps:
            step()
        for _ in range(rng.choice([0, 1, 1, 1, 2])):
            layout.objective(False)
        for _ in range(rng.randint(1, 3)):
            layout.node()
        while not layout.arcs or rng.random() < 0.65 and len(layout.arcs) < 5:
            layout.arc()
            if rng.random() < 0.15:
                steps = [layout.table, layout.derived_set, layout.check, layout.node]
                rng.choice(steps)()
        if not layout.objectives or rng.random() < 0.3:
            layout.objective(True)

    def words(self):
        return ["--objective", self.chosen.name] if self.is_named else []

    def model_text(self):
        remarks = ["\n"] * 20 + ["  # a remark; with : = and 'marks\n", " /* two\n lines */\n", " "]
        text = f"# Seed {self.seed}.\n" + "".join(
            declaration.text() + self.rng.choice(remarks) for declaration in self.layout.declared
        )
        if self.rng.random() < 0.3:
            for mark in MARKS:
                # No text of a set has one of these with its blanks.
                text = text.replace(f" {mark} ", mark)
        return self.with_ends(text)

    def data_text(self):
        return self.with_ends(Tables(self.rng).text(self.layout.declared))

    def with_ends(self, text):
        """Lines with a carriage return, at times."""
        return text.replace("\n", "\r\n") if self.rng.random() < 0.05 else text

    def twin(self):
        """The same in MathProg: arcs are variables, nodes constraints."""
        layout = self.layout
        out = [
            declaration.twin() for declaration in layout.declared if isinstance(declaration, (SetDecl, Param, Check))
        ]
        out += [arc.twin() for arc in layout.arcs]
        out += [self.chosen.twin(layout.arcs)] + [node.twin(layout.arcs) for node in layout.nodes]
        return (
            "".join(statement + "\n" for statement in out) + "solve;\ndata;\n" + twin_text(layout.declared) + "end;\n"
        )
