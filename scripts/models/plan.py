"""A plan that was chosen before the numbers of the nodes, so that there is one; and models spoiled on purpose."""
import collections

from models.declarations import NetCondition
from models.expressions import Member


def chosen_plan(instance, ranges, rng):
    """Numbers within the bounds, which meet the nodes' ranges as far as that is found."""
    plan = [rng.randint(arc.low, arc.high) for arc in instance.arcs]
    for _ in range(400):
        sums = instance.inflows(plan)
        place = next((place for place, (low, high) in enumerate(ranges) if not low <= sums[place] <= high), None)
        if place is None:
            break
        low, high = ranges[place]
        path = way(instance, plan, ranges, sums, place, sums[place] > high)
        if path is None:
            break
        for number, step in path:
            plan[number] += step
    return plan


def way(instance, plan, ranges, sums, start, is_over):
    """A path on which one unit less comes into the node, or one more: (arc, step) pairs; None if there is none."""
    # A step moves a unit away from the node, or to it if it lacks one.
    seen: dict = {start: None}
    line = collections.deque([start])
    while line:
        place = line.popleft()
        low, high = ranges[place]
        if place != start and (sums[place] < high if is_over else sums[place] > low):
            return walked(seen, place)
        for number, arc in enumerate(instance.arcs):
            for here, there, step in ((arc.src, arc.dst, 1), (arc.dst, arc.src, -1)):
                step = step if is_over else -step
                if here != place or arc.src == arc.dst or not arc.low <= plan[number] + step <= arc.high:
                    continue
                if there is None:
                    return walked(seen, place) + [(number, step)]
                if there not in seen:
                    seen[there] = (place, number, step)
                    line.append(there)
    return None


def walked(seen, place):
    steps = []
    while seen[place]:
        before, number, step = seen[place]
        steps.append((number, step))
        place = before
    return steps[::-1]


FAR = 10**6


def fixed_ranges(instance):
    """Returns the ranges that the plan must meet; with a free parameter any net inflow will do."""
    ranges = []
    for decl in instance.decls:
        for _, env in decl.steps:
            if decl.free:
                ranges.append((-FAR, FAR))
            else:
                low, high = decl.condition.range(env) if decl.condition else (0, 0)
                ranges.append((-FAR if low is None else low, FAR if high is None else high))
    return ranges


def relax(instance, plan, rng):
    """Widens conditions that the plan does not meet, as a range of two numbers, for most of the nodes."""
    sums, place = instance.inflows(plan), 0
    ranges = fixed_ranges(instance)
    for decl in instance.decls:
        here = range(place, place + len(decl.keys))
        place += len(decl.keys)
        if all(ranges[place][0] <= sums[place] <= ranges[place][1] for place in here) or rng.random() < 0.15:
            continue
        low, high = min(sums[place] for place in here), max(sums[place] for place in here)
        sides = [("<=", Member(low), True), ("<=", Member(high), False)] if low < high else [("=", Member(low), False)]
        decl.condition = NetCondition("net_in", [(1, None)], sides)


def decide_free(instance, plan, rng, is_spoiled):
    """Gives the free parameters the values at which the plan meets the nodes' conditions; spoiled ones something
    else."""
    sums, place = instance.inflows(plan), 0
    for decl in instance.decls:
        for key, env in decl.steps:
            if decl.free:
                decide_node(decl, env, key, sums[place], rng, is_spoiled and rng.random() < 0.4)
            place += 1
        for free in decl.free or []:
            free.param.fill()


def decide_node(decl, env, key, inflow, rng, is_spoiled):
    condition = decl.condition
    middle = (
        condition.base(env)
        + condition.sign() * inflow
        + (rng.choice([-1, 1]) * rng.randint(1, 40) if is_spoiled else 0)
    )
    for (operator, _, is_left), free in zip(condition.sides, decl.free):
        operator = {"<=": ">=", ">=": "<="}.get(operator, operator) if is_left else operator
        slack = rng.choice([0, 0, 1, 3, 10])
        side = middle + {"=": 0, "<=": slack, ">=": -slack}[operator]
        free.param.rows = free.param.rows or {}
        free.param.rows[key] = side - (free.more.value(env) if free.more else 0)
