"""Compares netflow's answers to a model with the model's own network."""
import re

from models.expressions import shown
from models.instance import reference


class Wrong(Exception):
    """An answer that is not what the model says; the text says how."""


def wanted(is_right, says):
    if not is_right:
        raise Wrong(says)


def number_of(text):
    wanted(re.fullmatch(r"0|-?[1-9][0-9]*", text), f"{text!r} is no plain decimal")
    return int(text)


def after(line, prefix):
    wanted(line.startswith(prefix), f"{line!r}: the line should begin with {prefix!r}")
    return number_of(line[len(prefix) :])


def plan_of(text, model):
    """The displayed value, and the number of each arc."""
    wanted(text.endswith("\n"), "a plan without its last line end")
    lines = iter(text[:-1].split("\n"))
    value, plan = after(next(lines), f"{model.instance.objective} = "), []
    for decl in model.layout.arcs:
        if decl.braces is None:
            plan.append(after(next(lines, ""), f"{decl.name} = "))
            continue
        line = next(lines, "")
        wanted(line == f"{decl.name} :=", f"{line!r}: the arcs of {decl.name} should begin here")
        for key in decl.keys:
            plan.append(after(next(lines, ""), "".join(f"{shown(part)} " for part in key)))
        wanted(next(lines, "") == ";", f"the arcs of {decl.name} do not end with ';'")
    wanted(next(lines, None) is None, "lines after the last arc")
    return value, plan


def check_plan(text, model):
    """The plan keeps bounds and conditions, and is worth what is said; the value."""
    value, plan = plan_of(text, model)
    instance = model.instance
    for arc, number in zip(instance.arcs, plan):
        wanted(arc.low <= number <= arc.high, f"{reference(arc)} is {number}, not from {arc.low} to {arc.high}")
    for node, inflow in zip(instance.nodes, instance.inflows(plan)):
        is_met = (node.low is None or node.low <= inflow) and (node.high is None or inflow <= node.high)
        wanted(is_met, f"{reference(node)} gets {inflow}, not from {node.low} to {node.high}")
    wanted(value == instance.worth(plan), f"the value is {value}, and the plan is worth {instance.worth(plan)}")
    return value


def check_cut(text, model, form):
    """The set of nodes supplies what is said, and its arcs allow what is said, which is too little or too much."""
    lines = text.split("\n")
    wanted(lines[0] == "infeasible" and lines[-1] == "" and len(lines) > 2, "no cut")
    found = re.fullmatch(r"(over|under) (\S+) (\S+)", lines[1])
    wanted(found, f"{lines[1]!r} says no sums of a cut")
    names = [f"node {reference(node)}" for node in model.instance.nodes] + ["outside"]
    places, last = set(), -1
    for line in lines[2:-1]:
        wanted(line in names and names.index(line) > last, f"{line!r} is no node, or not in its order")
        last = names.index(line)
        places.add(last)
    supply, most, least = form.across(places)
    said, allowed = number_of(found[2]), number_of(found[3])
    wanted(said == supply, f"the set supplies {supply}, not {said}")
    wanted(
        allowed == (most if found[1] == "over" else least),
        f"the arcs allow {most} at most and {least} at least, not {allowed}",
    )
    wanted(supply > most if found[1] == "over" else supply < least, f"{lines[1]!r} shows nothing")


def check_solve(call, model, best, form, words):
    """Checks the answer of `solve`. `best` is the correct value, or None if there is no plan; `words` choose the form
    of the problem."""
    status, text, stderr = call(["solve", "model.mod", "model.dat", *model.words(), *words])
    wanted(status in (0, 2) and not stderr, f"solve: status {status}: {stderr.strip()}")
    said = "no plan" if best is None else best
    wanted((status == 0) == (best is not None), f"solve: status {status}, but glpsol finds {said}")
    if status == 2:
        check_cut(text, model, form)
        return
    value = check_plan(text, model)
    wanted(value == best, f"solve: {value}, but glpsol finds {best}")


def check_compile(call, model, best, form, words, keep):
    """The text is the model's problem in this form, line by line; and what `min` finds of it leads to the same
    value."""
    status, text, stderr = call(["compile", "model.mod", "model.dat", *model.words(), *words])
    wanted(status == 0 and not stderr, f"compile: status {status}: {stderr.strip()}")
    keep("model.min", text)
    whole = form.links(model.instance) + form.text()
    for line, right in zip(text.split("\n"), whole.split("\n")):
        wanted(line == right, f"compile: {line!r}, but {right!r} is correct")
    wanted(text == whole, "compile: a text of another length")
    status, text, stderr = call(["min", "model.min"])
    wanted(status == (2 if best is None else 0) and not stderr, f"min: status {status}: {stderr.strip()}")
    if best is not None:
        cost = after(text.split("\n")[0], "s ")
        value = form.constant + form.sign * cost
        wanted(value == best, f"min: the cost {cost} leads to {value}, but glpsol finds {best}")
