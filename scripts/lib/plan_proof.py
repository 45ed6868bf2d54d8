"""The check of a plan by its prices, from what netflow prints alone (docs/guide/check-a-plan.md)."""
import re

# A member of a printed key: a text in quotes, or a number.
MEMBER = re.compile(r"'(?:[^']|'')*'|[^ ]+")


def numbers(text):
    """Returns the numbers of a plan or of prices by the name of their node or arc, as `compile` writes it."""
    found, table = {}, ""
    for line in text.splitlines():
        left, value = line.rsplit(" ", 1) if " " in line else ("", line)
        if value == ":=":
            table = left
        elif table and line != ";":
            found[f"{table}[{','.join(MEMBER.findall(left))}]"] = int(value)
        elif not table:
            found[left[: -len(" =")]] = int(value)
        table = "" if line == ";" else table
    return found


def faults(compiled, answer):
    """Returns what is wrong with a plan and its prices, which `solve --prices` printed for this compiled model."""
    lines = compiled.splitlines()
    sign = next(int(line.split()[2]) for line in lines if line.startswith("c sign "))
    constant = next(int(line.split()[2]) for line in lines if line.startswith("c constant "))
    nodes = [line.split(" ", 3)[3] for line in lines if line.startswith("c node ")]
    links = [line.split(" ", 4)[3:] for line in lines if line.startswith("c arc ")]
    arcs = [list(map(int, line.split()[1:])) for line in lines if line.startswith("a ")]
    supplies = {int(line.split()[1]): int(line.split()[2]) for line in lines if line.startswith("n ")}
    plan, rest = answer.split("\nprices\n")
    prices, costs = map(numbers, rest.split("reduced costs\n"))
    (value, *_), flows = numbers(plan).values(), dict(list(numbers(plan).items())[1:])
    price = [*(prices[name] for name in nodes), 0]
    wrong, total, out = [], constant, [0] * len(price)
    for number, (src, dst, low, cap, cost) in enumerate(arcs):
        if number < len(links):
            # An arc of the model: its flow in the problem lacks the offset, its cost is the coefficient, or minus it.
            offset, name = int(links[number][0]), links[number][1]
            flow, reduced = flows[name] - offset, sign * costs[name]
            wrong += [f"{name}: reduced cost"] * (reduced != cost + sign * (price[src - 1] - price[dst - 1]))
        else:
            # The slack arc of a node, which takes what arrives above the low side: all that is left to balance it.
            name, flow, reduced = nodes[src - 1], supplies.get(src, 0) - out[src - 1], sign * price[src - 1]
        wrong += [f"{name}: out of bounds"] * (not low <= flow <= cap)
        wrong += [f"{name}: not at the bound of its price"] * (
            reduced > 0 and flow != low or reduced < 0 and flow != cap
        )
        total += sign * cost * flow
        out[src - 1] += flow
        out[dst - 1] -= flow
    wrong += [f"{name}: not balanced" for at, name in enumerate(nodes) if out[at] != supplies.get(at + 1, 0)]
    return wrong + ["the value"] * (total != value)
