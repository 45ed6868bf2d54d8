"""What netflow-why says, compared with the answers to changed data: the least change gives a plan, and prices are
exact."""
import math
import random

import pytest

from netflow.analysis import changes as netflow_changes
from netflow.analysis import reasons as netflow_reasons
from netflow.analysis import sensitivity
from netflow.reading import keys, output
from support import run, write

PLAIN = """set P; set L within P cross P; param low {P}; param high {P}; param least {L}; param most {L}; param price {L};
minimize Cost;
node At {p in P}: low[p] <= net_in <= high[p];
arc Go {(i,j) in L} >= least[i,j], <= most[i,j], from At[i], to At[j], obj Cost price[i,j];
arc In >= -2, <= 3, to At['a'], obj Cost 1;
"""


class Plain:
    """A random network whose numbers can be changed one by one."""

    def __init__(self, seed):
        dice, places = random.Random(f"plain {seed}"), "abcdef"
        self.nodes = {}
        for place in places:
            low = dice.randint(-6, 5)
            self.nodes[place] = [low, low + dice.choice((0, 0, 2, 6))]
        self.arcs = {}
        for pair in dice.sample([(i, j) for i in places for j in places if i != j], 14):
            least = dice.choice((0, 0, 0, 1, -3))
            self.arcs[pair] = [least, least + dice.randint(0, 9), dice.randint(-2, 9)]

    def solve(self, folder):
        """The model's words, and its answer."""
        rows = "".join(f"{node} {low} {high}\n" for node, (low, high) in self.nodes.items())
        ways = "".join(f"{i} {j} {' '.join(map(str, numbers))}\n" for (i, j), numbers in self.arcs.items())
        text = (
            f"set P := {' '.join(self.nodes)};\nparam: low high :=\n{rows};\nparam: L: least most price :=\n{ways};\n"
        )
        words = (write(folder, "p.mod", PLAIN), write(folder, "p.dat", text))
        return words, run("netflow", "solve", *words)

    def take(self, change):
        """Makes a change in the data; False if it is one of the arc that the model itself bounds."""
        name, key = keys.reference(change.text)
        if name == "In":
            return False
        target, place = (
            (self.nodes[key[0]], None)
            if name == "At"
            else (self.arcs[tuple(key)], 1 if change.what == "at most" else 0)
        )
        if place is None and target[0] == target[1]:
            target[:] = [change.becomes if change.what == "needs" else -change.becomes] * 2
            return True
        if place is None:
            place = 0 if change.what in ("needs", "gives at most") else 1
            becomes = change.becomes if change.what in ("needs", "takes at most") else -change.becomes
        else:
            becomes = change.becomes
        target[place] = becomes
        return True


def test_least_changes(tmp_path, seed):
    """Each least change that is listed, made in the data, gives a plan."""
    words, (status, text, _) = Plain(seed).solve(tmp_path)
    said = run("netflow-why", *words, "--all")
    assert said[0] == status, f"plain {seed}: status of netflow-why"
    if status != 2:
        return
    net = output.read_compiled(run("netflow", "compile", *words)[1])
    net.cut = output.read_cut(text, net)
    found = netflow_reasons.all_reasons(net, *net.cut)
    assert (
        netflow_reasons.cut_besides(net, found) is None
    ), f"plain {seed}: sets that are short besides those that are listed"
    assert len({(found_item.side, *found_item.nodes) for found_item in found}) == len(
        found
    ), f"plain {seed}: sets that are listed twice"
    short = max(found_item.short() for found_item in found)
    assert (
        f"{short} short" in said[1] or f"{short} too much" in said[1]
    ), f"plain {seed}: {short} is not reported as short"
    least = netflow_changes.least_changes(net)
    assert (
        sum(change.amount != min_total(least) for change in least.single) == 0
    ), f"plain {seed}: changes at one place are no least changes"
    for what, changes in [*least.kinds.items(), *(("at one place", [change]) for change in least.single)]:
        assert (
            changes is None or sum(change.amount for change in changes) >= short
        ), f"plain {seed}: {what}: less than is short"
        other = Plain(seed)
        if changes and all([other.take(change) for change in changes]):
            assert (
                other.solve(tmp_path)[1][0] == 0
            ), f"plain {seed}: {what}: with {[change.sentence() for change in changes]}"


def min_total(least):
    return min((sum(change.amount for change in changes) for changes in least.kinds.values() if changes), default=None)


def value(answer):
    return int(answer[1].splitlines()[0].split(" = ")[1]) if answer[0] == 0 else None


def test_prices(tmp_path, seed):
    """What one more unit costs or saves, compared with the plan of the changed data: exactly, and no plan if it says
    so."""
    words, answer = Plain(seed).solve(tmp_path)
    if answer[0]:
        return
    net = output.read_compiled(run("netflow", "compile", *words)[1])
    plan, net.prices_text = output.split_prices(run("netflow", "solve", "--prices", *words)[1])
    assert plan == answer[1]
    output.read_plan(plan, net)
    output.read_prices(net)
    marginal = sensitivity.Marginal(net)
    for number, node in enumerate(net.nodes):
        check_place(tmp_path, seed, net, node, marginal.more[number], marginal.less[number])
        check_range(tmp_path, seed, net, number, marginal)
    for arc in net.arcs:
        if arc.name == "Go" and (arc.is_full() or arc.is_lowest()):
            gain, units = sensitivity.arc_change(net, marginal.residual, arc), sensitivity.arc_units(
                marginal.residual, arc
            )
            limit = 20 if units == math.inf else units
            for count, wanted in {1: gain, limit: limit * gain}.items() if gain else [(1, 0)]:
                other = Plain(seed)
                other.arcs[tuple(arc.key)][1 if arc.is_full() else 0] += count if arc.is_full() else -count
                assert (
                    value(other.solve(tmp_path)[1]) == net.value - wanted
                ), f"plain {seed}: {arc.text}, {count} past the bound"


def check_range(folder, seed, net, number, marginal):
    """The price of a place with one amount holds for as many units as it says, and is greater, or there is no plan, one
    unit later."""
    node, cost = net.nodes[number], marginal.more[number]
    units = marginal.units_more(number) if cost is not None else math.inf
    if node.low != node.high or units == math.inf:
        return
    values = []
    for count in (units, units + 1):
        other, key = Plain(seed), keys.reference(node.text)[1][0]
        other.nodes[key] = [node + count for node in other.nodes[key]]
        values.append(value(other.solve(folder)[1]))
    assert values[0] == net.value + units * cost, f"plain {seed}: {node.text}, {units} more"
    assert (
        values[1] is None or values[1] > net.value + (units + 1) * cost
    ), f"plain {seed}: {node.text}: the price holds for more than {units}"


def check_place(folder, seed, net, node, more, less):
    """One more unit, and one less, of a place's need; at a side of a range that side alone is moved."""
    key = keys.reference(node.text)[1][0]
    moves = []
    if node.low == node.high:
        moves = [((1, 1), more, None), ((-1, -1), less, None)]
    elif node.inflow == node.low and node.has_low():
        moves = [((1, 0), more, max)]
    elif node.inflow == node.high and node.has_high():
        moves = [((0, 1), more, min)]
    for (low, high), cost, side in moves:
        other = Plain(seed)
        other.nodes[key] = [other.nodes[key][0] + low, other.nodes[key][1] + high]
        if side is min and cost is None:
            cost = 0
        wanted = None if cost is None else net.value + (side(0, cost) if side else cost)
        assert (
            value(other.solve(folder)[1]) == wanted
        ), f"plain {seed}: {node.text} {node.wish()}, moved by {low} and {high}"


# The usual shapes of models without a plan, and what has to be said of each, worked out by hand.
SHAPES = (
    (
        "too little in all",
        """minimize C; node Depot {d in 1..2}: net_out <= (if d = 1 then 200 else 120);
node Shop {s in 1..3}: net_in = (if s = 1 then 200 else if s = 2 then 160 else 100);
arc X {d in 1..2, s in 1..3} >= 0, <= 900, from Depot[d], to Shop[s];
""",
        (
            "All 5 places together: 460 needed, 320 can come at most: 140 short",
            "200 Depot[1]",
            "plan: 140 units at one place. Any one of these is enough: Shop[1]: needs 60 in place of 200 ",
            "Depot[2]: gives at most 260 in place of 120",
            "carry: none is enough",
        ),
    ),
    (
        "a closed way",
        """minimize C; node Depot: net_out <= 90; node Shop: net_in = 15;
arc X {i in 1..2} >= 0, <= 0, from Depot, to Shop;
""",
        (
            "Shop: 15 needed, 0 can come at most: 15 short",
            "0 by X[1] from Depot, which carries 0 to 0",
            (
                "plan: 15 units at one place. Any one of these is enough: X[1]: at most 15 in place of 0 X[2]: at most"
                " 15 in place of 0 Shop: needs 0 in place of 15"
            ),
        ),
    ),
    (
        "lower bounds that clash",
        """minimize C; node A: net_out >= 0; node Store: 0 <= net_in <= 60;
arc X >= 35, <= 40, from A, to Store; arc Y >= 30, <= 50, from A, to Store;
""",
        (
            "Store: 65 there at least, room for 60 at most: 5 too much",
            "35 by X from A, which carries 35 to 40",
            (
                "enough: Store: takes at most 65 in place of 60 X: at least 30 in place of 35 Y: at least 25 in place"
                " of 30 ("
            ),
        ),
    ),
    (
        "an arc the wrong way round",
        """minimize C; node Depot: net_out <= 50; node Shop: net_in = 50;
arc X >= 0, <= 70, from Shop, to Depot;
""",
        (
            "Shop: 50 needed, 0 can come at most: 50 short",
            "no arc leads in, and nothing else helps",
            "is one reversed? or is net_out meant instead of net_in?",
            "X to Depot",
            "No plan. Shop needs units, but no arc leads in. Is the direction of X reversed?",
        ),
    ),
    (
        "net_out for net_in at all customers",
        """minimize C; node Depot {d in 1..2}: net_out <= 90; node Shop {s in 1..3}: net_out = 20 * s;
arc X {d in 1..2, s in 1..3} >= 0, <= 40, from Depot[d], to Shop[s];
""",
        (
            (
                "No plan. Shop: each of its 3 places gives units, but no arc leads out. Is net_in meant instead of"
                " net_out in the condition of Shop? "
            ),
        ),
    ),
    (
        "net_in for net_out at all depots",
        """minimize C; node Depot {d in 1..2}: net_in = 30; node Shop {s in 1..3}: net_in = 20;
arc X {d in 1..2, s in 1..3} >= 0, <= 40, from Depot[d], to Shop[s];
""",
        (
            (
                "No plan. Depot: each of its 2 places needs units, but no arc leads in. Is net_out meant instead of"
                " net_in in the condition of Depot? "
            ),
        ),
    ),
    (
        "the sign of all nodes",
        """minimize C; node City {i in 1..3}: net_in = (if i = 1 then 30 else -15); arc X {i in 2..3} >= 0, <= 40, from
        City[1], to City[i];
        """,
        (
            (
                "No plan. City: each of its 3 places either gives units, but no arc leads out, or needs units, but no"
                " arc leads in. Is the sign in the condition of City wrong? "
            ),
        ),
    ),
    (
        "one number of many",
        """minimize C; node Depot {d in 1..2}: net_out <= 55; node Shop {s in 1..6}: net_in = (if s = 3 then 60 else
        17); arc X {d in 1..2, s in 1..6} >= 0, <= 55, from Depot[d], to Shop[s];
        """,
        (
            (
                "plan: 35 units at one place. Any one of these is enough: Shop[3]: needs 25 in place of 60 Depot[1]:"
                " gives at most 90 in place of 55 Depot[2]: gives at most 90 in place of 55 of what arcs may carry:"
                " none is enough"
            ),
        ),
    ),
    (
        "places that get nothing",
        """minimize C; node Student {s in 1..4}: net_in = 1; arc X {s in 1..4} >= 0, <= (if s <= 2 then 0 else 1), to
        Student[s];
        """,
        ("need and give: 2 in all. 2 places would get nothing: Student[1], Student[2]", "carry: none is enough"),
    ),
    (
        "two units",
        """minimize C; node Depot: net_out <= 10; node Shop: net_in = 5000;
arc X >= 0, <= 6, from Depot, to Shop; arc Y >= 0, <= 4, from Depot, to Shop;
""",
        (
            "Shop: 5000 needed, 10 can come at most: 4990 short",
            "6 by X from Depot",
            "plan: 4990 units at one place: Shop: needs 10 in place of 5000 of what",
        ),
    ),
    (
        "a choice is no bound",
        """minimize C; node Nurse {n in 1..2}: net_out <= 1; node Day {d in 1..3}: net_in = 1;
arc Works {n in 1..2, d in 1..3} >= 0, <= 1, from Nurse[n], to Day[d];
""",
        (
            "All 5 places together: 3 needed, 2 can come at most: 1 short",
            "carry: none is enough",
            (
                "1 unit at one place. Any one of these is enough: Nurse[1]: gives at most 2 in place of 1 Nurse[2]:"
                " gives at most 2 in place of 1 Day[1]: needs 0"
            ),
        ),
    ),
    (
        "two shortages",
        """minimize C; node Depot: net_out <= 100; node Shop {s in 1..2}: net_in = 40;
arc X {s in 1..2} >= 0, <= 10 * s, from Depot, to Shop[s];
""",
        ("arcs may carry: 50 in all", "30 X[1]: at most 40 in place of 10", "20 X[2]: at most 40 in place of 20"),
    ),
    (
        "a shortage that hides a larger one",
        """minimize C; node Depot: net_out <= 100; node Shop {s in 1..3}: net_in = (if s = 1 then 90 else 20);
arc X {s in 1..3} >= 0, <= 80, from Depot, to Shop[s];
""",
        (
            "All 4 places together: 130 needed, 100 can come at most: 30 short",
            "Shop[1]: 90 needed, 80 can come at most: 10 short",
            "plan: 30 units at one place: Shop[1]: needs 60 in place of 90 of what",
        ),
    ),
    (
        "one number that is too large",
        """minimize C; node Depot {d in 1..3}: net_out <= 20; node Shop {s in 1..6}: net_in = (if s = 5 then 65 else 8);
arc X {d in 1..3, s in 1..6} >= 0, <= 20, from Depot[d], to Shop[s];
""",
        (
            "All 9 places together: 105 needed, 60 can come at most: 45 short",
            "Shop[5]: 65 needed, 60 can come at most: 5 short",
            "plan: 45 units at one place: Shop[5]: needs 20 in place of 65 of what",
        ),
    ),
    (
        "a contract that cannot be met",
        """minimize C; node Plant: net_out <= 100; node Hall; node Shop: net_in <= 100;
arc X >= 0, <= 1, from Plant, to Hall; arc Y >= 2, <= 9, from Hall, to Shop;
""",
        (
            "Hall: 2 needed, 1 can come at most: 1 short",
            "2 by Y to Shop, which carries 2 to 9",
            "1 by X from Plant, which carries 0 to 1",
            "pass on what they get: Hall",
            (
                "1 unit at one place. Any one of these is enough: X: at most 2 in place of 1 Y: at least 1 in place of"
                " 2 of what"
            ),
        ),
    ),
    (
        "an equation that gives too little",
        """minimize C; node Plant: net_out = 5; arc X >= 16, <= 20, from Plant;
""",
        (
            (
                "plan: 11 units at one place. Any one of these is enough: Plant: gives 16 in place of 5 X: at least 5"
                " in place of 16 ("
            ),
        ),
    ),
    (
        "an equation that takes too little",
        """minimize C; node Shop: net_in = 60; arc X >= 65, <= 70, to Shop;
""",
        (
            (
                "plan: 5 units at one place. Any one of these is enough: Shop: needs 65 in place of 60 X: at least 60"
                " in place of 65 ("
            ),
        ),
    ),
)

# Models with a plan, and what has to be said of the arcs at their bounds.
PLANS = (
    (
        "no arc at a bound",
        """minimize C; node Shop: net_in = 5; arc X >= 0, <= 9, to Shop, obj C 1; arc Y >= 0, <= 9, to Shop, obj C 2;
""",
        ("No arc is full, and none is at a lower bound other than 0.",),
    ),
    (
        "two full arcs in a row",
        """minimize C; node Hall; node Shop: net_in = 7;
arc X >= 0, <= 5, to Hall; arc Z >= 0, <= 5, from Hall, to Shop, obj C 1; arc Y >= 0, <= 9, to Shop, obj C 3;
""",
        ("Arcs at a bound: 2 of 3. Arcs at their lower bound 0 are not counted.", "A wider bound saves nothing at: "),
    ),
    (
        "ends without an upper condition",
        """maximize F; node S: net_out >= 0; node T: net_in >= 0;
arc X >= 0, <= 5, from S, to T, obj F 1;
""",
        ("Bottleneck: 1 arc, 5 in all", "1 X at its most, 5; holds for any number"),
    ),
)


@pytest.mark.parametrize(
    "code, model, parts",
    [
        *(pytest.param(2, model, parts, id=name) for name, model, parts in SHAPES),
        *(pytest.param(0, model, parts, id=name) for name, model, parts in PLANS),
    ],
)
def test_shape(tmp_path, code, model, parts):
    status, text, stderr = run("netflow-why", write(tmp_path, "shape.mod", model), "/dev/null")
    assert (status, stderr) == (code, "")
    for part in parts:
        assert part in " ".join(text.split())


def test_one_shortage_between_two_places_is_reported_once(tmp_path):
    model = "minimize C; node Plant: net_out = 10; node Shop: net_in = 10; arc X >= 0, <= 6, from Plant, to Shop;\n"
    lines = run("netflow-why", write(tmp_path, "mirror.mod", model))[1].split("\n")
    assert sum(line.endswith((": 4 short", ": 4 too much")) for line in lines) == 1


def test_random_networks_vary(tmp_path):
    """Many of the random networks have a plan, and many have none, so that both kinds of tests try something."""
    statuses = [Plain(seed).solve(tmp_path)[1][0] for seed in range(60)]
    assert min(statuses.count(0), statuses.count(2)) >= 15
