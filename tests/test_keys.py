"""No output depends on the key of the hashes, which the program draws anew in each run: tables keep the order in which
their keys came."""
import random

import pytest

from support import run, write

MODELS = 200
RUNS = 10
# Sets of both kinds of members and their operators, a table, data by row, a link for each pair that has a cost.
MODEL = """set A; set B; set LINKS dimen 2;
set C := A union B; set D := A symdiff B; set E := C diff (A inter B);
param cost {C, B} default 3; param most {LINKS} >= 0;
node N {C}: -9 <= net_in <= 9; node M {D}; node L {E};
minimize Total;
arc X {i in A, j in B: i != j} >= 0, <= 2, from N[i], to N[j], obj Total cost[i, j];
arc Y {(i, j) in LINKS} >= 0, <= most[i, j], from N[i], to N[j];
arc Z {i in D, j in E: sum {k in B} cost[j, k] > 100} >= 0, <= 1, from M[i], to L[j];
"""


def member(name):
    return str(name) if isinstance(name, int) else f"'{name}'"


def drawn(seed):
    """Returns data of this model, and the members of A and B."""
    choose = random.Random(seed)
    names = [*choose.sample(range(-500, 500), 40), *(f"n{number:x}" for number in choose.sample(range(10**6), 40))]
    first, second = choose.sample(names, 30), choose.sample(names, 30)
    both = list(dict.fromkeys([*first, *second]))
    links = choose.sample([(i, j) for i in both for j in both], 60)
    rows = choose.sample([(i, j) for i in both for j in second], 90)
    text = "".join(
        f"set {name} := {' '.join(map(member, members))};\n" for name, members in (("A", first), ("B", second))
    )
    text += "param: LINKS: most :=\n" + "".join(f"{member(i)} {member(j)} {choose.randint(0, 5)}\n" for i, j in links)
    text += ";\nparam cost :=\n" + "".join(f"{member(i)} {member(j)} {choose.randint(0, 9)}\n" for i, j in rows)
    return text + ";\n", first, second


@pytest.mark.parametrize("number", range(MODELS))
def test_runs_agree(tmp_path, number):
    data, first, second = drawn(number)
    words = write(tmp_path, "m.mod", MODEL), write(tmp_path, "m.dat", data)
    answers = {run("netflow", "compile", *words) for _ in range(RUNS)}
    assert len(answers) == 1
    status, text, _ = answers.pop()
    assert status == 0
    labels = [line.split(" ", 3)[3] for line in text.splitlines() if line.startswith("c node ")]
    in_order = dict.fromkeys([*first, *second])
    assert [label for label in labels if label.startswith("N[")] == [f"N[{member(name)}]" for name in in_order]
    once = [name for name in in_order if (name in first) != (name in second)]
    assert sorted(label for label in labels if label.startswith("M[")) == sorted(f"M[{member(name)}]" for name in once)
