"""Hard networks for `scripts/check_solver --hard`: each is solved within a limit of work units, and its certificate is
checked."""
import re
import resource
import subprocess
from typing import NamedTuple, Optional

from lib.measuring import BENCH, MEASURE

# The most work units for each node and arc, by family: twice the most that were seen in 600 mixtures and three networks
# of each other family.
LIMITS = {
    "mixture": 1_400,
    "hub_excess": 170,
    "path_par": 1_010,
    "path_two": 2_910,
    "near_flow": 7_220,
    "near_cut": 50,
    "grid_50": 2_330,
    "grid_250": 1_830,
    "grid_4000": 1_640,
    "negative": 2_630,
    "tight": 1_590,
}
# The most processor time of solving for each node, in microseconds: many times what any family takes. It only ends runs
# that do not return.
MICROSECONDS = 5_000
# A few nodes below the limit of a problem: some families have more than they are asked for.
SIZE = 19_900


class Network(NamedTuple):
    """The words of bench/make_network."""

    family: str
    size: int
    seed: int

    def __str__(self):
        return f"{self.family} {self.size} {self.seed}"


class Solved(NamedTuple):
    """What solving took: microseconds of processor time, work units, whether the heuristics came to their end."""

    microseconds: int
    work: int
    is_done: bool


def networks(count, rng):
    """Returns random mixtures, and one network of each other family."""
    mixtures = [Network("mixture", rng.randint(100, 4_000), rng.randrange(10**9)) for _ in range(count)]
    return mixtures + [Network(family, SIZE, rng.randrange(10**9)) for family in LIMITS if family != "mixture"]


def run(words, seconds, statuses=(0,), out=subprocess.PIPE):
    """Runs a program; returns None if it ends with another status or takes too long."""
    try:
        done = subprocess.run(list(map(str, words)), stdout=out, stderr=subprocess.PIPE, check=False, timeout=seconds)
    except subprocess.TimeoutExpired:
        return None
    return done if done.returncode in statuses else None


def solve(network, path) -> Optional[Solved]:
    """Solves a network by Plain; returns None if that fails or takes much too long."""
    done = run([MEASURE, "plain", path], 60 + MICROSECONDS * network.size / 1e5)
    said = done.stderr.decode() if done is not None else ""
    work = re.search(r"simplex (\d+), preflow (\d+) work units, (\w+)", said)
    spent = re.search(r"(\d+) us", said)
    if work is None or spent is None:
        return None
    return Solved(int(spent[1]), int(work[1]) + int(work[2]), work[3] == "done")


def size_of(path):
    """Returns the number of nodes and arcs of a problem together."""
    with open(path, encoding="ascii") as file:
        for line in file:
            if line.startswith("p "):
                return sum(map(int, line.split()[2:4]))
    return 0


def is_certified(program, path):
    """Returns whether `netflow check` accepts the certificate that `netflow min` writes, a flow or a cut."""
    certificate = path.with_suffix(".sol")
    with open(certificate, "wb") as out:
        written = run([program, "min", path], 120, (0, 2), out)
    checked = run([program, "check", path, certificate], 120)
    return written is not None and checked is not None and checked.stdout == b"yes\n"


def seconds_of_children():
    """Returns the processor time of all programs that have ended."""
    usage = resource.getrusage(resource.RUSAGE_CHILDREN)
    return usage.ru_utime + usage.ru_stime


def complaint(network, solved, size) -> Optional[str]:
    """Returns what is wrong with what solving a network of so many nodes and arcs took, or None."""
    limit = LIMITS[network.family]
    if solved is None or solved.microseconds > MICROSECONDS * network.size:
        return f"not solved in {MICROSECONDS} microseconds a node"
    if solved.work > limit * size:
        return f"{solved.work / size:.0f} work units for each node and arc, more than {limit}"
    if not solved.is_done:
        return "the heuristics stopped before the end"
    return None


def check(path, program, count, rng):
    """Solves and certifies the networks one by one; returns the exit status."""
    total, certifying = 0, 0.0
    most: dict[str, float] = {}
    chosen = networks(count, rng)
    for network in chosen:
        with open(path, "wb") as out:
            subprocess.run([BENCH / "make_network", *map(str, network)], stdout=out, check=True)
        solved, size = solve(network, path), size_of(path)
        before = seconds_of_children()
        wrong = complaint(network, solved, size)
        if wrong is None and not is_certified(program, path):
            wrong = "netflow check does not accept the certificate of netflow min"
        certifying += seconds_of_children() - before
        if wrong is not None:
            print(f"check_solver: make_network {network}: {wrong}")
            return 1
        total += solved.microseconds
        most[network.family] = max(most.get(network.family, 0), solved.work / size)
    counts = ", ".join(f"{family} {work:.0f}" for family, work in most.items())
    print(f"check_solver: most work units for each node and arc: {counts}")
    print(
        f"check_solver: {len(chosen)} hard networks solved in {total / 1e6:.1f} s of processor time, each within its "
        f"limit, each certificate accepted; netflow min and check took {certifying:.1f} s besides"
    )
    return 0
