"""How long a build will take: from the stored costs of the crates, the speed of the machine so far, and the order of
the build.

scripts/lib/build_costs.txt has the processor seconds that each crate took in one build from nothing. The same crates
take up to twice as long on another machine, or on a busy one; the crates that have ended say how much longer they take
here and now."""
from lib.command import TOP

COSTS = TOP / "scripts" / "lib" / "build_costs.txt"
HEAD = "# Processor seconds of each crate in a build from nothing. Written by scripts/build --save-costs.\n"
# The part of a crate's work that several processes share; the rest, such as reading the crate, each does alone.
SHARED = 0.85
# Processor seconds of ended crates from which the speed of the machine can be told.
ENOUGH = 20


def read(path=COSTS):
    """Returns the processor seconds of each crate."""
    if not path.exists():
        return {}
    lines = [
        line.split() for line in path.read_text(encoding="utf-8").splitlines() if line and not line.startswith("#")
    ]
    return {name: float(seconds) for name, seconds in lines}


def save(costs, path=COSTS):
    path.write_text(
        HEAD + "".join(f"{name} {seconds:.0f}\n" for name, seconds in sorted(costs.items())), encoding="utf-8"
    )


class Forecast:
    """A build of these crates, each with the crates below it, on so many processors."""

    def __init__(self, below, lanes, costs=None):
        self.below, self.lanes, self.costs = below, lanes, read() if costs is None else costs

    def slowness(self, spent, running):
        """Returns how much longer than stored the ended crates took, or the running ones at least; None if too little
        has run."""
        known = {name: seconds for name, seconds in spent.items() if self.costs.get(name)}
        if sum(known.values()) >= ENOUGH:
            return sum(known.values()) / sum(self.costs[name] for name in known)
        over = [seconds / self.costs[name] for name, seconds in running.items() if self.costs.get(name)]
        return max([1.0, *over]) if sum(running.values()) >= ENOUGH else None

    def seconds_left(self, done, running, spent, share):
        """Returns the seconds by the clock until all crates are built. `running` and `spent` have the processor seconds
        of running and ended crates, `share` is the part of a processor that a process gets next to other programs."""
        slowness = self.slowness(spent, running)
        if slowness is None or not share or any(name not in self.costs for name in self.below):
            return None
        work = {name: self.costs[name] * slowness - running.get(name, 0) for name in self.below if name not in done}
        return self.simulated({name: max(seconds, 5.0) for name, seconds in work.items()}) / share

    def simulated(self, work):
        """Returns the time that this work of each crate takes: a crate begins after those below it, those with the
        longest path above them first, and the first of them gets the processors that the others leave."""
        paths, clock, work = self.paths(work), 0.0, dict(work)
        while work:
            ready = sorted(
                (name for name in work if not any(library in work for library in self.below[name])),
                key=lambda crate: -paths[crate],
            )
            ready = ready[: self.lanes]
            jobs = {name: 1 for name in ready} | {ready[0]: max(1, self.lanes - len(ready) + 1)}
            pace = {name: 1 / (1 - SHARED + SHARED / jobs[name]) for name in ready}
            step = min(work[name] / pace[name] for name in ready)
            clock += step
            for name in ready:
                work[name] -= step * pace[name]
                if work[name] <= 1e-6:
                    del work[name]
        return clock

    def paths(self, work):
        """Returns for each crate the work on the longest path from it upwards, itself included."""
        lengths: dict[str, float] = {}
        for name in sorted(work, key=lambda crate: -len(self.below[crate])):
            above = [lengths[crate] for crate in lengths if name in self.below[crate]]
            lengths[name] = work[name] + max(above, default=0)
        return lengths
