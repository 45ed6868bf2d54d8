"""Runs of mutants: in batches, on all processors, next to the proofs or after them; which mutants a run tries, and its
report."""
import os
import sys
from concurrent.futures import FIRST_COMPLETED, ThreadPoolExecutor, wait

from lib import prover, tried
from lib.mutants import Mutant, try_batch
from lib.prover import RT, TOP

# The most mutants that one check tries. A check of 100 takes longer than four of 25.
TOGETHER = 30
# The most mutants of definitions in a batch. Each has a check of its own.
DEFINITIONS_IN_A_BATCH = 5


class Report:
    """What a run has seen: complaints, the mutants that were tried and rejected, checks, and processor seconds."""

    def __init__(self):
        self.complaints, self.rejected, self.count, self.checks, self.seconds = [], [], 0, 0, 0.0

    def complain(self, complaint):
        self.complaints.append(complaint)
        print(complaint, flush=True)

    def add(self, crate, verdicts, checks, seconds):
        """Adds the verdicts of a batch, and prints complaints at once."""
        self.count, self.checks, self.seconds = self.count + len(verdicts), self.checks + checks, self.seconds + seconds
        wrong = [mutant for mutant, complaint in verdicts.items() if complaint]
        for mutant in wrong:
            self.complain(f"{mutant.name}: {verdicts[mutant]}")
        self.rejected += [mutant for mutant in verdicts if mutant not in wrong]
        print(
            f"{crate.name}: {len(verdicts)} mutants in {checks} checks, {len(verdicts) - len(wrong)} rejected, "
            f"{seconds:.0f} s",
            flush=True,
        )

    def status(self):
        """Prints the last line; returns the exit status."""
        print(
            f"{self.count} mutants in {self.checks} checks, {self.seconds:.0f} processor seconds, "
            f"{len(self.complaints)} complaints",
            flush=True,
        )
        return 1 if self.complaints else 0


def parts(items, size):
    """Splits a list into parts of about the same size, of at most `size` items."""
    count = -(-len(items) // size)
    return [items[len(items) * part // count : len(items) * (part + 1) // count] for part in range(count)]


def in_order(mutants):
    """Sorts mutants by crate, file and name."""
    return sorted(
        mutants, key=lambda mutant: (mutant.crate.name, mutant.is_of_definitions(), mutant.changes[0][0], mutant.name)
    )


def batches(mutants):
    """Splits the mutants of a crate into batches: those of functions, those of a file side by side, and those of
    definitions."""
    sorted_ones = in_order(mutants)
    of_definitions = [mutant for mutant in sorted_ones if mutant.is_of_definitions()]
    return parts([mutant for mutant in sorted_ones if mutant not in of_definitions], TOGETHER) + parts(
        of_definitions, DEFINITIONS_IN_A_BATCH
    )


def mutants_of(crate, source):
    """Returns the crate's mutants in the source checkout, and complaints about files that are not mutants."""
    good, bad = RT.edits_of(source)
    mutants = [Mutant(crate, path) for path in good]
    complaints = [
        f"{crate.name}/{os.path.basename(path)}: BAD MUTANT: not a NAME.edit directly in must-fail/" for path in bad
    ]
    complaints += [f"{mutant.name}: BAD MUTANT: {mutant.bad}" for mutant in mutants if mutant.bad]
    return [mutant for mutant in mutants if not mutant.bad], complaints


def in_turn(work, proving, lanes, is_ended=lambda: False):
    """Tries batches of mutants, each with its crate, and yields the results as they arrive. While `rt ci` runs
    (`proving`), a batch is tried after the libraries below its crate are proved and when two processors are idle: with
    four threads on two cores, a check that shares its core takes half as long again, and the proofs are the longest
    path. After a failure of `rt ci`, or if `is_ended`, all checks end."""
    trying: dict = {}
    with ThreadPoolExecutor(lanes) as pool:
        while work or trying:
            if is_ended() or proving and proving.has_failed():
                work.clear()
                prover.Checks.stop()
            ready = [batch for batch in work if not proving or proving.has_built_below(batch[0])]
            used = len(trying) + (proving.checks() if proving else 0)
            spare = 1 if proving and proving.status is None and lanes > 2 else 0
            for crate, mutants in ready[: max(0, lanes - spare - used)]:
                work.remove((crate, mutants))
                trying[pool.submit(try_batch, crate, mutants)] = crate, mutants
            ended, _ = wait(trying, 2 if work else None, FIRST_COMPLETED) if trying else ([], None)
            for future in ended:
                crate, mutants = trying.pop(future)
                if not isinstance(future.exception(), prover.Stopped):
                    yield crate, mutants, *future.result()


def try_all(by_crate, report, proving=None, lanes=None, is_ended=lambda: False):
    """Tries these mutants of each crate and adds what it sees to the report."""
    work = [(mutants[0].crate, batch) for mutants in by_crate.values() if mutants for batch in batches(mutants)]
    # Those of the largest crates first, so that none is left alone at the end.
    work.sort(key=lambda batch: -batch[0].count(rb"\n"))
    for crate, _, verdicts, checks, seconds in in_turn(work, proving, lanes or prover.lanes(), is_ended):
        report.add(crate, verdicts, checks, seconds)


def crates_with_edits(names, libraries):
    """Returns the crates of these names (or all) that have mutants, over the libraries in this folder; and the crates
    of this checkout."""
    crates, sources = prover.crates_of(libraries), prover.crates_of(TOP)
    unknown = [name for name in names if name not in sources]
    if unknown:
        sys.exit(f"check_mutants: no crate is named {unknown[0]}")
    return {
        name: crates[name] for name in sources if name in (names or crates) and RT.edits_of(sources[name]) != ([], [])
    }, sources


def read_all(wanted, sources, report):
    """Returns the mutants of each crate; files that are not mutants are complaints."""
    by_crate = {}
    for name, crate in wanted.items():
        by_crate[name], bad = mutants_of(crate, sources[name])
        for complaint in bad:
            report.complain(complaint)
    return by_crate


def record_rejected(by_crate, sources, report, path=tried.RECORD):
    """Records the crates of which this run saw all mutants rejected."""
    seen = {mutant.name for mutant in report.rejected}
    whole = {
        name: len(mutants)
        for name, mutants in by_crate.items()
        if mutants and all(mutant.name in seen for mutant in mutants)
    }
    bad = {complaint.split("/")[0] for complaint in report.complaints}
    tried.write(
        {name: count for name, count in whole.items() if name not in bad},
        {name: sources[name].folder for name in sources},
        path,
    )


def select(by_crate, sources, commit):
    """Returns the mutants to try, by crate, if HEAD has this checksum, and prints why these; without a checksum all of
    them."""
    everything = [mutant for mutants in by_crate.values() for mutant in mutants]
    if commit is None:
        chosen, reasons = everything, ["all of them: every mutant was asked for, or there is no HEAD"]
    else:
        sorted_ones = {name: in_order(mutants) for name, mutants in by_crate.items() if mutants}
        chosen, reasons = tried.select(sorted_ones, {name: sources[name].folder for name in sources}, commit)
    print(f"mutants: trying {len(chosen)} of {len(everything)}", flush=True)
    for line in reasons:
        print(f"  {line}", flush=True)
    return {name: [mutant for mutant in mutants if mutant in chosen] for name, mutants in by_crate.items()}


def run(names, libraries):
    """Tries all mutants of these crates, or of all crates, and returns the exit status."""
    wanted, sources = crates_with_edits(names, libraries)
    for crate in wanted.values():
        missing = prover.unbuilt(crate)
        if missing:
            print(
                f"check_mutants: the library {missing[0]} below {crate.name} is not built; run `rt lib` in its folder",
                file=sys.stderr,
            )
            return 2
    report = Report()
    by_crate = read_all(wanted, sources, report)
    try_all(by_crate, report)
    record_rejected(by_crate, sources, report)
    return report.status()


def run_chosen(chosen, proving, report, is_ended):
    """Tries these mutants of each crate while `rt ci` runs, and after it. The first complaint ends both."""

    def is_over():
        if report.complaints:
            proving.stop()
        return bool(report.complaints) or is_ended()

    try_all(chosen, report, proving, prover.lanes(), is_over)


def run_during_proofs(proving, folder, commit, is_ended):
    """Tries mutants while `rt ci` runs in this copy of the checkout, and after it; returns the report. A commit selects
    a part of the mutants of unchanged crates; None selects all."""
    wanted, sources = crates_with_edits([], folder)
    report = Report()
    by_crate = read_all(wanted, sources, report)
    run_chosen(select(by_crate, sources, commit), proving, report, is_ended)
    record_rejected(by_crate, sources, report)
    return report
