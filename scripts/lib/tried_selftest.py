"""The self-test of lib/tried.py: which changes make a crate stale, that the parts are all mutants, and that a survivor
in one is found."""
import pathlib
import sys

from lib import prover, tried
from lib.mutant_runs import Report, in_order, record_rejected, run_chosen
from lib.proving import Proving

TOOLCHAIN = "logic"
# A crate's file, and what a change of it is called.
CHANGES = {
    "src/lib.rt": "a changed source",
    "specs/Doubles.antt": "a changed definition",
    "proofs/New.antt": "a new proof",
    "must-fail/new.edit": "a new mutant",
}


def choice(folder, count, record, kit=TOOLCHAIN):
    """Returns the numbers of the mutants that a run tries of `count` mutants of one crate."""
    return tried.select({"defined": list(range(count))}, {"defined": folder}, "commit", record, kit).mutants


def wrong_choices(top):
    """Yields each change of a crate after which not all its mutants are tried, and parts that are not all mutants."""
    folder, count = pathlib.Path(top, "crates", "defined"), 20
    true_line = tried.Tried(tried.checksum(folder), count, TOOLCHAIN, "2026-01-01")
    record = {"defined": true_line}
    if not 0 < len(choice(folder, count, record)) < 4:
        yield "of an unchanged crate, not about an eighth of the mutants is tried"
    for path, title in CHANGES.items():
        file = folder / path
        before = file.read_text(encoding="utf-8") if file.exists() else None
        file.parent.mkdir(exist_ok=True)
        file.write_text((before or "") + "\n", encoding="utf-8")
        if len(choice(folder, count, record)) != count:
            yield f"{title} does not make the crate stale"
        if before is None:
            file.unlink()
        else:
            file.write_text(before, encoding="utf-8")
    removed = folder / "must-fail" / "one_added.edit"
    text = removed.read_text(encoding="utf-8")
    removed.unlink()
    if len(choice(folder, count - 1, record)) != count - 1:
        yield "a removed mutant does not make the crate stale"
    removed.write_text(text, encoding="utf-8")
    if len(choice(folder, count, {"defined": true_line._replace(number=count - 1)})) != count:
        yield "a record with a wrong number does not make the crate stale"
    if len(choice(folder, count, record, "another")) != count or len(choice(folder, count, {})) != count:
        yield "another toolchain, or a crate that is not in the record, does not make it stale"
    parts = {number: part for part, number in (tried.part_of(list(range(count)), str(commit)) for commit in range(200))}
    if sorted(number for part in parts.values() for number in part) != list(range(count)) or len(parts) != tried.PARTS:
        yield "the parts do not hold each mutant once"


def wrong_samples(by_crate, crates):
    """Yields what is wrong with a run that takes a part of an unchanged crate's mutants, one of which the prover does
    not reject."""
    name = "sample"
    mutants, folders = {name: by_crate[name]}, {name: crates[name].folder}
    record = {name: tried.Tried(tried.checksum(folders[name]), len(by_crate[name]), TOOLCHAIN, "2026-01-01")}
    survivor = next(mutant for mutant in by_crate[name] if mutant.name == "sample/nothing_changed.edit")
    commit = next(
        number for number in map(str, range(999)) if survivor in tried.part_of(in_order(by_crate[name]), number)[0]
    )
    chosen = tried.select({name: in_order(by_crate[name])}, folders, commit, record, TOOLCHAIN).mutants
    proving, report = Proving([sys.executable, "-c", ""], crates[name].folder), Report()
    proving.wait()
    run_chosen({name: chosen}, proving, report, lambda: False)
    if len(chosen) == len(by_crate[name]) or not report.status():
        yield "a mutant that survives in a part does not fail the run"
    path = pathlib.Path(crates[name].folder).parent / "record.txt"
    record_rejected(mutants, crates, report, path)
    if name in tried.read(path):
        yield "a crate with a mutant that survived, or was not tried, is recorded"
    everything = Report()
    everything.rejected = list(by_crate[name])
    record_rejected(mutants, crates, everything, path)
    if tried.read(path)[name][:2] != record[name][:2]:
        yield "a crate of which all mutants were rejected is not recorded"
    prover.Checks.are_over.clear()
