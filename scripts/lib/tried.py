"""Which mutants the gate tries: all those of each crate that has changed since a run saw all its mutants rejected, and
of the others one in eight.

The record scripts/tried_mutants.txt has a line for each crate: its name, the checksum of its own files (src, specs,
proofs, must-fail) when all its mutants were rejected, their number, the toolchain, and the date. Only a run that has
seen all of a crate's mutants rejected writes the crate's line. A crate without a line, or whose files, number of
mutants or toolchain differ, is stale.

The mutants of the other crates, in order of crate and file, are cut into eight parts. The checksum of HEAD selects one
of them, so successive commits try different parts. A part holds mutants of few crates, because each check reads a whole
crate.
"""
import datetime
import hashlib
import pathlib
import re
import subprocess
from typing import NamedTuple

from lib.command import TOP

RECORD = TOP / "scripts" / "tried_mutants.txt"
OWN_FILES = ("src", "specs", "proofs", "must-fail")
PARTS = 8
HEAD = (
    "# The mutants that were all rejected: crate, checksum of its own files, number, toolchain, date. Written by "
    "scripts/check_mutants.\n"
)


class Tried(NamedTuple):
    """A crate as it was when all its mutants were rejected."""

    checksum: str
    number: int
    toolchain: str
    date: str


class Selection(NamedTuple):
    """The mutants to try, and the lines that say why these."""

    mutants: list
    reasons: list


def checksum(folder):
    """Returns the checksum of a crate's own files, their paths included."""
    whole = hashlib.sha256()
    for part in OWN_FILES:
        for file in sorted(path for path in pathlib.Path(folder, part).rglob("*") if path.is_file()):
            whole.update(f"{file.relative_to(folder)} {hashlib.sha256(file.read_bytes()).hexdigest()}\n".encode())
    return whole.hexdigest()[:32]


def toolchain():
    """Returns the logic of the toolchain, which is the same for kits that judge alike."""
    said = subprocess.run(["rt", "version"], capture_output=True, text=True).stdout
    found = re.search(r"logic (\w+)", said)
    return found[1] if found else said.strip().replace(" ", "_") or "unknown"


def read(path=RECORD):
    """Returns the record: for each crate its line."""
    if not path.exists():
        return {}
    lines = [
        line.split() for line in path.read_text(encoding="utf-8").splitlines() if line and not line.startswith("#")
    ]
    return {name: Tried(digest, int(count), kit, date) for name, digest, count, kit, date in lines}


def why_stale(tried, digest, count, kit):
    """Returns why all mutants of a crate have to be tried, or None."""
    if tried is None:
        return "not in the record"
    if tried.checksum != digest:
        return "its files changed"
    if tried.number != count:
        return f"the record has {tried.number} mutants"
    if tried.toolchain != kit:
        return "another toolchain"
    return None


def part_of(mutants, commit):
    """Returns one in eight of these mutants, which are in order of crate and file, and the number of this part from
    1."""
    chosen = int(hashlib.sha256(commit.encode()).hexdigest(), 16) % PARTS
    return [mutant for at, mutant in enumerate(mutants) if at * PARTS // len(mutants) == chosen], chosen + 1


def select(by_crate, folders, commit, record=None, kit=None):
    """Selects mutants: `by_crate` has the mutants of each crate, `folders` the crate's folder, `commit` the checksum of
    HEAD."""
    record, kit = read() if record is None else record, kit or toolchain()
    chosen, others, reasons = [], [], []
    for name, mutants in sorted(by_crate.items()):
        why = why_stale(record.get(name), checksum(folders[name]), len(mutants), kit)
        if why:
            chosen += mutants
            reasons.append(f"all {len(mutants)} of {name}: {why}")
        else:
            others += mutants
    if others:
        sample, number = part_of(others, commit)
        chosen += sample
        reasons.append(
            f"{len(sample)} of the other {len(others)}: part {number} of {PARTS}, selected by the checksum of HEAD"
        )
    return Selection(chosen, reasons)


def head():
    """Returns the checksum of HEAD, or None outside a repository."""
    said = subprocess.run(["git", "rev-parse", "HEAD"], cwd=TOP, capture_output=True, text=True)
    return said.stdout.strip() if said.returncode == 0 else None


def write(rejected, folders, path=RECORD):
    """Records that all mutants of these crates were rejected: `rejected` has their numbers. Lines that are still true
    stay."""
    record, kit = read(path), toolchain()
    for name, count in rejected.items():
        digest = checksum(folders[name])
        if why_stale(record.get(name), digest, count, kit):
            record[name] = Tried(digest, count, kit, datetime.date.today().isoformat())
    path.write_text(
        HEAD + "".join(f"{name} {' '.join(map(str, line))}\n" for name, line in sorted(record.items())),
        encoding="utf-8",
    )
