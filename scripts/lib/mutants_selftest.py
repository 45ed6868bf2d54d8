"""The self-test of scripts/check_mutants: two small crates, their mutants, and the verdict that each must get."""
import contextlib
import io
import os
import pathlib
import signal
import subprocess
import sys
import tempfile
import time

from lib import prover, tried_selftest
from lib.mutant_runs import Report, in_turn, mutants_of, parts, read_all, try_all
from lib.mutants import refusal, tried, unknown
from lib.prover import TOP
from lib.proving import Proving, at_work

CRATES = {
    "crates.txt": "sample:\ngarbled:\ndefined:\n",
    "crates/garbled/src/lib.rt": """//! A crate whose edit cannot be read.
#![tactic(auto)]

/// A number.
pub fn one() -> u8 {
    1
}
""",
    "crates/garbled/must-fail/unreadable.edit": "file: src/lib.rt\nold:     1\nnew:     nowhere\n",
    "crates/defined/src/lib.rt": """//! A crate with a definition.
#![tactic(auto)]

ghost use Rattle.defined.specs.Doubles.{double};
ghost use Rattle.std.specs.Prelude.{◌≡◌, ◌<◌};

/// Twice the number.
pub fn twice(n: u8) -> u8
    requires { n < 100 }
    ensures value { result ≡ double n }
{
    n + n
}
""",
    "crates/defined/specs/Doubles.antt": """use Rattle.std.specs.Prelude.{ℕ, ◌+◌}

abbrev pub double : ℕ → ℕ
double n = n + n
""",
    "crates/defined/specs/Lib.antt": "pub mod Doubles\n",
    "crates/defined/must-fail/one_added.edit": "file: specs/Doubles.antt\nold: n + n\nnew: n + 1\n",
    "crates/defined/must-fail/another_letter.edit": "file: specs/Doubles.antt\nold: double n = n + n\nnew: double m = m + m\n",
    "crates/defined/must-fail/unknown_word.edit": "file: specs/Doubles.antt\nold: n + n\nnew: n + nowhere\n",
    "crates/defined/must-fail/one_added_by_law.edit": "file: specs/Doubles.antt\nlaw: twice\nold: n + n\nnew: n + 1\n",
    "crates/defined/must-fail/another_letter_by_law.edit": "file: specs/Doubles.antt\nlaw: twice\nold: double n = n + n\nnew: double m = m + m\n",
    "crates/defined/must-fail/law_that_is_none.edit": "file: specs/Doubles.antt\nlaw: thrice\nold: n + n\nnew: n + 1\n",
    "HANDLES": "Handles allowed: none.\n",
    "crates/sample/src/lib.rt": """//! A crate to try the script on.
#![tactic(auto)]

ghost use Rattle.std.specs.Prelude.{◌≡◌, ◌+◌, ◌<◌};

/// One more.
pub fn one_more(n: u8) -> u8
    requires { n < 200 }
    ensures value { result ≡ n + 1 }
{
    n + 1
}

/// Two more.
pub fn two_more(n: u8) -> u8
    requires { n < 100 }
    ensures value { result ≡ n + 2 }
{
    let next = one_more(n);
    one_more(next)
}

/// The same.
pub fn same(n: u8) -> u8
    ensures value { result ≡ n }
{
    n
}

/// The same, with an answer.
pub fn kept(n: u8) -> u8
    ensures { result ≡ n }
{
    let kept = n;
    kept
}

/// The same, of what is the same.
pub fn same_again(n: u8) -> u8
    ensures value { result ≡ n }
{
    let first = same(n);
    even_and_odd(same(first))
}

/// The same, by a cycle without an edit.
#[cycle(odd)]
pub fn even_and_odd(n: u8) -> u8
    ensures value { result ≡ n }
{
    if n == 0 { n } else { odd_and_even(n - 1) + 1 }
}

/// The same.
#[cycle(odd)]
pub fn odd_and_even(n: u8) -> u8
    ensures value { result ≡ n }
{
    if n == 0 { n } else { even_and_odd(n - 1) + 1 }
}

/// The same, counted.
pub fn counted(n: u8) -> u8
    ensures value { result ≡ n }
{
    let mut count = 0;
    while count < n {
        count += 1;
    }
    count
}

/// A number.
pub struct Count {
    pub number: u8,
}

impl Count {
    /// The next one.
    pub fn next(&self) -> u8
        requires { self.now.number < 200 }
        ensures value { result ≡ self.now.number + 1 }
    {
        self.number + 1
    }
}

/// What follows another value.
pub trait Follow {
    /// The next one.
    fn following(&self) -> u8;
}

impl Follow for u8 {
    fn following(&self) -> u8
        requires { self.now < 200 }
        ensures value { result ≡ self.now + 1 }
    {
        *self + 1
    }
}

/// Nothing, by the other one.
#[cycle(down)]
pub fn down(n: u8) -> u8
    ensures value { result ≡ 0 }
{
    if n == 0 { 0 } else { further_down(n - 1) }
}

/// The same.
#[cycle(down)]
pub fn further_down(n: u8) -> u8
    ensures value { result ≡ 0 }
{
    if n == 0 { n } else { down(n - 1) }
}
""",
    "crates/sample/proofs/+down/Invariants.antt": """use Rattle.sample.proofs.+down.Given as goal

abbrev pub decreases-down : goal.decreases-down
decreases-down l = l.n

abbrev pub decreases-further_down : goal.decreases-further_down
decreases-further_down l = l.n
""",
    "crates/sample/proofs/+odd/Invariants.antt": """use Rattle.sample.proofs.+odd.Given as goal

abbrev pub decreases-even_and_odd : goal.decreases-even_and_odd
decreases-even_and_odd l = l.n

abbrev pub decreases-odd_and_even : goal.decreases-odd_and_even
decreases-odd_and_even l = l.n
""",
    "crates/sample/proofs/counted/Invariants.antt": """use Rattle.std.proofs.Common.{◌-◌, ◌≤◌}
use Rattle.sample.proofs.counted.Given as goal

abbrev pub invariant-loop-count : goal.invariant-loop-count
invariant-loop-count l = l.count ≤ l.n

abbrev pub decreases-loop-count : goal.decreases-loop-count
decreases-loop-count l = l.n - l.count
""",
    "crates/sample/proofs/kept/Answers.antt": """use Rattle.std.proofs.Common.{rules}
use Rattle.sample.proofs.kept.Goals as goal

pub returns : goal.returns
returns c = search rules
""",
    "crates/sample/must-fail/kept_from_nine.edit": "file: src/lib.rt\nold:     kept\nnew:     if n < 9 { 0 } else { kept }\n",
    "crates/sample/must-fail/counted_by_two.edit": "file: src/lib.rt\nold:         count += 1;\nnew:         count += 2;\n",
    "crates/sample/must-fail/counted_from_the_end.edit": "file: src/lib.rt\nold:     let mut count = 0;\nnew:     let mut count = n;\n",
    "crates/sample/must-fail/none_more.edit": "file: src/lib.rt\nold:     n + 1\nnew:     n\n",
    "crates/sample/must-fail/nothing_changed.edit": "file: src/lib.rt\nold: let next = one_more(n);\nnew: let next = one_more(n + 0);\n",
    "crates/sample/must-fail/three_more.edit": "file: src/lib.rt\nold:     n + 1\nnew:     n + 3\n",
    "crates/sample/must-fail/one_more_all_the_same.edit": "file: src/lib.rt\nold:     n + 1\nnew:     1 + n\n",
    "crates/sample/must-fail/count_stays.edit": "file: src/lib.rt\nold:         self.number + 1\nnew:         self.number\n",
    "crates/sample/must-fail/count_by_two.edit": "file: src/lib.rt\nold:         self.number + 1\nnew:         self.number + 2\n",
    "crates/sample/must-fail/number_follows_itself.edit": "file: src/lib.rt\nold:         *self + 1\nnew:         *self\n",
    "crates/sample/must-fail/same_but_once.edit": "file: src/lib.rt\nold:     even_and_odd(same(first))\nnew:     even_and_odd(same(0))\n",
    "crates/sample/must-fail/same_all_the_same.edit": "file: src/lib.rt\nold:     even_and_odd(same(first))\nnew:     even_and_odd(same(n))\n",
    "crates/sample/must-fail/stands_twice.edit": "file: src/lib.rt\nold: one_more(n\nnew: one_more(1\n",
    "crates/sample/must-fail/not_down.edit": "file: src/lib.rt\nold:     if n == 0 { 0 } else { further_down(n - 1) }\nnew:     if n == 0 { 1 } else { further_down(n - 1) }\n",
    "crates/sample/must-fail/down_all_the_same.edit": "file: src/lib.rt\nold:     if n == 0 { n } else { down(n - 1) }\nnew:     if n == 0 { 0 } else { down(n - 1) }\n",
}
EXPECTED = {
    "none_more.edit": None,
    # Next to none_more it is rejected for its callee alone, which does not count; tried alone it is proved.
    "nothing_changed.edit": "NOT REJECTED",
    "not_down.edit": None,
    # Next to not_down its cycle is not proved, for a goal of the other function.
    "down_all_the_same.edit": "NOT REJECTED",
    # Second mutants of a function and of a method change copies of these.
    "three_more.edit": None,
    "one_more_all_the_same.edit": "NOT REJECTED",
    "count_stays.edit": None,
    "count_by_two.edit": None,
    # A method of a primitive type.
    "number_follows_itself.edit": None,
    # The copy of this one includes the invariant of its loop.
    "counted_by_two.edit": None,
    "counted_from_the_end.edit": "NOT REJECTED",
    # These call stubs, also of a cycle. Over everything they call, one is proved.
    "same_but_once.edit": None,
    "same_all_the_same.edit": "NOT REJECTED",
    # This one removes the goal that has an answer.
    "kept_from_nine.edit": None,
    "stands_twice.edit": "BAD MUTANT",
    "unreadable.edit": "cannot read",
    # These change a definition.
    "one_added.edit": None,
    "another_letter.edit": "NOT REJECTED",
    "unknown_word.edit": "cannot read",
    "one_added_by_law.edit": None,
    "another_letter_by_law.edit": "NOT REJECTED",
    "law_that_is_none.edit": "no goal and no lemma fails",
}


def is_work_counted():
    """Returns whether, of a shell's two processes, the busy one counts and the waiting one does not."""
    words = ["sh", "-c", "(ulimit -t 9; while :; do :; done) & sleep 9 & wait"]
    with subprocess.Popen(words, cwd=TOP, start_new_session=True) as shell:
        while not (count := at_work(shell.pid)) and shell.poll() is None:
            time.sleep(0.5)
        os.killpg(shell.pid, signal.SIGKILL)
    return count == 1


def wrong_verdicts(complaints):
    """Yields the mutants that got another verdict than expected."""
    for name, want in EXPECTED.items():
        found = next((complaint.split(": ", 1)[1] for complaint in complaints if f"/{name}: " in complaint), None)
        if (want is None) != (found is None) or want and want not in found:
            yield f"{name}: wanted {want}, got {found}"


def wrong_judgements(crate):
    """Yields what is wrong with the judgement of two mutants of a crate in one check."""
    mutants, _ = mutants_of(crate, crate)
    pair = [mutant for mutant in mutants if os.path.basename(mutant.path) in ("none_more.edit", "nothing_changed.edit")]
    _, output, _ = tried(crate, pair, False)
    if [mutant.name for mutant in pair if refusal(output, mutant.functions)] != [
        "sample/none_more.edit"
    ] or "which is not proved" not in output:
        yield "a mutant next to a broken callee was counted as rejected"
    pair[0].functions = {"nowhere"}
    _, output, _ = tried(crate, pair, False)
    if list(unknown({mutant: mutant.functions for mutant in pair}, output)) != pair[:1]:
        yield "a mutant of a function that the prover does not know was not told from the others"


def wrong_ends(crate, folder):
    """Yields what is wrong with the end of a run in which `rt ci` fails: before its own end, and at it."""
    went_on = "print('rt: garbled NOT PROVED', flush=True); import time; time.sleep(60); print('rt: sample proved')"
    for code in ("print('rt: garbled proved'); raise SystemExit(3)", went_on):
        failing = Proving([sys.executable, "-c", code], folder, io.StringIO())
        status = failing.wait()
        if (
            not status
            or not failing.has_failed()
            or "sample" in failing.proved
            or list(in_turn([(crate, [])], failing, 1))
        ):
            yield "a failure of the proofs was not reported, or more was tried after it"
    prover.Checks.are_over.clear()


def wrong_in(folder):
    """Returns what goes otherwise than expected with the crates in this folder."""
    crates, report = prover.crates_of(folder), Report()
    wrong = list(wrong_judgements(crates["sample"]))
    by_crate = read_all(crates, crates, report)
    try_all(by_crate, report)
    wrong += wrong_verdicts(report.complaints)
    wrong += wrong_ends(crates["garbled"], folder)
    return wrong + [*tried_selftest.wrong_choices(folder), *tried_selftest.wrong_samples(by_crate, crates)]


def self_test():
    with tempfile.TemporaryDirectory(prefix="mutants-") as folder:
        for path, text in CRATES.items():
            file = pathlib.Path(folder, path)
            file.parent.mkdir(parents=True, exist_ok=True)
            file.write_text(text, encoding="utf-8")
        # The reports of these runs are full of complaints, as they should be.
        with contextlib.redirect_stdout(io.StringIO()):
            wrong = wrong_in(folder)
    if [item for part in parts(list(range(101)), 25) for item in part] != list(range(101)) or max(
        map(len, parts(list(range(101)), 25))
    ) > 25:
        wrong.append("parts of a list are not the list, or too large")
    if not is_work_counted():
        wrong.append("of a busy and a waiting process, not exactly one was counted")
    print(
        "\n".join(wrong)
        or f"self-test: the {len(EXPECTED)} mutants are judged as expected, a broken callee is no reason, and changed "
        "crates are stale"
    )
    return 1 if wrong else 0
