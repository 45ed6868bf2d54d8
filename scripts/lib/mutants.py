"""Mutants of crates: how they are tried together in one check, and judged.

A mutant is a file must-fail/NAME.edit with a line `file: src/FILE.rt` and pairs of lines `old: TEXT` and `new: TEXT`.
It is rejected if the prover fails at a goal of the function that it changes: not because a callee is unproved, and not
because a proof names something that the mutant removed. A mutant that changes only definitions (files in specs/) is
tried by itself and is rejected if a goal or a lemma fails: in a check of the whole crate or, if it has a line `law:
MODULE::FUNCTION`, of this theorem and the lemmas that its proof cites.
"""
import os
import pathlib
import re
import tempfile

from lib import prover
from lib.functions import Function, stub_all_but, without_main
from lib.prover import RT

# An error of a proof file that names something the mutant removed says nothing about the contract.
REMOVED = re.compile(r"has no field|is not in scope|has no `|was not admitted")
# An error of the compiler, before anything reaches the prover.
COMPILER = re.compile(r"(\./)?src/\S+:\d+:\d+: error\[")
# An error of the prover about an answer to a goal that does not exist.
LOST = r"(?m)^(?:\./)?proofs/(?:\S*/)?(?:{})/Answers\.antt:\d+:\d+: error: .*Goals` has no `([^`]+)`"
# The error of the prover about a function to be checked whose name it does not know. It then checks nothing.
UNKNOWN = re.compile(r"(?m)^rattle: error: `\w+` has no function `([^`]+)`")
# The complaints about mutants that the prover accepts.
STILL_PROVED = "NOT REJECTED: the function is still proved"
ALL_PROVED = "NOT REJECTED: everything that was checked is still proved"


class Mutant:
    """A file NAME.edit: the text that it changes, and the functions that it changes."""

    def __init__(self, crate, path):
        self.crate, self.path, self.name = crate, path, f"{crate.name}/{os.path.basename(path)}"
        self.changes: list[tuple[str, str, str]] = []
        self.functions: set[str] = set()
        # For each change inside a function, that function as it is in the crate.
        self.places = []
        # The goals that the mutant removed, as found by a check.
        self.lost: set[str] = set()
        # For a mutant of definitions, the theorem that has to notice it, if it names one.
        self.law = None
        _, self.bad = RT.read_edit(path, crate.folder)
        if self.bad is None:
            self.read(open(path, encoding="utf-8").read())
            if not self.functions and not self.is_of_definitions():
                self.bad = "it changes no function and no definition"

    def read(self, text):
        file = old = ""
        for line in text.split("\n"):
            if line.startswith("file: "):
                file = line[len("file: ") :].strip()
            elif line.startswith("law: "):
                self.law = line[len("law: ") :].strip()
            elif line.startswith("old: "):
                old = line[len("old: ") :]
            elif line.startswith("new:"):
                self.changes.append((file, old, re.sub(r"\A ", "", line[len("new:") :])))
                whole = pathlib.Path(self.crate.folder, file).read_text(encoding="utf-8")
                if file.startswith("src/") and not re.match(r"\s*(ghost )?use ", old) and old in whole:
                    function = Function.at(file, whole, whole.index(old) + len(old))
                    self.functions.add(function.qualified(function.name))
                    self.places.append(function)

    def is_of_definitions(self):
        return all(file.startswith("specs/") for file, _, _ in self.changes)

    def apply(self, copy, taken):
        """Applies the mutant to the copy of the crate; returns the functions that it changes there, or None if it does
        not fit next to the mutants of the taken functions. A second mutant of a function changes a copy of it under
        another name."""
        if not self.functions & taken:
            return self.functions if self.changes_texts(copy) else None
        return self.apply_to_copy(copy)

    def apply_to_copy(self, copy):
        function = self.places[0]
        lone = len(self.functions) == 1 and len(self.places) == len(self.changes)
        if not lone or not function.can_be_copied(copy):
            return None
        text = function.text
        for _, old, new in self.changes:
            if text.count(old) != 1:
                return None
            text = text.replace(old, new)
        whole = pathlib.Path(copy, function.file).read_text(encoding="utf-8")
        name = next(
            candidate
            for candidate in (f"{function.name}_{number}" for number in range(2, 99))
            if f"fn {candidate}(" not in whole and f"fn {candidate}<" not in whole
        )
        function.copy(copy, text, name)
        return {function.qualified(name)}

    def changes_texts(self, copy):
        """Changes each text in the copy, if it still occurs exactly once there; returns whether it did."""
        texts: dict[str, str] = {}
        for file, old, new in self.changes:
            text = texts.get(file) or pathlib.Path(copy, file).read_text(encoding="utf-8")
            if text.count(old) != 1:
                return False
            texts[file] = text.replace(old, new)
        for file, text in texts.items():
            pathlib.Path(copy, file).write_text(text, encoding="utf-8")
        return True


def leave_out(copy, functions, goals):
    """Removes the answers of these functions to these goals from the copy."""
    for function in functions:
        for file in pathlib.Path(copy, "proofs").rglob(f"{function.replace('::', '/')}/Answers.antt"):
            text = file.read_text(encoding="utf-8")
            for goal in goals:
                text = re.sub(rf"(?ms)^pub {re.escape(goal)} :.*?(?:\n\n|\Z)", "", text)
            file.write_text(text, encoding="utf-8")


def lost_goals(output, functions):
    """Returns the goals that answers of these functions name and the prover does not find."""
    return set(
        re.findall(LOST.format("|".join(re.escape(function.replace("::", "/")) for function in functions)), output)
    )


def lines_about(output, functions):
    """Returns what a check printed about these functions: the verdict line of each, and the errors in their own
    proofs."""
    lines = dict(re.findall(r"(?m)^fn \w+::(\S+): (.*)$", output))
    words = [
        line
        for name, line in lines.items()
        if name in functions or any(name.endswith(f"::{function}") for function in functions)
    ]
    files = "|".join(re.escape(function.replace("::", "/")) for function in functions)
    errors = re.findall(rf"(?m)^(?:\./)?proofs/(?:\S*/)?(?:{files})/\S+: error:.*$", output)
    # The functions of a cycle have one proof; each goal begins with the name of its function.
    cycles = re.findall(r"(?m)^(?:\./)?proofs/(?:\S*/)?\+\w+/\S+: error:.*$", output)
    return words, errors + [error for error in cycles if owns(functions, re.findall(r"error: `([^`]+)`", error))]


def owns(functions, goals):
    """Returns whether one of these goals of a cycle belongs to one of these functions."""
    names = tuple(function.split("::")[-1] + "-" for function in functions)
    return any(goal.split("::")[-1].startswith(names) for goal in goals)


def is_refusal(line, functions):
    """Returns whether the verdict line of a function names an unproved goal of its own."""
    _, _, goals = line.partition("did not prove")
    if not goals or not line.startswith("no proof"):
        return False
    in_a_cycle = re.search(r"proofs/(?:\S*/)?\+\w+/", line)
    return not in_a_cycle or owns(functions, re.findall(r"`([^`]+)`", goals))


def refusal(output, functions):
    """Returns why the prover rejects one of these functions for a goal of its own, or None."""
    words, errors = lines_about(output, functions)
    for line in words:
        if is_refusal(line, functions):
            return line
    own = [error for error in errors if not REMOVED.search(error)]
    return own[0] if own and any(line.startswith("not proved") for line in words) else None


def unread(output, files):
    """Returns the first error of the compiler or prover about a file that it cannot read, or None."""
    return next((line for line in output.split("\n") if COMPILER.match(line) or RT.unread(line, files)), None)


def applied(crate, mutants, copy):
    """Applies the mutants that fit together to this copy of the crate; returns each of them with the functions that it
    changes."""
    prover.copy_of(crate.folder, copy)
    fitting: dict[Mutant, set[str]] = {}
    taken: set[str] = set()
    for mutant in mutants:
        functions = mutant.apply(copy, taken)
        if functions:
            fitting[mutant] = functions
            taken |= functions
            leave_out(copy, functions, mutant.lost)
    return fitting


def misread(crate, mutants):
    """Returns the first error of the compiler or prover about files that it cannot read with these mutants, or None.
    Nothing is proved."""
    with tempfile.TemporaryDirectory(prefix="mutants-") as copy:
        fitting = applied(crate, mutants, copy)
        _, _, output = prover.check(crate, copy, "--only", "")
        return unread(output, {file for mutant in fitting for file, _, _ in mutant.changes})


def spoiled(fitting, output):
    """Returns whether a check of these mutants says nothing, because one of them cannot be read."""
    return (
        unread(output, {file for mutant in fitting for file, _, _ in mutant.changes}) is not None
        and "\nfn " not in output
    )


def unknown(fitting, output):
    """Returns the mutants that change a function whose name the prover does not know, each with a complaint."""
    names = set(UNKNOWN.findall(output))
    return {
        mutant: f"the prover knows no function {', '.join(functions & names)}"
        for mutant, functions in fitting.items()
        if functions & names
    }


def misread_alone(crate, mutants):
    """Returns the mutants that cannot be read, each with a complaint: by halves, until each is found alone."""
    said = misread(crate, mutants)
    if said is None:
        return {}
    if len(mutants) == 1:
        return {mutants[0]: f"the prover cannot read the changed text: {said[:200]}"}
    half = len(mutants) // 2
    return misread_alone(crate, mutants[:half]) | misread_alone(crate, mutants[half:])


def tried(crate, mutants, stubs):
    """Applies the mutants that fit together to one copy and checks the functions that they change, over stubs for what
    these call or over all of it. Returns each fitting mutant with its functions, the output of the check, and its
    processor seconds."""
    with tempfile.TemporaryDirectory(prefix="mutants-") as copy:
        fitting = applied(crate, mutants, copy)
        taken = set().union(*fitting.values())
        if stubs:
            stub_all_but(copy, taken, crate.name)
            without_main(copy, taken)
        only = [word for function in sorted(taken) for word in ("--only", function)]
        _, seconds, output = prover.check(crate, copy, *only)
        return fitting, output, seconds


def judge(mutant, functions, output):
    """Returns None if the mutant, which changes these functions, is rejected for a goal of theirs, else a complaint."""
    if refusal(output, functions):
        return None
    said = unread(output, {file for file, _, _ in mutant.changes})
    if said:
        return f"the prover cannot read the changed text: {said[:200]}"
    words, errors = lines_about(output, functions)
    if not words:
        return "the check prints nothing about its functions " + ", ".join(sorted(functions))
    if all(line.startswith("proved") for line in words):
        return STILL_PROVED
    return f"not rejected for a goal of its own: {(errors or words)[0][:200]}"


def judge_definitions(mutant, output):
    """Returns None if a goal or a lemma fails with the mutant's definitions, else a complaint."""
    said = unread(output, {file for file, _, _ in mutant.changes})
    if said:
        return f"the prover cannot read the changed text: {said[:200]}"
    if re.search(r"(?m)^logic=proved|^only=(\d+) proved=\1$", output):
        return ALL_PROVED
    goals = [line for line in re.findall(r"(?m)^fn \w+::\S+: (no proof.*)$", output) if "did not prove" in line]
    errors = re.findall(r"(?m)^(?:\./)?proofs/\S+: error:.*$", output)
    if goals or any(not REMOVED.search(error) for error in errors):
        return None
    return f"no goal and no lemma fails for its meaning: {(errors or [output.strip()])[0][-200:]}"


def try_definitions(crate, mutant):
    """Checks the crate, or the theorem that the mutant names, with a mutant of its definitions; returns the complaint
    or None, and processor seconds."""
    with tempfile.TemporaryDirectory(prefix="mutants-") as copy:
        prover.copy_of(crate.folder, copy)
        mutant.changes_texts(copy)
        _, seconds, output = prover.check(crate, copy, *(("--only", mutant.law) if mutant.law else ()))
        return judge_definitions(mutant, output), seconds


def has_lost(mutant, functions, output):
    """Records the goals that the mutant removed; returns whether there are any that no check found before."""
    found = lost_goals(output, functions) - mutant.lost
    mutant.lost |= found
    return bool(found)


def try_batch(crate, mutants):
    """Tries a batch of mutants of a crate; returns a complaint for each (or None), the number of checks, and processor
    seconds. Mutants that do not fit together, or that remove goals with answers, are tried in further checks; those
    that are neither rejected nor proved over stubs are tried again over everything they call, then without the rejected
    ones, and finally alone. One that cannot be read or whose function is unknown, so that the check of all says
    nothing, is left out."""
    verdicts, checks, total = {}, 0, 0
    for mutant in filter(Mutant.is_of_definitions, mutants):
        verdicts[mutant], seconds = try_definitions(crate, mutant)
        checks, total = checks + 1, total + seconds
    of_bodies = [mutant for mutant in mutants if mutant not in verdicts]
    waiting = [(of_bodies, True)] if of_bodies else []
    while waiting:
        together, stubs = waiting.pop()
        fitting, output, seconds = tried(crate, together, stubs)
        spoilers = unknown(fitting, output)
        if not spoilers and stubs and len(together) > 1 and spoiled(fitting, output):
            spoilers = misread_alone(crate, together)
        if spoilers:
            verdicts.update(spoilers)
            checks, total = checks + 1, total + seconds
            together = [mutant for mutant in together if mutant not in spoilers]
            waiting += [(together, True)] if together else []
            continue
        verdicts.update(
            {mutant: judge(mutant, fitting[mutant], output) if mutant in fitting else "again" for mutant in together}
        )
        left = [mutant for mutant in together if verdicts[mutant] not in (None, STILL_PROVED)]
        checks, total = checks + 1, total + seconds
        if stubs:
            again = [mutant for mutant in left if mutant not in fitting or has_lost(mutant, fitting[mutant], output)]
            waiting += [
                (part, over)
                for part, over in ((again, bool(fitting)), ([mutant for mutant in left if mutant not in again], False))
                if part
            ]
        elif len(left) < len(together):
            waiting += [(left, False)] if left else []
        elif len(together) > 1:
            waiting += [([mutant], False) for mutant in left]
    return verdicts, checks, total
