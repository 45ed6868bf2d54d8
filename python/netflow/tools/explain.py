"""usage: netflow-explain MODEL [DATA ..] [--objective NAME] [--json] [--set NAME=VALUE] [--scale NAME=FACTOR] [--bounds]
       netflow-explain COMMAND FILE.. [OPTION..] [--json]
       netflow-explain CODE

Solves a model, with its decimals scaled, as the other tools do. If an input is rejected, the error line is followed by the place as
editors take it, PATH:LINE:COLUMN, with a hint what was probably meant, the line of the input with a mark under the place, and what the
error means, or how to fix it. Further wrong names, keys and kinds of values in the data follow, a line for each. With --json the
error is a JSON object on standard output.

With a COMMAND (solve, compile, min, check, ..) netflow runs with these words. Its output and exit status are passed on, and its
error is explained. It rejects decimals (E04) unless there are several data files, --set, --scale or --bounds. With a CODE, such as
E36, it prints what the code means, and how to fix the error.
"""
from __future__ import annotations

import os
import re
import subprocess
import sys
from typing import Sequence

from .. import __version__
from ..errors import ModelError, ProgramError
from ..hints.diagnostic import LINE, TEXTS, Diagnostic, catalogue
from ..hints.explanation import explanation, indented
from ..hints.later_errors import further_errors
from ..inputs.grouped_digits import grouped_lines, grouped_lines_of
from ..inputs.instance import Instance
from ..program import USAGE, Session, program
from ..reading.output import divided_cut, read_prices, written, written_prices
from ..reading.text import read
from ..report.json_objects import dump_lines, error_json
from .command import ToolParser, instance_of, print_error
from .command import run as run_tool


def files_of(words: Sequence[str]) -> list[int]:
    """Returns the indices of the words that name files."""
    places, skip = [], False
    for here, word in enumerate(words[1:], 1):
        if skip or word.startswith("-") and word != "-":
            skip = word == "--objective"
            continue
        places.append(here)
    return places[: len(TEXTS.get(words[0], ()))]


def explain(words: list[str], is_json: bool) -> int:
    places = files_of(words)
    with Session([words[place] for place in places]) as session:
        asked = list(words)
        for place, path in zip(places, session.files):
            asked[place] = path
        if words[0] in ("solve", "compile") and len(places) == 1:
            asked.insert(places[0] + 1, os.devnull)
        try:
            done = subprocess.run([program(), *asked], stderr=subprocess.PIPE)
        except OSError as problem:
            raise ProgramError(USAGE, f"{program()}: {problem.strerror}\n") from None
        line = done.stderr.decode("utf-8", "surrogateescape").rstrip("\n")
        found = (
            Diagnostic(line, words[0], session.files, [words[place] for place in places])
            if LINE.fullmatch(line)
            else None
        )
        options = [word for here, word in enumerate(words[1:], 1) if here not in places]
        if found and is_json:
            print_json(found, options)
            return done.returncode
        sys.stderr.buffer.write(done.stderr)
        if words[0] == "solve" and done.returncode in (0, 2):
            texts = [read(path) for path in session.files]
            write_hints(grouped_lines(texts[0], [(None, text) for text in texts[1:]]))
        sys.stderr.write("".join(f"{line}\n" for line in explanation(found, options)) if found else "")
    return done.returncode


def print_json(found: Diagnostic, options: Sequence[str]) -> None:
    """Prints an error as a JSON object, with the further errors of the data."""
    more = [error_json(ModelError(error))["error"] for error in further_errors(found, options)]
    print(dump_lines({**error_json(ModelError(found)), **({"more": more} if more else {})}))


def is_rewriting(words: Sequence[str]) -> bool:
    """Whether the words of a call have several data files or an option that netflow itself does not have."""
    if words[0] not in ("solve", "compile"):
        return False
    files = [
        word
        for here, word in enumerate(words[1:])
        if words[here] != "--objective" and (not word.startswith("-") or word == "-")
    ]
    return len(files) > 2 or any(
        word.partition("=")[0] in ("--set", "--scale", "--bounds", "--ignore-outside") for word in words
    )


def explain_rewritten(words: list[str], is_json: bool) -> int:
    """Asks for the answer as the other tools do, and explains the error if there is one."""
    parser = ToolParser(__doc__ or "", prog="netflow-explain").add_instance()
    parser.add_argument("--lean", action="store_true", help="with compile: no lower bounds in the problem")
    parser.add_argument("--prices", action="store_true", help="with solve: the prices that prove the plan after it")
    parsed = parser.parse_args(words[1:])
    with instance_of(parsed) as instance:
        instance.options += ["--lean"] if parsed.lean else []
        try:
            if words[0] == "compile":
                sys.stdout.write(instance.ask("compile").text)
                return 0
            answer = instance.ask("solve", *(["--prices"] if parsed.prices else []))
            sys.stdout.write(answer.text if instance.factors.is_plain() else divided_text(instance, parsed.prices))
            write_hints([*instance.notes, *grouped_lines_of(instance)])
            return answer.status
        except ProgramError as problem:
            found = Diagnostic.of_instance(problem, instance)
            if found is None:
                raise
            if is_json:
                print_json(found, instance.options)
            else:
                print_error(problem, found, instance)
            return problem.status


def write_hints(lines: list[str]) -> None:
    """Writes on standard error what is worth a look next to an answer."""
    sys.stdout.flush()
    sys.stderr.write("".join(f"Hint: {line}\n" for line in lines))


def divided_text(instance: Instance, with_prices: bool) -> str:
    """Returns the answer to a scaled question in netflow's form, its numbers divided again."""
    answer, net = instance.network(with_prices)
    if net.cut is not None:
        return divided_cut(answer.text, net)
    if not with_prices:
        return written(net)
    read_prices(net)
    return written(net) + written_prices(net)


def explain_code(code: str) -> int:
    """Prints what a code means, and how to fix the error."""
    means, remedy = catalogue(code)
    if not means:
        raise ProgramError(
            USAGE, f"netflow-explain: {code} is no code of an error; docs/reference/errors.md lists them\n"
        )
    print("\n".join([*indented(f"{code}: {means}"), *(indented(f"To fix: {remedy}") if remedy else [])]))
    return 0


def main(arguments: Sequence[str]) -> int:
    if list(arguments[:1]) in ([], ["-h"], ["--help"]):
        print((__doc__ or "").strip(), file=sys.stdout if arguments else sys.stderr)
        return 0 if arguments else USAGE
    if arguments[0] == "--version":
        print(f"netflow-explain {__version__}")
        return 0
    if len(arguments) == 1 and re.fullmatch("E[0-9]{1,2}", arguments[0]) and not os.path.exists(arguments[0]):
        return explain_code(arguments[0])
    asked, is_rewritten = [word for word in arguments if word != "--json"], False
    if not asked or asked[0] not in TEXTS and asked[0] not in ("help", "-V"):
        asked.insert(0, "solve")
        is_rewritten = True
    return (explain_rewritten if is_rewritten or is_rewriting(asked) else explain)(asked, "--json" in arguments)


def command() -> None:
    run_tool(main)


if __name__ == "__main__":
    command()
