"""What the tools share: their options, exit statuses, and how they end."""
from __future__ import annotations

import argparse
import gc
import os
import signal
import sys
from typing import Any, Callable, Sequence

from .. import __version__
from ..errors import DataError, ModelError, NetflowError, ProgramError, ScaleError, Unbounded, Unreadable
from ..exact import Exact, parse_numeral
from ..hints.diagnostic import Diagnostic
from ..hints.explanation import explanation
from ..inputs.grouped_digits import grouped_lines_of
from ..inputs.instance import Instance
from ..inputs.source import Input
from ..program import INTERNAL, REJECTED, UNREADABLE_FILE, USAGE, Patience
from ..reading.data import TOKEN
from ..reading.network import Network
from ..report.json_objects import dump_lines, error_json
from ..types import Key, Member, Value

NOTED: set[str] = set()
OTHER_VERSION = "the output of netflow does not have the documented form; is the program of another version?"


class ToolParser(argparse.ArgumentParser):
    """The arguments of a tool; wrong ones end with the status that netflow gives them."""

    def __init__(self, usage: str, **others: Any) -> None:
        summary, _, more = usage.partition("\n\n")
        words: dict[str, Any] = {
            "usage": summary.replace("usage: ", "", 1),
            "description": more,
            "formatter_class": argparse.RawDescriptionHelpFormatter,
        }
        arguments: dict[str, Any] = {**words, "allow_abbrev": False, **others}
        super().__init__(**arguments)
        self.add_argument("--version", action="version", version=f"{self.prog} {__version__}")

    def error(self, message: str) -> Any:
        self.print_usage(sys.stderr)
        sys.stderr.write(f"{self.prog}: {message}\n")
        sys.exit(USAGE)

    def add_instance(self) -> "ToolParser":
        """Adds the files and options of a model with its data."""
        self.add_argument("model", metavar="MODEL")
        self.add_argument(
            "data",
            metavar="DATA",
            nargs="*",
            default=[],
            help="data files; later ones override earlier ones (none: no data)",
        )
        self.add_argument("--objective", metavar="NAME", help="the objective, if the model has several")
        self.add_argument(
            "--set",
            metavar="NAME=VALUE",
            action="append",
            default=[],
            dest="changes",
            help="change a value: van=45, or cost[north,hill]=5",
        )
        self.add_argument(
            "--scale",
            metavar="NAME=FACTOR",
            action="append",
            default=[],
            help="the factor of a parameter with decimals",
        )
        self.add_argument(
            "--bounds", action="store_true", help="add bounds that no plan reaches to arcs that lack them"
        )
        self.add_argument(
            "--ignore-outside", action="store_true", help="leave out rows of data for keys outside their sets"
        )
        return self


def instance_of(arguments: argparse.Namespace, extra: Sequence[str] = ()) -> Instance:
    """Returns the question of parsed words."""
    data = [Input(path) for path in arguments.data]
    origins = {**origins_of(arguments.changes, "--set"), **origins_of(extra, "the case")}
    instance = Instance(
        Input(arguments.model),
        data,
        objective=arguments.objective,
        changes=changes_of([*arguments.changes, *extra]),
        scale=scale_of(arguments.scale),
        add_bounds=arguments.bounds,
        ignore_outside=arguments.ignore_outside,
        origins=origins,
    )
    return instance


def changes_of(words: Sequence[str]) -> dict[str, Any]:
    """Returns the values of `NAME=VALUE` and `NAME[KEY,..]=VALUE` by name."""
    result: dict[str, Any] = {}
    for word in words:
        name, key, value = change_of(word)
        if key:
            rows = result.setdefault(name, {})
            if not isinstance(rows, dict):
                raise ProgramError(USAGE, f"--set {word}: {name} already has a value without a key\n")
            rows[key] = value
        else:
            result[name] = value
    return result


def change_of(word: str) -> tuple[str, Key, Value | int]:
    """Returns the name, the key, () without one, and the value of a change."""
    head, equals, value = word.partition("=")
    name, bracket, key = head.strip().partition("[")
    parts = tuple(member_of(part) for part in key_parts(key[:-1])) if key.endswith("]") else ()
    if not equals or not name or bracket and not parts:
        raise ProgramError(USAGE, f"--set {word}: expected NAME=VALUE or NAME[KEY,..]=VALUE\n")
    return name, parts, value_of(value)


def origins_of(words: Sequence[str], option: str) -> dict[tuple[str, Key], str]:
    """Returns for the name and key of each change what the user wrote."""
    return {change_of(word)[:2]: f"{option} {word}" for word in words}


def key_parts(key: str) -> list[str]:
    return [token[0] for token in TOKEN.finditer(key) if token.lastgroup in ("word", "text")]


def member_of(text: str) -> Member:
    if text[:1] in ("'", '"') and len(text) > 1:
        return text[1:-1].replace(text[0] * 2, text[0])
    number = parse_numeral(text)
    return int(number) if number is not None and number.denominator == 1 else text


def value_of(text: str) -> Value | int:
    text = text.strip()
    number = parse_numeral(text)
    return number if number is not None else member_of(text)


def scale_of(words: Sequence[str]) -> dict[str, int]:
    result = {}
    for word in words:
        name, _, factor = word.partition("=")
        if not factor.isdigit() or int(factor) < 1:
            raise ProgramError(USAGE, f"--scale {word}: expected NAME=FACTOR, a factor of 1 or more\n")
        result[name] = int(factor)
    return result


def fractions_text(net: Network) -> str:
    """Returns why the flows of a plan are not whole, and how they become so; an empty text if they are whole."""
    if net.cut is not None or all(arc.flow.denominator == 1 for arc in net.arcs):
        return ""
    named = net.factors.in_flows
    what = ", ".join(named) if named else "a bound or condition of the model"
    unit = Exact(1, net.factors.flow)
    return (
        f"flows are multiples of {unit}, since {what} {'have' if len(named) > 1 else 'has'} decimals; for whole flows"
        " use whole numbers there"
    )


def note(lines: Sequence[str]) -> None:
    """Prints lines on standard error, each after the name of the tool."""
    sys.stderr.write("".join(f"{os.path.basename(sys.argv[0])}: {line}\n" for line in lines))


def note_fractions(net: Network) -> None:
    """Prints on standard error why the flows of a plan are not whole."""
    note(list(filter(None, [fractions_text(net)])))


def note_grouped(instance: Instance) -> None:
    """Prints on standard error the decimals that may be whole numbers with grouped digits, each once."""
    new = [line for line in [*instance.notes, *grouped_lines_of(instance)] if line not in NOTED]
    NOTED.update(new)
    note(new)


def title_of(arguments: argparse.Namespace) -> str:
    names = [os.path.basename(path) for path in arguments.data if path != os.devnull]
    return f"{os.path.basename(arguments.model)}{' with ' if names else ''}{', '.join(names)}"


def print_error(problem: ProgramError, found: Diagnostic | None, instance: Instance | None) -> None:
    """Prints an error on standard error, with its explanation if it is one of the model or its data."""
    options = instance.options if instance is not None else ()
    lines = [problem.message.rstrip("\n"), *(explanation(found, options) if found is not None else [])]
    sys.stderr.write("".join(f"{line}\n" for line in lines))


def print_error_json(problem: ProgramError, instance: Instance) -> int:
    """Prints the JSON object of an error of the model or its data, and returns the status."""
    diagnostic = Diagnostic.of_instance(problem, instance)
    if diagnostic is None:
        raise problem
    print(dump_lines(error_json(ModelError(diagnostic))))
    return problem.status


def run(main: Callable[[Sequence[str]], int], words: Sequence[str] | None = None) -> None:
    """Runs the main function of a tool and exits with its status. A closed pipe is silent; output that fails has the
    status 4."""
    if hasattr(signal, "SIGPIPE"):
        signal.signal(signal.SIGPIPE, signal.SIG_DFL)
    name = os.path.basename(sys.argv[0])
    if sys.stdout is None:
        sys.exit(close_error(name))
    gc.disable()  # a tool ends soon, and a large network is many objects without cycles
    for stream in filter(None, (sys.stdout, sys.stderr)):
        stream.reconfigure(encoding="utf-8", errors="surrogateescape")  # type: ignore[attr-defined]
    sys.exit(ended(main, sys.argv[1:] if words is None else words, name))


def close_error(name: str) -> int:
    """Reports that standard output is closed, and returns the status."""
    if sys.stderr is not None:
        sys.stderr.write(f"{name}: standard output is closed\n")
    return UNREADABLE_FILE


def ended(main: Callable[[Sequence[str]], int], words: Sequence[str], name: str) -> int:
    try:
        with Patience(f"{name}: still working ..\n"):
            status = main(words)
            sys.stdout.flush()
        return status
    except SystemExit as end:
        return flushed(end.code if isinstance(end.code, int) else 0, name)
    except ProgramError as problem:
        instance = problem.instance
        found = Diagnostic.of_instance(problem, instance) if instance is not None else None
        print_error(problem, found, instance)
        return problem.status
    except Unreadable as problem:
        sys.stderr.write(f"{name}: {OTHER_VERSION} {problem}\n")
        return INTERNAL
    except (ScaleError, DataError, Unbounded, NetflowError) as problem:
        sys.stderr.write(f"{name}: {problem}\n")
        return REJECTED
    except OSError as problem:
        return output_error(problem, name)
    except KeyboardInterrupt:
        return 130


def flushed(status: int, name: str) -> int:
    """Writes what is left of standard output, such as the help; returns the status, or that of a failed write."""
    try:
        sys.stdout.flush()
    except OSError as problem:
        return output_error(problem, name)
    return status


def output_error(problem: OSError, name: str) -> int:
    close_output()
    sys.stderr.write(f"{name}: {problem.strerror or problem}\n")
    return UNREADABLE_FILE


def close_output() -> None:
    """Keeps the interpreter from writing what is left to an output that fails."""
    try:
        sys.stdout.flush()
    except OSError:
        pass
    os.dup2(os.open(os.devnull, os.O_WRONLY), sys.stdout.fileno())
