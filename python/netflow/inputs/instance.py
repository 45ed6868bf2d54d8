"""A model with its data and options, as the program is asked: decimals are scaled, joins data files and changes values
if needed."""
from __future__ import annotations

import os
import re
from concurrent.futures import ThreadPoolExecutor
from fractions import Fraction
from typing import Any, Mapping, Sequence

from ..errors import DataError, ProgramError, ScaleError
from ..program import UNREADABLE_FILE, Answer, Session
from ..reading.conditions import mark_open_sides
from ..reading.edits import EditedText
from ..reading.model import Unparsed
from ..reading.network import Network, collection_paused
from ..reading.output import read_compiled, read_cut, read_plan, read_prices, split_prices
from ..types import Key, Value
from .decimals import CERTAIN, GRAMMAR, is_decimal, next_error
from .python_data import PythonData
from .rewriting import Rewriting
from .scaling import Factors
from .source import Input, unreadable

# The beginning of the data of a model with data in one file.
SECTION = re.compile(
    r"#[^\n]*|/\*.*?\*/|'(?:[^'\n]|'')*'|\"(?:[^\"\n]|\"\")*\"|;(?:\s|#[^\n]*\n|/\*.*?\*/)*(?P<data>data\s*;)", re.S
)
PLACE = re.compile(r"(E\d\d \w+ (model|data)) (\d+):(\d+)(.*)", re.S)


class Instance:
    """`changes` are sets and parameters by name that replace those of the data; `scale` has factors by parameter; with
    `add_bounds` an arc without a bound gets one that no plan reaches, and with `ignore_outside` rows of data for keys
    outside their sets are left out. `origins` says for a name with a key what the user wrote for the change.
    """

    def __init__(
        self,
        model: Input,
        data: Sequence[Input] = (),
        *,
        objective: str | None = None,
        changes: Mapping[str, Any] | None = None,
        scale: Mapping[str, int] | None = None,
        add_bounds: bool = False,
        ignore_outside: bool = False,
        origins: Mapping[tuple[str, Key], str] | None = None,
    ) -> None:
        self.model, self.data, self.changes = model, list(data), dict(changes or {})
        self.scale, self.add_bounds, self.objective = dict(scale or {}), add_bounds, objective
        self.ignore_outside = ignore_outside
        self.options = [] if objective is None else ["--objective", objective]
        self.factors = Factors()
        self.edited: dict[str, list[EditedText]] = {}
        self.origins, self.changed_text = dict(origins or {}), ""
        self.changed: PythonData | None = None
        self.session = Session([])
        self.is_ready = self.is_rewritten = False
        self.unread = ""  # which text cannot be rewritten, in words
        self.notes: list[str] = []
        self.rewriting: Rewriting | None = None

    def __enter__(self) -> "Instance":
        return self

    def __exit__(self, _: Any, problem: Any, __: Any) -> None:
        if isinstance(problem, ProgramError):
            problem.instance = self  # which keeps its files, for the hints
        else:
            self.session.__exit__()

    def prepare(self) -> None:
        """Chooses the files that the program reads: those that were given, or rewritten ones."""
        if self.is_ready:
            return
        self.is_ready = True
        self.session.options = self.options
        for source in (self.model, *self.data):
            if source.path is not None:
                source.path = self.session.lasting(source.path)
        if not self.data:
            self.split_model()
        if self.changes or self.scale or self.add_bounds or self.ignore_outside or len(self.data) > 1:
            self.require_files()
            failed = self.failed_rewrite()
            if failed is None:
                return
            is_parsed = isinstance(failed, ScaleError)
            for number in range(len(self.data)) if is_parsed else [self.rewriting.parsed if self.rewriting else 0]:
                self.report_text(number, GRAMMAR if is_parsed else CERTAIN)
            if not isinstance(failed, Unparsed):
                raise failed
            self.leave_out_options()
        self.use_files()

    def leave_out_options(self) -> None:
        """Notes that a text cannot be rewritten, so that factors and bounds are left out. Changed values and several
        data texts cannot be left out, which is an error."""
        given = {
            "changed values": bool(self.changes),
            "several data files": len(self.data) > 1,
            "factors of decimals": bool(self.scale),
            "missing bounds": self.add_bounds,
            "rows that are left out": self.ignore_outside,
        }
        said = " and ".join(name for name, is_given in given.items() if is_given)
        if self.changes or len(self.data) > 1:
            raise DataError(f"{self.unread}, which {said} need: write this part in another form")
        self.notes.append(f"{self.unread}, which {said} need: solved without")

    def split_model(self) -> None:
        """Makes the data that follow `data;` in the model the data text, with each word in its line and column."""
        text = self.model.text()
        start = next((match.start("data") for match in SECTION.finditer(text) if match["data"]), None)
        if start is not None:
            column = start - text.rfind("\n", 0, start) - 1
            name, data = self.model.name, "\n" * text.count("\n", 0, start) + " " * column + text[start:]
            self.model, self.data = Input(text=text[:start], name=name), [Input(text=data, name=name)]

    def report_text(self, number: int, kinds: re.Pattern[str]) -> None:
        """Raises the program's error for the model, or for the data text of this number, besides its decimals."""
        above = sum(source.text().count("\n") + 1 for source in self.data[:number])
        source = self.data[number] if number < len(self.data) else None
        self.use_files(source)
        problem = next_error(self.session, kinds)
        if problem is None:
            return
        match = PLACE.fullmatch(problem.message)
        if not above or source is None or match is None or match[2] == "model":
            raise problem
        row, rest = int(match[3]), f"{match[4]}{match[5].rstrip()}"
        raise ProgramError(
            problem.status,
            f"{match[1]} {row}:{rest}\nin {source.name or 'the text'}:{row}:{match[4]}\n",
            f"{match[1]} {row + above}:{rest}\n",
        )

    def require_files(self) -> None:
        """Raises the error of the program for the first file that cannot be read."""
        for kind, source in (("model", self.model), *(("data", source) for source in self.data)):
            reason = unreadable(source.path) if source.path is not None else ""
            if reason:
                raise ProgramError(UNREADABLE_FILE, f"E90 ReadFault {kind}: {source.path}: {reason}\n")

    def use_files(self, data: Input | None = None) -> None:
        """Gives the program the model and one data text, the first if none is given, as they are."""
        data = data or (self.data[0] if self.data else Input(os.devnull))
        self.session.files = [
            source.path if source.path is not None else self.session.write(source.text())
            for source in (self.model, data)
        ]

    def ask(self, command: str, *options: str) -> Answer:
        """Calls `solve` or `compile` with options of its own. When the program meets a decimal, the texts are scaled,
        or have another error, which is reported."""
        self.prepare()
        try:
            return self.session.ask(command, *options)
        except ProgramError as problem:
            if not is_decimal(problem):
                raise self.placed(problem) from None
            is_first = not self.is_rewritten
            failed = self.failed_rewrite() if is_first else None
            if is_first and failed is None:
                return self.ask(command, *options)
            # A forgotten ; can give a parameter values of another one.
            found = next_error(self.session, GRAMMAR if isinstance(failed, ScaleError) else CERTAIN)
            if isinstance(failed, ScaleError) and found is None and not failed.is_numeral:
                raise failed from None
            raise self.placed(found or problem) from None

    def failed_rewrite(self) -> Exception | None:
        """Rewrites the texts; returns why they cannot be, None if they were."""
        try:
            self.rewrite()
        except Unparsed as problem:
            self.unread = self.rewriting.unread_text(problem) if self.rewriting is not None else ""
            return problem
        except ScaleError as problem:
            return problem
        return None

    def placed(self, problem: ProgramError) -> ProgramError:
        """Returns the error with its place in the text that the user gave."""
        if problem.message.startswith("E90 "):
            path = (
                self.model.path
                if " model" in problem.message
                else next((source.path for source in self.data if source.path), None)
            )
            return (
                ProgramError(problem.status, f"{problem.message.rstrip()}: {path}: {unreadable(path)}\n")
                if path
                else problem
            )
        match = PLACE.fullmatch(problem.message)
        edited = self.edited.get(match[2]) if match else None
        if not edited or match is None:
            return problem
        row, column, above = int(match[3]), int(match[4]), 0
        if match[2] == "data" and self.change_at(row):
            line = f"{match[1]} {row}:{column}{match[5].rstrip()}\n"
            return ProgramError(problem.status, f"{match[1]}{match[5].rstrip()}\nin {self.change_at(row)}\n", line)
        for part in edited:
            lines = part.text.count("\n") + 1
            if row - above <= lines:
                column = part.original_place(row - above, column)[1]
                break
            above += lines
        line = f"{match[1]} {row}:{column}{match[5].rstrip()}\n"
        if len(edited) < 2:
            return ProgramError(problem.status, line)
        path, place = self.source_of(row)
        return ProgramError(
            problem.status,
            f"{match[1]} {place}:{column}{match[5].rstrip()}\nin {path or 'the text'}:{place}:{column}\n",
            line,
        )

    def source_of(self, row: int) -> tuple[str | None, int]:
        """Returns the name of the file of a line of the joined data with the line in that file; (None, 0) for a
        change."""
        if self.change_at(row):
            return None, 0
        for part in self.data[:-1]:
            lines = part.text().count("\n") + 1
            if row <= lines:
                return part.name, row
            row -= lines
        return (self.data[-1].name if self.data else None), row

    def rows_of_data(self) -> int:
        return sum(source.text().count("\n") + 1 for source in self.data)

    def change_at(self, row: int) -> str:
        """Returns in words which change a line of the joined data is; an empty text for a line of a file."""
        row -= self.rows_of_data()
        if self.changed is None or row <= 0 or not self.changed.origins:
            return ""
        name, key, _ = self.changed.place(row)
        return (
            (key is not None and self.origins.get((name, key)))
            or next((said for (other, _), said in self.origins.items() if other == name and not key), "")
            or self.changed.described(row)
        )

    def is_from_python(self) -> bool:
        """Whether values are given by Python, not by options of a command."""
        return self.changed is not None and bool(self.changes) and not self.origins

    def value_at(self, row: int) -> tuple[str, Key | None, Value | None]:
        """Returns the name, the key and the value of the change in a line of the joined data."""
        return self.changed.place(row - self.rows_of_data()) if self.changed is not None else ("", None, None)

    def written(self, row: int) -> str:
        """Returns a change in Python's form, or the option; an empty text without a value."""
        name, key, value = self.value_at(row)
        if value is None or self.origins:
            return self.change_at(row) if self.origins else ""
        key_text = f"[{', '.join(map(repr, key))}]" if key else ""
        return f"{name}{key_text} = {str(value) if isinstance(value, Fraction) else repr(value)}"

    def network(self, with_prices: bool = False) -> tuple[Answer, Network]:
        """Returns the answer of `solve`, and the network with its plan, or with a cut if there is none. With prices the
        network keeps their text, which `read_prices` reads."""
        self.prepare()
        was_rewritten = self.is_rewritten
        options = ["--prices"] if with_prices else []
        with ThreadPoolExecutor(1) as calls:
            # The program solves the model while this process reads the network.
            solving = calls.submit(self.session.ask, "solve", *options)
            compiled = self.ask("compile").text
            if self.is_rewritten != was_rewritten:
                solving = calls.submit(self.session.ask, "solve", *options)
            with collection_paused():
                net = read_compiled(compiled)
                mark_open_sides(net, self.model.text())
            try:
                answer = solving.result()
            except ProgramError as problem:
                raise self.placed(problem) from None
        with collection_paused():
            return self.answered(net, answer), net

    def answered(self, net: Network, answer: Answer) -> Answer:
        """Gives the network its plan or its cut, in the units of the data; returns the answer without prices."""
        if answer.status == 0:
            plan, net.prices_text = split_prices(answer.text)
            answer = Answer(answer.status, plan)
            read_plan(plan, net)
            self.check_bounds(net)
        else:
            net.cut = read_cut(answer.text, net)
        net.divide(self.factors)
        return answer

    def priced_network(self) -> Network:
        """Returns the network with its plan and prices, or with a cut."""
        net = self.network(with_prices=True)[1]
        if net.cut is None:
            read_prices(net)
        return net

    def check_bounds(self, net: Network) -> None:
        """Raises Unbounded if an added bound is what limits the objective."""
        if self.add_bounds:
            from ..graphs.problem import require_bounded

            require_bounded(net)

    def rewrite(self) -> None:
        """Gives the program the model and the data in whole numbers, with the changes, and one data text."""
        self.is_rewritten = True
        self.rewriting = rewriting = Rewriting(
            self.model,
            self.data,
            self.changes,
            objective=self.objective,
            scale=self.scale,
            add_bounds=self.add_bounds,
            is_command=bool(self.origins),
            ignore_outside=self.ignore_outside,
        )
        rewriting.run()
        self.notes += rewriting.outside_lines + rewriting.idle_lines
        self.factors, self.edited = rewriting.factors, rewriting.edited
        self.changed, self.changed_text = rewriting.changed, rewriting.changed_text
        self.session.files = [self.session.write(text) for text in rewriting.texts()]

    def remark_lines(self) -> list[str]:
        """Returns what a reader has to know of values from Python, and of options that were left out."""
        return [*self.notes, *(self.rewriting.remark_lines() if self.rewriting is not None else [])]
