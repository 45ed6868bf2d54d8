"""Writes a model and its data in whole numbers, with changed values, and one data text."""
from __future__ import annotations

import os
import re
from fractions import Fraction
from typing import Any, Iterator, Mapping, Sequence

from ..errors import DataError, ScaleError
from ..exact import common_factor, decimal_text, parse_numeral
from ..reading.data import Cell, DataText
from ..reading.edits import EditedText
from ..reading.keys import shown
from ..reading.memberships import Memberships
from ..reading.model import Decl, Shapes, Unparsed, parse
from ..types import Edit, Key
from .command_changes import require_changes
from .outside import Outside
from .overrides import Overrides, lines_without_effect, numbered_cells
from .python_data import PythonData, declared_text
from .scaling import BOUND, Factors, Scaler, scaled_value
from .source import Input, texts_of

MAYBE_DECIMAL = re.compile(r"[.eEdD]")


class Rewriting:
    """The texts of a model and its data after `run`: `edited` are those of files, `changed_text` has the changes, and
    `factors` say by what the numbers are larger. `parsed` is how many data texts were parsed when one could not be.
    `is_command` if the changes come from options of a command, where quotes say what is a text."""

    def __init__(
        self,
        model: Input,
        data: Sequence[Input],
        changes: Mapping[str, Any],
        *,
        objective: str | None,
        scale: Mapping[str, int],
        add_bounds: bool,
        is_command: bool,
        ignore_outside: bool = False,
    ) -> None:
        self.source, self.model = model, model.text()
        self.data, self.changes, self.objective = data, dict(changes), objective
        self.scale, self.add_bounds, self.is_command = scale, add_bounds, is_command
        self.ignore_outside = ignore_outside
        self.outside_lines: list[str] = []
        self.idle_lines: list[str] = []
        self.parsed, self.is_model_parsed = 0, False
        self.pieces: list[DataText] = []
        self.edited: dict[str, list[EditedText]] = {}
        self.factors, self.changed_text = Factors(), ""
        self.changed: PythonData | None = None

    def run(self) -> None:
        """Parses and rewrites the texts; raises Unparsed, DataError or ScaleError."""
        decls = parse(self.model)
        shapes = Shapes(decls, self.model)
        params = {decl.name: shapes.keys[decl.name] for decl in decls if decl.kind == "param"}
        self.is_model_parsed = True
        for source in self.data:
            self.pieces.append(DataText(source.text(), params, shapes.sets))
            self.parsed += 1
        self.idle_lines = lines_without_effect([source.name for source in self.data], self.pieces)
        if self.is_command:
            require_changes(self.changes, shapes, self.pieces)
        texts = None if self.is_command else texts_of(self.model, self.pieces)
        changed = self.changed = PythonData(self.changes, shapes.sets, params, texts, shapes)
        edits = [Overrides(self.pieces, changed).edits(piece) for piece in self.pieces]
        needed = self.needed(changed, edits)
        try:
            if self.ignore_outside:
                edits = self.without_outside(decls, needed, edits)
            self.scale_texts(decls, needed, shapes, edits)
        except ScaleError as problem:
            raise self.with_cell(problem, needed, edits) from None

    def unread_text(self, problem: Unparsed) -> str:
        """Returns in words which part of which text could not be parsed."""
        source = self.data[self.parsed] if self.is_model_parsed else self.source
        text = source.text()
        row = text.count("\n", 0, problem.offset) + 1
        line = (text.split("\n")[row - 1]).strip()
        where = f"line {row} of {os.path.basename(source.name) if source.name else 'the text'}"
        return f"the tools cannot rewrite {where}, `{line[:60]}{'..' if len(line) > 60 else ''}`"

    def scale_texts(
        self, decls: list[Decl], needed: dict[str, int], shapes: Shapes, edits: Sequence[list[Edit]]
    ) -> None:
        """Makes the texts, when the factor of each parameter is known."""
        unknown = {name: factor for name, factor in needed.items() if name not in shapes.names("param")}
        for name in self.scale:
            if name not in shapes.names("param"):
                raise DataError(
                    f"scale of {name}: the model declares no such parameter{declared_text(shapes, name, 'param')}"
                )
        factors, model_edits = Scaler(decls, {**needed, **self.scale}, self.objective, self.add_bounds).scale()
        # Decimals of names that the model lacks are scaled too, so that the program reports the name.
        scaled = {**unknown, **factors.parameters}
        model_edits += self.dropped_values(decls)
        texts = [
            EditedText(piece.text, made + self.scaled_cells(piece, made, scaled)) for piece, made in self.made(edits)
        ]
        self.edited = {"model": [EditedText(self.model, model_edits)], "data": texts}
        self.factors = factors
        if self.changed is not None:
            self.changed_text = self.changed.text(factors.parameters, self.add_bounds)

    def without_outside(
        self, decls: list[Decl], needed: Mapping[str, int], edits: Sequence[list[Edit]]
    ) -> list[list[Edit]]:
        """Returns the edits with those that leave out rows for keys outside their sets."""
        changed = self.changed.text(dict(needed), self.add_bounds) if self.changed is not None else ""
        model = EditedText(self.model, self.dropped_values(decls)).text
        texts = [EditedText(piece.text, made).text for piece, made in self.made(edits)]
        outside = Outside(Memberships(model, "\n".join([*texts, changed])), self.pieces)
        self.outside_lines = outside.lines()
        return [made + outside.edits(piece, made) for piece, made in self.made(edits)]

    def dropped_values(self, decls: list[Decl]) -> list[Edit]:
        return [dropped(self.model, decl) for decl in decls if decl.name in self.changes and decl.phrase(":=")]

    def made(self, edits: Sequence[list[Edit]]) -> Iterator[tuple[DataText, list[Edit]]]:
        return zip(self.pieces, edits)

    def texts(self) -> list[str]:
        """Returns the model and the data for the program."""
        return [
            self.edited["model"][0].text,
            "\n".join([*(text.text for text in self.edited["data"]), self.changed_text]),
        ]

    def numbers(
        self, changed: PythonData, edits: Sequence[list[Edit]]
    ) -> Iterator[tuple[str, Key | None, Fraction, str]]:
        """Yields the numbers that are not overridden: name, key (None for a default), value, and place."""
        for name in changed.params:
            for key, value in changed.params[name].items():
                if isinstance(value, Fraction):
                    yield name, key, value, ""
        for source, (piece, made) in zip(self.data, self.made(edits)):
            gone = {start for start, _, _ in made}
            for cell, is_default in numbered_cells(piece):
                token = cell.token
                if token.start not in gone and MAYBE_DECIMAL.search(token.text):
                    number = parse_numeral(token.text)
                    if number is not None:
                        line = piece.text.count("\n", 0, token.start) + 1
                        where = f" of {os.path.basename(source.name)}" if source.name else ""
                        yield cell.name, None if is_default else cell.key, number, f" in line {line}{where}"

    def needed(self, changed: PythonData, edits: Sequence[list[Edit]]) -> dict[str, int]:
        """Returns the factor that makes the values of each parameter whole."""
        values: dict[str, list[Fraction]] = {name: [] for name in changed.params}
        for name, _, number, _ in self.numbers(changed, edits):
            values.setdefault(name, []).append(number)
        return {name: common_factor(numbers) for name, numbers in values.items()}

    def with_cell(self, problem: ScaleError, needed: Mapping[str, int], edits: Sequence[list[Edit]]) -> ScaleError:
        """Returns the error with the value because of which its parameter has this factor."""
        name = problem.parameter
        if name is None or self.changed is None or needed.get(name, 1) == 1:
            return problem
        found = [entry for entry in self.numbers(self.changed, edits) if entry[0] == name]
        _, key, value, place = max(found, key=lambda entry: entry[2].denominator)
        cell = f"the default of {name}" if key is None else title(name, key)
        is_scaled = problem.factor == needed[name] and name not in self.scale
        said = "the factor comes from" if is_scaled else "see"
        advice = ": round it" if is_scaled and value.denominator > 10**6 else ""
        return ScaleError(
            f"{problem}; {said} {cell} = {decimal_text(value)}{place}{advice}",
            name,
            problem.factor,
            problem.is_numeral,
        )

    def scaled_cells(self, piece: DataText, made: Sequence[Edit], factors: Mapping[str, int]) -> list[Edit]:
        gone, found = {start for start, _, _ in made}, []
        for cell, _ in numbered_cells(piece):
            name, token = cell.name, cell.token
            factor = factors.get(name, 1)
            if token.start in gone or token.kind != "word":
                continue
            if token.text in ("Infinity", "-Infinity") and self.add_bounds:
                found.append((token.start, token.end, token.text.replace("Infinity", str(BOUND))))
                continue
            if factor != 1 or name in self.scale:
                number = parse_numeral(token.text)
                if number is not None:
                    found.append((token.start, token.end, str(scaled_value(name, number, factor))))
        return found

    def remark_lines(self) -> list[str]:
        """Returns what a reader has to know of values from Python: floats that were rounded, and NaN or None in place
        of which a value of a file counts."""
        if self.changed is None:
            return []
        lines, shown_names = self.changed.rounding_lines(), set()
        cells: dict[tuple[str, Key], tuple[Cell, Input]] = {
            (cell.name, cell.key): (cell, source)
            for source, piece in zip(self.data, self.pieces)
            for cell in (piece.cells() if self.changed.missing else ())
        }
        for remark in self.changed.missing:
            value = self.changed.params[remark.name].get(remark.key)
            cell, source = cells.get((remark.name, remark.key), (None, None))
            if remark.name in shown_names or value is None and cell is None:
                continue
            shown_names.add(remark.name)
            where = "earlier data" if value is not None or source is None else source.name or "the data text"
            text = decimal_text(value) if isinstance(value, Fraction) else cell.token.text if cell else value
            lines.append(
                f"{remark.cell()} is {remark.missing}, which gives no value, so that of {where} counts: {text}"
            )
        return lines


def title(name: str, key: Key) -> str:
    return f"{name}[{','.join(map(shown, key))}]" if key else name


def dropped(model: str, decl: Decl) -> Edit:
    """Returns the edit that takes a `:=` out of the model, since a change gives the value."""
    phrase = next(phrase for phrase in decl.phrases if phrase.word == ":=")
    before = model[: phrase.start].rstrip()
    start = len(before) - 1 if before.endswith(",") else phrase.start
    return (
        start,
        phrase.end,
        re.sub(r"[^\n]", " ", model[start : phrase.end]) if "\n" in model[start : phrase.end] else "",
    )
