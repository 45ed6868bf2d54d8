"""Converts data: slices, tables of sets and several tables in a statement become rows; other statements stay."""
from __future__ import annotations

import itertools
from typing import Iterator, Sequence

from ..reading.data import Token, is_mark, tokens_of
from ..reading.model import Shapes, Unparsed
from .problems import Inexpressible, Rejected, problem_lines
from .syntax import PRINTING

Row = list[str]


class DataConversion:
    """The statements of a data text; `shapes` says how many members the keys of the model's names have."""

    def __init__(self, source: str, called: str, shapes: Shapes) -> None:
        self.source, self.called, self.shapes = source, called, shapes
        self.problems: list[Inexpressible] = []

    def run(self) -> str:
        """Returns the converted text; raises Rejected with each problem."""
        parts, at = [], 0
        try:
            for words, last in statements(self.source):
                new = self.attempted(words)
                if new is not None:
                    parts += [self.source[at : words[0].start], new]
                    at = last.end
        except Unparsed as problem:
            self.problems.append(Inexpressible(problem.offset, "this is no statement of a data file"))
        if self.problems:
            raise Rejected(problem_lines(self.called, self.source, self.problems))
        return "".join([*parts, self.source[at:]])

    def attempted(self, words: list[Token]) -> str | None:
        """Returns a statement as rows, None for one that stays, an empty text for one that only prints."""
        if words[0].text in PRINTING:
            return ""
        try:
            return Statement(words, self.shapes).converted()
        except Inexpressible as problem:
            self.problems.append(problem)
        except Unparsed as problem:
            self.problems.append(Inexpressible(problem.offset, "the statement ends in the middle of a row"))
        return None


def statements(source: str) -> Iterator[tuple[list[Token], Token]]:
    """Yields the tokens of each statement without commas between rows, and its semicolon."""
    words: list[Token] = []
    for token in tokens_of(source):
        if is_mark(token, ";"):
            if words and [word.text for word in words] not in (["data"], ["end"]):
                yield words, token
            words = []
        else:
            words.append(token)
    if words and [word.text for word in words] != ["end"]:
        raise Unparsed(words[0].start)


class Statement:
    """One statement of a data text."""

    def __init__(self, words: list[Token], shapes: Shapes) -> None:
        self.words, self.shapes, self.at = words, shapes, 1
        self.kind = words[0].text
        if words[0].kind != "word" or self.kind not in ("set", "param"):
            raise Inexpressible(words[0].start, f"`{words[0].text}` begins no statement of a data file")

    def peek(self, ahead: int = 0) -> str:
        """Returns the text of a mark, or of a word after a null character; an empty text at the end."""
        if self.at + ahead >= len(self.words):
            return ""
        token = self.words[self.at + ahead]
        return token.text if token.kind == "mark" else "\0" + token.text

    def next(self) -> Token:
        if self.at >= len(self.words):
            raise Unparsed(self.words[-1].end)
        self.at += 1
        return self.words[self.at - 1]

    def want(self, mark: str) -> None:
        if self.peek() != mark:
            raise Unparsed(self.words[min(self.at, len(self.words) - 1)].start)
        self.next()

    def skip_commas(self) -> None:
        while self.peek() == ",":
            self.next()

    def converted(self) -> str | None:
        self.require_finite()
        if self.kind == "set":
            return self.converted_set()
        name = self.next().text if self.peek().startswith("\0") and self.peek() != "\0default" else ""
        default = ""
        if self.peek() == "\0default":
            self.next()
            default = f" default {self.next().text}"
        if name and self.at == len(self.words):
            return f"param {name}{default} := ;"
        if not name:
            return self.converted_columns(default)
        return self.converted_param(name, default)

    def require_finite(self) -> None:
        for word in self.words:
            if word.kind == "word" and word.text.lstrip("+-") in ("Infinity", "Inf", "inf"):
                raise Inexpressible(
                    word.start, f"`{word.text}` is no number of netflow: remove the row, or write a limit"
                )

    # Sets

    def converted_set(self) -> str | None:
        name = self.next().text
        if self.peek() == "[":
            raise Inexpressible(
                self.words[0].start,
                f"{name} is a collection of sets: use one set of tuples, whose first member is the index",
            )
        marks = [word.text for word in self.words if word.kind == "mark"]
        if ":" not in marks and "*" not in marks:
            return None
        size = self.shapes.sets.get(name, 1)
        if self.peek() == ":=":
            self.next()
        rows: list[Row] = []
        template: Row = ["*"] * size
        while self.at < len(self.words):
            self.skip_commas()
            if self.peek() in (":", "(") and (self.peek() == ":" or self.is_turned()):
                rows += [key for key, cell in self.table(template) if self.is_member(cell)]
            elif self.peek() == "(":
                parts = self.bracketed("(", ")")
                template = parts if "*" in parts else template
                rows += [] if "*" in parts else [parts]
            elif self.at < len(self.words):
                rows.append(filled(template, [self.word() for _ in range(template.count("*"))]))
        return f"set {name} :=\n" + "".join(f"  {member(row)}\n" for row in rows) + ";"

    def is_member(self, cell: Token) -> bool:
        if cell.text not in ("+", "-"):
            raise Inexpressible(cell.start, f"`{cell.text}`: the table of a set has + and -")
        return cell.text == "+"

    # Parameters

    def converted_param(self, name: str, default: str) -> str | None:
        marks = [word.text for word in self.words if word.kind == "mark"]
        if "[" not in marks and marks.count(":") <= 1 and ":=" in marks:
            return None
        size = self.shapes.keys.get(name, 1)
        if self.peek() == ":=":
            self.next()
        rows: list[Row] = []
        template: Row = ["*"] * size
        while self.at < len(self.words):
            self.skip_commas()
            if self.peek() == "[":
                template = self.bracketed("[", "]")
            elif self.peek() == ":" or self.is_turned():
                rows += [[*key, cell.text] for key, cell in self.table(template) if cell.text != "."]
            elif self.at < len(self.words):
                key = filled(template, [self.word() for _ in range(template.count("*"))])
                rows.append([*key, self.word()])
        return f"param {name}{default} :=\n" + "".join(f"  {' '.join(row)}\n" for row in rows) + ";"

    def converted_columns(self, default: str) -> str | None:
        """Converts `param : NAMES := ..`, which netflow reads unless it has slices."""
        if not any(is_mark(word, "[") for word in self.words):
            return None
        start = next((here for here, word in enumerate(self.words) if is_mark(word, ":=")), len(self.words))
        heading = [word.text for word in self.words[1:start]]
        names = heading[len(heading) - heading[::-1].index(":") :]
        keys = self.shapes.keys.get(names[0], 1) if names else 1
        template, rows, self.at = ["*"] * keys, [], start + 1
        while self.at < len(self.words):
            self.skip_commas()
            if self.peek() == "[":
                template = self.bracketed("[", "]")
            elif self.at < len(self.words):
                key = filled(template, [self.word() for _ in range(template.count("*"))])
                rows.append([*key, *(self.word() for _ in names)])
        said = " ".join(heading).replace(" :", ":")
        return f"param{default} {said} :=\n" + "".join(f"  {' '.join(row)}\n" for row in rows) + ";"

    # Parts

    def word(self) -> str:
        self.skip_commas()
        token = self.next()
        if token.kind == "mark":
            raise Inexpressible(token.start, f"`{token.text}` was not expected here")
        return token.text

    def is_turned(self) -> bool:
        return [self.peek(ahead) for ahead in range(3)] == ["(", "\0tr", ")"]

    def bracketed(self, opening: str, closing: str) -> Row:
        """Reads `[PITT,*]` or `(Linz,*)`."""
        self.want(opening)
        parts = []
        while self.peek() != closing:
            self.skip_commas()
            parts.append(self.next().text)
        self.want(closing)
        if self.peek() == ":=":
            self.next()
        return parts

    def table(self, template: Row) -> Iterator[tuple[Row, Token]]:
        """Yields the key and the cell of each place of a table, `: COLUMNS := ROWS`."""
        is_turned = self.is_turned()
        self.at += 3 if is_turned else 0
        self.want(":")
        columns = []
        while self.peek() != ":=":
            columns.append(self.word())
        self.want(":=")
        if template.count("*") != 2:
            raise Inexpressible(self.words[self.at - 1].start, "a table has two keys: the slice needs two stars")
        while self.at < len(self.words) and self.peek() not in ("[", "(", ":"):
            row = self.word()
            for column in columns:
                self.skip_commas()
                yield filled(template, [column, row] if is_turned else [row, column]), self.next()
            self.skip_commas()


def filled(template: Sequence[str], parts: Sequence[str]) -> Row:
    """Returns the members of a template with its stars replaced."""
    rest = iter(parts)
    return list(itertools.chain.from_iterable([next(rest)] if item == "*" else [item] for item in template))


def member(row: Row) -> str:
    return row[0] if len(row) == 1 else f"({','.join(row)})"
