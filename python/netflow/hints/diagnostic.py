"""An error line of the program with its input: the place, what the code means, and hints for the fix."""
from __future__ import annotations

import os
import re
from typing import TYPE_CHECKING, Iterator, Sequence

from ..errors import ProgramError
from ..program import HERE
from ..reading.text import TOKEN, Token, read, tokens
from .habits.lookalikes import with_difference

if TYPE_CHECKING:
    from ..inputs.instance import Instance

LINE = re.compile(r"(E\d\d) (\w+)(?: (model|data|problem|certificate)(?: (\d+)(?::(\d+))?(?: (.*))?)?)?", re.S)
TEXTS = {
    "solve": ("model", "data"),
    "compile": ("model", "data"),
    "min": ("problem",),
    "check": ("problem", "certificate"),
}
DECLARING = {"set", "param", "check", "node", "arc", "minimize", "maximize"}
# The page of codes: inside a wheel; in a checkout; in an installed tree.
PAGES = ("errors.md", "../../docs/reference/errors.md", "../../doc/netflow/docs/reference/errors.md")
REMEDY = re.compile(r"Fix: ")


class Diagnostic:
    """An error line with the inputs of its call: `paths` are the files, `names` what the user calls them."""

    def __init__(
        self,
        line: str,
        command: str,
        paths: Sequence[str | None],
        names: Sequence[str | None],
        texts: dict[str, str] | None = None,
    ) -> None:
        match = LINE.fullmatch(line.rstrip("\n"))
        if match is None:
            raise ValueError(f"{line!r} is no error line of netflow")
        self.number, self.name, self.text = match[1], match[2], match[3]
        self.row, self.column, self.detail = int(match[4] or 0), int(match[5] or 0), match[6] or ""
        kinds = TEXTS.get(command, ())
        self.path, self.called = dict(zip(kinds, paths)).get(self.text), dict(zip(kinds, names)).get(self.text)
        self.texts = texts if texts is not None else {kind: read(path) for kind, path in zip(kinds, paths)}
        self.known_paths, self.asked = dict(zip(kinds, paths)), (command, paths, names)
        self.instance: Instance | None = None
        lines = self.texts.get(self.text, "").split("\n")
        self.shown = lines[self.row - 1].rstrip("\r") if 0 < self.row <= len(lines) else ""
        raw = self.shown.encode("utf-8", "surrogateescape")
        self.before = raw[: max(self.column - 1, 0)].decode("utf-8", "surrogateescape")

    @classmethod
    def of_instance(cls, problem: ProgramError, instance: Instance) -> Diagnostic | None:
        """Returns the diagnostic of a question's error; None if its line is no error line."""
        line = problem.line
        unread = re.match(r"(E90 \w+ \w+): (.*): [^:]*$", line.split("\n")[0])
        line = unread[1] if unread else line.split("\n")[0]
        match = LINE.fullmatch(line)
        if not match:
            return None
        data = instance.data or []
        texts = {
            "model": instance.model.text(),
            "data": "\n".join([*(source.text() for source in data), instance.changed_text]),
        }
        paths, names = (
            [getattr(instance.model, kind), getattr(data[0], kind) if data else None] for kind in ("path", "name")
        )
        made = cls(line, "solve", paths, names, texts)
        made.instance = instance
        if unread:
            made.path = made.called = unread[2]
        elif made.text == "data" and made.row:
            made.called = instance.source_of(made.row)[0]
            if made.is_change():
                made.shown, made.before = instance.written(made.row), ""
        return made

    def another(self, line: str) -> "Diagnostic":
        """Returns the diagnostic of another error line for the same inputs."""
        diagnostic = Diagnostic(line, *self.asked, self.texts)
        diagnostic.instance = self.instance
        return diagnostic

    @property
    def line(self) -> int:
        """The line in the user's file; `row` is the one in the joined data. 0 if the place is no line of a file."""
        return (
            self.instance.source_of(self.row)[1]
            if self.instance is not None and self.text == "data" and self.row
            else self.row
        )

    def change(self) -> str:
        """Returns in words the change, by an option or from Python, that has the error; an empty text if a file
        has the error."""
        return (
            self.instance.change_at(self.row) if self.instance is not None and self.text == "data" and self.row else ""
        )

    def is_change(self) -> bool:
        return bool(self.change())

    def place(self) -> str:
        """Returns the place in words; an empty text if the error has none."""
        return self.change() or ":".join(
            str(part) for part in (self.called or self.text, self.line, self.column) if part
        )

    def rows_text(self, rows: Sequence[int]) -> str:
        """Returns lines of the data in words: `line 4, 5`. Of several files each is named that is not the error's; a
        change has its own place."""
        if self.instance is None:
            return f"line {', '.join(map(str, rows))}"
        files: dict[tuple[str | None, str], list[str]] = {}
        for row in rows:
            path, line = self.instance.source_of(row)
            files.setdefault((path, self.instance.change_at(row)), []).append(str(line))
        here = self.called if self.text == "data" else None
        is_lone = len(self.instance.data) < 2
        return ", ".join(
            change or f"line {', '.join(lines)}{'' if is_lone or path == here else f' of {path}'}"
            for (path, change), lines in files.items()
        )

    def line_text(self, row: int) -> str:
        """Returns a line of the input that has the error in words."""
        return self.rows_text([row]) if self.text == "data" else f"line {row}"

    def at(self) -> str:
        return self.shown[len(self.before) :]

    def word(self) -> str:
        match = TOKEN.match(self.at())
        return match[0] if match else ""

    def statement(self) -> list[Token]:
        """Returns the tokens of the statement that contains the place: from the last `;` to the next one."""
        whole: list[Token] = []
        for token in self.tokens_before():
            whole = [] if whole and whole[-1].text == ";" else whole
            whole.append(token)
        whole = [] if whole and whole[-1].text == ";" else whole
        rest = "\n".join([self.at(), *self.texts.get(self.text, "").split("\n")[max(self.row, 1) :]])
        for token in tokens(rest):
            token.row += max(self.row, 1) - 1
            whole.append(token)
            if token.text == ";":
                break
        return whole

    def statement_before(self) -> list[Token]:
        """Returns the tokens of the statement before the place."""
        result: list[Token] = []
        for token in self.tokens_before():
            result = [] if result and result[-1].text == ";" else result
            result.append(token)
        return [] if result and result[-1].text == ";" else result

    def words(self, kind: str) -> list[str]:
        return [token.bare() for token in tokens(self.texts.get(kind, ""))]

    def tokens_before(self) -> list[Token]:
        """Returns the tokens of the input before the place."""
        text = "\n".join([*self.texts.get(self.text, "").split("\n")[: self.row - 1], self.before])
        return list(tokens(text))

    def catalogue(self) -> list[str]:
        """Returns what the code means and how to fix the error, without advice on words that the line does not have."""
        means, remedy = catalogue(self.number)
        if self.number == "E10":
            is_first = self.word() in DECLARING
            advice = [(r"\bif\b", re.search(r"\bif\b", self.shown)), ("first word of a declaration", is_first)]
            kept = [
                sentence
                for sentence in re.split(r"(?<=\.)\s+(?=[A-Z])", remedy)
                if all(fits or not re.search(about, sentence) for about, fits in advice)
            ]
            remedy = " ".join(kept)
        return [means, remedy]

    def graded_hints(self) -> Iterator[tuple[str, bool]]:
        """Yields hints, sure or not."""
        from .engine import hints_of

        yield from hints_of(self)

    def hints(self) -> list[str]:
        """Returns the hints, sure ones first; if one is sure, only those that are."""
        result = [(with_difference(text), is_sure) for text, is_sure in dict.fromkeys(self.graded_hints())]
        sure = [text for text, is_sure in result if is_sure]
        return sure or [text for text, _ in result]

    def has_sure_hint(self) -> bool:
        return any(is_sure for _, is_sure in self.graded_hints())


def catalogue(number: str) -> list[str]:
    """Returns the first paragraph of a code's section, and its list item "Fix:"; empty texts without the page."""
    for place in PAGES:
        match = re.search(
            rf"(?ms)^## {number} \w+\n\n(.*?)(?=^## |\Z)", read(os.path.normpath(os.path.join(HERE, place)))
        )
        if match:
            said = [paragraph.strip().replace("\n", " ") for paragraph in re.split(r"\n\n(?:- )?|\n- ", match[1])]
            remedy = next((REMEDY.sub("", paragraph, count=1) for paragraph in said if REMEDY.match(paragraph)), "")
            return [plain(paragraph) for paragraph in (said[0], remedy)]
    return ["", ""]


def plain(text: str) -> str:
    """Returns a paragraph without the marks of links and code, and without clauses about netflow-explain itself."""
    text = re.sub(r"\s*\(\[[^\]]*\]\([^)]*\)\)", "", text)
    text = re.sub(r"\[([^\]]*)\]\(([^)]*)\)", r"\1", text).replace("`", "")
    return re.sub(r"[;,:]?\s*\bnetflow-explain\b[^.;]*", "", text).strip()


__all__ = ["Diagnostic", "Token", "catalogue"]
