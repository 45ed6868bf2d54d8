"""Parses data texts into statements and cells, and writes statements.

As with models, the program remains the judge: a text that this parser does not take goes to the program unchanged.
"""
from __future__ import annotations

import dataclasses
import re
from typing import Any, Iterator, Sequence

from ..exact import parse_numeral
from ..types import Key, Member
from .model import Unparsed

# A bare word may have letters of any script; `.` continues a word, so a number with a point is one word.
TOKEN = re.compile(
    r"(?P<skip>[ \t\r\n]+|#[^\n]*|/\*.*?\*/)|(?P<text>'(?:[^'\n]|'')*'|\"(?:[^\"\n]|\"\")*\")"
    r"|(?P<mark>:=|[;:,()\[\]*])|(?P<word>[\w.+\-\u00b7]+)",
    re.S,
)
# A name that needs no quotes in a data text: no number, and none of the words that begin or end statements.
PLAIN_NAME = re.compile(r"(?!(?:set|param|data|end|default)\Z)[A-Za-z_]\w*", re.A)
# A text that is a number as a member: one that is written back unchanged, so that `01067` and `+5` stay texts; not past
# 10^12.
KEY_NUMBER = re.compile(r"-?[1-9][0-9]{0,11}|0")


@dataclasses.dataclass
class Token:
    kind: str
    text: str
    start: int

    @property
    def end(self) -> int:
        return self.start + len(self.text)

    def member(self) -> Member:
        """Returns the member of the token: an int or a str."""
        if self.kind == "text":
            quote = self.text[0]
            return self.text[1:-1].replace(quote * 2, quote)
        number = parse_numeral(self.text)
        if number is None:
            return self.text
        return int(number) if number.denominator == 1 else self.text


@dataclasses.dataclass
class Cell:
    """A value of a parameter: its name, its key, and the token of the value."""

    name: str
    key: Key
    token: Token


@dataclasses.dataclass
class Statement:
    """A statement: `kind` is set or param; `cells` its values, `defaults` the token of `default`, if any; `set_name`
    the set that the rows of a `param` statement fill too, with the tokens of its name and colon in `set_tokens`."""

    kind: str
    name: str
    start: int
    end: int
    cells: list[Cell] = dataclasses.field(default_factory=list)
    default: Token | None = None
    default_word: Token | None = None
    set_name: str = ""
    set_tokens: list[Token] = dataclasses.field(default_factory=list)
    members: list[Member] = dataclasses.field(default_factory=list)
    rows: list[list[Token]] = dataclasses.field(default_factory=list)

    def rows_of_set(self, width: int) -> list[list[Token]]:
        """Returns the tokens of each member of a set with tuples of this width, with its parentheses, or of each row
        that fills a set."""
        if self.kind != "set":
            return self.rows
        result: list[list[Token]] = [[]]
        count = 0
        for token in self.rows[0] if self.rows else []:
            result[-1].append(token)
            count += token.kind != "mark"
            if is_mark(token, ")") or count == width and not is_mark(result[-1][0], "("):
                result.append([])
                count = 0
        return result[:-1]


def tokens_of(text: str) -> list[Token]:
    found, at = [], 0
    for match in TOKEN.finditer(text):
        start, end = match.span()
        if start != at:
            break
        kind = match.lastgroup or ""
        if kind != "skip":
            found.append(Token(kind, match[0], at))
        at = end
    if at != len(text):
        raise Unparsed(at)
    return found


class DataText:
    """The statements of a data text. `keys` and `sets` give the number of key parts of parameters and of set members;
    in joined texts `data;` and `end;` can be anywhere."""

    def __init__(self, text: str, keys: dict[str, int], sets: dict[str, int], is_joined: bool = False) -> None:
        self.text, self.keys, self.sets, self.is_joined = text, keys, sets, is_joined
        self.statements: list[Statement] = []
        self.frame: list[Token] = []
        self.read([token for token in tokens_of(text) if token.text != "," or token.kind != "mark"])

    def read(self, tokens: list[Token]) -> None:
        """Reads all statements; `frame` gets the tokens of `data;` and `end;`."""
        at = 0
        while at < len(tokens):
            stop = next((here for here in range(at, len(tokens)) if is_mark(tokens[here], ";")), None)
            if stop is None:
                raise Unparsed(len(self.text))
            words = tokens[at:stop]
            if [word.text for word in words] in (["data"], ["end"]):
                if not self.is_joined and (at if words[0].text == "data" else stop + 1 < len(tokens)):
                    raise Unparsed(words[0].start)
                self.frame += [*words, tokens[stop]]
            else:
                self.statements.append(self.statement(words, tokens[stop]))
            at = stop + 1

    def statement(self, words: list[Token], last: Token) -> Statement:
        if not words or words[0].text not in ("set", "param"):
            raise Unparsed(words[0].start if words else last.start)
        made = Statement(words[0].text, "", words[0].start, last.end)
        # `param p default 2;` has no `:=`, and no rows.
        cut = next((here for here, word in enumerate(words) if is_mark(word, ":=")), len(words))
        if cut == len(words) and (made.kind == "set" or len(words) not in (2, 4)):
            raise Unparsed(last.start)
        if made.kind == "set":
            made.name = str(words[1].member())
            made.rows = [words[cut + 1 :]]
            made.members = [word.member() for word in words[cut + 1 :] if word.kind != "mark"]
            return made
        head, body = words[1:cut], words[cut + 1 :]
        at = 0
        if head and head[0].kind == "word":
            made.name, at = head[0].text, 1
        if at + 1 < len(head) and head[at].text == "default":
            made.default_word, made.default = head[at], head[at + 1]
            at += 2
        is_turned = [token.text for token in head[at : at + 3]] == ["(", "tr", ")"]
        self.rows(made, head[at + 3 * is_turned :], body, is_turned)
        return made

    def rows(self, made: Statement, heading: list[Token], body: list[Token], is_turned: bool) -> None:
        """Reads the rows of a `param` statement."""
        if not heading:
            size = self.keys.get(made.name, 0) + 1
            for row in groups(body, size):
                made.cells.append(Cell(made.name, tuple(token.member() for token in row[:-1]), row[-1]))
            return
        marks = [here for here, token in enumerate(heading) if is_mark(token, ":")]
        columns = heading[marks[-1] + 1 :] if marks else []
        if not columns:
            raise Unparsed(heading[0].start)
        if made.name:
            titles = [column.member() for column in columns]
            for row in groups(body, 1 + len(columns)):
                head = row[0].member()
                keys = [(title, head) if is_turned else (head, title) for title in titles]
                made.cells += [Cell(made.name, key, cell) for key, cell in zip(keys, row[1:])]
            return
        if len(marks) == 2:
            made.set_name, made.set_tokens = heading[1].text, heading[1:3]
        count = self.sets.get(made.set_name, 1) if made.set_name else self.keys.get(columns[0].text, 1)
        for row in groups(body, count + len(columns)):
            key = tuple(token.member() for token in row[:count])
            made.members += key if made.set_name else ()
            made.rows += [row] if made.set_name else []
            made.cells += [Cell(column.text, key, cell) for column, cell in zip(columns, row[count:])]

    def cells(self) -> Iterator[Cell]:
        """Yields each cell that has a value."""
        for statement in self.statements:
            yield from (cell for cell in statement.cells if cell.token.text != "." or cell.token.kind != "word")


def is_mark(token: Token, text: str) -> bool:
    return token.kind == "mark" and token.text == text


def groups(tokens: list[Token], size: int) -> Iterator[list[Token]]:
    """Cuts the tokens of a body into rows; brackets of tuples are left out."""
    plain = [token for token in tokens if token.kind != "mark"]
    if len(plain) % size:
        raise Unparsed(plain[-1].start if plain else 0)
    return (plain[start : start + size] for start in range(0, len(plain), size))


# Writing


def member_text(member: Any) -> str:
    """Returns a member in the form of a data text: a number bare, a text with quotes if necessary."""
    if isinstance(member, bool) or not isinstance(member, (int, str)):
        number = getattr(member, "item", None)
        if number is not None and not isinstance(member, (bool, bytes)):
            return member_text(number())  # a number of NumPy
        raise TypeError(f"{member!r} is no member: a member is a whole number or a text")
    if isinstance(member, int):
        return str(member)
    if PLAIN_NAME.fullmatch(member):
        return member
    if any(ord(character) < 32 or ord(character) == 127 for character in member):
        raise ValueError(f"{member!r} is no member: it has a control character")
    return "'" + member.replace("'", "''") + "'"


def set_statement(name: str, members: Sequence[Key]) -> str:
    """Returns the statement of a set, its members as tuples."""
    rows = [
        member_text(member[0]) if len(member) == 1 else f"({','.join(map(member_text, member))})" for member in members
    ]
    return "\n".join([f"set {name} :=", *rows, ";"]) + "\n"
