"""Rows of data for keys outside their sets, such as those of a longer horizon, which `--ignore-outside` leaves out."""
from __future__ import annotations

from typing import Sequence

from ..reading.data import Cell, DataText, Statement, Token
from ..reading.keys import shown
from ..reading.memberships import Memberships, Unknown
from ..reading.model import Expr
from ..types import Edit, Key

# Why a key is outside its set, by name and key.
Reasons = dict[tuple[str, Key], str]


class Outside:
    """What the data texts say of keys outside the sets of a model. `world` has the sets. Members that are left out
    leave them, so that the rows of a parameter over such a set are left out too."""

    def __init__(self, world: Memberships, pieces: Sequence[DataText]) -> None:
        self.world, self.pieces = world, pieces
        self.members: Reasons = {}
        self.cells: Reasons = {}
        for name, decl in world.shapes.decls.items():
            if decl.kind == "set":
                within = decl.phrase("within")
                found = self.outside_set(name, within.exprs[0] if within else None)
                self.members.update({(name, key): why for key, why in found})
            elif decl.kind == "param" and decl.braces is not None:
                self.find_cells(name, decl.braces)

    def outside_set(self, name: str, within: Expr | None) -> list[tuple[Key, str]]:
        """Returns the members that are not within another set, which they leave."""
        members = self.world.members.get(name, set())
        ordered = dict.fromkeys(
            key
            for piece in self.pieces
            for statement in piece.statements
            if name == (statement.name if statement.kind == "set" else statement.set_name)
            for key in self.world.tuples(name, statement.members)
            if key in members
        )
        found = [(key, why) for key in ordered for why in [self.why(within, key)] if why] if within else []
        members.difference_update(key for key, _ in found)
        return found

    def find_cells(self, name: str, braces: Expr) -> None:
        for piece in self.pieces:
            for cell in piece.cells():
                if cell.name == name and (name, cell.key) not in self.cells:
                    why = self.why(braces, cell.key)
                    if why:
                        self.cells[name, cell.key] = why

    def why(self, expr: Expr, key: Key) -> str:
        """Returns why a key is outside a set; an empty text for a key inside, or if the texts do not say."""
        try:
            return self.world.missing(expr, key, {})
        except (Unknown, ValueError, IndexError, TypeError):
            return ""

    def edits(self, piece: DataText, made: Sequence[Edit]) -> list[Edit]:
        """Returns the edits that leave rows out of a data text, besides those that are made already."""
        gone = {start for start, _, _ in made}
        result: list[Edit] = []
        for statement in piece.statements:
            rows = self.left_out(statement)
            blanked = {token.start for row in rows for token in row}
            result += [(token.start, token.end, " " * (token.end - token.start)) for row in rows for token in row]
            result += [
                (cell.token.start, cell.token.end, ".")
                for cell in statement.cells
                if self.is_outside(cell) and cell.token.start not in blanked
            ]
        return [edit for edit in result if edit[0] not in gone]

    def is_outside(self, cell: Cell) -> bool:
        return (cell.name, cell.key) in self.cells and not (cell.token.kind == "word" and cell.token.text == ".")

    def left_out(self, statement: Statement) -> list[list[Token]]:
        """Returns the tokens of the rows that a set loses."""
        name = statement.name if statement.kind == "set" else statement.set_name
        width = self.world.shapes.sets.get(name, 1)
        found = []
        for row in statement.rows_of_set(width):
            key = tuple(token.member() for token in row if token.kind != "mark")[:width]
            found += [row] if (name, key) in self.members else []
        return found

    def lines(self) -> list[str]:
        """Returns how many rows of each name are left out, with the first one."""
        result = []
        for what, reasons in (("members", self.members), ("rows", self.cells)):
            for name in dict.fromkeys(name for name, _ in reasons):
                keys = [key for other, key in reasons if other == name]
                first = f"{name}[{','.join(map(shown, keys[0]))}]"
                said = f"{len(keys)} {what if len(keys) > 1 else what[:-1]} of {name}"
                verb = "are" if len(keys) > 1 else "is"
                result.append(f"{said} {verb} left out, such as {first}: {reasons[name, keys[0]]}")
        return result
