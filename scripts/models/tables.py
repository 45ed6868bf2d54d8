"""Data files in all forms of the language reference, and MathProg's in its plainest one."""
import re

from models.declarations import Param, SetDecl
from models.expressions import quoted

BARE = re.compile(r"[\w.+-]+\Z")
NUMERAL = re.compile(r"[+-]?(\d+\.?\d*|\.\d+)([eEdD][+-]?\d+)?\Z")


class Tables:
    def __init__(self, rng):
        self.rng = rng

    def chance(self, share):
        return self.rng.random() < share

    def cell(self, member):
        if isinstance(member, int):
            return self.number(member)
        if BARE.match(member) and not NUMERAL.match(member) and member != "." and self.chance(0.8):
            return member
        return quoted(member, self.rng.choice("'\""))

    def number(self, value):
        forms = [str(value)] * 12 + [f"{value}.0", f"{value}e0"] + ([f"+{value}"] if value >= 0 else [])
        forms += [f"{value * 10}e-1"] + ([f"{value // 10}e1"] if value > 0 and value % 10 == 0 else [])
        return self.rng.choice(forms)

    def joined(self, words):
        """Words with blanks, line ends, commas or remarks between them."""
        between = {" ": 20, ", ": 3, "\n  ": 5, "\t": 1, " # a remark; \n": 0.4, " /* one, := */ ": 0.4}
        words = list(words)
        return "".join(map("".join, zip(self.rng.choices([*between], [*between.values()], k=len(words)), words)))

    # Sets

    def set_text(self, declared):
        words = []
        for row in declared.rows:
            if declared.dimen > 1 and self.chance(0.7):
                words.append("(" + self.rng.choice([",", ", "]).join(map(self.cell, row)) + ")")
            else:
                words += map(self.cell, row)
        return f"set {declared.name} :={self.joined(words)};\n"

    # Parameters

    def param_text(self, param):
        """One statement or two; the second has no default."""
        rows, default = list(param.rows.items()), param.data_default
        self.rng.shuffle(rows)
        if () in param.rows:
            return f"param {param.name} := {self.cell(param.rows[()])};\n"
        cut = self.rng.randint(0, len(rows)) if self.chance(0.1) else len(rows)
        more = self.statement(param, dict(rows[cut:]), None) if cut < len(rows) else ""
        return self.statement(param, dict(rows[:cut]), default) + more

    def statement(self, param, rows, default):
        said = "" if default is None else f" default {self.cell(default)}"
        width = len(param.keys[0]) if param.keys else 1
        if width == 2 and rows and self.chance(0.6):
            return self.table(param, rows, said)
        words = [word for key, value in rows.items() for word in (*map(self.cell, key), self.cell(value))]
        points = [key for key in param.keys if key not in param.rows]
        if points and self.chance(0.2):
            words += [*map(self.cell, points[0]), "."]
        return f"param {param.name}{said} :={self.joined(words)};\n"

    def table(self, param, rows, said):
        down, across = ([*dict.fromkeys(key[place] for key in rows)] for place in (0, 1))
        is_turned = self.chance(0.4)
        if is_turned:
            down, across = across, down
        words = []
        for row in down:
            words.append("\n " + self.cell(row))
            for column in across:
                value = rows.get((column, row) if is_turned else (row, column))
                words.append("." if value is None else self.cell(value))
        turned = " (tr)" if is_turned else ""
        return f"param {param.name}{said}{turned} :{self.joined(map(self.cell, across))} :={self.joined(words)};\n"

    def columns(self, params, declared):
        """Several parameters in columns, with the set of their keys if there is one."""
        keys = declared.rows if declared else dict.fromkeys(key for param in params for key in param.rows)
        words = []
        for key in keys:
            words.append("\n " + " ".join(map(self.cell, key)))
            words += [self.cell(param.rows[key]) if key in param.rows else "." for param in params]
        names = self.joined([param.name for param in params])
        front = f" {declared.name} :" if declared else ""
        return f"param :{front}{names} :={self.joined(words)};\n"

    def together(self, sets, params):
        """Removes what one statement holds from both lists: (parameters, set or None)."""
        groups = []
        for width in (1, 2, 3, 4):
            fitting = [
                param
                for param in params
                if param.rows and param.data_default is None and len(next(iter(param.rows))) == width
            ]
            owner = self.rng.choice([decl for decl in sets if decl.dimen == width] + [None])
            if owner:
                fitting = [param for param in fitting if set(param.rows) <= set(owner.rows)]
            fitting = self.rng.sample(fitting, min(len(fitting), self.rng.randint(1, 4)))
            if fitting and self.chance(0.5):
                groups.append((fitting, owner))
                sets[:] = [decl for decl in sets if decl is not owner]
                params[:] = [param for param in params if param not in fitting]
        return groups

    def text(self, declared):
        sets = [decl for decl in declared if isinstance(decl, SetDecl) and decl.made is None]
        params = [decl for decl in declared if isinstance(decl, Param) and (decl.rows or decl.data_default is not None)]
        groups = self.together(sets, params)
        out = (
            [self.columns(*group) for group in groups]
            + [self.set_text(decl) for decl in sets]
            + [self.param_text(param) for param in params]
        )
        self.rng.shuffle(out)
        return ("data;\n" if self.chance(0.2) else "") + "".join(out) + ("end;\n" if self.chance(0.2) else "")


def twin_cell(member):
    return str(member) if isinstance(member, int) else quoted(member)


def twin_text(declared):
    """For MathProg: one list for each set and parameter, all of it quoted. It would take `(tr` for a table turned
    round."""
    out = []
    for decl in declared:
        if isinstance(decl, SetDecl) and decl.made is None:
            rows = [" ".join(map(twin_cell, row)) for row in decl.rows]
            out.append(f"set {decl.name} := {' '.join(rows)};\n")
        elif isinstance(decl, Param) and decl.rows is not None:
            values = decl.rows if decl.data_default is None else decl.values
            if () in values:
                out.append(f"param {decl.name} := {twin_cell(values[()])};\n")
            elif values:
                rows = [f"[{','.join(map(twin_cell, key))}] {twin_cell(value)}" for key, value in values.items()]
                out.append(f"param {decl.name} := {' '.join(rows)};\n")
    return "".join(out)
