"""The exceptions of this package."""
from __future__ import annotations

from typing import TYPE_CHECKING, Any

if TYPE_CHECKING:
    from .analysis.reasons import Reason
    from .hints.diagnostic import Diagnostic
    from .inputs.instance import Instance
    from .reading.network import Network


class NetflowError(Exception):
    """The base of all exceptions of this package. All of them can be pickled."""

    def __reduce__(self) -> tuple[Any, ...]:
        return _rebuilt, (type(self), self.args, self.__dict__)


def _rebuilt(kind: type[NetflowError], arguments: tuple[Any, ...], attributes: dict[str, Any]) -> NetflowError:
    """Returns a copy of an exception, without its constructor, which takes other arguments than the message."""
    error = kind.__new__(kind)
    error.args = arguments
    error.__dict__.update(attributes)
    return error


class ProgramError(NetflowError):
    """The program could not be run, or ended without an answer. `line` is the error line with its place in the joined
    data; `instance` is the question of a tool, if one asked."""

    def __init__(self, status: int, message: str, line: str | None = None) -> None:
        super().__init__(message.rstrip("\n"))
        self.status, self.message = status, message
        self.line = line if line is not None else message
        self.instance: Instance | None = None

    def __reduce__(self) -> tuple[Any, ...]:
        return _rebuilt, (type(self), self.args, {**self.__dict__, "instance": None})


class Unreadable(NetflowError):
    """Output of the program that does not have the documented form."""


class ScaleError(NetflowError):
    """Decimals that cannot be scaled to whole numbers: `parameter` and `factor` are the parameter and its factor, None
    if unknown; `is_numeral` for a numeral of the model, which the program reports by its position."""

    def __init__(
        self, message: str, parameter: str | None = None, factor: int | None = None, is_numeral: bool = False
    ) -> None:
        super().__init__(message)
        self.parameter, self.factor, self.is_numeral = parameter, factor, is_numeral


class DataError(NetflowError, ValueError):
    """Python data that fit no declaration of the model, or no statement of a data text."""


class ModelError(NetflowError, ValueError):
    """An error in a model, its data, a problem or a certificate.

    `code` is the number (`E12`), `name` its name, `text` the input (`model`, `data`, ..), `file` the path, if
    any, `line` and `column` the place counted from 1 (0 if there is none), `place` the place in words, such as
    `bread.dat:5:14`, or `the value of van` for data from Python, `source` the line of the input, `detail` what the
    program adds, `meaning` a sentence on the code, `hint` the most likely fix, `hints` all of them.
    """

    def __init__(self, diagnostic: Diagnostic) -> None:
        self.code, self.name, self.text = diagnostic.number, diagnostic.name, diagnostic.text
        self.file, self.line, self.column = diagnostic.called, diagnostic.line, diagnostic.line and diagnostic.column
        self.source, self.detail = diagnostic.shown, diagnostic.detail
        self.hints = list(diagnostic.hints())
        self.meaning, self.remedy = diagnostic.catalogue()
        self.hint = self.hints[0] if self.hints else self.remedy
        self.place = diagnostic.place()
        where = (
            f"{self.detail} in {self.place}".lstrip()
            if diagnostic.is_change()
            else f"{self.place or self.text or ''} {self.detail}"
        )
        said = [f"{self.code} {self.name} {where}".rstrip(), *([f"    {self.source}"] if self.source.strip() else [])]
        super().__init__("\n".join([*said, *([self.hint] if self.hint else [])]))

    def to_dict(self) -> dict[str, object]:
        """Returns the error as the documented JSON object."""
        return {
            "status": "error",
            "error": {
                "code": self.code,
                "name": self.name,
                "input": self.text,
                "file": self.file,
                "line": self.line or None,
                "column": self.column or None,
                "detail": self.detail or None,
                "source": self.source or None,
                "meaning": self.meaning or None,
                "hints": self.hints,
                "remedy": self.remedy or None,
            },
        }


class Infeasible(NetflowError):
    """No plan exists. `cut` are the names of the nodes that show this, `side` is `under` if they need more than can
    come and `over` if they have more than can leave; `reasons` are the smallest such sets, with amounts."""

    def __init__(
        self, message: str, cut: list[Any], side: str, reasons: list[Reason], network: Network | None = None
    ) -> None:
        super().__init__(message)
        self.cut, self.side, self.reasons, self.network = cut, side, reasons, network

    @property
    def why(self) -> str:
        """The text of `netflow-why`, with the least change that gives a plan."""
        if self.network is None:
            return str(self)
        from .tools.why import infeasible_lines

        return "\n".join(infeasible_lines(self.network, self.reasons, 20))

    def to_dict(self) -> dict[str, object]:
        """Returns the documented JSON object."""
        from .report.json_objects import cut_json

        return cut_json(self.side, self.cut, self.reasons, self.network)


class Unbounded(NetflowError):
    """The objective has no limit: a cycle of arcs without a bound improves the value forever."""
