"""Models with data that can be changed and solved again: `Model` and `solve`."""
from __future__ import annotations

import copy
import os
from typing import IO, Iterator, Mapping, MutableMapping, Sequence, Union, cast

from .analysis.reasons import reasons
from .errors import DataError, Infeasible, ModelError, ProgramError
from .hints.diagnostic import Diagnostic
from .inputs.arguments import input_of, inputs_of, require_no_parameter, require_options
from .inputs.grouped_digits import grouped_lines_of
from .inputs.instance import Instance
from .inputs.python_data import OPTIONS, Layers, declared_text, override
from .inputs.python_values import read_once
from .program import REJECTED, UNREADABLE_FILE
from .reading.headings import headings
from .reading.model import Shapes, Unparsed, parse
from .reading.network import Network
from .solution import Solution
from .types import Data, Path
from .warning import warn

Text = Union[Path, IO[str], IO[bytes]]
Source = Union[Text, Mapping[str, Data]]


class Model(MutableMapping[str, Data]):
    """A model with its data, which can be changed and solved again.

    It maps the names of sets and parameters to the values that Python gave them: `model["van"] = 25` replaces what
    Python gave before, `del model["van"]` leaves the value of the data files, and `model.change(cost={("a", "b"): 4})`
    changes single values. `objective`, `scale` and `bounds` are the options of `solve`, and can be changed too.
    """

    def __init__(
        self,
        model: Text,
        data: Source | Sequence[Source] | None = None,
        *,
        objective: str | None = None,
        scale: Mapping[str, int] | None = None,
        bounds: bool = False,
        **sets_and_params: Data,
    ) -> None:
        self._model = input_of(model)
        options = {"data": data, "objective": objective, "scale": scale, "bounds": bounds or None}
        given = {name: value for name, value in options.items() if value is not None}
        try:
            self._texts, self._values = inputs_of(data)
        except TypeError:
            require_no_parameter(self._model, given, [], {})
            raise
        require_no_parameter(self._model, given, self._texts, self._values)
        require_options(objective, scale, bounds)
        self.objective, self.scale, self.bounds = objective, dict(scale or {}), bounds
        override(self._values, sets_and_params)

    def __getitem__(self, name: str) -> Data:
        if name not in self._values:
            raise KeyError(f"{name} has no value from Python")
        value = self._values[name]
        return cast(Data, value[-1] if isinstance(value, Layers) else value)

    def __setitem__(self, name: str, value: Data) -> None:
        self._require_declared(name)
        self._values[name] = read_once(name, value)

    def __delitem__(self, name: str) -> None:
        if name not in self._values:
            raise KeyError(f"{name} has no value from Python")
        del self._values[name]

    def __setattr__(self, name: str, value: object) -> None:
        """Sets an option. Raises AttributeError for a set or parameter, which `model["van"] = 25` changes, and for an
        unknown name; a subclass can have attributes of its own."""
        if name not in OPTIONS and not name.startswith("_"):
            shapes = self._shapes()
            if shapes is not None and name in (*shapes.names("set"), *shapes.names("param")):
                raise AttributeError(f"{name} is no attribute of a Model: data are changed by model[{name!r}] = ..")
            if type(self) is Model and not hasattr(Model, name):
                raise AttributeError(f"a Model has no attribute {name}: its options are {', '.join(OPTIONS)}")
        super().__setattr__(name, value)

    def __iter__(self) -> Iterator[str]:
        return iter(self._values)

    def __len__(self) -> int:
        return len(self._values)

    def __repr__(self) -> str:
        changed = f", {', '.join(self._values)} from Python" if self._values else ""
        return f"<Model {self._title()}{changed}>"

    def __copy__(self) -> Model:
        result: Model = Model.__new__(Model)
        result.__dict__.update(self.__dict__)
        result.scale, result._values = dict(self.scale), dict(self._values)
        return result

    def copy(self) -> Model:
        """Returns a model with the same data, whose changes do not reach this one."""
        return copy.copy(self)

    def change(self, **sets_and_params: Data) -> None:
        """Changes values: those of a parameter key by key, a set as a whole."""
        for name in sets_and_params:
            self._require_declared(name)
        override(self._values, sets_and_params)

    def solve(self, **sets_and_params: Data) -> Solution:
        """Solves the model and returns its best plan; the arguments are values for this call only."""
        require_options(self.objective, self.scale, self.bounds)
        values = dict(self._values)
        override(values, sets_and_params)
        instance = Instance(
            copy.copy(self._model),
            [copy.copy(source) for source in self._texts],
            objective=self.objective,
            changes=values,
            scale=self.scale,
            add_bounds=self.bounds,
        )
        net = answer_of(instance)
        for line in [*instance.remark_lines(), *grouped_lines_of(instance)]:
            warn(line)
        if net.cut is not None:
            raise infeasible(net)
        text = instance.model.text()
        titles = {name: headings(text, name, len(arcs[0].key)) for name, arcs in net.declared().items()}
        return Solution(net, instance, titles, self._title())

    def _title(self) -> str:
        return os.path.basename(self._model.path) if self._model.path else "model"

    def _shapes(self) -> Shapes | None:
        """Returns the sets and parameters of the model; None if it is not read yet, or has an error."""
        text = self._model.text() if "_model" in self.__dict__ else ""
        try:
            return Shapes(parse(text), text)
        except Unparsed:
            return None

    def _require_declared(self, name: str) -> None:
        """Raises DataError for a name that is no set and no parameter of the model."""
        shapes = self._shapes()
        if shapes is not None and name not in (*shapes.names("set"), *shapes.names("param")):
            raise DataError(
                f"{name}: the model declares no such set or parameter{declared_text(shapes, name, 'set', 'param')}"
            )


def solve(
    model: Text,
    data: Source | Sequence[Source] | None = None,
    *,
    objective: str | None = None,
    scale: Mapping[str, int] | None = None,
    bounds: bool = False,
    **sets_and_params: Data,
) -> Solution:
    """Solves a model and returns its best plan.

    `model` is a file or a text, and `data` a file, a text, a dict of sets and parameters, or a list of these, of which
    later ones override earlier ones value by value; keyword arguments override all of them. A `pathlib.Path` is a file.
    A `str` is a text if a line end or a `;` is in the string, and else the path of a file.

    A set is a list of members or tuples; a parameter is a number, a dict by key, a list of tuples that end with the
    value, a list of dicts, or a pandas object. A set or parameter named `model`, `data`, `objective`, `scale` or
    `bounds` is given in a dict of `data`.

    Decimals are scaled exactly; `scale` gives the factor of a parameter. `bounds=True` lets arcs have no upper or lower
    bound.

    Raises ModelError if the model or its data have an error, Infeasible if no plan exists, DataError if Python data do
    not fit. Warns of decimals in a model or data file that may be whole numbers with grouped digits, such as 1.200.
    """
    return Model(model, data, objective=objective, scale=scale, bounds=bounds, **sets_and_params).solve()


def answer_of(instance: Instance) -> Network:
    """Returns the network with its plan or a cut, and the text of its prices; raises the exceptions of `solve`."""
    try:
        return instance.network(with_prices=True)[1]
    except ProgramError as problem:
        raise model_error(problem, instance) from None


def model_error(problem: ProgramError, instance: Instance) -> Exception:
    """Returns the ModelError of what the program reports, or another problem unchanged."""
    if problem.status not in (REJECTED, UNREADABLE_FILE):
        return problem
    diagnostic = Diagnostic.of_instance(problem, instance)
    return ModelError(diagnostic) if diagnostic else problem


def infeasible(net: Network) -> Infeasible:
    """Returns the exception for a network with a cut."""
    side, inside = net.cut if net.cut is not None else ("", set())
    short = reasons(net)
    nodes = [net.nodes[number].text for number in sorted(inside)]
    return Infeasible(f"no plan: {short[0].headline(net)}", nodes, side, short, net)
