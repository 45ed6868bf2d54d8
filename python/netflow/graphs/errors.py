"""The exceptions of the graph functions: those of this package, which are NetworkX's too if NetworkX is imported."""
from __future__ import annotations

import importlib
import sys
from typing import Any, Dict, Tuple, Type, cast

from ..errors import DataError, Infeasible, NetflowError, Unbounded

# The exceptions of this package that are NetworkX's too.
EXCEPTIONS: Dict[str, Tuple[Type[NetflowError], str]] = {
    "InfeasibleGraph": (Infeasible, "NetworkXUnfeasible"),
    "UnboundedGraph": (Unbounded, "NetworkXUnbounded"),
    "UndirectedGraph": (DataError, "NetworkXNotImplemented"),
    "GraphError": (DataError, "NetworkXError"),
    "NoPath": (Infeasible, "NetworkXNoPath"),
    "NoNode": (DataError, "NodeNotFound"),
}


def __getattr__(name: str) -> type[NetflowError]:
    """Makes the class of an exception that is one of NetworkX too, once, so that pickle finds the class by its name."""
    if name not in EXCEPTIONS:
        raise AttributeError(f"module {__name__!r} has no attribute {name!r}")
    base, other = EXCEPTIONS[name]
    bases = (base, getattr(importlib.import_module("networkx"), other))
    kind = type(name, bases, {"__module__": __name__, "__doc__": base.__doc__})
    globals()[name] = kind
    return kind


def graph_error(name: str, *arguments: object) -> Exception:
    """Returns an exception of this package, which is NetworkX's too if NetworkX is imported."""
    module = sys.modules[__name__] if "networkx" in sys.modules else None
    kind: Any = EXCEPTIONS[name][0] if module is None else getattr(module, name)
    return cast(Exception, kind(*arguments))


def infeasible_graph(message: str, cut: list[Any] | None = None, side: str = "under") -> Exception:
    return graph_error("InfeasibleGraph", message, cut or [], side, [])
