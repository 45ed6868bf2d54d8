"""netflow: cheapest network flows with certified answers.

`solve` solves a model of AMPL's network language with data from Python, and a `Model` can be changed and solved again;
`min_cost_flow`, `SimpleMinCostFlow` and others solve graphs with the interfaces of NetworkX and OR-Tools. The work is
done by the program `netflow`, which proves each answer.
"""
from __future__ import annotations

__version__ = "0.10.0"

from .analysis.reasons import Reason
from .certificate import Certificate, PricedArc, PricedNode
from .errors import DataError, Infeasible, ModelError, NetflowError, ProgramError, ScaleError, Unbounded, Unreadable
from .exact import Exact
from .graphs import (
    SimpleLinearSumAssignment,
    SimpleMaxFlow,
    SimpleMinCostFlow,
    maximum_flow,
    maximum_flow_value,
    min_cost_flow,
    min_cost_flow_cost,
    network_simplex,
    shortest_path,
    shortest_path_length,
)
from .keyed import Flows
from .model import Model, solve
from .prices import NodePrices, Prices
from .reading.network import Arc, Node
from .solution import Solution

__all__ = [
    "Arc",
    "Certificate",
    "DataError",
    "Exact",
    "Flows",
    "Infeasible",
    "Model",
    "ModelError",
    "NetflowError",
    "Node",
    "NodePrices",
    "PricedArc",
    "PricedNode",
    "Prices",
    "ProgramError",
    "Reason",
    "ScaleError",
    "SimpleLinearSumAssignment",
    "SimpleMaxFlow",
    "SimpleMinCostFlow",
    "Solution",
    "Unbounded",
    "Unreadable",
    "__version__",
    "maximum_flow",
    "maximum_flow_value",
    "min_cost_flow",
    "min_cost_flow_cost",
    "network_simplex",
    "shortest_path",
    "shortest_path_length",
    "solve",
]
