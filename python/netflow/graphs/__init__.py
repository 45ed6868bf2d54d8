"""Problems on graphs, with the interfaces of NetworkX and of OR-Tools."""
from __future__ import annotations

from .assignment import SimpleLinearSumAssignment
from .flows import maximum_flow, maximum_flow_value, shortest_path, shortest_path_length
from .max_flow import SimpleMaxFlow
from .min_cost_flow import SimpleMinCostFlow, Status
from .networkx import min_cost_flow, min_cost_flow_cost, network_simplex

__all__ = [
    "SimpleLinearSumAssignment",
    "SimpleMaxFlow",
    "SimpleMinCostFlow",
    "Status",
    "maximum_flow",
    "maximum_flow_value",
    "min_cost_flow",
    "min_cost_flow_cost",
    "network_simplex",
    "shortest_path",
    "shortest_path_length",
]
