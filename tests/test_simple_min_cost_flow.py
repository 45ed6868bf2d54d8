"""The methods of SimpleMinCostFlow."""
import pytest

import netflow


def test_simple_min_cost_flow():
    """OR-Tools' first example, an unbalanced problem, one without a flow, and decimals."""
    arcs = [
        (0, 1, 15, 4),
        (0, 2, 8, 4),
        (1, 2, 20, 2),
        (1, 3, 4, 2),
        (1, 4, 10, 6),
        (2, 3, 15, 1),
        (2, 4, 4, 3),
        (3, 4, 20, 2),
        (4, 2, 5, 3),
    ]
    flow = netflow.SimpleMinCostFlow(certify=True)
    numbers = [flow.add_arc_with_capacity_and_unit_cost(*arc) for arc in arcs]
    flow.set_nodes_supplies(range(5), [20, 0, 0, -5, -15])
    assert (flow.solve(), flow.optimal_cost()) == (flow.OPTIMAL, 150), "status and cost"
    assert sum(flow.flow(number) * flow.unit_cost(number) for number in numbers) == 150, "cost of the flows"
    assert (flow.num_nodes(), flow.num_arcs(), flow.tail(0), flow.head(0), flow.capacity(0), flow.supply(0)) == (
        5,
        9,
        0,
        1,
        15,
        20,
    ), "shape"
    flow.set_node_supply(0, 21)
    assert flow.solve() == flow.UNBALANCED, "unbalanced"
    flow.set_node_supply(0, 40)
    flow.set_node_supply(4, -35)
    assert flow.solve() == flow.INFEASIBLE, "too much"
    assert (flow.solve_max_flow_with_min_cost(), flow.maximum_flow()) == (flow.OPTIMAL, 23), "largest flow"
    for arc, error in (
        ((0, 1, 10**19, 1), netflow.ScaleError),
        ((0, 1, 1, 10**13), netflow.ScaleError),
        ((0, 30_000, 1, 1), netflow.DataError),
    ):
        large = netflow.SimpleMinCostFlow()
        large.add_arc_with_capacity_and_unit_cost(*arc)
        with pytest.raises(error):
            large.solve()
    small = netflow.SimpleMinCostFlow(decimals=True)
    small.add_arc_with_capacity_and_unit_cost(0, 1, 2.5, 0.1)
    small.set_nodes_supplies([0, 1], [2.5, -2.5])
    assert (small.solve(), small.optimal_cost(), small.flow(0)) == (small.OPTIMAL, 0.25, 2.5), "decimals"
