"""The tests over random and listed inputs try something: tests that return early on every input would pass too."""
import pytest

import test_output
import test_why
from support import run, write

SEEDS = 12


@pytest.fixture
def solved_networks(monkeypatch):
    """Returns the list of the random networks that tests of test_why solve from now on."""
    solved = []

    class Counted(test_why.Plain):
        def solve(self, folder):
            solved.append(self)
            return super().solve(folder)

    monkeypatch.setattr(test_why, "Plain", Counted)
    return solved


def test_many_least_changes_are_made(tmp_path, solved_networks):
    """Each network is solved once; each further one is a network with a listed change."""
    for seed in range(SEEDS):
        test_why.test_least_changes(tmp_path, seed)
    assert (len(solved_networks) - SEEDS) * 6 > SEEDS


def test_many_prices_are_compared(tmp_path, solved_networks):
    for seed in range(SEEDS):
        test_why.test_prices(tmp_path, seed)
    assert len(solved_networks) - SEEDS > SEEDS


def test_examples_have_plans_and_cuts(tmp_path):
    """Of the inputs of test_plan_is_written_back more than 14 have a plan, and more than 4 a cut."""
    statuses = []
    for texts, words in (param.values for param in test_output.inputs_of_examples()):
        if texts is not None:
            words = [write(tmp_path, "row.mod", texts[0]), write(tmp_path, "row.dat", texts[1]), *words]
        statuses.append(run("netflow", "solve", *words)[0])
    assert statuses.count(0) > 14 and statuses.count(2) > 4
