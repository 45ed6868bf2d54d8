"""A plugin of pytest that counts the checks of the tests: assertions that pass, and uses of pytest.raises.

    PYTHONPATH=tests pytest -p counting -o enable_assertion_pass_hook=true
"""
from __future__ import annotations

import collections

import pytest

# How many assertions passed, and how many expected exceptions were awaited, by file.
ASSERTIONS: collections.Counter[str] = collections.Counter()
EXCEPTIONS: collections.Counter[str] = collections.Counter()
raises = pytest.raises


def pytest_assertion_pass(item: pytest.Item) -> None:
    ASSERTIONS[item.location[0]] += 1


@pytest.hookimpl(tryfirst=True)
def pytest_runtest_call(item: pytest.Item) -> None:
    """Lets pytest.raises count for the file of this test."""

    def counted(*words, **options):
        EXCEPTIONS[item.location[0]] += 1
        return raises(*words, **options)

    pytest.raises = counted


def pytest_terminal_summary(terminalreporter: pytest.TerminalReporter) -> None:
    for file in sorted(ASSERTIONS.keys() | EXCEPTIONS.keys()):
        terminalreporter.write_line(f"{file}: {ASSERTIONS[file]} assertions, {EXCEPTIONS[file]} expected exceptions")
    total, expected = sum(ASSERTIONS.values()), sum(EXCEPTIONS.values())
    terminalreporter.write_line(f"{total} assertions and {expected} expected exceptions: {total + expected} checks")
