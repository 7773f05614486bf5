"""A plugin of pytest: how each test ended is written as JSON to the file that OUTCOMES names."""

import json
import os

outcomes = {}


def pytest_runtest_logreport(report):
    """A test passed where all that was run for it did."""
    outcomes[report.nodeid] = outcomes.get(report.nodeid, True) and report.passed


def pytest_sessionfinish():
    with open(os.environ["OUTCOMES"], "w", encoding="utf-8") as file:
        json.dump(outcomes, file)
