"""Runs tests and counts test functions."""
from __future__ import annotations

import sys
import unittest
from typing import Any


class Result(unittest.TextTestResult):
    """Counts test functions, each once however many of its cases failed."""

    def __init__(self, *words: Any):
        super().__init__(*words)
        self.passed = 0

    def addSuccess(self, test: unittest.TestCase) -> None:
        super().addSuccess(test)
        self.passed += 1

    def counts(self) -> tuple[int, int]:
        # a case of a test has the test, and a class that could not be set up is its own
        bad = {getattr(test, "test_case", test).id() for test, _ in [*self.failures, *self.errors]}
        return self.passed, len(bad) + len(self.unexpectedSuccesses)


def run_counted(suite: unittest.TestSuite) -> tuple[int, int]:
    """Runs tests, and prints how each went: how many passed and failed. A suite without a test fails."""
    result = unittest.TextTestRunner(stream=sys.stdout, verbosity=2, resultclass=Result).run(suite)
    assert isinstance(result, Result)
    for test, reason in result.skipped:
        print(f"skipped: {test.id()}: {reason}")
    passed, failed = result.counts()
    return passed, failed if result.testsRun else 1
