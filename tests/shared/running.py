"""Runs classes of tests side by side, each in a process of its own.

A process is a copy of this one, which has loaded all tests. So no class sees what another one
changed, and one that ends by a signal has failed like any other.
"""

from __future__ import annotations

import io
import multiprocessing
import os
import signal
import sys
import time
import unittest
from collections.abc import Iterator
from dataclasses import dataclass, field
from multiprocessing.connection import Connection, wait
from multiprocessing.context import ForkProcess
from typing import NamedTuple, NoReturn

CONTEXT = multiprocessing.get_context("fork")


class Outcome(NamedTuple):
    """What became of some tests, and what was said of those that failed."""

    passed: int = 0
    failed: int = 0
    skipped: int = 0
    said: str = ""


@dataclass
class Running:
    """A class whose tests are running."""

    name: str
    process: ForkProcess
    answer: Connection
    begun: float = field(default_factory=time.monotonic)

    def outcome(self) -> Outcome:
        """What became of them, once the process has ended or is about to."""
        try:
            found: Outcome = self.answer.recv()
        except EOFError:
            self.process.join()
            return Outcome(failed=1, said=f"ended with status {self.process.exitcode}\n")
        self.process.join()
        return found

    def stop(self) -> None:
        """Ends the process and all that it started."""
        try:
            os.killpg(self.process.pid or 0, signal.SIGKILL)
        except ProcessLookupError:
            self.process.kill()  # it has no group yet, and so has started nothing
        self.process.join()


def classes_of(tests: unittest.TestSuite) -> dict[str, unittest.TestSuite]:
    """The tests of each class, by its whole name. Classes that say that they take long come first:
    otherwise the last one might be waited for alone."""
    found: dict[str, unittest.TestSuite] = {}
    for test in _flat(tests):
        name = f"{type(test).__module__}.{type(test).__qualname__}"
        found.setdefault(name, unittest.TestSuite()).addTest(test)
    longest = {name for name, some in found.items() if any(_takes_long(test) for test in some)}
    return {name: found[name] for name in sorted(found, key=lambda name: name not in longest)}


def _takes_long(test: unittest.TestSuite | unittest.TestCase) -> bool:
    """Whether the class of a test says that its tests take long."""
    return bool(getattr(test, "takes_long", False))


def _flat(tests: unittest.TestSuite) -> Iterator[unittest.TestCase]:
    """All tests of a suite and of those in it."""
    for test in tests:
        if isinstance(test, unittest.TestSuite):
            yield from _flat(test)
        else:
            yield test


def run(tests: unittest.TestSuite, jobs: int) -> Outcome:
    """Runs all of them, so many classes at once. Prints a line for each class, what was said of
    those that failed, and at the end 'N passed, M failed, K skipped'."""
    coming = iter(classes_of(tests).items())
    running: list[Running] = []
    passed = failed = skipped = 0
    try:
        while True:
            while len(running) < jobs and (following := next(coming, None)):
                running.append(_begun(*following))
            if not running:
                break
            ready = wait([one.answer for one in running])
            for one in [one for one in running if one.answer in ready]:
                running.remove(one)
                outcome = one.outcome()
                passed += outcome.passed
                failed += outcome.failed
                skipped += outcome.skipped
                _tell(one, outcome)
    finally:
        for one in running:
            one.stop()
    print(f"{passed} passed, {failed} failed, {skipped} skipped", flush=True)
    return Outcome(passed, failed, skipped)


def _tell(one: Running, outcome: Outcome) -> None:
    """Prints what became of the tests of a class."""
    counts = [f"{outcome.passed} passed"]
    if outcome.failed:
        counts.append(f"{outcome.failed} FAILED")
    if outcome.skipped:
        counts.append(f"{outcome.skipped} skipped")
    seconds = time.monotonic() - one.begun
    print(f"{one.name}: {', '.join(counts)}, {seconds:.0f} s\n{outcome.said}", end="", flush=True)


def _begun(name: str, tests: unittest.TestSuite) -> Running:
    """Begins to run the tests of a class."""
    sys.stdout.flush()
    sys.stderr.flush()
    here, there = CONTEXT.Pipe(duplex=False)
    process = CONTEXT.Process(target=_run_class, args=(tests, there))
    process.start()
    there.close()
    return Running(name, process, here)


class Result(unittest.TextTestResult):
    """What became of the tests of a class, with a count of those that passed."""

    passed = 0

    def addSuccess(self, test: unittest.TestCase) -> None:
        super().addSuccess(test)
        self.passed += 1

    def outcome(self) -> Outcome:
        """The counts. A test of which several parts failed has failed once."""
        bad = {_whole(test) for test, _ in [*self.failures, *self.errors]}
        failed = len(bad) + len(self.unexpectedSuccesses)
        return Outcome(self.passed, failed, len(self.skipped))


def _whole(test: object) -> str:
    """The name of a test, or of the one of which it is a part."""
    return str(getattr(test, "test_case", test))


def _run_class(tests: unittest.TestSuite, answer: Connection) -> NoReturn:
    """Runs the tests of a class in this process, whose group is its own, and ends it."""
    os.setpgid(0, 0)
    said = io.StringIO()
    runner = unittest.TextTestRunner(said, verbosity=0, resultclass=Result)
    result = runner.run(tests)
    assert isinstance(result, Result)
    outcome = result.outcome()
    answer.send(outcome._replace(said=said.getvalue() if outcome.failed else ""))
    sys.stdout.flush()
    sys.stderr.flush()
    os._exit(0)
