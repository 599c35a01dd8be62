"""The tests of how classes of tests are run side by side."""

import contextlib
import io
import os
import signal
import subprocess
import sys
import tempfile
import textwrap
import time
import unittest
from pathlib import Path

from tests.shared.running import Outcome, classes_of, run

TOP = Path(__file__).resolve().parent.parent.parent


class Good(unittest.TestCase):
    """Two tests that pass."""

    def test_one(self) -> None:
        """Changes what no other class may see."""
        os.environ["RUNNING_WAS_CHANGED"] = "yes"

    def test_two(self) -> None:
        """Says something on no file that is looked at."""


class Alone(unittest.TestCase):
    """Sees nothing of other classes."""

    def test_environment(self) -> None:
        """What another class changed isn't there."""
        self.assertNotIn("RUNNING_WAS_CHANGED", os.environ)


class Mixed(unittest.TestCase):
    """One passes, one fails, one raises, one is skipped, one fails twice, one shouldn't pass."""

    takes_long = True

    def test_good(self) -> None:
        """Passes."""

    def test_bad(self) -> None:
        """Fails."""
        self.fails("a reason")

    def fails(self, why: str) -> None:
        """Fails with these words."""
        self.fail(why)

    def test_raising(self) -> None:
        """Raises."""
        raise ValueError("another reason")

    @unittest.skip("not here")
    def test_skipped(self) -> None:
        """Isn't run."""

    def test_parts(self) -> None:
        """Fails in two parts."""
        for part in range(3):
            with self.subTest(part=part):
                self.assertEqual(part, 1)

    @unittest.expectedFailure
    def test_unexpected(self) -> None:
        """Passes, and was to fail."""


class Killed(unittest.TestCase):
    """Ends its process."""

    def test_kill(self) -> None:
        """Ends by a signal."""
        os.kill(os.getpid(), signal.SIGKILL)

    def test_never(self) -> None:
        """Isn't reached."""


class Unready(unittest.TestCase):
    """Can't begin."""

    @classmethod
    def setUpClass(cls) -> None:
        raise ValueError("not ready")

    def test_never(self) -> None:
        """Isn't reached."""


class Meeting(unittest.TestCase):
    """Waits until another class is there too."""

    here, there = "one", "other"

    def test_meet(self) -> None:
        """Leaves a sign, and waits for that of the other."""
        place = Path(os.environ["RUNNING_PLACE"])
        (place / self.here).touch()
        end = time.monotonic() + 30
        while not (place / self.there).exists():
            self.assertLess(time.monotonic(), end, "the other class isn't running")
            time.sleep(0.01)


class MeetingToo(Meeting):
    """The other one."""

    here, there = "other", "one"


def load_tests(loader: unittest.TestLoader, *_: object) -> unittest.TestSuite:
    """Only the tests of `Running`: the classes above are what it runs."""
    return loader.loadTestsFromTestCase(Running)


class Running(unittest.TestCase):
    """Classes of which some fail."""

    def ran(self, *classes: type[unittest.TestCase], jobs: int = 2) -> tuple[Outcome, str]:
        """What became of their tests, and what was printed."""
        loader = unittest.defaultTestLoader
        tests = unittest.TestSuite(loader.loadTestsFromTestCase(one) for one in classes)
        with contextlib.redirect_stdout(io.StringIO()) as said:
            outcome = run(tests, jobs)
        return outcome, said.getvalue()

    def test_counts(self) -> None:
        """Each test counts once, by what became of it."""
        outcome, said = self.ran(Good, Alone, jobs=1)
        self.assertEqual(
            (outcome, said.splitlines()[-1]), ((3, 0, 0, ""), "3 passed, 0 failed, 0 skipped")
        )
        outcome, said = self.ran(Good, Mixed)
        self.assertEqual(outcome, (3, 4, 1, ""))
        self.assertEqual(said.splitlines()[-1], "3 passed, 4 failed, 1 skipped")
        self.assertIn(f"{__name__}.Mixed: 1 passed, 4 FAILED, 1 skipped, ", said)
        for reason in ("a reason", "another reason", "part=0", "part=2", "test_unexpected"):
            self.assertIn(reason, said)

    def test_what_ends_otherwise(self) -> None:
        """A class that is killed or can't begin has failed."""
        outcome, said = self.ran(Good, Killed)
        self.assertEqual(outcome, (2, 1, 0, ""))
        self.assertIn("ended with status -9", said)
        outcome, said = self.ran(Unready, Good)
        self.assertEqual(outcome, (2, 1, 0, ""))
        self.assertIn("not ready", said)

    def test_at_once(self) -> None:
        """As many run at once as were asked for."""
        with tempfile.TemporaryDirectory() as place:
            os.environ["RUNNING_PLACE"] = place
            self.addCleanup(os.environ.pop, "RUNNING_PLACE")
            self.assertEqual(self.ran(Meeting, MeetingToo)[0], (2, 0, 0, ""))

    def test_order(self) -> None:
        """Classes that take long come first."""
        loader = unittest.defaultTestLoader
        tests = (loader.loadTestsFromTestCase(one) for one in (Good, Alone, Mixed))
        names = [name.rpartition(".")[2] for name in classes_of(unittest.TestSuite(tests))]
        self.assertEqual(names, ["Mixed", "Good", "Alone"])

    def test_interrupted(self) -> None:
        """Whoever interrupts ends what was started as well."""
        with tempfile.TemporaryDirectory() as place:
            Path(place, "waiting.py").write_text(textwrap.dedent(WAITING), "utf-8")
            process = subprocess.Popen(
                [sys.executable, "-B", "waiting.py"],
                cwd=place,
                env={**os.environ, "PYTHONPATH": str(TOP)},
                stdout=subprocess.DEVNULL,
                stderr=subprocess.DEVNULL,
            )
            waiting = Path(place, "waiting")
            end = time.monotonic() + 30
            while not (waiting.exists() and waiting.read_text("ascii").endswith("\n")):
                self.assertLess(time.monotonic(), end, "it has not begun")
                time.sleep(0.01)
            process.send_signal(signal.SIGINT)
            self.assertNotEqual(process.wait(30), 0)
            with self.assertRaises(ProcessLookupError):
                os.kill(int(waiting.read_text("ascii")), 0)


WAITING = """
    import os, signal, subprocess, time, unittest
    from tests.shared.running import run

    class Waiting(unittest.TestCase):
        def test_wait(self):
            child = subprocess.Popen(["sleep", "60"])
            with open("waiting", "w") as file:
                print(os.getpid(), file=file)
            child.wait()

    signal.signal(signal.SIGINT, signal.default_int_handler)
    run(unittest.defaultTestLoader.loadTestsFromTestCase(Waiting), 2)
"""
