"""The search of `spare` by several processes: the same answer, and nothing left of them."""

import os
import signal
import subprocess
import time
import unittest
from functools import partial
from pathlib import Path
from unittest import mock

from query.answers.errors import NoAnswer
from query.arguments.context import Context
from query.platform import parallel, system
from query.reports.choice import Options
from query.spare import sharing
from query.spare.changes import Changer, Wanted
from query.spare.kept import Change
from query.spare.search import State
from query.tests.test_spare import SPARE
from query.tests.test_spare_search import Maker
from query.tests.test_statuses import has_ended, wait_for
from query.tests.world import MMQUERY, World

LINE = "{} $p |- ( ( p -> p ) -> ( q -> q ) ) $= ( wi i bad both ) AACBBCADBEF $.\n"


def many(count: int) -> str:
    """A database with so many theorems more."""
    return SPARE + "".join(LINE.format(f"s{number}") for number in range(count))


def found(path: str, wanted: Wanted, at_once: int) -> list[Change]:
    """What so many processes find."""
    database = Context(uses_cache=False).database(path, Options())
    return list(Changer(database, wanted, at_once).changes())


class ByChance(World):
    """Databases made by chance, in stretches of two theorems."""

    def test_the_same_answer(self) -> None:
        again: list[bool] = []
        real = Changer.may_differ

        def may_differ(self: Changer, number: int, others: set[int]) -> bool:
            again.append(real(self, number, others))
            return again[-1]

        several = 0
        with mock.patch.object(sharing, "STRETCH", 2):
            for seed in range(3):
                path = str(self.folder / self.write("chance.mm", Maker(seed).text(50)))
                labels = tuple(Context(uses_cache=False).database(path, Options()).axioms())
                for wanted in (
                    Wanted("|-", ("bad",)),
                    Wanted("|-", labels[::-1]),
                    Wanted("|-", ("tr", "bad"), has_new_steps=True),
                    Wanted("|-", is_shorter=True),
                ):
                    alone = found(path, wanted, 1)
                    with mock.patch.object(Changer, "may_differ", may_differ):
                        self.assertEqual(found(path, wanted, 3), alone, f"{seed}")
                    several += len(alone)
        self.assertGreater(several, 50)
        self.assertGreater(min(again.count(False), again.count(True)), 10)

    def test_it_would_not_be_the_same(self) -> None:
        """Where what a process says is always taken, the answer is another one."""
        path = str(self.folder / self.write("db.mm", SPARE))
        wanted = Wanted("|-", ("bad",))
        with mock.patch.object(sharing, "STRETCH", 1):
            self.assertEqual(found(path, wanted, 3), found(path, wanted, 1))
            with mock.patch.object(Changer, "may_differ", lambda *_: False):
                self.assertNotEqual(found(path, wanted, 3), found(path, wanted, 1))


class Slow:
    """Theorems of which the first takes long. What is found says when."""

    def __init__(self) -> None:
        self.old_rests = [0] * 1000
        self.state = State(self.old_rests)

    def is_sought(self, number: int) -> bool:
        """All are."""
        return True

    def change(self, number: int) -> Change | None:
        """What becomes of a theorem."""
        if number == 0:
            time.sleep(3)
        return Change(str(time.monotonic()), ())

    def may_differ(self, number: int, others: set[int]) -> bool:
        """None does."""
        return False


class Waiting(unittest.TestCase):
    """One stretch that takes long."""

    def test_others_go_on(self) -> None:
        """They are searched meanwhile, but not all: who knows what they find."""
        with mock.patch.object(sharing, "STRETCH", 1):
            changes = [*sharing.searched(Slow(), range(100), 2)]
        times = [float(change.theorem) for change in changes if change is not None]
        self.assertEqual(len(times), 100)
        ahead = sum(each < times[0] for each in times[1:])
        self.assertEqual(ahead, 2 * sharing.AHEAD - 1)

    def test_what_is_ended(self) -> None:
        """Copies that have their result, and work that this process does."""

        def sleep() -> bytes:
            time.sleep(60)
            return b"2"

        quick, slow = parallel.Copy(lambda: b"1"), parallel.Copy(sleep)
        self.assertEqual(parallel.ended([slow, quick]), [1])
        later = parallel.Later(lambda: b"3")
        self.assertEqual(parallel.ended([slow, later]), [1])
        self.assertEqual(parallel.ended([slow], waits=False), [])
        self.assertEqual(parallel.ended([], waits=False), [])
        self.assertEqual(quick.result(), b"1")
        slow.stop()


class Processes(World):
    """The processes themselves."""

    def test_words(self) -> None:
        self.write("db.mm", many(200))
        words = ("spare", "db.mm", "--all", "--no-cache", "--jobs")
        alone = self.query(*words, "1")
        self.assertEqual(len(alone.lines()), 203 + 1)
        self.assertEqual(self.query(*words, "3"), alone)
        self.assertEqual(self.query(*words[:-1]), alone)
        self.refuses(*words, "0", why="is no number from 1 to 999999")

    def test_where_none_can_be_begun(self) -> None:
        path = str(self.folder / self.write("db.mm", many(200)))
        wanted = Wanted("|-", ("bad",))
        alone = found(path, wanted, 1)
        with mock.patch.object(sharing, "begun", side_effect=OSError):
            self.assertEqual(found(path, wanted, 3), alone)
        before = os.listdir("/proc/self/fd")
        with mock.patch.object(system, "fork", side_effect=OSError):
            self.assertEqual(found(path, wanted, 3), alone)
        self.assertEqual(os.listdir("/proc/self/fd"), before, "pipes were left open")
        with mock.patch.object(system, "can_fork", lambda: False):
            with mock.patch.object(sharing, "begun", side_effect=AssertionError):
                self.assertEqual(found(path, wanted, 3), alone)

    def test_how_many(self) -> None:
        for memory, wanted in (((None, None), 4), ((10, 45), 3), ((10, 5), 1)):
            with mock.patch.object(system, "memory", lambda told=memory: told):
                with mock.patch.object(system, "processors", lambda: 8):
                    self.assertEqual(parallel.number_at_once(), wanted)
        with mock.patch.object(system, "processors", lambda: 1):
            self.assertEqual(parallel.number_at_once(), 1)
        self.assertGreater(min(each or 0 for each in system.memory()), 1000)
        self.assertIsNone(system.number_in("/proc/self/status", "Name"))
        self.assertIsNone(system.number_in(str(self.folder / "none"), "VmRSS"))

    def test_one_that_fails(self) -> None:
        """What was found before is kept, and there is no answer."""
        path = str(self.folder / self.write("db.mm", many(200)))
        names = {"XDG_CACHE_HOME": str(self.cache), "XDG_CONFIG_HOME": str(self.config)}
        real = parallel.Copy.result
        count = 0

        def result(self: parallel.Copy) -> bytes:
            nonlocal count
            count += 1
            if count == 4:
                self.stop()
                raise NoAnswer("out of memory")
            return real(self)

        with mock.patch.dict(os.environ, names):
            database = Context().database(path, Options())
            wanted = Wanted("|-", ("bad",))
            with mock.patch.object(parallel.Copy, "result", result):
                with self.assertRaises(NoAnswer):
                    list(Changer(database, wanted, 3).changes())
            tried: list[int] = []
            search = Changer.change

            def change(self: Changer, number: int) -> Change | None:
                tried.append(number)
                return search(self, number)

            with mock.patch.object(Changer, "change", change):
                again = list(Changer(database, wanted, 1).changes())
        self.assertEqual(again, found(path, wanted, 1))
        done = 3 * sharing.STRETCH + 1  # one of them doesn't rest on the axiom
        self.assertEqual(len(tried), 203 - done)

    def test_signals(self) -> None:
        """A signal ends all of them."""
        self.write("db.mm", many(2000))
        for number in (signal.SIGINT, signal.SIGTERM):
            process = self.begun("spare", "db.mm", "--all", "--no-cache", "--jobs", "3")
            others = self.copies(process.pid)
            process.send_signal(number)
            errors = process.communicate()[1]
            self.assertEqual(process.returncode, 128 + number)
            self.assertEqual(errors, b"mmquery: interrupted\n" if number == signal.SIGINT else b"")
            for other in others:
                wait_for(partial(has_ended, other))

    def begun(self, *words: str) -> "subprocess.Popen[bytes]":
        """A command that is running."""
        return subprocess.Popen(
            [MMQUERY, *words],
            cwd=self.folder,
            env=self.surroundings(),
            stdin=subprocess.DEVNULL,
            stdout=subprocess.DEVNULL,
            stderr=subprocess.PIPE,
        )

    def copies(self, process: int) -> list[str]:
        """The copies that a process has made of itself, once it has made two."""
        own = Path(f"/proc/{process}/task/{process}/children")
        name = Path(f"/proc/{process}/cmdline")
        end = time.monotonic() + 60
        while time.monotonic() < end:
            others = [
                each
                for each in own.read_text().split()
                if text_of(Path(f"/proc/{each}/cmdline")) == name.read_text()
            ]
            if len(others) > 1:
                return others
            time.sleep(0.005)
        self.fail("there are no two copies")


def text_of(path: Path) -> str:
    """What a file says, or nothing where it is gone."""
    try:
        return path.read_text()
    except OSError:
        return ""
