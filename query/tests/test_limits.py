"""No text costs more than its length allows: at a limit there is no answer, and nothing is kept."""

import os
import re
import resource
import sys
import unittest
from pathlib import Path
from unittest import mock

from query.platform import limits, system
from query.platform.executables import located
from query.platform.limits import MEGABYTE, Limits
from query.program import mmdepend, unpacking
from query.program.source import Source
from query.tests.repositories import ADDED, BASE, Repositories, changed
from query.tests.world import PROGRAM_FOR_NODE, SMALL, TOP, Done, World, built_program

LARGE = SMALL + "$( " + "x " * 3_000_000 + "$)\n"
BURNS = '#!/bin/sh\n[ "$1" != --version ] || exit 0\nwhile :; do :; done\n'


ONE_SECOND_TO_MERGE = """ended = repository.ended
def ended_soon(process, given):
    repository.MOST_SECONDS = 1 if "merge-tree" in process.args else 100
    return ended(process, given)
repository.ended = ended_soon
"""
"""Lets git merge for a second alone. Its other calls may take longer where the machine is busy."""


class Lengths(unittest.TestCase):
    """How much a text may cost."""

    def test_they_grow_with_the_text(self) -> None:
        for size, seconds, megabytes in ((0, 10, 256), (1, 11, 256), (40_000_000, 210, 2816)):
            self.assertEqual(Limits().seconds_for(size), seconds)
            self.assertEqual(Limits().bytes_for(size) // MEGABYTE, megabytes)

    def test_those_of_javascript(self) -> None:
        text = (TOP / "web" / "limits.js").read_text()
        found = dict(re.findall(r"const ([A-Z_]+) = (\d[^;]*);", text))
        numbers = {name: value_of(number) for name, number in found.items()}
        wanted = {
            "MOST_DATABASE_BYTES": limits.MOST_DATABASE_BYTES,
            "MOST_TIMES": unpacking.MOST_TIMES,
            "FREE_TEXT": unpacking.FREE_TEXT,
            "MEMORY_TIMES": limits.MEMORY_TIMES,
            "FREE_MEMORY": limits.FREE_MEMORY,
            "MEGABYTE": limits.MEGABYTE,
            "SECONDS_FOR_MEGABYTE": limits.SECONDS_FOR_MEGABYTE,
            "FREE_SECONDS": limits.FREE_SECONDS,
        }
        self.assertEqual(numbers, wanted)

    def test_the_share_of_one(self) -> None:
        """A quarter of what two texts of its length get."""
        self.assertEqual(Limits().share(0), Limits(2, 64))
        self.assertEqual(Limits().share(20_000_000), Limits(52, 704))
        self.assertEqual(Limits(3, 2).share(9**9), Limits(1, 1))

    def test_what_is_given_goes_before(self) -> None:
        given = Limits(3, None).or_else(Limits(4, 5))
        self.assertEqual((given.seconds_for(9**9), given.bytes_for(9**9)), (3, 5 * MEGABYTE))


class Runs(World):
    """Runs of the program."""

    def setUp(self) -> None:
        super().setUp()
        self.write("db.mm", SMALL)
        self.write("large.mm", LARGE)
        self.write("burns", BURNS)
        os.chmod(self.folder / "burns", 0o755)
        self.burns = str(self.folder / "burns")

    def nothing_is_kept(self) -> None:
        """The folder of kept results has none."""
        kept = self.cache / "mmquery"
        self.assertEqual([*kept.iterdir()] if kept.exists() else [], [])

    def test_seconds(self) -> None:
        why = "db.mm: not judged: the text needs more than 1 seconds of the processor"
        for words in (("rests", "db.mm", "a2"), ("verify", "db.mm"), ("compare", "db.mm", "db.mm")):
            before = seconds_of_children()
            self.refuses(*words, "--limit-time", "1", why=why, MMDEPEND=self.burns)
            self.assertLess(seconds_of_children() - before, 9)
            self.assertEqual(self.query(*words, "--limit-time", "9", "--no-cache").status, 0)
        self.nothing_is_kept()

    def test_memory(self) -> None:
        why = "large.mm: not judged: the text needs more than 8 MB of memory"
        self.refuses("rests", "large.mm", "a2", "--limit-memory", "8", why=why)
        self.nothing_is_kept()
        self.assertEqual(self.query("rests", "large.mm", "a2", "--limit-memory", "199").status, 0)

    def test_the_worst_text_of_the_bench(self) -> None:
        """Axioms with half a million pairs of distinct variables each: 2 MB, which take 860."""
        bench = str(TOP / "bench" / "hostile")
        words = ("--only", "disjoints-of-their-own", "--count", "200", "--write", "worst.mm")
        self.assertEqual(self.ran(sys.executable, bench, *words), Done("", "", 0))
        why = "worst.mm: not judged: the text needs more than 383 MB of memory (--limit-memory)"
        for name in ("verify", "chapters", "uncited"):
            self.refuses(name, "worst.mm", why=why)
        self.nothing_is_kept()
        done = self.query("verify", "worst.mm", "--limit-memory", "2000")
        self.assertEqual(done, Done("worst.mm: valid, 200 axioms and 0 theorems\n", "", 0))

    def test_what_the_program_says(self) -> None:
        script = '#!/bin/sh\n[ "$1" != --version ] || exit 0\nexec yes\n'
        self.write("says", script)
        os.chmod(self.folder / "says", 0o755)
        why = "needs more than 20 MB for what the program says of it"
        words = ("rests", "db.mm", "a2", "--limit-memory", "20")
        self.refuses(*words, why=why, MMDEPEND=str(self.folder / "says"))
        self.nothing_is_kept()

    def test_a_file_that_is_changed_meanwhile(self) -> None:
        """What is judged is what was read."""
        script = '#!/bin/sh\n[ "$1" = --version ] || echo changed >db.mm\n'
        self.write("changes", script + f'exec {built_program()} "$@"\n')
        os.chmod(self.folder / "changes", 0o755)
        done = self.query("verify", "db.mm", MMDEPEND=str(self.folder / "changes"))
        self.assertEqual((done.status, done.err), (0, ""))
        self.assertEqual((self.folder / "db.mm").read_text(), "changed\n")
        self.assertEqual(self.query("verify", "db.mm").status, 1)

    def test_numbers_that_are_none(self) -> None:
        for word in ("0", "-1", "1.5", "x", "1000000", ""):
            self.refuses(
                "verify", "db.mm", f"--limit-time={word}", why="no number from 1 to 999999"
            )

    def test_systems_without_limits(self) -> None:
        """There the clock ends the program."""
        source = Source("db.mm", SMALL.encode())
        with mock.patch.object(system, "limiting", lambda *_: None):
            running = mmdepend.Program(self.burns).running([], source.opened(), True, 0)
            self.assertEqual(running.exceeded(0, 0), "")
            assert running.clock is not None
            running.clock.timer.cancel()
            running.clock.ring()
            _, _, status = running.ended()
        self.assertIn("10 seconds of the processor", running.exceeded(status, 0))

    @unittest.skipUnless(PROGRAM_FOR_NODE.exists(), "web/build wasn't run")
    def test_pages(self) -> None:
        """Node limits the program, and the memory of its own module."""
        why = "db.mm: not judged: the text needs more than 1 seconds of the processor"
        self.refuses("page", "db.mm", "--limit-time", "1", why=why, MMDEPEND=self.burns)
        why = "large.mm: not judged: the text needs more than 8 MB of memory"
        self.refuses("page", "large.mm", "--limit-memory", "8", why=why)
        words = ("node", str(PROGRAM_FOR_NODE), "page", "large.mm")
        done = self.ran(*words, "--limit-memory=5")
        self.assertEqual((done.status, done.out, done.err), (4, "", "mmdepend: out of memory\n"))
        self.assertEqual(self.ran(*words).status, 0)
        self.assertEqual(self.ran(*words, "--limit-memory=0").status, 2)

    def test_a_lower_limit_stays(self) -> None:
        line = f'ulimit -t 2; MMDEPEND={self.burns} exec "$@"'
        done = self.query_by_shell(line, "verify", "db.mm", "--limit-time", "60")
        self.assertEqual((done.status, done.out), (2, ""))
        self.assertIn("db.mm: the program was ended by signal ", done.err)


class InGit(Repositories):
    """The limits that the base's file gives, and those of calls of git."""

    def test_the_file_of_the_base(self) -> None:
        self.ask("limit-time = 1\n")
        self.write("burns", BURNS)
        os.chmod(self.folder / "burns", 0o755)
        self.branch()
        self.write("mmdepend.toml", "limit-time = 99\n")
        self.commit(BASE + ADDED)
        why = "not judged: the text needs more than 1 seconds of the processor"
        words = ("gate", "--base", "main", "db.mm")
        burns = str(self.folder / "burns")
        self.refuses(*words, why=why, MMDEPEND=burns)
        self.refuses(*words, "--limit-time=2", why="more than 2 seconds", MMDEPEND=burns)
        told = "mmdepend.toml:1: `limit-time` was 1, and is 99 [config]"
        self.assertEqual(self.gate(status=1), [told])

    def test_two_files(self) -> None:
        self.write("burns", BURNS)
        os.chmod(self.folder / "burns", 0o755)
        self.write("mmdepend.toml", "limit-time = 1\n")
        self.write("new.mm", BASE + ADDED)
        burns = str(self.folder / "burns")
        self.refuses("gate", "db.mm", "new.mm", why="more than 1 seconds", MMDEPEND=burns)

    def test_a_call_of_git_that_takes_long(self) -> None:
        self.branch()
        self.commit(BASE + ADDED)
        self.git("checkout", "--quiet", "main")
        self.commit(changed(BASE, ("wp ax-ac2 $.", "wp wp ax-1 $.")))
        self.git("checkout", "--quiet", "work")
        slow = self.folder.parent / "bin"
        slow.mkdir()
        script = '#!/bin/sh\ncase " $* " in *" merge-tree "*) exec sleep 99;; esac\n'
        (slow / "git").write_text(script + f'exec {git_path()} "$@"\n')
        (slow / "git").chmod(0o755)
        path = f"{slow}:{self.surroundings()['PATH']}"
        done = self.gate_with(ONE_SECOND_TO_MERGE, path)
        self.assertEqual((done.status, done.out), (2, ""), done)
        self.assertIn("not judged: git merge-tree needs more than 1 seconds", done.err)

    def gate_with(self, change: str, path: str = "") -> Done:
        """What the gate says where a constant is another one, and PATH perhaps too."""
        words = ["gate", "--base", "main", "HEAD:db.mm"]
        top = str(Path(__file__).resolve().parents[2])
        line = f"import sys; sys.path.insert(0, {top!r}); from query import cli; "
        line += f"from query.git import repository\n{change}\ncli.main({words!r})"
        return self.ran("python3", "-c", line, PATH=path or self.surroundings()["PATH"])

    def test_a_merge_of_few_bytes_that_are_many(self) -> None:
        """A file that both sides changed, which isn't the database: 200 MB, in git a thousandth."""
        self.commit("a\n", "other")
        self.branch()
        with open(self.folder / "other", "wb") as file:
            file.truncate(200 * MEGABYTE)
        self.git("-c", "core.bigFileThreshold=1m", "add", "other")
        self.git("commit", "--quiet", "--message", "zeros")
        (self.folder / "other").unlink()
        self.git("update-index", "--assume-unchanged", "other")
        self.git("checkout", "--quiet", "--force", "main")
        self.commit("b\n", "other")
        self.git("symbolic-ref", "HEAD", "refs/heads/work")
        self.assertIn("can't be merged: CONFLICT", self.gate_with("pass").err)
        done = self.gate_with("repository.FREE_BYTES = 99_000_000")
        self.assertEqual((done.status, done.out), (2, ""), done)
        self.assertIn("not judged: git merge-tree needs more than 99 MB of memory", done.err)
        self.git("update-ref", "refs/heads/work", "main")
        self.assertEqual(self.gate_with("repository.FREE_BYTES = 99_000_000").status, 0)

    def worst(self, count: int) -> str:
        """Axioms with half a million pairs of distinct variables each."""
        bench = str(TOP / "bench" / "hostile")
        words = ("--only", "disjoints-of-their-own", "--count", str(count), "--write", "worst.mm")
        self.assertEqual(self.ran(sys.executable, bench, *words), Done("", "", 0))
        text = (self.folder / "worst.mm").read_text()
        (self.folder / "worst.mm").unlink()
        return text

    def test_a_text_that_leaves_no_room(self) -> None:
        """Beside a small one it is within the limits, and two of it may not be: a comparison with
        it may have no answer. Where the base has it, nobody is blamed, and who takes it away
        passes."""
        self.ask('[allow]\naxioms = ["*"]\n')
        small, large = self.worst(1), self.worst(7)
        self.commit(small)
        self.branch()
        self.commit(self.worst(3))
        self.assertEqual(self.gate(status=0), [])
        self.commit(large)
        words = ("gate", "--base", "main", "db.mm")
        why = (
            "db.mm: not judged: by itself the text needs more than 2 seconds of the processor or 6"
        )
        for _ in range(2):  # the second time what the program says was kept
            self.refuses(*words, why=why)
        self.assertEqual(self.query("verify", "db.mm").status, 0)
        self.git("checkout", "--quiet", "main")
        self.commit(large)
        self.git("checkout", "--quiet", "-B", "work")
        self.commit(large + "$( A remark. $)\n")  # two such texts are near the limit
        self.assertNotIn("by itself", self.query(*words).err)
        self.commit(small)
        self.assertEqual(self.gate(status=0), [])

    def test_a_filling_that_is_taken_away(self) -> None:
        """Beside a long remark a text may cost more; the pull request after that leaves out the
        remark, and nothing would have an answer any more."""
        self.ask('[allow]\naxioms = ["*"]\n')
        # By itself it takes more than its share also where threads happen to run one by one.
        large, filling = self.worst(14), "$( " + "x" * 20_000_000 + " $)\n"
        self.commit(self.worst(1))
        self.branch()
        self.commit(large + filling)
        self.assertEqual(self.gate(status=0), [])
        self.git("checkout", "--quiet", "-B", "main")
        self.git("checkout", "--quiet", "-B", "work")
        self.commit(large)
        words = ("gate", "--base", "main", "db.mm")
        why = "db.mm: not judged: by itself the text needs more than 3 seconds"
        self.refuses(*words, "--no-cache", why=why)
        # What was kept under other limits is no answer under these.
        self.assertEqual(self.query(*words, "--limit-time=999", "--limit-memory=999").status, 0)
        self.refuses(*words, why=why)
        self.commit(self.worst(1))
        self.assertEqual(self.gate(status=0), [])

    def test_a_database_that_is_much_longer(self) -> None:
        self.branch()
        self.commit(BASE + "\n" * (70 << 20))
        words = ("gate", "--base", "main", "HEAD:db.mm")
        self.refuses(*words, why="not judged: db.mm has 73400914 bytes, and 67110052 are taken")


def seconds_of_children() -> float:
    """The seconds of the processor that processes took which were begun here and have ended. What
    else the machine does isn't among them."""
    usage = resource.getrusage(resource.RUSAGE_CHILDREN)
    return usage.ru_utime + usage.ru_stime


def value_of(number: str) -> int:
    """A number as JavaScript writes it, perhaps as a power of two."""
    base, shift, power = number.partition(" << ")
    return int(base) << int(power) if shift else int(base)


def git_path() -> str:
    """Where git is."""
    found = located("git")
    assert found is not None
    return found


if __name__ == "__main__":
    unittest.main()
