"""A signal ends the command at once, whatever it waits for, and what it has started ends too."""

import os
import random
import signal
import subprocess
import sys
import time
import unittest
from collections.abc import Callable
from functools import partial
from pathlib import Path

from query.tests.repositories import BASE, FREED, Repositories, changed
from query.tests.test_statuses import has_ended, is_waiting, wait_for
from query.tests.world import MMQUERY, TOP, World

SLOW = '#!/bin/sh\n[ "$1" != --version ] || exit 0\necho $$ >>pids\nexec sleep 60\n'
RUNS = 200
AT_ONCE = 10
"""Seconds within which a signal is answered; whatever is waited for takes much longer."""
EARLY = f"""
import ctypes, operator, os, select, sys
from functools import partial
sys.path.insert(0, {str(TOP)!r})
from query.platform import signals, system

real = select.poll
kill = partial(ctypes.CDLL(None).kill, os.getpid(), {int(signal.SIGTERM)})

class Poll:
    def __init__(self):
        self.poll_of_pipes = real()
        self.register = self.poll_of_pipes.register

    def poll(self, limit):
        # Python doesn't look for signals between the two, as it would between two lines.
        return list(map(operator.call, (kill, partial(self.poll_of_pipes.poll, limit))))[1]

signals.listen()
if sys.argv[1] == "woken":
    select.poll = Poll
    read = signals.read
else:
    read = lambda pipe, size: list(map(operator.call, (kill, partial(os.read, pipe, size))))[1]
reading, writing = os.pipe()
print("begun", flush=True)
read(reading, 9)
"""
"""Waits for a pipe to which nobody writes. A signal comes when the wait is about to begin."""


class Waits(World):
    """Commands that wait for something."""

    def begun(self, *words: str, given: int = subprocess.DEVNULL) -> subprocess.Popen[bytes]:
        """A command that runs, with a program that takes long."""
        process = subprocess.Popen(
            words,
            cwd=self.folder,
            env=self.surroundings(MMDEPEND="./slow"),
            stdin=given,
            stdout=subprocess.PIPE,
            stderr=subprocess.PIPE,
        )
        self.addCleanup(process.kill)
        return process

    def ends(self, process: subprocess.Popen[bytes], number: int) -> None:
        """A signal ends the command at once."""
        process.send_signal(number)
        out, _ = process.communicate(timeout=AT_ONCE)
        self.assertEqual((process.returncode, out), (128 + number, b""))

    def program(self) -> Path:
        """Writes the program. Where it says which processes it has been."""
        self.write("db.mm", BASE)
        self.write("slow", SLOW)
        (self.folder / "slow").chmod(0o755)
        return self.folder / "pids"

    def test_the_program_at_many_moments(self) -> None:
        """No moment is too early, from the one on at which the program has begun."""
        pids = self.program()
        chance = random.Random(5)
        for turn in range(RUNS):
            with self.subTest(turn):
                pids.unlink(missing_ok=True)
                process = self.begun(str(MMQUERY), "rests", "db.mm", "zorn", "--no-cache")
                while not (pids.exists() and pids.stat().st_size):
                    time.sleep(0.0005)
                time.sleep(chance.choice((0, chance.uniform(0, 0.003))))
                self.ends(process, chance.choice((signal.SIGINT, signal.SIGTERM, signal.SIGHUP)))
                for pid in pids.read_text().split():
                    wait_for(partial(has_ended, pid))

    def test_the_instant_before_a_wait(self) -> None:
        """The control waits as long as nothing else ends it."""
        for how in ("woken", "control"):
            process = self.begun(sys.executable, "-c", EARLY, how)
            assert process.stdout is not None
            self.assertEqual(process.stdout.readline(), b"begun\n")
            if how == "woken":
                self.assertEqual(process.wait(AT_ONCE), 128 + signal.SIGTERM)
            else:
                self.assertRaises(subprocess.TimeoutExpired, process.wait, 2)
                process.kill()
            process.communicate()

    def test_standard_input(self) -> None:
        reading, writing = os.pipe()
        self.addCleanup(os.close, writing)
        process = self.begun(str(MMQUERY), "verify", "-", given=reading)
        os.close(reading)
        wait_for(partial(is_waiting, process.pid))
        self.ends(process, signal.SIGTERM)

    def test_a_closed_descriptor(self) -> None:
        """What wakes a command takes no number of a closed standard input or output."""
        self.write("db.mm", BASE)
        done = self.query_by_shell('exec "$@" <&- ', "verify", "-")
        self.assertEqual((done.status, done.out), (2, ""))
        self.assertIn("standard input: ", done.err)
        done = self.query_by_shell('exec "$@" 2>&- ', "verify", "db.mm")
        self.assertEqual(done.status, 0)
        done = self.query_by_shell('exec "$@" >&- ', "verify", "db.mm")
        self.assertEqual(done.status, 2)


class Pauses(World):
    """A text that comes by parts."""

    def piped(self, is_blocking: bool, parts: list[bytes]) -> tuple[int, bytes]:
        """The status and the answer to a text that comes in these parts."""
        reading, writing = os.pipe()
        os.set_blocking(reading, is_blocking)
        process = subprocess.Popen(
            [str(MMQUERY), "verify", "-"],
            env=self.surroundings(),
            stdin=reading,
            stdout=subprocess.PIPE,
        )
        for part in parts:
            os.write(writing, part)
            time.sleep(0.3)
        os.close(reading)
        os.close(writing)
        out, _ = process.communicate()
        return process.returncode, out

    def test_a_pipe_that_does_not_block(self) -> None:
        """Where nothing can be read yet, that isn't the end of the text."""
        parts = [BASE.encode(), b"ax-more $a |- p $.\n"]
        said = b"standard input: valid, 6 axioms and 6 theorems\n"
        for is_blocking in (True, False):
            self.assertEqual(self.piped(is_blocking, parts), (0, said))


class Git(Repositories):
    """Calls of git."""

    def git_that(self, does: str) -> str:
        """The PATH with which git does something in place of a merge."""
        folder = self.folder.parent / "bin"
        folder.mkdir(exist_ok=True)
        real = "/usr/bin/git"
        lines = f'#!/bin/sh\ncase " $* " in *" merge-tree "*) {does};; esac\nexec {real} "$@"\n'
        (folder / "git").write_text(lines)
        (folder / "git").chmod(0o755)
        return f"{folder}:{self.surroundings()['PATH']}"

    def diverged(self) -> None:
        """A branch beside a base that went on."""
        self.branch()
        self.commit(BASE + "ax-more $a |- p $.\n")
        self.git("checkout", "--quiet", "main")
        self.commit(changed(BASE, FREED))
        self.git("checkout", "--quiet", "work")

    def interrupted(self, path: str, is_begun: Callable[[], bool]) -> None:
        """A signal ends the gate, and leaves no folder."""
        process = subprocess.Popen(
            [str(MMQUERY), "gate", "--base", "main", "db.mm"],
            cwd=self.folder,
            env=self.surroundings(PATH=path),
            stdout=subprocess.PIPE,
            stderr=subprocess.PIPE,
        )
        self.addCleanup(process.kill)
        wait_for(is_begun)
        process.send_signal(signal.SIGTERM)
        out, errors = process.communicate(timeout=AT_ONCE)
        self.assertEqual((process.returncode, out, errors), (128 + signal.SIGTERM, b"", b""))
        self.assertEqual([*self.temporary.iterdir()], [])

    def test_it_ends_too(self) -> None:
        self.diverged()
        pids = self.folder.parent / "pids"
        path = self.git_that(f"echo $$ >>{pids}; exec sleep 60")
        self.interrupted(path, lambda: pids.exists() and pids.stat().st_size > 0)
        (pid,) = pids.read_text().split()
        wait_for(partial(has_ended, pid))

    def test_it_may_take_some_seconds(self) -> None:
        self.diverged()
        done = self.query("gate", "--base", "main", "db.mm", PATH=self.git_that("sleep 3"))
        self.assertEqual((done.status, done.err), (1, ""), done)
        self.assertIn("ax-more: a new axiom: |- p [axioms]\n", done.out)

    def test_it_writes_nothing_any_more(self) -> None:
        """The folder in which it writes is removed after it has ended."""
        self.diverged()
        marker = self.folder.parent / "marker"
        makes = f"touch {marker}; cd objects; i=0; while :; do i=$((i+1)); : >$i; done"
        path = self.git_that(makes)
        for _ in range(5):
            marker.unlink(missing_ok=True)
            self.interrupted(path, marker.exists)


if __name__ == "__main__":
    unittest.main()
