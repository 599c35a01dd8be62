"""How every command ends: closed and full outputs, full folders, refused databases, interrupts."""

import os
import random
import resource
import shutil
import signal
import subprocess
import time
import unittest
from collections.abc import Callable
from functools import partial
from pathlib import Path

from query.commands import names
from query.tests.commands import (
    MAY_BE_SILENT,
    MENDING,
    NEWER,
    OF_GIT,
    WHOLE,
    WITHOUT_DATABASE,
    keep_in_git,
    words_of,
)
from query.tests.world import MMQUERY, Done, World, needs_program

LIMITS = (0, 1, 100, 4096)


class Statuses(World):
    """Each command of the registry, so also each that is added."""

    def setUp(self) -> None:
        super().setUp()
        self.write("db.mm", WHOLE)
        self.write("newer.mm", NEWER)
        self.write("broken.mm", WHOLE.replace("wi wi $.", "wi $."))
        self.write("early.mm", WHOLE.replace("$v p q $.", "$v p q $"))
        keep_in_git(self.folder)

    def all_words(self) -> list[list[str]]:
        """The words of every command over a database, and pages of help."""
        found = [words_of(name, "db.mm") for name in names()]
        return [*found, ["--help"], ["rests", "--help"], ["--version"]]

    def ended(self, words: list[str], out: int, size: int | None = None, **more: str) -> Done:
        """Runs a command with this standard output; no file may get more than `size` bytes."""

        def limit() -> None:
            if size is not None:
                resource.setrlimit(resource.RLIMIT_FSIZE, (size, size))

        done = subprocess.run(
            [str(MMQUERY), *words],
            cwd=self.folder,
            env=self.surroundings(**more),
            stdin=subprocess.DEVNULL,
            stdout=out,
            stderr=subprocess.PIPE,
            preexec_fn=limit,
            check=False,
        )
        return Done((done.stdout or b"").decode("latin-1"), done.stderr.decode(), done.returncode)

    def no_answer(self, words: list[str], done: Done, why: str = "") -> None:
        """Status 2 and one line."""
        self.assertEqual(done.status, 2, f"{words}: {done.err}")
        self.assertRegex(done.err, r"\Ammquery: [^\n]+\n\Z", f"{words}")
        self.assertIn(why, done.err, f"{words}")

    def test_every_command_answers(self) -> None:
        for words in self.all_words():
            done = self.query(*words)
            self.assertIn(done.status, (0, 1), f"{words}: {done.err}")
            self.assertRegex(done.err, r"\A(mmquery: [^\n]+\n)?\Z", f"{words}")
            is_silent = words[0] in MAY_BE_SILENT
            self.assertTrue(done.out or done.err or is_silent, f"{words}")

    def test_outputs_that_take_nothing(self) -> None:
        for words in self.all_words():
            whole = self.query(*words)
            is_silent = not whole.out
            with open("/dev/full", "wb") as full:
                done = self.ended(words, full.fileno())
            reader, writer = os.pipe()
            os.close(reader)
            piped = self.ended(words, writer)
            os.close(writer)
            self.assertIn(piped.status, (0, 1), f"{words}: who reads no more is no error")
            self.assertEqual(piped.err, whole.err, f"{words}")
            shut = self.query_by_shell('exec "$@" >&-', *words)
            for each, why in (
                (done, "the disk is full"),
                (shut, "standard output is closed"),
            ):
                if is_silent:
                    self.assertEqual((each.err, each.out), (whole.err, ""), f"{words}")
                else:
                    self.no_answer(words, each, f"the answer can't be written: {why}")

    def test_all_is_closed(self) -> None:
        """No file that is opened takes the place of standard output."""
        for words in self.all_words():
            done = self.query_by_shell('exec "$@" <&- >&- 2>&-', *words)
            self.assertIn(done.status, (0, 1, 2), f"{words}")
        self.assertEqual((self.folder / "db.mm").read_text(), WHOLE)

    def test_files_may_not_grow(self) -> None:
        """Where files can't be written, kept results are done without, and nothing is half
        written."""
        for words in self.all_words():
            if words[0] == "cache":
                continue
            whole = self.query(*words)
            shutil.rmtree(self.cache / "mmquery", ignore_errors=True)
            for size in LIMITS:
                done = self.ended(words, subprocess.PIPE, size)
                # `spare` judges a new database, which it puts into a file in memory.
                if words[0] in {"export", "spare", *OF_GIT} and done.status == 2:
                    self.no_answer(words, done)
                else:
                    self.assertEqual(
                        (done.out, done.err), (whole.out, whole.err), f"{words}, {size}"
                    )
                    self.assertEqual(done.status, whole.status)
                kept = [each.stat().st_size for each in (self.cache / "mmquery").glob("*")]
                self.assertTrue(all(each <= size for each in kept), f"{words}, {size}")
                # That `spare` or `repeats` found nothing is kept in less.
                is_small = words[0] in {"spare", "repeats"}
                self.assertTrue(size == LIMITS[-1] or not kept or is_small, f"{words}, {size}")

    def test_the_answer_goes_to_a_file_that_may_not_grow(self) -> None:
        for words in self.all_words():
            whole = self.query(*words)
            for size in LIMITS:
                if len(whole.out) <= size:
                    continue
                with open(self.folder / "answer", "wb") as file:
                    done = self.ended(words, file.fileno(), size)
                if not whole.out and done.status == whole.status:
                    continue
                self.no_answer(words, done)

    def test_folders_that_are_full_or_missing(self) -> None:
        start = ["unshare", "--mount", "--map-root-user", "sh", "-c"]
        line = 'mount -t tmpfs -o size=4k none "$TMPDIR" && head -c 4096 /dev/zero >"$TMPDIR/x"'
        line += ' && mount --bind "$TMPDIR" "$XDG_CACHE_HOME" && exec "$@"'
        for words in self.all_words():
            whole = self.query(*words)
            done = self.query(*words, TMPDIR="/nowhere", XDG_CACHE_HOME="/nowhere/cache")
            self.same_or_why(words, whole, done)
            done = self.ran(*start, line, "sh", str(MMQUERY), *words)
            if "unshare" in done.err or "mount" in done.err:
                self.skipTest("unshare may not mount a full folder here")
            self.same_or_why(words, whole, done)

    def same_or_why(self, words: list[str], whole: Done, done: Done) -> None:
        """The same answer, or one line that names what is full or missing."""
        if done.status == 2:
            self.no_answer(words, done)
            self.assertRegex(done.err, "full|no such", f"{words}")
        elif words[0] != "cache":
            self.assertEqual(done, whole)

    def test_refused_databases(self) -> None:
        for name in names():
            if name in WITHOUT_DATABASE:
                continue
            for file, place, code in (("broken.mm", "", "E37"), ("early.mm", "", "E04")):
                done = self.query(*words_of(name, file))
                if name == "verify":
                    self.assertEqual((done.status, done.err), (1, ""))
                    self.assertRegex(done.out, rf"\A{file}:\d+:\d+: refused {code} in ")
                elif name in OF_GIT:
                    self.assertEqual((done.status, done.err), (0, ""))
                    self.assertRegex(done.out, rf"  refused \d+:\d+ {code}  a@b ")
                elif name in MENDING and code == "E37":
                    self.assertEqual((done.status, done.err), (0, ""))
                elif name == "gate" and done.status == 1:
                    self.assertRegex(done.out, rf"{file}:\d+:\d+.*{code}")
                else:
                    self.no_answer([name, file], done, f"refused {code}")
                    self.assertEqual(done.out, "")
                    self.assertRegex(done.err, rf"{file}:\d+:\d+: refused")
                self.assertEqual(place, "")


class Interrupts(World):
    """A signal at any moment ends a command with 128 and its number, and leaves nothing."""

    def setUp(self) -> None:
        super().setUp()
        self.write("db.mm", WHOLE)
        self.write("newer.mm", NEWER)
        keep_in_git(self.folder)

    def interrupted(self, words: list[str], number: int, delay: float) -> tuple[Done, bool]:
        """Runs a command and sends it a signal after these seconds. Also whether that came in
        time."""
        process = subprocess.Popen(
            [str(MMQUERY), *words],
            cwd=self.folder,
            env=self.surroundings(),
            stdin=subprocess.DEVNULL,
            stdout=subprocess.PIPE,
            stderr=subprocess.PIPE,
        )
        time.sleep(delay)
        was_running = process.poll() is None
        process.send_signal(number)
        out, errors = process.communicate()
        return Done(out.decode("latin-1"), errors.decode(), process.returncode), was_running

    def test_at_any_moment(self) -> None:
        chance = random.Random(11)
        stopped = 0
        for name in names():
            words = words_of(name, "db.mm")
            # What `cache` answers depends on what is kept.
            shutil.rmtree(self.cache / "mmquery", ignore_errors=True)
            begun = time.monotonic()
            whole = self.query(*words)
            took = time.monotonic() - begun
            for number in (signal.SIGINT, signal.SIGINT, signal.SIGTERM, signal.SIGINT):
                shutil.rmtree(self.cache / "mmquery", ignore_errors=True)
                done, was_running = self.interrupted(words, number, chance.uniform(0, took))
                if done.status in (128 + number, -number):
                    told = done.err.removesuffix("mmquery: interrupted\n")
                    self.assertTrue(whole.err.startswith(told), f"{words}: {done.err}")
                    self.assertTrue(whole.out.startswith(done.out), f"{words}")
                    stopped += 1
                else:
                    self.assertEqual(done, whole, f"{words}, {was_running}")
        self.assertGreater(stopped, len(names()))

    def test_while_python_starts(self) -> None:
        statuses = []
        for step in range(40):
            done, was_running = self.interrupted(["--version"], signal.SIGINT, step * 0.002)
            self.assertIn(done.err, ("", "mmquery: interrupted\n"))
            self.assertIn(done.status, (0, 130, -2))
            statuses.append(done.status)
        self.assertGreater(len([status for status in statuses if status]), 3)

    def test_the_program_ends_too(self) -> None:
        script = '#!/bin/sh\n[ "$1" != --version ] || exit 0\necho $$ >>pids\nexec sleep 60\n'
        (self.folder / "slow").write_text(script)
        (self.folder / "slow").chmod(0o755)
        for number in (signal.SIGINT, signal.SIGTERM, signal.SIGHUP):
            pids = self.folder / "pids"
            pids.unlink(missing_ok=True)
            process = subprocess.Popen(
                [str(MMQUERY), "rests", "db.mm", "a2"],
                cwd=self.folder,
                env=self.surroundings(MMDEPEND="./slow"),
                stdout=subprocess.PIPE,
                stderr=subprocess.PIPE,
            )
            wait_for(lambda: pids.exists() and pids.read_text().count("\n") == 1)
            process.send_signal(number)
            out, errors = process.communicate(timeout=20)
            self.assertEqual((process.returncode, out), (128 + number, b""))
            if number == signal.SIGINT:
                self.assertEqual(errors, b"mmquery: interrupted\n")
            for pid in pids.read_text().split():
                wait_for(partial(has_ended, pid))

    def test_signals_that_are_ignored_stay_so(self) -> None:
        line = f"trap '' INT HUP; exec {MMQUERY} rests db.mm a2"
        process = subprocess.Popen(
            ["sh", "-c", line],
            cwd=self.folder,
            env=self.surroundings(),
            stdout=subprocess.PIPE,
            stderr=subprocess.PIPE,
        )
        for _ in range(5):
            time.sleep(0.03)
            if process.poll() is None:
                process.send_signal(signal.SIGINT)
        out, errors = process.communicate()
        self.assertEqual((out, errors, process.returncode), (b"ax-1\nax-mp\n", b"", 0))


def is_waiting(pid: int) -> bool:
    """Whether a process waits for something. Python looks whether a signal has come before it
    begins to wait. Where it can't wait for two pipes at once, one that comes right after that look
    is answered when the wait ends."""
    return Path(f"/proc/{pid}/stat").read_text().rpartition(")")[2].split()[0] == "S"


def has_ended(pid: str) -> bool:
    """Whether there is no such process, or only what remains until someone asks for its status."""
    try:
        return not Path(f"/proc/{pid}/cmdline").read_bytes()
    except OSError:
        return True


def wait_for(is_so: Callable[[], bool], seconds: float = 20) -> None:
    """Waits until something is so."""
    end = time.monotonic() + seconds
    while not is_so():
        if time.monotonic() > end:
            raise AssertionError("waited in vain")
        time.sleep(0.02)


@needs_program
class Python(unittest.TestCase):
    """What no command may have: a traceback."""

    def test_a_word_that_is_no_utf_8(self) -> None:
        done = subprocess.run(
            [str(MMQUERY), "rests", b"\xff\xfe", "a"], capture_output=True, check=False
        )
        self.assertEqual((done.returncode, done.stdout), (2, b""))
        self.assertNotIn(b"Traceback", done.stderr)
        self.assertEqual(done.stderr.count(b"\n"), 1)


if __name__ == "__main__":
    unittest.main()
