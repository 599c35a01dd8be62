"""mmquery where the system lacks what Linux has. What Windows and macOS do besides isn't tried."""

import ast
import lzma
import ntpath
import os
import shutil
import signal
import sqlite3
import stat
import subprocess
import sys
import tempfile
import unittest
from collections.abc import Iterator
from functools import partial
from pathlib import Path
from unittest import mock

from query.commands import names
from query.gate.config import read_config
from query.platform import system, temporary
from query.platform.executables import located
from query.program import source
from query.tests.commands import NEWER, WHOLE, keep_in_git, words_of
from query.tests.lacking import ALL, MODULES
from query.tests.test_spare_sharing import many
from query.tests.test_statuses import has_ended, is_waiting, wait_for
from query.tests.world import PROGRAM_FOR_NODE, TOP, Done, World

LACKING = Path(__file__).resolve().parent / "lacking.py"
SOME = (
    *("os.fork", "os.memfd_create", "os.geteuid", "os.O_CLOEXEC", "os.O_NOFOLLOW"),
    *("os.O_NONBLOCK", "os.sched_getaffinity", "os.link", "os.supports_fd", "/dev/fd", "fcntl"),
    *("signal.setitimer", "signal.SIGHUP", "signal.pthread_sigmask", "fcntl.F_SETPIPE_SZ"),
    *("resource", "select.poll"),
)
"""What mmquery uses where it is there, each of which is taken away by itself too."""


class Lacking(World):
    """The same answers, whatever is lacking."""

    def setUp(self) -> None:
        super().setUp()
        self.write("db.mm", WHOLE)
        self.write("newer.mm", NEWER)
        self.write("broken.mm", WHOLE.replace("wi wi $.", "wi $."))
        keep_in_git(self.folder)

    def without(self, lacking: tuple[str, ...], *words: str, given: bytes = b"") -> Done:
        """Runs mmquery in a Python that lacks these. Nothing that was kept is taken."""
        shutil.rmtree(self.cache / "mmquery", ignore_errors=True)
        start = (sys.executable, "-ISB", str(LACKING), ",".join(lacking))
        return self.ran(*start, *words, given=given)

    def agree(self, lacking: tuple[str, ...], *words: str, given: bytes = b"") -> Done:
        """The answer, which is the same with all and without these."""
        whole = self.query(*words, given=given)
        done = self.without(lacking, *words, given=given)
        self.assertEqual(done, whole, f"without {lacking}: {words}")
        return whole

    def test_every_command(self) -> None:
        for name in names():
            words = words_of(name, "db.mm")
            if name == "page" and not PROGRAM_FOR_NODE.exists():
                continue
            if name not in ("cache", "export"):
                self.assertIn(self.agree(ALL, *words).status, (0, 1), f"{words}")

    def test_each_by_itself(self) -> None:
        for name in SOME:
            self.agree((name,), "compare", "db.mm", "newer.mm")
            self.agree((name,), "history", "db.mm", "HEAD", "ax-1")
            self.agree((name,), "gate", "--base", "HEAD", "db.mm")
            self.agree((name,), "rests", "-", "a2", given=WHOLE.encode())

    def test_other_sources_and_refusals(self) -> None:
        for words in (
            ("rests", "HEAD:db.mm", "a2"),
            ("verify", "broken.mm"),
            ("compare", "db.mm", "broken.mm"),
            ("compare", "broken.mm", "broken.mm"),
            ("rests", "db.mm", "nothing"),
            ("rests", "nothing.mm", "a2"),
            ("gate", "db.mm"),
            ("history", "db.mm", "v1..HEAD"),
        ):
            self.agree(ALL, *words)

    def test_searches_of_several_processes(self) -> None:
        """One process does what several do, however many are asked for."""
        self.write("many.mm", many(200))
        words = ("spare", "many.mm", "--all", "--no-cache")
        self.assertIn("direct", self.agree(ALL, *words).out)
        for name in ("os.fork", "os.sched_getaffinity"):
            self.agree((name,), *words, "--jobs", "3")

    def test_on_a_terminal(self) -> None:
        """Where standard error is one, a line may say there what is being done."""
        reading, writing = os.openpty()
        self.addCleanup(os.close, reading)
        done = subprocess.run(
            [sys.executable, "-ISB", str(LACKING), ",".join(ALL), "rests", "db.mm", "a2"],
            cwd=self.folder,
            env=self.surroundings(),
            stdout=subprocess.PIPE,
            stderr=writing,
            check=False,
        )
        os.close(writing)
        self.assertEqual((done.returncode, done.stdout), (0, b"ax-1\nax-mp\n"))

    def test_links_and_pipes_are_refused(self) -> None:
        self.agree(ALL, "gate", "--base", "HEAD", "db.mm")
        (self.folder / "mmdepend.toml").symlink_to("db.mm")
        self.assertEqual(self.agree(ALL, "gate", "--base", "HEAD", "db.mm").status, 2)
        (self.folder / "mmdepend.toml").unlink()
        os.mkfifo(self.folder / "mmdepend.toml")
        self.assertIn("is no plain file", self.agree((), "gate", "--base=HEAD", "db.mm").err)

    def test_a_link_that_comes_meanwhile(self) -> None:
        """A file that isn't the one that was looked at is refused."""
        self.write("other.mm", WHOLE)
        before = os.lstat(self.folder / "other.mm")
        with mock.patch.object(os, "lstat", return_value=before):
            self.assertRaises(OSError, self.opened_without_flags, self.folder / "db.mm")
        self.opened_without_flags(self.folder / "db.mm")
        (self.folder / "link").symlink_to("db.mm")
        self.assertRaises(OSError, self.opened_without_flags, self.folder / "link")

    def opened_without_flags(self, path: Path) -> None:
        """Opens and closes a file where there is no O_NOFOLLOW."""
        flag = os.O_NOFOLLOW
        del os.O_NOFOLLOW
        try:
            os.close(system.opened(path))
        finally:
            os.O_NOFOLLOW = flag

    def test_export(self) -> None:
        words = words_of("export", "db.mm")
        whole = self.query(*words)
        plain = dump(self.folder / "out.sqlite")
        (self.folder / "out.sqlite").unlink()
        self.assertEqual(self.without(ALL, *words), whole)
        self.assertEqual(dump(self.folder / "out.sqlite"), plain)
        self.assertIn("INSERT INTO", plain)

    @unittest.skipUnless(PROGRAM_FOR_NODE.exists(), "web/build wasn't run")
    def test_pages_of_two_databases(self) -> None:
        self.agree(ALL, "page", "--against", "HEAD:db.mm", "newer.mm")
        self.agree(("/dev/fd",), "page", "--against", "db.mm", "newer.mm")
        done = self.agree(ALL, "page", "--watch", "nothing", "db.mm")
        self.assertEqual(done.err, "mmquery: db.mm: has no axiom 'nothing' to be watched\n")

    def test_without_the_folder_of_processes(self) -> None:
        """Nothing is at `/proc` and at `/dev/fd`, for any program."""
        start = ["unshare", "--mount", "--map-root-user", "sh", "-c"]
        line = 'mount -t tmpfs none /proc && [ ! -e /dev/fd/0 ] && exec "$@"'
        for words in (
            ["rests", "db.mm", "a2"],
            ["compare", "--no-cache", "HEAD:db.mm", "newer.mm"],
            ["page", "--against", "HEAD:db.mm", "newer.mm"],
        ):
            if words[0] == "page" and not PROGRAM_FOR_NODE.exists():
                continue
            whole = self.query(*words)
            done = self.ran(*start, line, "sh", str(TOP / "mmquery"), *words)
            if "unshare" in done.err or "mount" in done.err:
                self.skipTest("unshare may not hide a folder here")
            self.assertEqual(done, whole, f"{words}")

    def test_modules_that_python_lacks(self) -> None:
        """They are named, in one line."""
        self.write("db.mm.xz", lzma.compress(WHOLE.encode()))
        for name, words in {
            "lzma": ("rests", "db.mm.xz", "a2"),
            "sqlite3": words_of("export", "db.mm"),
        }.items():
            self.assertEqual(self.query(*words).status, 0)
            done = self.without((name,), *words)
            said = f"mmquery: this Python lacks the module {name}\n"
            self.assertEqual((done.status, done.out, done.err), (2, "", said))
            self.assertEqual(self.without((name,), "rests", "db.mm", "a2").status, 0)

    def test_nothing_is_kept_where_files_have_no_owner(self) -> None:
        self.assertEqual(self.without(("os.geteuid",), "rests", "db.mm", "a2").status, 0)
        self.assertEqual(self.without(ALL, "history", "db.mm", "HEAD").status, 0)
        self.assertEqual([*self.cache.iterdir(), *self.config.iterdir()], [])
        done = self.without(("os.geteuid",), "cache")
        self.assertIn("nothing is kept or taken: ", done.err)
        self.assertIn("this system doesn't tell whose it is", done.err)
        self.assertEqual(self.without((), "rests", "db.mm", "a2").status, 0)
        self.assertEqual(len(list((self.cache / "mmquery").iterdir())), 1)

    def test_an_interrupt(self) -> None:
        """The program that runs is ended, and no temporary file is left."""
        script = '#!/bin/sh\n[ "$1" != --version ] || exit 0\necho $$ >>pids\nexec sleep 60\n'
        (self.folder / "slow").write_text(script)
        (self.folder / "slow").chmod(0o755)
        for words in (("compare", "HEAD:db.mm", "-"), ("history", "db.mm", "HEAD")):
            (self.folder / "pids").unlink(missing_ok=True)
            process = subprocess.Popen(
                [sys.executable, "-ISB", str(LACKING), ",".join(ALL), *words],
                cwd=self.folder,
                env=self.surroundings(MMDEPEND="./slow"),
                stdin=subprocess.DEVNULL,
                stderr=subprocess.PIPE,
            )
            wait_for(lambda: (self.folder / "pids").exists())
            wait_for(partial(is_waiting, process.pid))
            process.send_signal(signal.SIGINT)
            _, said = process.communicate(timeout=20)
            self.assertEqual((process.returncode, said), (130, b"mmquery: interrupted\n"))
            for pid in (self.folder / "pids").read_text().split():
                wait_for(lambda: has_ended(pid))

    def test_read_only_files_are_removed(self) -> None:
        """Where a file that is read-only can't be removed, as on Windows."""
        unlink = os.unlink

        def stubborn(path: str, *, dir_fd: int | None = None) -> None:
            if not os.stat(path, dir_fd=dir_fd).st_mode & stat.S_IWUSR:
                raise PermissionError
            unlink(path, dir_fd=dir_fd)

        with mock.patch.object(os, "unlink", stubborn):
            with temporary.folder() as place:
                (place / "object").write_bytes(b"")
                (place / "object").chmod(0o400)
        self.assertFalse(place.exists())


class EndsOfLines(World):
    """Lines that end as on Windows."""

    def test_of_a_database(self) -> None:
        for ends, name in ((WHOLE, "line"), (WHOLE.replace("\n", "\r\n"), "both")):
            (self.folder / name).mkdir()
            self.write(f"{name}/db.mm", ends)
        for name in ALIKE:
            line, both = (self.query(*words_of(name, f"{ends}/db.mm")) for ends in ("line", "both"))
            self.assertEqual(both.out, line.out.replace("line/", "both/"), name)
            self.assertIn(line.status, (0, 1), line.err)

    def test_of_a_list_of_labels(self) -> None:
        self.write("db.mm", WHOLE)
        self.write("list", "ax-1\r\n# a comment\r\nax-mp\r\n")
        self.assertEqual(
            self.answers("within", "db.mm", "--list", "list"),
            self.answers("within", "db.mm", "ax-1", "ax-mp"),
        )

    def test_of_the_file_of_the_gate(self) -> None:
        text = 'watch = ["a"]\n\n[rules]\nopen = false\n\n[claims]\n"t" = ["a"] # why\n'
        plain, other = (
            read_config(each.encode(), "c") for each in (text, text.replace("\n", "\r\n"))
        )
        self.assertEqual(other, plain)
        self.assertEqual(plain.claims[0].line, 7)


ALIKE = (
    *("verify", "rests", "falls", "cites", "why", "way-out", "frees", "top", "same", "uncited"),
    *("chapters", "order", "unfinished", "discouraged", "mathboxes", "definitions", "repeats"),
    "unneeded",
)
"""Commands that answer nothing of the bytes of the text."""


class Words(unittest.TestCase):
    """What words mean on Windows."""

    def test_drives(self) -> None:
        with mock.patch.object(os.path, "splitdrive", ntpath.splitdrive):
            self.assertFalse(source.is_of_git("C:\\set.mm"))
            self.assertFalse(source.is_of_git("c:set.mm"))
            self.assertTrue(source.is_of_git("main:set.mm"))
        self.assertTrue(source.is_of_git("C:\\set.mm"))

    def test_commands(self) -> None:
        """No command is taken from the working folder, as it would be if PATH weren't asked."""
        here = os.getcwd()
        with tempfile.TemporaryDirectory() as folder, mock.patch.object(os, "name", "nt"):
            for name in ("node.exe", "git"):
                descriptor = os.open(os.path.join(folder, name), os.O_CREAT, 0o755)
                os.close(descriptor)
            os.chdir(folder)
            try:
                with mock.patch.dict(os.environ, PATH=f".{os.pathsep}{os.pathsep}/nowhere"):
                    self.assertIsNone(located("node"))
                with mock.patch.dict(os.environ, PATH=folder):
                    self.assertEqual(located("node"), os.path.join(folder, "node.exe"))
                    self.assertIsNone(located("git"))
            finally:
                os.chdir(here)


PORTABLE = {
    "os": {
        *("O_RDONLY", "O_RDWR", "O_WRONLY", "SEEK_SET", "_exit"),
        *("close", "defpath", "devnull", "dup2", "environ", "fsdecode", "fsencode", "fspath"),
        *("fstat", "fsync", "getcwd", "getpid", "isatty", "kill", "lseek", "lstat", "makedirs"),
        *("chmod", "name", "open", "path", "pathsep", "pipe", "read", "replace", "rmdir"),
        *("scandir", "stat", "stat_result", "unlink", "urandom", "waitpid", "write"),
    },
    "signal": {"SIGINT", "SIGTERM", "SIG_IGN", "getsignal", "signal"},
}
"""What the pages of Python's library name for every system, of what mmquery calls."""


def sources() -> Iterator[Path]:
    """The modules of mmquery, but for `system.py`."""
    for path in (TOP / "query").rglob("*.py"):
        if "tests" not in path.parts and path.name != "system.py":
            yield path


class Sources(unittest.TestCase):
    """Only `query/platform/system.py` calls what not every system has."""

    def test_calls(self) -> None:
        found = set()
        for path in sources():
            for node in ast.walk(ast.parse(path.read_text("utf-8"))):
                if isinstance(node, ast.Attribute) and isinstance(node.value, ast.Name):
                    module, name = node.value.id, node.attr
                    if module in PORTABLE:
                        self.assertIn(name, PORTABLE[module], f"{path.name}: {module}.{name}")
                        found.add((module, name))
        known = {(module, name) for module, known in PORTABLE.items() for name in known}
        self.assertEqual(known - found, set(), "nothing calls these any more")

    def test_modules(self) -> None:
        for path in sources():
            for node in ast.walk(ast.parse(path.read_text("utf-8"))):
                if isinstance(node, ast.Import):
                    imported = {each.name for each in node.names}
                elif isinstance(node, ast.ImportFrom):
                    imported = {node.module or ""}
                    self.assertNotIn(node.module, PORTABLE, f"{path.name}: name the module")
                else:
                    continue
                self.assertEqual(imported & {*MODULES, "select", "posix"}, set(), path.name)

    def test_places(self) -> None:
        """No path of Linux stands in a module, but for what git knows by it everywhere."""
        for path in sources():
            for node in ast.walk(ast.parse(path.read_text("utf-8"))):
                if isinstance(node, ast.Constant) and isinstance(node.value, str):
                    is_place = node.value.startswith(("/dev/", "/proc", "/tmp", "/usr", "/etc"))
                    self.assertFalse(
                        is_place and (path.name, node.value) != ("repository.py", "/dev/null"),
                        f"{path.name}: {node.value}",
                    )


def dump(path: Path) -> str:
    """A database of SQLite as a text."""
    with sqlite3.connect(path) as file:
        return "\n".join(file.iterdump())


if __name__ == "__main__":
    unittest.main()
