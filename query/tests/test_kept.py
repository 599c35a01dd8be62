"""What somebody else put into the cache folder, or could have put there, is never believed."""

import os
import shutil
import stat
import subprocess
import unittest
from collections.abc import Iterator
from contextlib import contextmanager
from pathlib import Path
from unittest import mock

from query.platform import cache, secret
from query.tests.world import MMQUERY, SMALL, World

LIE = {"theorems": b"a2", "columns": b"", "typecodes": b"", "marks": b"\0", "statements": b""}
LIE |= {"places": bytes(8), "targets": b""}


class Kept(World):
    """One who may write files tries to have an answer of his own given."""

    def setUp(self) -> None:
        super().setUp()
        self.write("small.mm", SMALL)
        self.cached = self.cache / "mmquery"
        self.secret = self.config / "mmquery" / "secret"
        self.wanted = self.answers("rests", "small.mm", "a2")
        self.assertEqual(self.wanted, ["ax-1", "ax-mp"])
        (self.path,) = self.cached.iterdir()
        self.whole = self.path.read_bytes()

    def folder_variables(self, **more: str) -> dict[str, str]:
        """The environment variables that say in which folders the cache and the secret are."""
        found = {"XDG_CACHE_HOME": str(self.cache), "XDG_CONFIG_HOME": str(self.config)}
        return {**found, **more}

    @contextmanager
    def as_someone_else(self) -> Iterator[None]:
        """With another secret, as who doesn't know that of the user."""
        with mock.patch.dict(
            os.environ, self.folder_variables(XDG_CONFIG_HOME=str(self.folder / "other"))
        ):
            yield

    def loaded(self, **more: str) -> dict[str, bytes] | None:
        """What is taken under the key of the first question."""
        with mock.patch.dict(os.environ, self.folder_variables(**more)):
            return cache.load(self.path.name)

    def stays_right(self) -> None:
        """Nothing is taken, and the answer is right."""
        self.assertIsNone(self.loaded())
        self.assertEqual(self.answers("rests", "small.mm", "a2"), self.wanted)

    def test_it_is_taken_otherwise(self) -> None:
        self.assertIsNotNone(self.loaded())

    def test_a_lie_with_the_right_secret_would_be_believed(self) -> None:
        with mock.patch.dict(os.environ, self.folder_variables()):
            cache.store(self.path.name, LIE)
        self.refuses("rests", "small.mm", "a2", why="has no axiom")

    def test_a_planted_result(self) -> None:
        with self.as_someone_else():
            cache.store(self.path.name, LIE)
            self.assertIsNotNone(cache.load(self.path.name))
        self.stays_right()
        self.assertEqual(self.path.read_bytes(), self.whole)

    def test_a_result_without_a_code(self) -> None:
        for code in (b"", bytes(cache.CODE)):
            self.path.write_bytes(cache.FORM + code + cache.packed(LIE))
            self.stays_right()

    def test_the_form_before(self) -> None:
        self.path.write_bytes(b"mmquery result 2\n" + self.whole[len(cache.FORM) :])
        self.stays_right()

    def test_a_result_of_something_else(self) -> None:
        for words in (
            ("rests", "small.mm", "a2", "--open"),
            ("rests", "small.mm", "a2", "--essential"),
            ("chapters", "small.mm", "--open", "--essential"),
        ):
            before = set(self.cached.iterdir())
            self.answers(*words)
            for other in set(self.cached.iterdir()) - before:
                self.path.write_bytes(other.read_bytes())
                self.stays_right()

    def test_a_result_of_another_database_or_program(self) -> None:
        self.write("other.mm", SMALL.replace("wp wq ax-1 ax-mp", "wp wq ax1 ax-mp"))
        self.answers("rests", "other.mm", "a2")
        (other,) = set(self.cached.iterdir()) - {self.path}
        self.path.write_bytes(other.read_bytes())
        self.stays_right()

    def test_cut_off(self) -> None:
        for end in (0, 1, len(cache.FORM), len(cache.FORM) + cache.CODE, len(self.whole) - 1):
            self.path.write_bytes(self.whole[:end])
            self.stays_right()

    def test_a_link_in_place_of_a_result(self) -> None:
        aside = self.folder / "aside"
        shutil.copy(self.path, aside)
        self.path.unlink()
        self.path.symlink_to(aside)
        self.stays_right()
        self.assertFalse(self.path.is_symlink())

    def test_what_is_no_file(self) -> None:
        self.path.unlink()
        os.mkfifo(self.path)
        self.stays_right()
        self.path.unlink(missing_ok=True)
        self.path.mkdir()
        self.stays_right()

    def test_a_result_that_others_may_change(self) -> None:
        self.path.chmod(0o666)
        self.stays_right()
        self.assertEqual(stat.S_IMODE(self.path.stat().st_mode), 0o600)

    def test_a_folder_that_others_may_change(self) -> None:
        for folder in (self.cached, self.secret.parent):
            folder.chmod(0o777)
            self.stays_right()
            folder.chmod(0o700)
            self.assertIsNotNone(self.loaded())

    def test_a_folder_that_is_a_link(self) -> None:
        for folder in (self.cached, self.secret.parent):
            aside = folder.with_name("aside")
            folder.rename(aside)
            folder.symlink_to(aside)
            self.stays_right()
            folder.unlink()
            aside.rename(folder)
            self.assertIsNotNone(self.loaded())

    @unittest.skipUnless(os.geteuid() == 0, "only root gives files away")
    def test_what_belongs_to_somebody_else(self) -> None:
        for path in (self.path, self.cached, self.secret, self.secret.parent):
            os.chown(path, 65534, 65534)
            self.assertIsNone(self.loaded(), path)
            self.assertEqual(self.answers("rests", "small.mm", "a2"), self.wanted)
            if path.exists():
                os.chown(path, 0, 0)

    def test_a_checkout(self) -> None:
        for top, name in ((self.cache, ".git"), (self.config, ".git")):
            (top / name).mkdir()
            self.stays_right()
            (top / name).rmdir()
        (self.cache / ".git").write_text("gitdir: elsewhere\n")
        self.stays_right()
        (self.cache / ".git").unlink()
        for name in ("objects", "refs"):
            (self.cache / name).mkdir()
        (self.cache / "HEAD").write_text("ref: refs/heads/main\n")
        self.stays_right()

    def test_a_checkout_that_brings_secret_and_result(self) -> None:
        """Whoever wrote the checkout knows the secret in it; that it is one is enough."""
        checkout = self.folder / "checkout"
        for part in ("cache/mmquery", "config/mmquery"):
            (checkout / part).mkdir(parents=True, mode=0o700)
        more = {name: str(checkout / part) for name, part in PARTS.items()}
        with mock.patch.dict(os.environ, more):
            cache.store(self.path.name, LIE)
            self.assertIsNotNone(cache.load(self.path.name))
            (checkout / ".git").mkdir()
            self.assertIsNone(cache.load(self.path.name))
        self.assertEqual(self.answers("rests", "small.mm", "a2", **more), self.wanted)

    def test_a_link_within_a_checkout(self) -> None:
        checkout = self.folder / "checkout"
        (checkout / ".git").mkdir(parents=True)
        (checkout / "cache").symlink_to(self.cache)
        self.assertIsNone(self.loaded(XDG_CACHE_HOME=str(checkout / "cache")))

    def test_nothing_is_removed_where_the_folder_is_wrong(self) -> None:
        aside = self.cached.with_name("aside")
        self.cached.rename(aside)
        self.cached.symlink_to(aside)
        self.refuses("cache", "clear", why="it is a link")
        self.assertEqual([file.name for file in aside.iterdir()], [self.path.name])
        done = self.query("cache", "--format=json")
        self.assertEqual((done.status, done.rows()[0]["results"]), (0, 0))
        self.assertIn("nothing is kept or taken", done.err)


PARTS = {"XDG_CACHE_HOME": "cache", "XDG_CONFIG_HOME": "config"}


class Secret(World):
    """The file by which what is kept is known."""

    def setUp(self) -> None:
        super().setUp()
        self.write("small.mm", SMALL)
        self.path = self.config / "mmquery" / "secret"
        self.kept = self.cache / "mmquery"

    def asked(self) -> int:
        """How many results are kept after a question."""
        self.assertEqual(self.answers("rests", "small.mm", "a2"), ["ax-1", "ax-mp"])
        return len(list(self.kept.iterdir())) if self.kept.exists() else 0

    def test_it_is_made_once(self) -> None:
        self.assertEqual(self.asked(), 1)
        state = self.path.stat()
        self.assertEqual((stat.S_IMODE(state.st_mode), state.st_size), (0o600, secret.SIZE))
        self.assertEqual(stat.S_IMODE(self.path.parent.stat().st_mode), 0o700)
        before = self.path.read_bytes()
        self.asked()
        self.assertEqual(self.path.read_bytes(), before)
        self.assertNotEqual(before, bytes(secret.SIZE))

    def test_no_cache_makes_none(self) -> None:
        self.answers("rests", "small.mm", "a2", "--no-cache")
        self.assertFalse(self.path.exists())

    def test_one_that_can_not_be_used(self) -> None:
        self.asked()
        good = self.path.read_bytes()
        for mode, data, why in (
            (0o644, good, "others may read it"),
            (0o620, good, "others may read it"),
            (0o600, b"", "it has 0 bytes"),
            (0o600, good[:-1], "it has 31 bytes"),
            (0o600, good + b"x", "it has 33 bytes"),
        ):
            self.path.write_bytes(data)
            self.path.chmod(mode)
            with mock.patch.dict(os.environ, {"XDG_CONFIG_HOME": str(self.config)}):
                self.assertIsNone(secret.read_or_make())
            self.asked()
            self.assertEqual(self.path.read_bytes(), data)
            self.assertIn(why, self.query("cache").err)

    def test_a_link_in_its_place(self) -> None:
        known = self.folder / "known"
        known.write_bytes(bytes(secret.SIZE))
        known.chmod(0o600)
        self.path.parent.mkdir(mode=0o700)
        self.path.symlink_to(known)
        self.assertEqual(self.asked(), 0)

    @unittest.skipUnless(os.geteuid() == 0, "only root runs as somebody else")
    def test_one_that_may_not_be_read(self) -> None:
        self.asked()
        self.path.chmod(0)
        for folder in (self.folder.parent, self.folder, self.cache, self.config, self.kept):
            os.chown(folder, 65534, 65534)
        for path in (self.path, self.path.parent, *self.kept.iterdir()):
            os.chown(path, 65534, 65534)

        def found() -> str:
            return repr(secret.read())

        with mock.patch.dict(os.environ, {"XDG_CONFIG_HOME": str(self.config)}):
            os.seteuid(65534)
            try:
                self.assertEqual(found(), "None")
                self.assertIsNone(secret.read_or_make())
            finally:
                os.seteuid(0)

    def test_several_make_it_at_once(self) -> None:
        command = [str(MMQUERY), "rests", "small.mm", "a2"]
        for _ in range(5):
            shutil.rmtree(self.path.parent, ignore_errors=True)
            some = [
                subprocess.Popen(command, cwd=self.folder, env=self.surroundings(), stdout=-3)
                for _ in range(6)
            ]
            self.assertEqual([process.wait() for process in some], [0] * 6)
            self.assertEqual([file.name for file in self.path.parent.iterdir()], ["secret"])
            self.assertEqual(self.path.stat().st_size, secret.SIZE)
            with mock.patch.dict(os.environ, self.surroundings()):
                (key,) = [file.name for file in self.kept.iterdir()]
                self.assertIsNotNone(cache.load(key))

    def test_who_comes_second_takes_that_of_the_first(self) -> None:
        path = self.path
        path.parent.mkdir(mode=0o700)
        real = os.link

        def late(new: str, old: str) -> None:
            Path(old).write_bytes(b"f" * secret.SIZE)
            Path(old).chmod(0o600)
            real(new, old)

        with mock.patch.dict(os.environ, {"XDG_CONFIG_HOME": str(self.config)}):
            with mock.patch("os.link", late):
                self.assertEqual(secret.read_or_make(), b"f" * secret.SIZE)
        self.assertEqual(list(path.parent.iterdir()), [path])


if __name__ == "__main__":
    unittest.main()
