"""Kept results: used, never believed where they are damaged, at most so many bytes, safe with
several."""

import os
import subprocess
import time
import unittest
from collections.abc import Iterator
from contextlib import contextmanager
from pathlib import Path
from unittest import mock

from query.platform import cache
from query.tests.world import MMQUERY, SMALL, Done, World, program

CHAPTERS = ("chapters", "small.mm")


class Cache(World):
    """The cache folder of the tests."""

    def setUp(self) -> None:
        super().setUp()
        self.write("small.mm", SMALL)
        self.cached = self.cache / "mmquery"
        self.wanted = ["ax-1", "ax-mp"]

    def places(self) -> dict[str, str]:
        """Where what is kept, and the secret, are in the tests."""
        return {"XDG_CACHE_HOME": str(self.cache), "XDG_CONFIG_HOME": str(self.config)}

    def counted(self) -> str:
        """A program that notes each time that it verifies something."""
        script = f'#!/bin/sh\n[ "$1" = --version ] || echo x >>runs\nexec {program()} "$@"\n'
        (self.folder / "counted").write_text(script)
        (self.folder / "counted").chmod(0o755)
        return "./counted"

    def runs(self) -> int:
        """How many times that was."""
        path = self.folder / "runs"
        return path.read_text().count("x") if path.exists() else 0

    def files(self) -> list[Path]:
        """What is kept."""
        return sorted(self.cached.glob("*")) if self.cached.exists() else []

    def test_a_second_question_is_answered_from_it(self) -> None:
        counted = self.counted()
        self.answers("rests", "small.mm", "a2", MMDEPEND=counted)
        first = self.runs()
        self.assertGreater(first, 0)
        for words in (
            ("rests", "small.mm", "a2"),
            ("falls", "small.mm", "wi"),
            ("verify", "small.mm"),
        ):
            self.answers(*words, MMDEPEND=counted)
        self.assertEqual(self.runs(), first)
        self.answers("rests", "small.mm", "a2", "--no-cache", MMDEPEND=counted)
        self.assertGreater(self.runs(), first)
        for option, more in (("--essential", 1), ("--open", 1), ("--all", 0), ("--only=wff", 0)):
            before = self.runs()
            self.answers("rests", "small.mm", "wi2", option, MMDEPEND=counted)
            self.assertEqual(self.runs(), before + more, option)

    def test_one_result_answers_all(self) -> None:
        counted = self.counted()
        wanted = {}
        for words in (
            ("rests", "wi2", "--all"),
            ("rests", "a2", "--only=wff"),
            ("rests", "a2", "--apart"),
            ("chapters",),
            ("order", "--format=tsv"),
            ("discouraged", "--format=json"),
            ("verify",),
        ):
            given = (words[0], "small.mm", *words[1:])
            wanted[given] = self.answers(*given, MMDEPEND=counted)
        self.assertEqual((self.runs(), len(self.files())), (1, 1))
        for given, answer in wanted.items():
            self.assertEqual(self.answers(*given, "--no-cache"), answer)
        (path,) = self.files()
        whole = path.read_bytes()
        path.write_bytes(whole[:-1] + bytes([whole[-1] ^ 1]))
        self.assertEqual(self.answers("chapters", "small.mm", MMDEPEND=counted), wanted[CHAPTERS])
        self.assertEqual(path.read_bytes(), whole)
        self.assertEqual(self.runs(), 2)

    def test_what_two_databases_differ_in_is_kept_too(self) -> None:
        counted = self.counted()
        words = ("compare", "small.mm", "small.mm")
        answer = self.answers(*words, MMDEPEND=counted)
        found = (self.runs(), len(self.files()))
        # One run compares both and reports on the second.
        self.assertEqual(found, (1, 2))
        self.assertEqual(self.answers(*words, MMDEPEND=counted), answer)
        self.assertEqual((self.runs(), len(self.files())), found)

    def test_a_check_keeps_nothing(self) -> None:
        counted = self.counted()
        self.answers("verify", "small.mm", MMDEPEND=counted)
        self.answers("verify", "small.mm", MMDEPEND=counted)
        self.assertEqual((self.runs(), self.files()), (2, []))

    def test_another_database_or_program_has_its_own(self) -> None:
        self.answers("rests", "small.mm", "a2")
        self.assertEqual(len(self.files()), 1)
        self.write("small.mm", SMALL + " ")
        self.answers("rests", "small.mm", "a2")
        self.assertEqual(len(self.files()), 2)
        self.answers("rests", "small.mm", "a2", MMDEPEND=self.counted())
        self.assertEqual(len(self.files()), 3)

    def test_no_cache_keeps_nothing(self) -> None:
        self.answers("rests", "small.mm", "a2", "--no-cache")
        self.assertEqual(self.files(), [])

    def test_damaged_results_are_made_anew(self) -> None:
        self.answers("rests", "small.mm", "a2")
        (path,) = self.files()
        whole = path.read_bytes()
        for place in range(0, len(whole), 7):
            path.write_bytes(whole[:place] + bytes([whole[place] ^ 1]) + whole[place + 1 :])
            if place % 5 == 0:
                self.assertEqual(self.answers("rests", "small.mm", "a2"), self.wanted)
                self.assertEqual(path.read_bytes(), whole)
            else:
                self.assertIsNone(self.loaded(path.name))
        for end in range(len(whole)):
            path.write_bytes(whole[:end])
            self.assertIsNone(self.loaded(path.name))
        path.write_bytes(whole + b"x")
        self.assertIsNone(self.loaded(path.name))
        path.write_bytes(whole)
        self.assertIsNotNone(self.loaded(path.name))

    def loaded(self, key: str) -> dict[str, bytes] | None:
        """What is taken from the cache."""
        with mock.patch.dict(os.environ, self.places()):
            return cache.load(key)

    def test_folders_that_can_not_be_used(self) -> None:
        (self.folder / "file").write_text("")
        for variable in ("XDG_CACHE_HOME", "XDG_CONFIG_HOME"):
            for place in (str(self.folder / "file"), "/proc", "/dev/null"):
                more = {variable: place}
                self.assertEqual(self.answers("rests", "small.mm", "a2", **more), self.wanted)
        more = {"XDG_CACHE_HOME": "", "HOME": ""}
        self.assertEqual(self.answers("rests", "small.mm", "a2", **more), self.wanted)
        self.refuses("cache", why="HOME isn't set", **more)
        more = {"XDG_CACHE_HOME": "relative"}
        self.assertEqual(self.answers("rests", "small.mm", "a2", **more), self.wanted)
        self.assertFalse((self.folder / "relative").exists())
        self.assertTrue((self.folder / ".cache" / "mmquery").exists())

    def test_show_and_clear(self) -> None:
        self.answers("rests", "small.mm", "a2")
        (row,) = self.query("cache", "--format=json").rows()
        size = sum(file.stat().st_size for file in self.files())
        self.assertEqual(row, {"folder": str(self.cached), "results": 1, "bytes": size})
        for _ in range(2):
            self.assertEqual(self.query("cache", "clear"), Done("", "", 0))
            self.assertEqual(self.files(), [])
            self.assertEqual([*self.cache.iterdir(), *self.config.iterdir()], [])

    def test_several_at_once(self) -> None:
        command = [str(MMQUERY), "rests", "small.mm", "a2"]
        for _ in range(4):
            self.query("cache", "clear")
            some = [
                subprocess.Popen(
                    command,
                    cwd=self.folder,
                    env=self.surroundings(),
                    stdout=subprocess.PIPE,
                    stderr=subprocess.PIPE,
                )
                for _ in range(5)
            ]
            clear = subprocess.Popen([str(MMQUERY), "cache", "clear"], env=self.surroundings())
            for process in some:
                self.assertEqual(process.communicate(), (b"ax-1\nax-mp\n", b""))
            self.assertEqual(clear.wait(), 0)

    def test_what_goes_while_the_folder_is_listed(self) -> None:
        self.cached.mkdir(mode=0o700)
        unfinished = self.cached / ".new-1-0d"
        unfinished.write_text("x")
        listed = os.scandir

        @contextmanager
        def renamed_meanwhile(place: str) -> Iterator[list["os.DirEntry[str]"]]:
            with listed(place) as files:
                found = list(files)
            unfinished.unlink()
            yield found

        key = f"{0:040x}"
        with mock.patch.dict(os.environ, self.places()):
            with mock.patch("os.scandir", renamed_meanwhile):
                cache.store(key, {"part": b"x"})
            self.assertEqual(cache.load(key), {"part": b"x"})

    def test_the_oldest_go_first(self) -> None:
        keys = [f"{number:040x}" for number in range(9)]
        with mock.patch.dict(os.environ, self.places()), mock.patch.object(
            cache, "MOST_CACHE_BYTES", 10_000
        ):
            for number, key in enumerate(keys[:8]):
                cache.store(key, {"part": bytes(2000)})
                os.utime(self.cached / key, (number, number))
                if number > 0:
                    self.assertIsNotNone(cache.load(keys[0]))  # used now, so it isn't the oldest
            names = [file.name for file in self.files()]
            self.assertEqual(names, [keys[0], *keys[5:8]])
            cache.store(keys[8], {"part": bytes(6000)})
            self.assertNotIn(keys[8], [file.name for file in self.files()])
            self.assertLessEqual(sum(file.stat().st_size for file in self.files()), 10_000)

    def test_unfinished_files_that_were_left_behind_go(self) -> None:
        self.cached.mkdir()
        old, new = self.cached / ".new-1-0d", self.cached / ".new-2-ee"
        for file in (old, new):
            file.write_text("x")
        past = time.time() - 7200
        os.utime(old, (past, past))
        other = self.cached / "letter.txt"
        other.write_text("x")
        os.utime(other, (past, past))
        self.answers("rests", "small.mm", "a2")
        self.assertFalse(old.exists())
        self.assertTrue(new.exists())
        new.unlink()
        self.assertEqual(self.query("cache", "clear"), Done("", "", 0))
        self.assertEqual(self.files(), [other])


if __name__ == "__main__":
    unittest.main()
