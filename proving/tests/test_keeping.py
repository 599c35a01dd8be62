"""What is kept for a toolchain that keeps nothing."""

import os
import shutil
import tempfile
import time
import unittest
from pathlib import Path
from types import SimpleNamespace
from unittest import mock

from proving import keeping
from proving.keeping import DAYS, REFUSED, SECONDS_A_DAY, Kept

KIT = ("KIT-ID", "WHAT", "bin/rattle", "bin/rt", "bin/rtlib.py")


class Library:
    """A crate as far as it is looked at here: a library."""

    allowed = ("Threads",)

    def __init__(self, top: Path, name: str, *below: "Library") -> None:
        self.name = name
        self.folder = str(top / "crates" / name)
        self.rlib = f"{self.folder}/out/rlib/{name}.rlib"
        self.said = {"name": name, "deps": [each.name for each in below]}
        self.beneath = [*below]

    def makes_rlib(self) -> bool:
        """Whether it is a library for other crates."""
        return True

    def below(self) -> list["Library"]:
        """The libraries below it."""
        return self.beneath

    def write(self, name: str, text: str) -> None:
        """Writes one of its files."""
        path = Path(self.folder, name)
        path.parent.mkdir(parents=True, exist_ok=True)
        path.write_text(text, "utf-8")

    def read(self, name: str) -> str:
        """What is in one of its files."""
        return Path(self.folder, name).read_text("utf-8")

    def build(self, text: str) -> None:
        """Writes what a check would leave in its folder `out`."""
        self.write(f"out/rlib/{self.name}.rlib/format", text)
        self.write(f"out/{self.name}_tests", f"tests of {text}")


class Keeping(unittest.TestCase):
    """Two crates that were proved, and a store in a folder of its own."""

    def setUp(self) -> None:
        self.place = Path(tempfile.mkdtemp(prefix="keeping-"))
        self.addCleanup(shutil.rmtree, self.place, True)
        for name in KIT:
            path = self.place / "kit" / name
            path.parent.mkdir(parents=True, exist_ok=True)
            path.write_text(name, "utf-8")
        caches = mock.patch.dict(os.environ, {"XDG_CACHE_HOME": str(self.place / "caches")})
        caches.start()
        self.addCleanup(caches.stop)
        keeping.sum_of_toolchain.cache_clear()
        self.low = Library(self.place, "low")
        self.high = Library(self.place, "high", self.low)
        for crate in (self.low, self.high):
            crate.write("src/lib.rt", crate.name)
            crate.build(f"built {crate.name}")

    def kept(self) -> Kept:
        """The store as another run finds it."""
        return Kept(str(self.place / "kit"))

    def test_what_is_kept_is_given(self) -> None:
        kept = self.kept()
        kept.keep(self.low, False, kept.key(self.low))
        shutil.rmtree(f"{self.low.folder}/out")
        again = self.kept()
        self.assertTrue(again.give(self.low, False, again.key(self.low)))
        self.assertEqual(self.low.read("out/rlib/low.rlib/format"), "built low")
        self.assertFalse(Path(self.low.folder, "out/low_tests").exists())
        self.assertFalse(again.give(self.low, True, again.key(self.low)))

    def test_tests_are_kept_by_themselves(self) -> None:
        kept = self.kept()
        kept.keep(self.low, True, kept.key(self.low))
        self.low.build("built otherwise")
        self.assertTrue(kept.give(self.low, True, kept.key(self.low)))
        self.assertEqual(self.low.read("out/low_tests"), "tests of built low")
        self.assertEqual(self.low.read("out/rlib/low.rlib/format"), "built otherwise")

    def test_what_is_other_is_not_given(self) -> None:
        """The crate, the library below as it was built, the toolchain, what a crate may use, and
        how libraries are built."""
        key = self.kept().key(self.high)
        self.assertEqual(key, self.kept().key(self.high))
        keys = {key}

        def is_new() -> bool:
            """Whether the crate has a key that it didn't have before."""
            keeping.sum_of_toolchain.cache_clear()
            count = len(keys)
            keys.add(self.kept().key(self.high))
            return len(keys) > count

        for name in ("src/lib.rt", "src/more.rt", "specs/Lib.antt", "proofs/Lib.antt"):
            self.high.write(name, "another text")
            self.assertTrue(is_new(), name)
        self.low.build("built another time")
        self.assertTrue(is_new())
        self.high.said["deps"] = []
        self.assertTrue(is_new())
        with mock.patch.object(Library, "allowed", ()):
            self.assertTrue(is_new())
        with mock.patch.object(keeping, "HOW", "statements"):
            self.assertTrue(is_new())
        for name in KIT:
            (self.place / "kit" / name).write_text("newer", "utf-8")
            self.assertTrue(is_new(), name)
        self.high.write("must-fail/mistake.edit", "an edit")
        self.assertFalse(is_new())

    def test_results_of_edits(self) -> None:
        kept = self.kept()
        self.assertIsNone(kept.tried("name"))
        kept.keep_tried("name", REFUSED, "why")
        self.assertEqual(self.kept().tried("name"), (REFUSED, "why"))
        for damaged in ("", "[]", '["refused"', "{}"):
            (kept.folder / "name.json").write_text(damaged, "utf-8")
            self.assertIsNone(kept.tried("name"), damaged)

    def test_names_of_edits(self) -> None:
        kept = self.kept()
        self.low.write("must-fail/mistake.edit", "one")
        path = f"{self.low.folder}/must-fail/mistake.edit"
        names = {kept.of_edit(path, "key"), kept.of_edit(path, "other key")}
        self.low.write("must-fail/mistake.edit", "other")
        names.add(kept.of_edit(path, "key"))
        self.assertEqual(len(names), 3)

    def test_what_is_not_used_goes(self) -> None:
        kept = self.kept()
        kept.keep(self.low, False, kept.key(self.low))
        kept.keep_tried("name", REFUSED, "why")
        kept.sweep()
        self.assertEqual(len([*kept.folder.iterdir()]), 2)
        old = time.time() - (DAYS + 1) * SECONDS_A_DAY
        for path in kept.folder.iterdir():
            os.utime(path, (old, old))
        self.assertTrue(kept.give(self.low, False, kept.key(self.low)))
        kept.sweep()
        self.assertEqual(len([*kept.folder.iterdir()]), 1)

    def test_what_is_given_is_newer_than_its_sources(self) -> None:
        """As the sources of a fresh clone are newer than what was kept before."""

        class Proved(Library):
            """A crate as `rt ci` has it."""

            out = None

            def ci(self, _: list[str], __: bool) -> int:
                """Proves it."""
                self.build("proved")
                return 0

        rt = SimpleNamespace(Crate=Proved, KIT=str(self.place / "kit"), say=lambda *_: None)
        keeping.keep_what_is_proved(rt)
        crate = Proved(self.place, "high", self.low)
        prove = getattr(crate, "ci")
        self.assertEqual(prove([], True), 0)
        made = Path(crate.folder, "out/high_tests")
        for path in keeping.folder().rglob("*_tests"):
            os.utime(path, (1, 1))
        shutil.rmtree(made.parent)
        source = Path(crate.folder, "src/lib.rt")
        source.write_text(crate.name, "utf-8")
        self.assertEqual(prove([], True), 0)
        self.assertGreaterEqual(made.stat().st_mtime, source.stat().st_mtime)
        self.assertLessEqual(made.stat().st_mtime, time.time())


if __name__ == "__main__":
    unittest.main()
