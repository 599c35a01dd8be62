"""What a check of edits begins with: what the crate's proof proved."""

import json
import os
import re
import shutil
import tempfile
import unittest
from pathlib import Path
from unittest import mock

from proving import toolchain
from proving.seeds import ARCHIVE, TABLE, unpacked
from proving.tests.repositories import EDITS, Done, Repository, edit

BUILD = "antt-checked-81/0.0.0/src-0.bid-0"
LINE = re.compile(r"(?m)^crate low: modules loaded=(\d+) checked=(\d+)$")
NUMBER = sum(name.startswith("low/") for name in EDITS)


def module(name: str) -> bytes:
    """A module as it begins, and some text of its own."""
    return f"--@ antt-checked 81\n--@ kernel {BUILD}\n--@ module {name}\n{name} ◌".encode()


def write_library(library: Path, modules: dict[str, bytes]) -> None:
    """Writes the modules of a library, with gaps between them."""
    table, archive = "", b"!<arch>\n"
    for name, text in modules.items():
        archive += b"gap"
        table += f"{json.dumps([name, len(archive), len(text)])}\n"
        archive += text
    (library / TABLE).parent.mkdir(exist_ok=True)
    (library / TABLE).write_text(table, "utf-8")
    (library / ARCHIVE).write_bytes(archive)


class Unpacked(unittest.TestCase):
    """The modules of a library, as a check wants them."""

    def setUp(self) -> None:
        self.library = Path(tempfile.mkdtemp(prefix="seeds-"))
        self.addCleanup(shutil.rmtree, self.library)
        self.modules = {name: module(name) for name in ("Rattle-low", "Rattle-low.specs.Pair·")}
        write_library(self.library, {**self.modules, "rests/Rattle-low": b"0", "sum/all": b"1"})

    def found(self) -> dict[str, bytes]:
        """What is unpacked, by the names of files."""
        with tempfile.TemporaryDirectory() as folder:
            count = unpacked(self.library, Path(folder))
            files = [path for path in Path(folder).rglob("*") if path.is_file()]
            found = {str(path.relative_to(folder)): path.read_bytes() for path in files}
        self.assertIn(count, (0, len(found)))
        return found if count else {}

    def test_whole(self) -> None:
        folder = "antt-checked-81_0.0.0_src-0.bid-0"
        wanted = {f"{folder}/{name}.oantt": text for name, text in self.modules.items()}
        self.assertEqual(self.found(), wanted)

    def test_statements_alone(self) -> None:
        write_library(self.library, {"part/Rattle-low": module("Rattle-low"), "sum/all": b"1"})
        self.assertEqual(self.found(), {})

    def test_what_is_missing(self) -> None:
        for name in (TABLE, ARCHIVE):
            aside = (self.library / name).rename(self.library / "aside")
            self.assertEqual(self.found(), {})
            aside.rename(self.library / name)
        shutil.rmtree(self.library / "toolchain")
        self.assertEqual(self.found(), {})

    def test_a_damaged_table(self) -> None:
        table = (self.library / TABLE).read_text("utf-8")
        for row in (
            "",
            "{}",
            "7",
            '["Rattle-low"]',
            "[1, 2, 3]",
            '["Rattle-low", -1, 9]',
            '["Rattle-low", 999999, 9]',
            '["Rattle-low", "8", 9]',
            '["Rattle-low", 8, null]',
            '["Rattle-low", 8, 9',
            "\0",
        ):
            (self.library / TABLE).write_text(f"{table}{row}\n", "utf-8")
            self.assertEqual(self.found(), {}, row)
        (self.library / TABLE).write_bytes(b"\xff\xfe")
        self.assertEqual(self.found(), {})

    def test_a_damaged_archive(self) -> None:
        archive = (self.library / ARCHIVE).read_bytes()
        other = archive.replace(b"antt-checked-81/", b"antt-chicked-81/")
        for damaged in (b"", archive[: len(archive) // 2], b"x" + archive, other):
            (self.library / ARCHIVE).write_bytes(damaged)
            self.assertEqual(self.found(), {})

    def test_names(self) -> None:
        """Nothing is written elsewhere."""
        for name in ("../Rattle-low", "/Rattle-low", "..", "Rattle\0low", "x" * 999):
            write_library(self.library, {name: module(name)})
            self.assertIn([*self.found()], ([], ["antt-checked-81_0.0.0_src-0.bid-0/...oantt"]))


class Seeded(Repository):
    """Checks of a crate over what its proof proved, in a store of their own."""

    def setUp(self) -> None:
        super().setUp()
        caches = mock.patch.dict(os.environ, {"XDG_CACHE_HOME": str(self.place / "caches")})
        caches.start()
        self.addCleanup(caches.stop)
        self.write(
            "crates/low/wrong-bodies/right_body.edit", edit("let sum = n + n;", "let sum = 2 * n;")
        )
        self.proved()

    def library(self) -> Path:
        """The library as it is kept."""
        (found,) = (self.place / "caches").glob("mmdepend/proved/*/rlib/low.rlib")
        return found

    def tried(self) -> tuple[Done, list[tuple[int, int]]]:
        """Tries the edits of a crate. Of each check, how many modules it took and how many it
        checked."""
        texts = self.place / "texts"
        shutil.rmtree(texts, ignore_errors=True)
        done = self.bodies("low", "--keep", str(texts))
        # The right body alone isn't refused, and nothing else is odd.
        self.assertEqual({*self.failures(done)}, {"low/wrong-bodies/right_body"}, done.said)
        self.assertEqual(done.last, f"{NUMBER} passed, 1 failed", done.said)
        self.assertIn("| low | 5 | 0 | 3 | 1 | 1 | 2 |", done.said)
        self.assertEqual([*self.temporary.iterdir()], [])
        said = [path.read_text("utf-8") for path in sorted(texts.iterdir())]
        return done, [(int(it[1]), int(it[2])) for text in said for it in LINE.finditer(text)]

    def refusals(self, done: Done) -> list[str]:
        """What is said of each edit that is refused, in the order of their names."""
        return sorted(re.findall(r"(?m)^\S+: refused: .*", done.said))

    def test_it_is_as_from_nothing(self) -> None:
        if toolchain.keeps():
            # There libraries aren't whole, and each check begins with nothing.
            return
        self.assertFalse((self.top / "crates/low/out/rlib/stamp").exists())
        seeded, counts = self.tried()
        self.assertEqual(len(counts), 2)
        for loaded, checked in counts:
            self.assertGreater(loaded, 0)
            self.assertGreater(checked, 0)
        kept = self.library() / TABLE
        table = kept.read_bytes()
        kept.unlink()
        plain, none = self.tried()
        # Only a check that is given a folder tells what it took.
        self.assertEqual(none, [])
        self.assertEqual(self.refusals(seeded), self.refusals(plain))
        self.assertEqual(len(self.refusals(plain)), NUMBER)
        # Of each module the last byte is another, or one in the middle.
        kept.write_bytes(table)
        archive = self.library() / ARCHIVE
        damaged = bytearray(archive.read_bytes())
        for number, line in enumerate(table.splitlines()):
            name, at, size = json.loads(line)
            if "/" not in name:
                damaged[at + size // (1 + number % 2) - 1] ^= 1
        archive.write_bytes(damaged)
        done, _ = self.tried()
        self.assertEqual(self.refusals(done), self.refusals(plain))


if __name__ == "__main__":
    unittest.main()
