"""What calls the library: the module for Python, with how much memory it does, beside a library
that stands in; what pkg-config says of it; and the module for Node. `tests/library` tries the
library itself."""

import ctypes
import importlib.util
import mmap
import os
import shutil
import subprocess
import sys
import tempfile
import unittest
from collections.abc import Callable
from pathlib import Path
from types import ModuleType
from unittest import mock

from query.tests.world import TOP


def module() -> ModuleType:
    """The module."""
    spec = importlib.util.spec_from_file_location("mmdepend", TOP / "python" / "mmdepend.py")
    assert spec is not None and spec.loader is not None
    found = importlib.util.module_from_spec(spec)
    sys.modules["mmdepend"] = found  # where its dataclasses look for their names
    spec.loader.exec_module(found)
    return found


class Names(unittest.TestCase):
    """What the module shows of itself."""

    def test_only_what_is_promised(self) -> None:
        found = module()
        self.assertEqual(dir(found), sorted(found.__all__))
        for name in found.__all__:
            self.assertTrue(hasattr(found, name), name)


class Room(unittest.TestCase):
    """A library that needs so many bytes of room, and writes so many."""

    def setUp(self) -> None:
        self.module = module()
        self.rooms: list[int] = []
        self.outs: list[int] = []

    def needing(self, room: int, output: int) -> Callable[..., tuple[int, int]]:
        """The stand-in for a call."""

        def once(text: bytes, request: object, lent: mock.Mock, out: mock.Mock) -> tuple[int, int]:
            self.rooms.append(lent.size)
            self.outs.append(out.size)
            if lent.size < room:
                return int(self.module.NO_MEMORY), 0
            if out.size < output:
                return int(self.module.TOO_SHORT), output
            out.pages[:output] = b"x" * output
            return int(self.module.ACCEPTED), output

        return once

    def reported(self, room: int, output: int) -> bytes:
        """The report of a text of a thousand bytes."""
        with mock.patch.object(self.module, "once", self.needing(room, output)):
            found: bytes = self.module.report(b" " * 1000, "counts")
        return found

    def test_it_grows(self) -> None:
        """The room is doubled until it is enough, and so is less than twice what is needed."""
        for room, output in ((1, 1), (5 << 20, 10), (40 << 20, 9 << 20), (1, 9 << 20)):
            self.rooms.clear()
            self.assertEqual(self.reported(room, output), b"x" * output)
            for before, after in zip(self.rooms, self.rooms[1:]):
                self.assertIn(after, (before, 2 * before))
            first = self.module.up_to(6 * 1000 + (1 << 20))
            self.assertEqual(self.rooms[0], first)
            self.assertLess(self.rooms[-1], max(2 * room, first + 1))
            self.assertLess(self.outs[-1] - output, max(self.outs[0], 1 << 13))

    def test_no_more_is_given(self) -> None:
        """What is raised says which room was too small."""
        plain = self.module.Memory

        def sparing(size: int) -> object:
            if size > 10 << 20:
                raise MemoryError(f"the system gives no {size} bytes of memory")
            return plain(size)

        with mock.patch.object(self.module, "Memory", sparing):
            with self.assertRaises(MemoryError) as caught:
                self.reported(1 << 30, 1)
            tried = self.rooms[-1]
            self.assertEqual(
                str(caught.exception),
                f"a room of {tried} bytes is too small, and the system gives no {2 * tried} bytes"
                " of memory",
            )
            self.rooms.clear()
            with self.assertRaises(MemoryError) as caught:
                self.reported(1, 1 << 30)
            self.assertIn("the system gives no", str(caught.exception))
            self.assertNotIn("too small", str(caught.exception))


class Longer(bytes):
    """Bytes that say that they are longer, and something else than they are."""

    def __len__(self) -> int:
        return 1 << 20

    def __bytes__(self) -> bytes:
        return b"another text"


class Texts(unittest.TestCase):
    """What is handed to the library of a text."""

    def setUp(self) -> None:
        self.module = module()
        self.given: list[bytes] = []

    def report(self, text: object, **more: object) -> None:
        """Has a text reported by a stand-in, which notes what it was given."""

        def once(texts: list[bytes], *_: object) -> tuple[int, int]:
            self.given += texts
            return int(self.module.ACCEPTED), 0

        with mock.patch.object(self.module, "once", once):
            self.module.report(text, **more)

    def test_other_classes_are_copied(self) -> None:
        shared = mmap.mmap(-1, mmap.PAGESIZE)
        shared[:4] = b"text"
        whole = shared[:]
        for text in (Longer(b"text"), bytearray(b"text"), memoryview(b"text"), b"text"):
            self.report(text)
            self.assertEqual((type(self.given[-1]), self.given[-1]), (bytes, b"text"))
        self.report(shared)
        self.assertEqual(self.given[-1], whole)
        shared.close()

    def test_a_text_that_is_too_long(self) -> None:
        """It is refused as the program refuses it, and nothing is lent for it."""
        with mmap.mmap(-1, self.module.MOST_BYTES + 1) as long:
            for text in (long, memoryview(long)):
                with self.assertRaises(self.module.Refused) as caught:
                    self.report(text)
                found = caught.exception
                self.assertEqual((found.line, found.column, found.code), (1, 1, "E00"))
                if isinstance(text, memoryview):
                    text.release()
        self.assertEqual(self.given, [])

    def test_an_interrupt(self) -> None:
        """It is what is raised, also where it comes while the address is looked up."""
        held: list[object] = []

        def once(texts: object, request: object, room: mock.Mock, out: object) -> tuple[int, int]:
            held.append(ctypes.c_char.from_buffer(room.pages))
            raise KeyboardInterrupt

        with mock.patch.object(self.module, "once", once):
            self.assertRaises(KeyboardInterrupt, self.module.report, b"text")

    def test_the_real_library(self) -> None:
        if not os.environ.get("MMDEPEND_LIBRARY"):
            self.skipTest("MMDEPEND_LIBRARY names no library")
        text = b"$c wff $."
        plain = self.module.report(text, "counts")
        self.assertEqual(self.module.report(Longer(text), "counts"), plain)
        self.assertRaises(self.module.Refused, self.module.report, Longer(b"$c wff"), "counts")
        self.assertEqual(self.module.against(Longer(text), text), self.module.against(text, text))
        with self.assertRaises(self.module.Refused) as caught:
            self.module.against(text, Longer(b"$c wff"))
        self.assertEqual(caught.exception.side, "new")


@unittest.skipUnless(shutil.which("pkg-config"), "there is no pkg-config")
class Config(unittest.TestCase):
    """What pkg-config says of the library for C, by the file that lies beside it."""

    def words(self, folder: Path) -> list[str]:
        """The words that a shell makes of it, as the command of docs/LIBRARY.md has it."""
        line = (
            'eval set -- "$(pkg-config --cflags --libs mmdepend)"; for each; do echo "$each"; done'
        )
        done = subprocess.run(
            ["sh", "-c", line],
            env={**os.environ, "PKG_CONFIG_PATH": str(folder / "lib/pkgconfig")},
            capture_output=True,
            text=True,
            check=True,
        )
        return done.stdout.splitlines()

    def test_a_path_with_spaces(self) -> None:
        made = (TOP / "library" / "mmdepend.pc.in").read_text().replace("@VERSION@", "0")
        for name in ("plain", "with two spaces"):
            with tempfile.TemporaryDirectory(prefix=f"{name} ") as outer:
                folder = Path(outer) / name
                (folder / "lib/pkgconfig").mkdir(parents=True)
                (folder / "lib/pkgconfig/mmdepend.pc").write_text(made)
                cflags, *libs = self.words(folder)
                self.assertEqual(Path(cflags.removeprefix("-I")).resolve(), folder / "include")
                self.assertEqual(Path(libs[0].removeprefix("-L")).resolve(), folder / "lib")
                self.assertEqual(libs[1:], ["-lmmdepend"])


@unittest.skipUnless((TOP / "out/web/index.js").exists(), "web/build wasn't run")
class Node(unittest.TestCase):
    """The module for Node, with the core beside it."""

    def test_a_buffer_that_is_filled_anew(self) -> None:
        script = (
            "import { report } from './index.js';"
            "const bad = Buffer.from('$c wff  '), good = Buffer.from('$c wff $.');"
            "const text = Buffer.from(bad); const first = report(text); good.copy(text);"
            "console.log(await first.then(() => 'accepted', (error) => error.code));"
            "const whole = Buffer.from(good); const second = report(whole); whole.fill(0);"
            "console.log(await second.then(() => 'accepted', (error) => error.code));"
        )
        done = subprocess.run(
            ["node", "--input-type=module", "-e", script],
            cwd=TOP / "out/web",
            capture_output=True,
            check=False,
        )
        self.assertEqual(done.stdout.split(), [b"E08", b"accepted"], done.stderr)


if __name__ == "__main__":
    unittest.main()
