"""What a change reaches, in a git repository."""

import shutil
import subprocess
import tempfile
import unittest
from pathlib import Path

from proving.changed import Reach, above, lines_of, reach

CRATES = """# NAME: what it stands on
low:
beside may_wait=2: thiserror
middle: low
mmdepend: middle   # the program
tests: low beside
"""
FILES = ("HANDLES", "README.md", "crates/low/src/lib.rt", "crates/tests/src/lib.rt", "tests/real")
EVERY = ["low", "beside", "middle", "mmdepend", "tests"]


class Lines(unittest.TestCase):
    """The lines of crates.txt."""

    def test_above(self) -> None:
        lines = lines_of(CRATES)
        self.assertEqual([*lines], EVERY)
        self.assertEqual(above(lines, {"low"}), ["low", "middle", "mmdepend", "tests"])
        self.assertEqual(above(lines, {"beside"}), ["beside", "tests"])
        self.assertEqual(above(lines, {"mmdepend", "gone"}), ["mmdepend"])
        self.assertEqual(above(lines, set()), [])


@unittest.skipUnless(shutil.which("git"), "git isn't installed")
class Reached(unittest.TestCase):
    """Files that differ from a commit."""

    def setUp(self) -> None:
        self.top = Path(tempfile.mkdtemp(prefix="proving-"))
        self.addCleanup(shutil.rmtree, self.top, True)
        self.git("init", "--quiet")
        self.write("crates.txt", CRATES)
        for name in FILES:
            self.write(name, "first\n")
        self.write(".gitignore", "out/\n")
        self.git("add", "--all")
        self.git("commit", "--quiet", "--message=first")

    def git(self, *words: str) -> None:
        """Runs git in the repository."""
        names = ("-c", "user.name=A", "-c", "user.email=a@example.org")
        subprocess.run(["git", "-C", str(self.top), *names, *words], check=True)

    def write(self, name: str, text: str) -> None:
        """Writes a file of the repository."""
        path = self.top / name
        path.parent.mkdir(parents=True, exist_ok=True)
        path.write_text(text, "utf-8")

    def test_nothing(self) -> None:
        self.write("crates/low/out/made", "")
        self.assertEqual(reach(self.top, "HEAD"), Reach([], [], False))

    def test_a_crate_and_those_above(self) -> None:
        self.write("crates/low/src/lib.rt", "second\n")
        names = ["low", "middle", "mmdepend", "tests"]
        self.assertEqual(reach(self.top, "HEAD"), Reach(names, names, True))
        self.git("commit", "--quiet", "--all", "--message=second")
        self.assertEqual(reach(self.top, "HEAD"), Reach([], [], False))
        self.assertEqual(reach(self.top, "HEAD~1"), Reach(names, names, True))

    def test_a_crate_of_which_nothing_is_built(self) -> None:
        self.write("crates/tests/src/new.rt", "")
        self.assertEqual(reach(self.top, "HEAD"), Reach(["tests"], ["tests"], False))

    def test_edits_alone(self) -> None:
        for folder in ("must-fail", "wrong-bodies"):
            self.write(f"crates/low/{folder}/new.edit", "")
            self.assertEqual(reach(self.top, "HEAD"), Reach([], ["low"], False))

    def test_lines(self) -> None:
        self.write("crates.txt", CRATES.replace("tests: low beside", "tests: low") + "new: low\n")
        self.assertEqual(reach(self.top, "HEAD"), Reach(["tests", "new"], ["tests", "new"], False))
        self.write("crates.txt", CRATES.replace("# NAME", "# Names"))
        self.assertEqual(reach(self.top, "HEAD"), Reach([], [], False))

    def test_other_files(self) -> None:
        self.write("tests/real", "second\n")
        self.assertEqual(reach(self.top, "HEAD"), Reach([], [], True))
        self.write("HANDLES", "second\n")
        self.assertEqual(reach(self.top, "HEAD"), Reach(EVERY, EVERY, True))

    def test_a_file_that_is_gone(self) -> None:
        (self.top / "crates/tests/src/lib.rt").unlink()
        self.assertEqual(reach(self.top, "HEAD"), Reach(["tests"], ["tests"], False))

    def test_no_revision(self) -> None:
        for revision in ("none", "--output=x", "HEAD:crates.txt", ""):
            with self.assertRaises(SystemExit):
                reach(self.top, revision)


if __name__ == "__main__":
    unittest.main()
