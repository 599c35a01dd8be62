"""tests/repeated, on sources that are made up, and on those of the crates."""

import subprocess
import tempfile
import unittest
from pathlib import Path

from query.tests.world import TOP

SCRIPT = TOP / "tests" / "repeated"
# Twelve lines that count, and some that don't.
SHARED = [f"    let value_{number} = {number};" for number in range(12)]
BETWEEN = ["", "    // A comment.", "}", "use crate::other;", "-- a remark"]
FIRST = "crates/first/src/lib.rt"
SECOND = "crates/second/proofs/folder/Law.antt"


class MadeUp(unittest.TestCase):
    """Two crates that share some lines."""

    def setUp(self) -> None:
        folder = tempfile.TemporaryDirectory(prefix="repeated-")
        self.addCleanup(folder.cleanup)
        self.top = Path(folder.name)

    def write(self, path: str, lines: list[str]) -> None:
        """Writes a file of these lines."""
        place = self.top / path
        place.parent.mkdir(parents=True, exist_ok=True)
        place.write_text("\n".join(lines) + "\n", "utf-8")

    def told(self) -> tuple[int, list[str]]:
        """The status of the script, and the lines that it prints."""
        run = subprocess.run(
            [str(SCRIPT), str(self.top)], capture_output=True, text=True, check=False
        )
        self.assertEqual(run.stderr, "")
        return run.returncode, run.stdout.splitlines()

    def test_shared_lines(self) -> None:
        """White space, and lines that don't count, make no difference."""
        other = [it.replace(" ", "  ") for it in SHARED]
        self.write(FIRST, ["fn first() {", *SHARED[:6], *BETWEEN, *SHARED[6:], "fn end() {"])
        self.write(SECOND, ["law : Type 0", "law = other", *other, "-- the end", "last = law"])
        status, lines = self.told()
        self.assertEqual(status, 1)
        self.assertEqual(len(lines), 2)
        self.assertTrue(lines[0].startswith(f"12 lines stand at {FIRST}:2 and {SECOND}:3: "))
        self.assertEqual(lines[1], "repeated: 1 runs of 10 lines or more, 1 complaints")

    def test_nine_lines(self) -> None:
        """Nine lines that are the same are passed over, and so are twelve with one that differs."""
        self.write(FIRST, SHARED[:9])
        self.write(SECOND, [*SHARED[:6], "other", *SHARED[6:9]])
        self.assertEqual(self.told(), (0, ["repeated: 0 runs of 10 lines or more, 0 complaints"]))
        self.write(FIRST, [*SHARED[:6], "this", *SHARED[6:]])
        self.write(SECOND, SHARED)
        self.assertEqual(self.told()[0], 0)

    def test_within_a_file(self) -> None:
        """A file that repeats itself is told, too."""
        self.write(FIRST, [*SHARED, "between", *SHARED])
        status, lines = self.told()
        self.assertEqual(status, 1)
        self.assertIn(f"{FIRST}:1 and {FIRST}:14", lines[0])

    def test_reasons(self) -> None:
        """What has a reason isn't told, and a reason too many is."""
        self.write(FIRST, SHARED)
        self.write(SECOND, SHARED)
        self.write("tests/repeated.txt", ["# Reasons.", f"1 {FIRST} {SECOND} Two of one form."])
        self.assertEqual(self.told(), (0, ["repeated: 1 runs of 10 lines or more, 0 complaints"]))
        self.write(SECOND, SHARED[:9])
        status, lines = self.told()
        self.assertEqual(status, 1)
        self.assertEqual(lines[0], f"tests/repeated.txt: {FIRST} and {SECOND} share 0 runs, not 1")

    def test_more_than_has_a_reason(self) -> None:
        """A second run of the same two files isn't covered by the reason for one."""
        more = [it.replace("value", "other") for it in SHARED]
        self.write(FIRST, [*SHARED, "first", *more])
        self.write(SECOND, [*SHARED, "second", *more])
        self.write("tests/repeated.txt", [f"1 {FIRST} {SECOND} Two of one form."])
        status, lines = self.told()
        self.assertEqual(status, 1)
        self.assertEqual(lines[-1], "repeated: 2 runs of 10 lines or more, 2 complaints")

    def test_no_reason(self) -> None:
        """A line of the list without a reason is refused."""
        self.write("tests/repeated.txt", [f"1 {FIRST} {SECOND}"])
        run = subprocess.run([str(SCRIPT), str(self.top)], capture_output=True, check=False)
        self.assertEqual(run.returncode, 1)
        self.assertIn(b"has no reason", run.stderr)


class Crates(unittest.TestCase):
    """The sources of the crates."""

    def test_no_complaint(self) -> None:
        """What stands twice has a reason."""
        run = subprocess.run([str(SCRIPT)], capture_output=True, text=True, check=False)
        self.assertEqual((run.returncode, run.stderr), (0, ""), run.stdout)


if __name__ == "__main__":
    unittest.main()
