"""What the program says in one run: taken whole or not at all."""

import random
import unittest
from unittest import mock

from query.answers.errors import NoAnswer
from query.platform import parallel
from query.program import mmdepend as programs
from query.reports.choice import Options
from query.reports.content import ReportContent
from query.reports.database import Database
from query.reports.handed_in import checked
from query.reports.of_program import SECTIONS, head_counts, report_content, statements_of
from query.tests.world import SMALL, World, built_program, invented
from query.texts.assertions import Damaged

OPEN = SMALL + "last $p wff p $= ? $.\n"


def to_bytes(found: ReportContent) -> list[bytes]:
    """Marks and citations."""
    assert found.marks is not None and found.cites is not None
    cites = found.cites
    return [found.marks.data, cites.places.tobytes(), cites.targets.tobytes()]


class ProgramReport(World):
    """The report of the small database, and of some made by chance."""

    def setUp(self) -> None:
        super().setUp()
        self.write("small.mm", SMALL)
        self.data = self.report("small.mm", "--form=2", SECTIONS).encode()

    def damaged(self, data: bytes) -> None:
        """It isn't taken."""
        with self.assertRaises(Damaged, msg=data.decode("latin-1")):
            report_content(data)

    def test_whole(self) -> None:
        chance = random.Random(3)
        texts = [SMALL, "", "$c a $.", OPEN, *(invented(chance).text for _ in range(20))]
        for text in texts:
            self.write("some.mm", text)
            found = report_content(self.report("some.mm", "--open", "--form=2", SECTIONS).encode())
            in_two_runs = self.report("some.mm", "--open") + self.report(
                "some.mm", "--open", "--report=citations"
            )
            other = checked("some.mm", in_two_runs.encode())
            self.assertEqual((found.theorems, found.columns), (other.theorems, other.columns))
            self.assertEqual(found.axioms, other.axioms)
            self.assertEqual(to_bytes(found), to_bytes(other))
            said = self.report("some.mm", "--open", "--report=statements").encode()
            self.assertEqual(found.statements, statements_of(said))
            heads = (len(found.columns), len(found.theorems))
            self.assertEqual(head_counts(said), heads)

    def test_what_other_processes_read(self) -> None:
        found = to_bytes(report_content(self.data))
        with mock.patch.object(parallel, "LARGE", 0):
            self.assertEqual(to_bytes(report_content(self.data)), found)
            self.damaged(self.data.replace(b"a1i:3:wi", b"a1i:3:wa"))
            self.damaged(self.data.replace(b"a1i:3:wi", b"a1i:2:wi"))

    def test_typecodes(self) -> None:
        self.assertEqual(report_content(self.data).typecodes, ["wff", "|-", "|-"])
        self.write("open.mm", OPEN)
        said = self.report("open.mm", "--open", "--form=2", SECTIONS)
        self.assertEqual(report_content(said.encode()).typecodes, ["wff", "|-", "|-", "wff"])

    def test_every_beginning(self) -> None:
        for end in range(len(self.data)):
            self.damaged(self.data[:end])
            if not self.data[:end].endswith(b"\nend\n"):
                self.assertRaises(Damaged, head_counts, self.data[:end])
        self.damaged(self.data + b"\n")
        self.damaged(self.data + b"end\n")
        self.damaged(self.data + self.data)

    def test_lines(self) -> None:
        """One that is gone, doubled or in another place. What an assertion's line says behind its
        front is judged where it is asked for."""
        lines = self.data.splitlines(keepends=True)
        for place, line in enumerate(lines):
            for changed in (
                lines[:place] + lines[place + 1 :],
                lines[: place + 1] + lines[place:],
                lines[:place] + [b"\n"] + lines[place:],
                lines[:place] + [b" " + line] + lines[place + 1 :],
                [line] + lines[:place] + lines[place + 1 :],
            ):
                if changed != lines:
                    self.damaged(b"".join(changed))

    def test_words(self) -> None:
        for old, new in (
            (b"mmdepend 2", b"mmdepend 3"),
            (b"axioms 3", b"axioms 4"),
            (b"axioms 3", b"axioms 2"),
            (b"theorems 4", b"theorems 5"),
            (b"matrix", b"counts"),
            (b"a1i:e", b"a1i:E"),
            (b"a1i:e", b"a1i:g"),
            (b"a1i:e", b"a1i:ee"),
            (b"a1i:e", b"a1i: "),
            (b"a1i:e", b"a2i:e"),
            (b"a1i:3:", b"a1i:2:"),
            (b"a1i:3:wi", b"a1i:3:wa"),
            (b"a1i:p:", b"a1i:a:"),
            (b"wi:a:", b"wi:p:"),
            (b"wi:a:", b"wi:a"),
            (b"$f", b"$\xc3"),
        ):
            self.assertIn(old, self.data)
            self.damaged(self.data.replace(old, new, 1))

    def test_too_much(self) -> None:
        database = Database.opened(str(self.folder / "small.mm"), Options(), False)
        with mock.patch.dict("os.environ", {"MMDEPEND": built_program()}):
            with mock.patch.object(programs, "MOST_OUTPUT_BYTES", len(self.data) - 1):
                why = "needs more than 0 MB for what the program says of it"
                self.assertRaisesRegex(NoAnswer, why, database.graph)
            with mock.patch.object(programs, "MOST_OUTPUT_BYTES", len(self.data)):
                self.assertEqual(len(database.graph().labels), 7)


if __name__ == "__main__":
    unittest.main()
