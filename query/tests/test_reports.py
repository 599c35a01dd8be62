"""Reports that are damaged or mixed: each has to be refused, with the line."""

import random
import re
import unittest
from unittest import mock

from query.answers.errors import NoAnswer
from query.citations.marks import marks_of_rows, width_of
from query.reports.content import ReportContent
from query.reports.handed_in import checked
from query.tests.world import SMALL, World, invented

OTHER = SMALL.replace("wp wq wp wi h wp wq ax-1 ax-mp $.", "wp wq h ax-n $.").replace(
    "wi2 $p", "${ n $e |- p $. ax-n $a |- ( q -> p ) $. $}\nwi2 $p"
)


class Reports(World):
    """Reports of the small database, and of some made by chance."""

    def setUp(self) -> None:
        super().setUp()
        self.write("small.mm", SMALL)
        self.write("other.mm", OTHER)
        self.marks = self.report("small.mm")
        self.cites = self.report("small.mm", "--report=citations")

    def damaged(self, text: str, why: str, line: int) -> None:
        """A question about a report has to be refused with this line."""
        self.write("report", text)
        told = self.refuses("rests", "report", "a2", why=why)
        self.assertIn(f"mmquery: report:{line}: ", told)

    def test_a_whole_report_is_believed(self) -> None:
        for marks in (self.marks, self.report("small.mm", "--form=2")):
            for text in (marks + self.cites, self.cites + marks, marks):
                self.write("report", text)
                self.assertEqual(self.answers("rests", "report", "a2"), ["wi", "ax-1", "ax-mp"])

    def test_a_usage_line_that_lost_labels_but_kept_its_count(self) -> None:
        line = self.marks[: self.marks.index("wi:3:")].count("\n") + 1
        text = self.marks.replace("wi:3:wi2 a1i a2", "wi:3:wi2")
        self.damaged(text + self.cites, "the number isn't that of the labels", line)
        self.damaged(text, "the number isn't that of the labels", line)

    def test_a_usage_line_that_lost_labels_and_says_so(self) -> None:
        line = self.marks[: self.marks.index("wi:3:")].count("\n") + 1
        text = self.marks.replace("wi:3:wi2 a1i a2", "wi:2:wi2 a1i")
        self.damaged(text + self.cites, "lacks 'a2'", line)
        self.damaged(text, "lacks 'a2'", line)

    def test_usage_of_one_database_and_citations_of_another(self) -> None:
        for one, other in (("other.mm", "small.mm"), ("small.mm", "other.mm")):
            usage = self.report(one, "--report=usage")
            cites = self.report(other, "--report=citations")
            line = usage[: usage.index("\nwi:")].count("\n") + 2
            self.damaged(usage + cites, "other than the citations say", line)

    def test_a_digit_2_in_the_matrix(self) -> None:
        line = self.marks[: self.marks.index("a1i:111")].count("\n") + 1
        for text in (self.marks + self.cites, self.marks):
            self.damaged(text.replace("a1i:111", "a1i:121"), "", line)
            self.damaged(text.replace("a1i:111", "a1i:1_1"), "", line)
            self.damaged(text.replace("a1i:111", "a1i:11"), "", line)
        text = self.report("small.mm", "--form=2")
        for row in ("E", "f", "0", "g", " ", "ee", ""):
            self.damaged(text.replace("a1i:e", f"a1i:{row}") + self.cites, "", line)

    def test_steps_that_no_proof_has(self) -> None:
        text = self.marks + self.report("small.mm", "--report=proofs")
        line = text[: text.index("\na1i:9:")].count("\n") + 2
        for steps in ("wp wq *2 wi h", "wp *1 wp wi h"):
            self.write("report", text.replace("wp wq wp wi h", steps))
            self.assertEqual(self.answers("rests", "report", "a2"), ["wi", "ax-1", "ax-mp"])
        for steps in ("wp wq wp wi", "wp wq *3 wi h", "wp wq *0 wi h", "wp wq * wi h"):
            self.damaged(text.replace("wp wq wp wi h", steps), "", line)
        self.damaged(text.replace("\na1i:9:", "\na1j:9:"), "another section has 'a1i' here", line)

    def test_every_beginning_is_cut_off(self) -> None:
        text = self.marks + self.cites
        for end in range(len(text)):
            if end == len(self.marks):
                continue
            with self.assertRaises(NoAnswer):
                checked("report", text[:end].encode())

    def test_sections_of_several_databases(self) -> None:
        for one in ("--report=counts", "--report=matrix", "--report=usage"):
            text = self.report("other.mm", one) + self.cites
            if one == "--report=counts":
                continue  # its columns have no names, so nothing is answered from it
            with self.assertRaises(NoAnswer):
                if checked("report", text.encode()).marks is None:
                    raise NoAnswer("no marks")
        twice = self.marks + self.report("other.mm", "--report=counts")
        with self.assertRaises(NoAnswer):
            checked("report", twice.encode())

    def test_statements(self) -> None:
        """A report may have them. Nothing is answered from them, but they are checked."""
        told = self.report("small.mm", "--report=matrix,usage,statements")
        for text in (told, self.report("small.mm", "--only=|-", "--report=all,statements")):
            self.write("report", text)
            self.assertEqual(self.answers("rests", "report", "a2")[-1], "ax-mp")
        start = told.index("\nstatements\n")
        line = told[:start].count("\n") + 3
        for old, new, more in (
            ("wi:a:", "wi:x:", 0),
            ("wi:a:", "wi:a", 0),
            ("$f wp wff p", "$f wp wff", 0),
            ("ax1:p:", "ax2:p:", 4),
            ("ax1:p:", "wi2:p:", 4),
            ("wi2:p:", "a2:p:", 4),
            ("ax-1:a:", "ax-2:a:", -1),
            ("ax-1:a:", "ax1:p:", 3),
            ("wi2:p:", "wi2:o:", -1),
        ):
            self.assertIn(old, told[start:])
            changed = told[:start] + told[start:].replace(old, new, 1)
            self.damaged(changed, "the report is damaged", line + more)

    def test_what_a_report_lacks(self) -> None:
        self.write("marks", self.marks)
        self.write("cites", self.cites)
        self.write("usage", self.report("small.mm", "--report=usage"))
        self.refuses("why", "marks", "a2", "ax-1", why="no section 'citations'")
        self.refuses("rests", "cites", "a2", why="'usage'")
        self.refuses("rests", "usage", "a2", why="'counts'")
        self.assertEqual(self.answers("cites", "cites", "a2"), ["wi", "a1i"])

    def test_options_that_want_a_database(self) -> None:
        self.write("report", self.marks + self.cites)
        for option in ("--all", "--only=|-", "--essential", "--open"):
            self.refuses("rests", "report", "a2", option, why="wants a database")
        self.assertEqual(
            self.answers("rests", "report", "a2", "--axioms", "ax-"), ["ax-1", "ax-mp"]
        )
        self.refuses("chapters", "report", why="a report, where the database is wanted")

    def test_a_refusal(self) -> None:
        self.write("broken.mm", SMALL.replace("wi wi $.", "wi $."))
        self.write("refusal", self.report("broken.mm"))
        self.refuses("rests", "refusal", "a2", why="refusal:8:47: refused E37: the stack")
        self.refuses("rests", "broken.mm", "a2", why="broken.mm:8:47: refused E37 in 'wi2': the")
        self.write("refusal", self.report("broken.mm")[:-1])
        self.refuses("rests", "refusal", "a2", why="isn't whole")

    def test_changes_by_chance(self) -> None:
        """A changed word or digit is refused, or leaves all marks as they are. That other citations
        give the same marks can't be seen."""
        chance = random.Random(7)
        refused = 0
        for seed in range(40):
            self.write("some.mm", invented(random.Random(seed)).text)
            form = f"--form={chance.choice((1, 2))}"
            text = self.report("some.mm", form, "--only=|-")
            text += self.report("some.mm", "--report=citations")
            right = checked("report", text.encode())
            for _ in range(25):
                new = changed(chance, text)
                try:
                    found = checked("report", new.encode())
                except NoAnswer as why:
                    self.assertRegex(str(why), r"\Areport:[1-9][0-9]*: ")
                    refused += 1
                    continue
                self.assertEqual(meaning(found), meaning(right), f"{new}\n{text}")
        self.assertGreater(refused, 800)


def changed(chance: random.Random, text: str) -> str:
    """The text with one word gone, doubled or put for another, or one digit changed."""
    kind = chance.randrange(4)
    words = list(re.finditer(r"[^\s:]+", text))
    word = chance.choice(words)
    if kind == 0:
        return text[: word.start()] + text[word.end() :]
    if kind == 1:
        return text[: word.end()] + " " + text[word.start() :]
    if kind == 2:
        return text[: word.start()] + chance.choice(words)[0] + text[word.end() :]
    place = chance.choice([i for i, sign in enumerate(text) if sign.isdigit()])
    return text[:place] + chance.choice("0123456789abcdef") + text[place + 1 :]


def meaning(found: ReportContent) -> object:
    """The marks by labels, without axioms on which nothing rests."""
    assert found.marks is not None
    used = [column for column, size in enumerate(found.marks.sizes()) if size]
    users = {found.columns[column]: found.marks.users(column) for column in used}
    return found.theorems, users


class Sizes(unittest.TestCase):
    """How many rows are marked in each column."""

    def test_by_chance(self) -> None:
        """As many as the column has, whatever rows are counted at once."""
        chance = random.Random(3)
        for rows, columns in ((0, 5), (3, 0), (1, 1), (7, 17), (5, 8), (9, 23), (4097, 9)):
            spare = 8 * width_of(columns) - columns
            bits = [chance.getrandbits(columns) << spare for _ in range(rows)]
            marked = marks_of_rows(bits, columns)
            wanted = [marked.column(number).count(1) for number in range(columns)]
            for at_once in (1, 2, 4096):
                with mock.patch("query.citations.marks.BLOCK", at_once):
                    self.assertEqual(marked.sizes(), wanted, (rows, columns, at_once))


if __name__ == "__main__":
    unittest.main()
