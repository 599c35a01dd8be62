"""Agreement with metamath.exe on iset.mm: what theorems rest on, and what rests on labels."""

import random
import re
import shutil
import unittest

from query.tests.world import DATABASES, World, asked
from tests.shared import metamath

QUESTIONS = 40


class Told(World):
    """What metamath.exe says of a database."""

    DATABASE = "iset.mm"

    def setUp(self) -> None:
        super().setUp()
        (self.folder / self.DATABASE).symlink_to(DATABASES / self.DATABASE)

    def told(self, questions: list[str]) -> list[str]:
        """What metamath.exe says to each question of the database."""
        return metamath.asked(self.folder / self.DATABASE, questions)

    def said(self, questions: list[str]) -> list[list[str]]:
        """What metamath.exe answers to each question: the labels on the lines that are indented."""
        answers = []
        for question, part in zip(questions, self.told(questions)):
            self.assertIn(f'Statement "{question.split()[2]}" ', part)
            labels = " ".join(re.findall(r"(?m)^  (.*)$", part)).split()
            answers.append([label for label in labels if label != "(None)"])
        return answers


@unittest.skipUnless(shutil.which("metamath"), "metamath isn't installed")
@unittest.skipUnless((DATABASES / "iset.mm").exists(), "iset.mm isn't installed")
class Metamath(Told):
    """`show trace_back LABEL /axioms` and `show usage LABEL /recursive`, for some labels."""

    def setUp(self) -> None:
        super().setUp()
        order = [line.split("\t") for line in self.answers("order", "iset.mm", "--format=tsv")[1:]]
        chance = random.Random(52)
        theorems = [row[4] for row in order if row[1] == "theorem"]
        self.theorems = chance.sample(theorems, QUESTIONS)
        self.labels = chance.sample([row[4] for row in order], QUESTIONS) + ["ax-ext", "ax-setind"]

    def test_trace_back(self) -> None:
        answers = self.said([f"show trace_back {label} /axioms" for label in self.theorems])
        marks = 0
        for label, wanted in zip(self.theorems, answers):
            self.assertEqual(self.answers("rests", "--all", "iset.mm", label), wanted, label)
            marks += len(wanted)
        self.assertGreater(marks, 500)

    def test_usage(self) -> None:
        answers = self.said([f"show usage {label} /recursive" for label in self.labels])
        users = 0
        for label, wanted in zip(self.labels, answers):
            self.assertEqual(self.answers("falls", "iset.mm", label), wanted, label)
            users += len(wanted)
        self.assertGreater(users, 500)

    def test_chains_are_of_citations(self) -> None:
        """Each link of a chain is in the proof, by `show proof`; the ends are those asked for."""
        path = str(self.folder / "iset.mm")
        chains = {}
        for label in self.theorems[:8]:
            chain = [row[0] for row in asked("why", path, label, "ax-mp")]
            self.assertEqual((chain[0], chain[-1]), (label, "ax-mp"))
            chains.update(dict(zip(chain, chain[1:])))
        parts = self.told([f"show proof {label} /all /lemmon" for label in chains])
        for part, (label, cited) in zip(parts, chains.items(), strict=True):
            self.assertRegex(part, rf"(?m)^ *\d+.*\s{re.escape(cited)}\s", label)


@unittest.skipUnless(shutil.which("metamath"), "metamath isn't installed")
@unittest.skipUnless((DATABASES / "set.mm").exists(), "set.mm isn't installed")
class Twenty(Told):
    """Five answers of docs/QUESTIONS.md, by what metamath.exe says of set.mm."""

    DATABASE = "set.mm"

    def test_five_answers(self) -> None:
        zorn, two, fallen, citing = self.said(
            [
                "show trace_back zorn /axioms",
                "show trace_back 2p2e4 /axioms",
                "show usage ax-ac2 /recursive",
                "show usage numth3",
            ]
        )
        self.assertEqual(self.answers("rests", "--all", "set.mm", "zorn"), zorn)
        for theorem, every, start in (("zorn", zorn, "ax-"), ("2p2e4", two, "df-")):
            wanted = [label for label in every if label.startswith(start)]
            self.assertEqual(self.answers("rests", "set.mm", theorem, "--axioms", start), wanted)
        self.assertEqual(self.answers("falls", "set.mm", "ax-ac2"), fallen)
        self.assertEqual(self.answers("cited-by", "set.mm", "numth3"), citing)
        (told,) = self.told(["show discouraged"])
        lines = re.findall(r"(?m)^SHOW DISCOURAGED:  (.*)$", told)
        self.assertEqual(self.answers("discouraged", "set.mm"), sorted(lines))


if __name__ == "__main__":
    unittest.main()
