"""`steps`: proofs step by step, by hand and against `show proof` of metamath.exe."""

import json
import random
import re
import shutil
import unittest
from pathlib import Path
from unittest import mock

from query.answers.errors import NoAnswer
from query.platform import limits
from query.proofs.steps import steps_of
from query.tests.shapes import letters
from query.tests.world import DATABASES, SMALL, World, database_text
from query.texts.text import Text
from tests.shared import metamath

SHOWN = re.compile(r"(?m)^ *(\d+) (?:([\d,]+) )?(\S+) +(?:@\d+: )?\$[aefp] ?(.*)$")
SMALL_ONES = ("demo0.mm", "peano.mm", "hol.mm", "ql.mm")
"""Debian's small databases whose formulas metamath.exe shows on one line."""
SAMPLE = 60
"""So many theorems of a database are compared at the most."""
Step = tuple[int, list[int], str, str]


class Small(World):
    """Small databases, by hand."""

    def shown(self, *words: str) -> list[Step]:
        """The steps that are shown."""
        done = self.query("steps", "small.mm", *words, "--format=json")
        self.assertEqual((done.status, done.err), (0, ""))
        return [
            (row["step"], [*map(int, row["hypotheses"])], row["label"], row["formula"])
            for row in json.loads(done.out)
        ]

    def test_the_logical_steps(self) -> None:
        self.write("small.mm", SMALL)
        wanted = [
            (1, [], "g", "|- p"),
            (2, [1], "a1i", "|- ( q -> p )"),
            (3, [2], "a1i", "|- ( q -> ( q -> p ) )"),
        ]
        self.assertEqual(self.shown("a2"), wanted)
        self.assertEqual(self.shown("ax1"), [(1, [], "ax-1", "|- ( p -> ( q -> p ) )")])
        self.assertEqual(self.shown("wi2"), [(1, [], "wi", "wff ( p -> ( q -> p ) )")])
        text = "step  hypotheses  label  formula\n   1  -           g      |- p\n"
        self.assertTrue(self.query("steps", "small.mm", "a2").out.startswith(text))

    def test_all_steps(self) -> None:
        self.write("small.mm", SMALL)
        wanted = [
            (1, [], "wp", "wff p"),
            (2, [], "wq", "wff q"),
            (3, [], "wp", "wff p"),
            (4, [2, 3], "wi", "wff ( q -> p )"),
            (5, [1, 4], "wi", "wff ( p -> ( q -> p ) )"),
        ]
        self.assertEqual(self.shown("wi2", "--all"), wanted)

    def test_what_has_no_steps(self) -> None:
        """Axioms, what isn't there, theorems that are left open, reports and faulty databases."""
        self.write("small.mm", SMALL + "left $p |- p $= ? $.\n")
        why = "'ax-1' is an axiom, where a theorem is wanted"
        self.refuses("steps", "small.mm", "ax-1", "--open", why=why)
        self.refuses("steps", "small.mm", "a3", "--open", why="has no assertion 'a3'")
        self.refuses("steps", "small.mm", "left", "--open", why="left: is left open")
        self.refuses("steps", "small.mm", "a2", why="E32")
        self.assertEqual(len(self.answers("steps", "small.mm", "a2", "--open")), 4)
        self.write("report", self.report(self.write("fine.mm", SMALL)))
        self.refuses("steps", "report", "a2", why="a report, where the database is wanted")

    def test_limits(self) -> None:
        """A proof whose formulas are long ends with a reason, and so does a long proof."""
        doubled = "AABZ" + "".join(f"{letters(3 + number)}BZ" for number in range(14))
        most = "( p -> p )"
        for _ in range(14):
            most = f"( {most} -> {most} )"
        text = database_text(f"{SMALL}x $p wff {most} $= ( wi ) {doubled[:-1]} $.".encode())
        theorem = text.by_label["x"]
        self.assertEqual(len(steps_of(text, theorem, True)), 3 + 2 * 14)
        with mock.patch.object(limits, "EXPLAINED_SYMBOLS", 100_000):
            with self.assertRaisesRegex(NoAnswer, "x: its steps have more than 100000 symbols"):
                steps_of(text, theorem, True)
        with mock.patch.object(limits, "EXPLAINED_PROOF", 20):
            with self.assertRaisesRegex(NoAnswer, "x: its proof is longer than 20 bytes"):
                steps_of(text, theorem, False)

    def test_a_step_is_repeated(self) -> None:
        """A logical step that is marked, by the number that the marked one has among those shown;
        and comments anywhere."""
        self.write("small.mm", SMALL + REPEATED)
        wanted = [
            (1, [], "r.1", "|- p"),
            (2, [1], "a1i", "|- ( q -> p )"),
            (3, [], "@2", "|- ( q -> p )"),
            (4, [3], "a1i", "|- ( p -> ( q -> p ) )"),
            (5, [2, 4], "two", "|- ( q -> p )"),
        ]
        self.assertEqual(self.shown("again"), wanted)


REPEATED = """
${ t.1 $e |- p $. t.2 $e |- q $. two $p |- p $= t.1 $. $}
${ r.1 $e |- p $. again $p |- ( q -> p ) $=
  ( wi $( no step $) a1i two ) BADZ $( Z $) AGDABC EZGAHEF $. $}
"""
"""What repeats a logical step."""


def told(path: Path, labels: list[str], words: str) -> list[list[Step]]:
    """The steps that metamath.exe shows of each of these theorems."""
    found = []
    for part in metamath.asked(path, [f"show proof {label} /lemmon {words}" for label in labels]):
        steps: list[Step] = []
        for number, hypotheses, label, formula in SHOWN.findall(part):
            before = [int(each) for each in hypotheses.split(",") if each]
            steps.append((int(number), before, label, formula))
        found.append(steps)
    return found


@unittest.skipUnless(shutil.which("metamath"), "metamath isn't installed")
class Metamath(World):
    """`show proof THEOREM /lemmon /renumber` and `show proof THEOREM /lemmon /all`."""

    def see(self, path: Path, text: Text, labels: list[str]) -> int:
        """Compares the steps of theorems. Returns how many these are."""
        count = 0
        for words, is_all in (("/renumber", False), ("/all", True)):
            for label, wanted in zip(labels, told(path, labels, words), strict=True):
                found = [
                    (step.number, step.hypotheses, step.label, " ".join(step.formula))
                    for step in steps_of(text, text.by_label[label], is_all)
                ]
                self.assertEqual(found, wanted, f"{path.name}: {label} {words}")
                count += len(found)
        return count

    @unittest.skipUnless((DATABASES / "ql.mm").exists(), "Debian's databases aren't installed")
    def test_small_databases(self) -> None:
        chance, count = random.Random(8), 0
        for name in SMALL_ONES:
            path = DATABASES / name
            if path.exists():
                text = database_text(path.read_bytes())
                labels = [one.label for one in text.assertions if one.letter == "p"]
                labels = chance.sample(labels, min(SAMPLE, len(labels)))
                count += self.see(path, text, labels)
        self.assertGreater(count, 3000)

    @unittest.skipUnless((DATABASES / "set.mm").exists(), "set.mm isn't installed")
    def test_set(self) -> None:
        """A sample, with theorems that have their own variables and repeat logical steps."""
        path = DATABASES / "set.mm"
        text = database_text(path.read_bytes())
        labels = [one.label for one in text.assertions if one.letter == "p"]
        labels = ["id", "weq", "wel", "canth", "tfrlem1", *random.Random(8).sample(labels, 15)]
        self.assertGreater(self.see(path, text, labels), 2000)


if __name__ == "__main__":
    unittest.main()
