"""`--keep-wrappers`: against what was chosen when databases were made by chance, and on set.mm."""

import os
import random
import unittest
from unittest import mock

from query.citations.wrappers import wrappers
from query.reports.choice import Options
from query.reports.database import Database
from query.tests.repositories import BASE
from query.tests.world import DATABASES, World, asked, built_program, invented


GIVING = """$c |- wff ( -> ) $. $v p q $. wp $f wff p $. wq $f wff q $.
wi $a wff ( p -> q ) $.
ax-x $a |- ( p -> ( q -> p ) ) $.
${ any.1 $e |- p $. any $a |- q $. $}
${ both.1 $e |- p $. both.2 $e |- p $. both $a |- q $. $}
one $p |- ( p -> p ) $= wp wq wp wi wi wp wp wi wp wq ax-x any $.
two $p |- ( q -> ( q -> ( p -> p ) ) ) $= wp wp wi wq wq wp wp wi wi wi wp one any $.
"""
IN_OTHER_WORDS = (
    "what is listed may still say ax-ac2 in other words, and --keep LABEL takes such a one out"
)
TWO = "wq wq wp wp wi wi wi"
AX_X = "wp wq wp wi wi"
BY_TWO = f"{TWO} {AX_X} wp wq two any"
"""`two` rests on `ax-x` by `one`, and these steps prove `ax-x` by it."""


class Wrappers(World):
    """What only wraps an axiom is kept."""

    def setUp(self) -> None:
        super().setUp()
        patch = mock.patch.dict(os.environ, {"MMDEPEND": built_program()})
        patch.start()
        self.addCleanup(patch.stop)

    def labels(self, path: str, on: str) -> list[str]:
        """The wrappers of an assertion."""
        database = Database.opened(path, Options(), False)
        graph = database.graph()
        found = wrappers(graph, database.text, graph.node(on))
        return [graph.labels[node] for node in found]

    def test_by_chance(self) -> None:
        """All that is made by chance has the same form, but for what is about a built formula."""
        counts = [0, 0, 0]
        for seed in range(25):
            database = invented(random.Random(seed))
            path = str(self.folder / self.write("db.mm", database.text))
            for on in database.labels():
                users = database.users(on)
                wanted = []
                for each in users:
                    resting = [cited for cited in database.cites[each] if cited in {on, *users}]
                    is_alike = on != "wi" and (on in database.built) == (each in database.built)
                    if resting == [on] or is_alike:
                        wanted.append(each)
                    counts[0] += resting == [on] and not is_alike
                    counts[1] += resting != [on] and is_alike
                    counts[2] += resting != [on] and not is_alike
                self.assertEqual(self.labels(path, on), wanted, (seed, on))
        self.assertGreater(min(counts), 20)

    def test_what_is_kept_is_told(self) -> None:
        self.write("db.mm", BASE)
        done = self.query("frees", "db.mm", "ax-ac2", "--keep-wrappers")
        states = "axac3 states what ax-ac2 states but for the variables"
        kept_too = "mmquery: kept as wrappers: axac3\n"
        self.assertEqual(done.err, f"{kept_too}mmquery: db.mm: {IN_OTHER_WORDS}\n")
        self.assertEqual(done.lines()[1:], ["    1  zorn"])
        for words in ((), ("--most=1",), ("--plan=1",)):
            plain = self.query("frees", "db.mm", "ax-ac2", *words)
            keeps = "and --keep-wrappers keeps such theorems"
            self.assertIn(f"{states}, {keeps}; {IN_OTHER_WORDS}\n", plain.err)
        both = self.query("frees", "db.mm", "ax-ac2", "--keep", "axac3", "--keep-wrappers")
        self.assertEqual(both, done)
        self.assertEqual(done.lines(), self.answers("frees", "db.mm", "ax-ac2", "--keep=axac3"))
        done = self.query("way-out", "db.mm", "zorn", "ax-ac2", "--keep-wrappers", "--format=tsv")
        kept = self.answers("way-out", "db.mm", "zorn", "ax-ac2", "--keep=axac3", "--format=tsv")
        self.assertEqual((done.lines(), done.status), (kept, 0))
        self.assertEqual(done.err, kept_too)
        done = self.query("frees", "db.mm", "zorn", "--keep-wrappers")
        self.assertIn("no theorem only wraps zorn", done.err)
        self.write("two.mm", BASE.replace("zorn $p |- ( q -> ", "x $p |- ( q -> "))
        done = self.query("frees", "two.mm", "axac3", "--keep-wrappers")
        applies = "x applies axac3 directly and so may say it in another form"
        self.assertIn(f"mmquery: kept as wrappers: x; {applies}\n", done.err)
        self.assertIn("two.mm: all that rests on axac3 is kept\n", done.err)
        self.write("report", self.report("db.mm", "--report=citations"))
        why = "a report, where the database is wanted"
        self.refuses("frees", "report", "ax-ac2", "--keep-wrappers", why=why)

    def test_what_gives_it_back(self) -> None:
        """All chains from a statement of ON lead through it, and ON is an instance of that."""
        by_two_twice = f"{TWO} {AX_X} wp wq two wp wq two both"
        other = f"other $p |- ( p -> p ) $= {AX_X} wp wp wi wp wq ax-x any $.\n"
        by_other = f"wp wp wi {TWO} wp other any"
        by_two_or_other = f"{TWO} {AX_X} wp wq two {by_other} both"
        for more, wanted in {
            f"three $p |- ( p -> ( q -> p ) ) $= {BY_TWO} $.": ["one", "two", "three"],
            f"three $p |- ( p -> ( q -> p ) ) $= {by_two_twice} $.": ["one", "two", "three"],
            f"three $p |- ( q -> ( p -> q ) ) $= {BY_TWO.replace(AX_X, 'wq wp wq wi wi')} $.": [
                "one",
                "two",
                "three",
            ],
            # by another condition, or other places of variables, it is less than ON
            f"${{ $d p q $. three $p |- ( p -> ( q -> p ) ) $= {BY_TWO} $. $}}": ["one", "three"],
            f"three $p |- ( p -> ( p -> p ) ) $= {BY_TWO.replace(AX_X, 'wp wp wp wi wi')} $.": [
                "one",
                "three",
            ],
            # a chain past it
            f"{other}three $p |- ( p -> ( q -> p ) ) $= {by_two_or_other} $.": [
                "one",
                "other",
                "three",
            ],
            # one more behind it, which rests on it by the way
            f"three $p |- ( p -> ( q -> p ) ) $= {BY_TWO} $.\n"
            f"four $p |- ( p -> ( q -> p ) ) $= {AX_X} {AX_X} wp wq three any $.": [
                "one",
                "two",
                "three",
                "four",
            ],
        }.items():
            path = str(self.folder / self.write("db.mm", GIVING + more + "\n"))
            self.assertEqual(self.labels(path, "ax-x"), wanted, more)

    def test_what_gives_it_back_is_told(self) -> None:
        """By name, beside what states ON."""
        self.write("db.mm", f"{GIVING}three $p |- ( p -> ( q -> p ) ) $= {BY_TWO} $.\n")
        said = self.query("frees", "db.mm", "ax-x", "--plan=1", "--keep=one").err
        self.assertIn("; a proof of two without ax-x would prove ax-x, and --keep-wrappers", said)
        said = self.query("frees", "db.mm", "ax-x").err
        words = "three states what ax-x states but for the variables; a proof of one or two without"
        self.assertIn(f": {words} ax-x would prove ax-x, and --keep-wrappers", said)
        done = self.query("frees", "db.mm", "ax-x", "--keep-wrappers")
        self.assertEqual(done.err.splitlines()[0], "mmquery: kept as wrappers: one, two, three")

    def test_what_applies_it_directly(self) -> None:
        """Of that it isn't told that it says ON, and what says it is told apart."""
        text = "$c |- wff ( -> ) $. $v p q $. wp $f wff p $. wq $f wff q $.\n"
        text += "wi $a wff ( p -> q ) $. ax-x $a |- ( p -> q ) $.\n"
        steps = "wp wp wi wp ax-x"
        for number in range(7):
            text += f"a{number} $p |- ( ( p -> p ) -> p ) $= {steps} $.\n"
        text += "same $p |- ( q -> q ) $= wq wq ax-x $.\n"
        direct = "a0, a1, a2, a3, a4 and 2 others apply ax-x directly and so may say it in another"
        for less, of_direct in ((0, direct), (1, direct.replace("2 others", "1 other"))):
            self.write("db.mm", text.replace("a6 $p", "$( a6 $p").replace("same $p", "$) same $p"))
            if not less:
                self.write("db.mm", text)
            said = self.query("frees", "db.mm", "ax-x").err
            self.assertIn(
                f": same states what ax-x states but for the variables; {of_direct}", said
            )
            done = self.query("frees", "db.mm", "ax-x", "--keep-wrappers")
            self.assertRegex(done.err, rf"kept as wrappers: a0, a1,.*, same; {of_direct} form\n")

    def test_in_other_words(self) -> None:
        """Who reads a list is told that what is kept isn't all that says ON; once, and as text."""
        self.write("db.mm", BASE)
        for words, is_told in (
            ((), True),
            (("--plan=1",), True),
            (("--plan=1", "--keep=axac3"), True),
            (("--format=csv",), False),
            (("--plan=1", "--format=json"), False),
            (("zorn",), False),
            (("--plan=1", "--not=*"), False),
            (("--not=*",), False),
            (("--keep=axac3,zorn",), False),
        ):
            done = self.query("frees", "db.mm", "ax-ac2", *words)
            self.assertEqual(done.err.count(IN_OTHER_WORDS), is_told, words)
        self.write("report", self.report("db.mm", "--report=citations"))
        self.assertIn(
            IN_OTHER_WORDS, self.query("frees", "report", "ax-ac2").err.replace("db.mm", "")
        )

    def test_other_hypotheses_or_typecodes(self) -> None:
        """A theorem with another hypothesis, or another typecode of a variable, isn't the same."""
        more = "ax-x $a |- ( p -> p ) $.\nx1 $p |- ( q -> q ) $= wq ax-x $.\n"
        more += "${ x2.1 $e |- p $. x2 $p |- ( p -> p ) $= wp wp wp wi x1 wp x1 ax-mp $. $}\n"
        text = BASE.replace("2p2e4 $p", more + "2p2e4 $p")
        text = text.replace(
            "wp wp wp wi x1 wp x1 ax-mp", "wp wp wi wp wp wi wp x1 wp wp wi x1 ax-mp"
        )
        path = str(self.folder / self.write("db.mm", text))
        self.assertEqual(self.labels(path, "ax-x"), ["x1"])

    def test_it_is_as_keeping_them(self) -> None:
        for seed in range(8):
            database = invented(random.Random(seed))
            path = str(self.folder / self.write("db.mm", database.text))
            for on in database.axioms:
                kept = self.labels(path, on)
                keep = [f"--keep={label}" for label in kept]
                self.assertEqual(
                    asked("frees", path, "--keep-wrappers", "--", on),
                    asked("frees", path, *keep, "--", on),
                )

    @unittest.skipUnless((DATABASES / "set.mm").exists(), "set.mm isn't installed")
    def test_set(self) -> None:
        database = Database.opened(str(DATABASES / "set.mm"), Options(), False)
        graph, text = database.graph(), database.text
        for on, wanted in {
            "ax-13": "ax13v axc9lem1 nfeqf2 nfeqf1 dveeq1 nfeqf axc9 ax13 wl-ax13v".split(),
            "ax-reg": ["axreg2", "axregnd", "zfcndreg"],
            "ax-pow": ["zfpow", "axpow2", "zfcndpow", "bj-zfpow"],
            "ax-inf2": ["zfinf2"],
            "ax-ac2": ["axac3"],
            "ax-12": ["ax12v", "wl-ax12v", "wl-ax12"],
        }.items():
            found = wrappers(graph, text, graph.node(on))
            self.assertEqual([graph.labels[node] for node in found], wanted, on)

    @unittest.skipUnless((DATABASES / "iset.mm").exists(), "iset.mm isn't installed")
    def test_iset(self) -> None:
        """`elirr` says less than ax-setind, which it applies directly."""
        done = self.query("frees", str(DATABASES / "iset.mm"), "ax-setind", "--plan=3")
        self.assertIn("elirr, en2lp and tfi apply ax-setind directly and so may say it", done.err)
        self.assertNotIn("only say", done.err)


if __name__ == "__main__":
    unittest.main()
