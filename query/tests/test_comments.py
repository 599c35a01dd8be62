"""`comments` beside `verify markup` of metamath.exe, and `obsolete`."""

import random
import re
import shutil
import unittest
from datetime import date
from unittest import mock

from query.commands import comments
from query.tests.world import DATABASES, World
from query.texts.obsolete import obsolete
from query.texts.uncommented import without_comments
from tests.shared import metamath

HEAD = """$c wff |- ( -> ) $.
$v p q $.
wp $f wff p $.
wq $f wff q $.
"""
SYMBOLS = ("wff", "|-", "(", "->", ")", "p", "q")
DEFINED = "$( $t\n" + "".join(
    f'{kind} "{symbol}" as "{symbol}";\n'
    for kind in ("htmldef", "althtmldef", "latexdef")
    for symbol in SYMBOLS
)
SHOWN = DEFINED + 'htmltitle "x"; htmlhome "x"; exthtmltitle "x"; exthtmlhome "x"; $)\n'
WORDS = (
    *("~ wi", "~ a1", "~ a2", "~ gone", "~ wp", "~ h", "~gone2", "(~ gone3 )", "~ wi, or"),
    *("~~ none", "` p `", "` ( p -> q ) `", "``", "~\ngone4", "~ http://a.b/c", "~ https://a.b"),
    *("~ mmset.html", "~ mmpage", "~ other.html", "some words", "~ gone-5.x", "a~ gone6"),
)
LINE = "#*" * 39 + "#"
NOT_A_LABEL = re.compile(
    r'The label token "(\S+)" \(referenced in comment of statement "(\S+)"\) is not a \$a or \$p'
    r" statement label\."
)
Named = tuple[str, str, str]
"""A label, the kind of the comment, and the statement."""


class Comments(World):
    """Labels in comments that no statement has."""

    def rows(self, *words: str) -> list[dict[str, object]]:
        """The rows of an answer."""
        done = self.query("comments", "--format=json", *words)
        self.assertEqual(done.status, 0, done)
        return done.rows()

    def comment(self, chance: random.Random) -> str:
        """A comment."""
        said = " ".join(chance.choice(WORDS) for _ in range(chance.randrange(1, 9)))
        return f"$( {said} . (Contributed by NM, 5-Aug-1993.) $)\n"

    def piece(self, chance: random.Random) -> str:
        """A comment or a header, or nothing."""
        kind = chance.randrange(4)
        return "" if kind == 0 else header(chance) if kind == 1 else self.comment(chance)

    def database(self, chance: random.Random) -> str:
        """A database with comments before, in and between its statements."""

        def some() -> str:
            return "".join(self.piece(chance) for _ in range(chance.randrange(3)))

        between = self.comment(chance) if chance.randrange(2) else ""
        statements = (
            "wi $a wff ( p -> q ) $.\n",
            f"${{\n  {some()}h $e |- p $.\n{some()}a1 {between}$a |- q $.\n$}}\n",
            "a2 $a |- ( p -> p ) $.\n",
        )
        return HEAD + "".join(some() + each for each in statements) + some() + SHOWN

    @unittest.skipUnless(shutil.which("metamath"), "metamath isn't installed")
    def test_beside_metamath(self) -> None:
        count = 0
        kinds = set()
        for seed in range(25):
            self.write("db.mm", self.database(random.Random(seed)))
            (said,) = metamath.asked(
                self.folder / "db.mm", ["verify markup * /file_skip /date_skip"]
            )
            parts = zip(("statement", "header"), said.split("Checking section header comments"))
            wanted = {
                (label, kind, statement)
                for kind, part in parts
                for label, statement in NOT_A_LABEL.findall(" ".join(part.split()))
            }
            rows = self.rows("db.mm")
            told = {
                (str(row["label"]), str(row["in"]), str(row["statement"]))
                for row in rows
                if row["in"] != "other"
            }
            described = [
                {each for each in some if each[1] == "statement"} for some in (told, wanted)
            ]
            self.assertEqual(described[0], described[1], seed)
            # It reads a header right before a statement as both, and of several the last ones.
            pairs = {(label, statement) for label, _, statement in told}
            self.assertLessEqual({(label, statement) for label, _, statement in wanted}, pairs)
            count += len(wanted)
            kinds |= {kind for _, kind, _ in wanted}
        self.assertGreater(count, 50)
        self.assertEqual(kinds, {"header", "statement"})

    def test_small(self) -> None:
        text = HEAD + "$( See ~ wp\n and ~ gone and ~ wi . $)\nwi $a wff ( p -> q ) $.\n"
        text += "$( An old ~ gone2 and A ~P B and ~ p, . $)\n$( $j usage 'a' avoids 'b ~ c'; $)\n"
        text += "$( Last ~ wi . $)\na2 $a |- p $.\n$( At the end ~ gone3 $)\n"
        self.write("db.mm", text)
        rows = [[*row.values()] for row in self.rows("db.mm")]
        wanted = [
            ["wp", 5, "statement", "hypothesis", "wi"],
            ["gone", 6, "statement", None, "wi"],
            ["gone2", 8, "other", None, "a2"],
            ["gone3", 12, "other", None, "a2"],
        ]
        self.assertEqual(rows, wanted)
        rows = [[*row.values()] for row in self.rows("db.mm", "--like", "wi")]
        self.assertEqual(rows, wanted[:2])
        spaced = HEAD.replace("wq $f", f"wq {' ' * 2000}$f") + "$( See ~ wq . $)\n"
        self.write("db.mm", spaced + "wi $a wff ( p -> q ) $.\n")
        self.assertEqual([row["label"] for row in self.rows("db.mm")], ["wq"])
        self.write("db.mm", HEAD + "$( See ~ wi . $)\nwi $a wff ( p -> q ) $.\n")
        done = self.query("comments", "db.mm")
        self.assertEqual((done.status, done.out), (0, ""))
        self.assertIn("no comment names a label that no axiom and no theorem has", done.err)
        self.write("db.mm", "$( ~ x $)\n")
        self.refuses("comments", "db.mm", why="neither axioms nor theorems")
        self.write("report", self.report("db.mm"))
        self.refuses("comments", "report", why="a report, where the database is wanted")

    @unittest.skipUnless((DATABASES / "set.mm").exists(), "Debian's databases aren't installed")
    def test_set(self) -> None:
        """metamath.exe tells of none in Debian's set.mm. In other comments there are some, and in
        the header before all others, which has the list of labels that were changed."""
        rows = self.rows(str(DATABASES / "set.mm"))
        self.assertEqual({row["in"] for row in rows}, {"other", "header"})
        self.assertIn("mreclat", {row["label"] for row in rows if row["in"] == "other"})
        lines = [int(str(row["line"])) for row in rows if row["in"] == "header"]
        self.assertLess(max(lines), 12_000)


def header(chance: random.Random) -> str:
    """A header, with a text below its title."""
    said = " ".join(chance.choice(WORDS) for _ in range(chance.randrange(5)))
    return f"$(\n{LINE}\n  A title\n{LINE}\n\n {said}\n$)\n"


OLD = """$( Other. $)
a $a |- p $.
$( Obsolete version of ~ a as of 7-Jul-2020.  (Contributed by NM, 5-Aug-1993.) $)
aOLD $p |- p $= wp a $.
$( Words.  Obsolete as of
   29-Feb-2020.  Use ~ a instead. $)
b $p |- p $= wp aOLD $.
$( Nothing is said. $)
cOLD $p |- p $= wp aOLD $.
"""
SAID = (
    ("Obsolete version of ~ xorass as of 20-Jun-2020. ", "xorass", "2020-06-20"),
    ("Lemma. Obsolete as of 1-Jan-2020. Obsolete because of ~ b .", None, "2020-01-01"),
    ("Obsolete version of ~ elop , with one hypothesis. Obsolete as of 25-Dec-2020 .", "elop", 1),
    ("Obsolete as of 20-Aug-2018. Use ~ csbfv12 instead.", "csbfv12", "2018-08-20"),
    ("Obsolete proof of ~ 19.29r as 12-Nov-2020. ", "19.29r", "2020-11-12"),
    ("Obsolete proof of ~ a as of 31-Feb-2020.", "a", None),
    ("Obsolete proof of ~ a . It was so as of 1-Feb-2020.", "a", None),
    ("See the version of ~ a as of 1-Feb-2020.", None, None),
)


class Obsolete(World):
    """What may be removed."""

    def rows(self, *words: str) -> list[list[str]]:
        """The rows of an answer."""
        lines = self.answers("obsolete", "--format", "tsv", *words)
        self.assertEqual(lines[0].split("\t"), ["label", "by", "since", "until", "citing"])
        return [line.split("\t") for line in lines[1:]]

    def test_small(self) -> None:
        self.write("db.mm", HEAD + OLD)
        wanted = [
            ["aOLD", "a", "2020-07-07", "2021-07-07", "2"],
            ["b", "a", "2020-02-29", "2021-03-01", "0"],
            ["cOLD", "", "", "", "0"],
        ]
        self.assertEqual(self.rows("db.mm"), wanted)
        self.assertEqual(self.rows("db.mm", "--due", "2021-07-06"), wanted[1:2])
        self.assertEqual(self.rows("db.mm", "--due", "2021"), wanted[:2])
        self.assertEqual(self.rows("db.mm", "--like", "*OLD"), [wanted[0], wanted[2]])
        self.assertEqual(self.rows("db.mm", "--due", "today"), wanted[:2])
        done = self.query("obsolete", "db.mm", "--due", "2020-12-31")
        self.assertEqual((done.status, done.out), (0, ""))
        self.assertIn("no statement may be removed on 2020-12-31", done.err)
        self.refuses("obsolete", "db.mm", "--due", "soon", why="is no year as 2014, and no day")

    def test_today(self) -> None:
        class Day(date):
            """A clock that stands still."""

            @classmethod
            def today(cls) -> "Day":
                return cls(2021, 2, 28)

        with mock.patch.object(comments, "date", Day):
            self.assertEqual(comments.day_due("today"), "2021-02-28")

    def test_what_comments_say(self) -> None:
        for said, by, since in SAID:
            wanted = (by, "2020-12-25" if since == 1 else since)
            self.assertEqual(tuple(obsolete(said.replace(" as ", "\n   as "))), wanted, said)

    def test_the_last_year(self) -> None:
        self.assertIsNone(obsolete("Obsolete as of 1-Jan-9999.").until)

    def test_long_comments(self) -> None:
        """Many sentences that say nothing take no time."""
        self.assertIsNone(obsolete("Obsolete " * 200_000).since)

    @unittest.skipUnless((DATABASES / "set.mm").exists(), "Debian's databases aren't installed")
    def test_set(self) -> None:
        """Each label that ends in OLD is listed, and what is said of some by hand."""
        data = (DATABASES / "set.mm").read_bytes()
        bare_text = without_comments(data)
        labels = re.findall(rb"\s([A-Za-z0-9._-]+OLD)\s+\$[ap]\s", bare_text)
        rows = {row[0]: row[1:] for row in self.rows(str(DATABASES / "set.mm"))}
        self.assertEqual({label.decode() for label in labels} - rows.keys(), set())
        others = {label for label in rows if not label.endswith("OLD")}
        self.assertIn("ablosn", others)
        self.assertEqual({label for label in others if not rows[label][1]}, set())
        self.assertEqual(rows["xorassOLD"][:3], ["xorass", "2020-06-20", "2021-06-20"])
        self.assertEqual(rows["ndmimaOLD"][:3], ["ndmima", "2020-07-03", "2021-07-03"])


if __name__ == "__main__":
    unittest.main()
