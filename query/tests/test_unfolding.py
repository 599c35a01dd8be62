"""`definitions --expand` and `--without`: what is unfolded, by hand; and databases without one of
their definitions, which the program and metamath.exe verify."""

import os
import shutil
import unittest
from unittest import mock

from query.tests.test_definitions import LOGIC
from query.tests.unsound import BASE
from query.tests.world import DATABASES, World, answered, built_program
from tests.shared import metamath

NOT = """$c -. Or Some $.
wn $a wff -. ph $. df-n $a |- ( -. ph <-> ( ph -> F. ) ) $.
wo $a wff ( ph Or ps ) $. df-o $a |- ( ( ph Or ps ) <-> ( -. ph -> ps ) ) $.
ws $a wff Some x ph $. df-s $a |- ( Some x ph <-> -. A. x -. ph ) $.
nb $p |- ( -. -. ph <-> ( -. ph -> F. ) ) $= wph wn df-n $.
ob $p |- ( ( ps Or ph ) <-> ( -. ps -> ph ) ) $= ( df-o ) BAC $.
${ h $e |- ( ph Or -. ps ) $.
c $p |- ( -. ph -> -. ps ) $= ( wn wo wi df-o mpbi ) ABDZEADIFCAIGH $. $}
last $a |- ( Some x ( ph Or ps ) -> Some x ph ) $.
"""
BOTH = BASE + NOT


class Expanded(World):
    """What a statement says in primitive forms."""

    def expanded(self, text: str, label: str) -> list[str]:
        """The lines that are written."""
        self.write("db.mm", text)
        return self.query("definitions", "db.mm", "--expand", label).lines()

    def test_by_hand(self) -> None:
        self.assertEqual(
            self.expanded(BOTH, "nb"), ["|- ( ( ( ph -> F. ) -> F. ) <-> ( ( ph -> F. ) -> F. ) )"]
        )
        self.assertEqual(
            self.expanded(BOTH, "c"),
            ["|- ( ( ph -> F. ) -> ( ps -> F. ) )", "|- ( ( ph -> F. ) -> ( ps -> F. ) )"],
        )
        some = "( A. x ( {} -> F. ) -> F. )"
        self.assertEqual(
            self.expanded(BOTH, "last"),
            [f"|- ( {some.format('( ( ph -> F. ) -> ps )')} -> {some.format('ph')} )"],
        )
        self.assertEqual(self.expanded(BOTH, "wo"), ["wff ( ( ph -> F. ) -> ps )"])

    def test_dummies_get_names(self) -> None:
        """Each time others, and such as nothing has."""
        self.assertEqual(
            self.expanded(LOGIC, "df-ss"),
            ["|- ( A. x_1 ( x_1 e. A -> x_1 e. B ) <-> A. x ( x e. A -> x e. B ) )"],
        )
        text = (
            LOGIC + "$v x_1 $. v1 $f setvar x_1 $. a $a |- ( A C_ B -> ( x_1 = A -> B C_ A ) ) $."
        )
        (line,) = self.expanded(text, "a")
        self.assertIn("( x_1 = A -> A. x_2 ( x_2 e. B -> x_2 e. A ) )", line)
        self.assertTrue(line.startswith("|- ( A. x_1_ ( x_1_ e. A"))

    def test_a_long_one(self) -> None:
        """Which has 2^40 symbols."""
        doubled = "".join(
            f"$c F{n} $. f{n} $a wff F{n} $. "
            f"df-{n} $a |- ( F{n} <-> ( F{n - 1} -> F{n - 1} ) ) $.\n"
            for n in range(1, 41)
        ).replace("F0", "F.")
        self.write("db.mm", BASE + doubled)
        why = "unfolded, it would be too long"
        self.refuses("definitions", "db.mm", "--expand", "df-40", why=why)
        self.refuses("definitions", "db.mm", "--expand", "none", why="has no assertion 'none'")

    def test_it_says_how_far_it_is(self) -> None:
        """Each time that so many symbols and parts are done, and not before."""
        path = str(self.folder / self.write("db.mm", BOTH))
        for stretch, is_told in ((5, True), (10_000, False)):
            said: list[str] = []
            with (
                mock.patch.dict(os.environ, {"MMDEPEND": built_program()}),
                mock.patch("query.definitions.unfolding.STRETCH", stretch),
                mock.patch("query.platform.progress.now", said.append),
            ):
                answered("text", "definitions", path, "--expand", "last")
            told = [each for each in said if each.startswith("unfolding, ")]
            self.assertEqual(bool(told), is_told, said)
            done = [int(each.split()[1]) for each in told]
            self.assertTrue(all(two >= one + stretch for one, two in zip([0, *done], done)))

    def test_only_sound_ones(self) -> None:
        text = BASE + "$c Foo $. cfoo $a class Foo $. df-foo $a |- Foo = x $.\n"
        self.assertEqual(self.expanded(text, "df-foo"), ["|- Foo = x"])


class Gone(World):
    """Databases without a definition."""

    def without(self, text: str, label: str) -> str:
        """The new database, which is valid, and in which nothing rests on the definition."""
        self.write("db.mm", text)
        done = self.query("definitions", "db.mm", "--without", label)
        self.assertEqual((done.status, done.err), (0, ""))
        path = self.folder / self.write("new.mm", done.out)
        self.assertEqual(self.query("verify", "new.mm").status, 0)
        if shutil.which("metamath"):
            (said,) = metamath.asked(path, ["verify proof *"])
            self.assertIn("All proofs in the database were verified", said)
            self.assertNotRegex(said, r"\?(Error|Warning)")
        return done.out

    def test_one_after_the_other(self) -> None:
        """In each order; nothing is left of them, and what is proved is what is unfolded."""
        for order in (("df-n", "df-o", "df-s"), ("df-s", "df-o", "df-n"), ("df-o", "df-n", "df-s")):
            text = BOTH
            for label in order:
                text = self.without(text, label)
                self.assertNotIn(label, text)
            self.write("whole.mm", BOTH)
            for label in ("nb", "ob", "c", "last"):
                wanted = self.query("definitions", "whole.mm", "--expand", label).out
                self.write("all.mm", text + "$c Q $. wq $a wff Q $. df-q $a |- ( Q <-> F. ) $.\n")
                self.assertEqual(self.query("definitions", "all.mm", "--expand", label).out, wanted)

    def test_what_stops_it(self) -> None:
        lack = "$c Foo $. wfoo $a wff Foo x $. df-foo $a |- ( Foo x <-> F. ) $.\n"
        early = "$c Foo $. wfoo $a wff Foo $. df-foo $a |- ( Foo <-> F. ) $.\n"
        early += "bad $p |- ( Foo <-> F. ) $= df-foo $.\n"
        for text, label, why in (
            (LOGIC, "df-ss", "df-ss has dummies (x), whose names would have to change"),
            (BASE + lack, "df-foo", "the right side of df-foo lacks x"),
            (BASE + lack.replace("F. ) $.", "y = y ) $."), "df-foo", "df-foo is `no`"),
            (BASE, "biid", "biid is no definition"),
            (
                BASE.replace("biid $a", early + "biid $a"),
                "df-foo",
                "bad stands before biid and cites df-foo",
            ),
        ):
            self.write("db.mm", text)
            self.refuses("definitions", "db.mm", "--without", label, why=why)

    @unittest.skipUnless((DATABASES / "iset.mm").exists(), "there is no iset.mm")
    def test_iset(self) -> None:
        """Ten of iset.mm."""
        text = (DATABASES / "iset.mm").read_text("latin-1")
        for label in (
            *("df-stab", "df-xor", "df-nf", "df-ne", "df-ral"),
            *("df-ss", "df-nul", "df-tp", "df-fun", "df-2"),
        ):
            new = self.without(text, label)
            self.assertNotIn(f"\n    {label} $a", new)
            rests = self.query("rests", "new.mm", "2p2e4").lines()
            self.assertNotIn(label, rests)

    @unittest.skipUnless((DATABASES / "ql.mm").exists(), "there is no ql.mm")
    def test_ql(self) -> None:
        """Those of ql.mm without a dummy. Its formulas have no equality, and those of terms have
        all that is needed."""
        text = (DATABASES / "ql.mm").read_text("latin-1")
        self.write("ql.mm", text)
        rows = self.query("definitions", "ql.mm", "--format=json").rows()
        sound = [str(row["definition"]) for row in rows if row["sound"] == "yes"]
        self.assertEqual(len(sound), 24)
        sound.remove("df-t")
        for label in sound:
            self.without(text, label)
            self.refuses("definitions", "new.mm", label, why=f"has no assertion '{label}'")
