"""The reader of what stands between assertions, and the lines by which these are told."""

import random
import re
import unittest

from query.proofs.text_before import TextBefore
from query.tests.world import DATABASES, World, database_text, invented
from query.texts.assertions import Damaged, assertions_of
from query.texts.text import Text
from query.texts.uncommented import declared_at, proof_of, without_comments

SMALL = b"""$( $t htmldef "p" as "P"; /* a ; in a remark */ $)
$( A stray comment. $)
$c |- wff set ( ) -> $.  $v p q x y z $.
wp $f wff p $. wq $f wff q $. vx $f set x $. vy $f set y $. vz $f set z $.
$(
####
  THE  PART
####
  Below the part.
$)
$(
#*#*
  Chapter
#*#*
$)
$( $j syntax 'wff'; $)
wi $a wff ( p -> q ) $.
$(
=-=-
  Mathbox for Ann
=-=-
$)
ax $a |- ( p -> x ) $.
${
  $d x y z $. $d p x y $. $d q z $.
  first.e $e |- $(
####
  No header, since it stands within a statement
####
$) p $.
  $( Whole
     comment of ~ first . $) $( $j in between $)
  first $( inner $) $p |- ( $( in the formula $) p -> x ) $= ( vy $( ) $) ax ) ABE $.
  $( Gone with the next statement. $)
  $d p q $.
  second $p |- q $= ? $.
$}
$( Gone with the heading. $)
$(
#*#*
  Next
#*#*
$)
third $p |- x $= ( ) ? $. $( The last one. $) fourth $a |- x $.
"""


class Reader(World):
    """What is read of a small text."""

    def setUp(self) -> None:
        super().setUp()
        self.text = database_text(SMALL)

    def test_statements(self) -> None:
        found = [(one.label, one.kind, one.is_open, one.formula) for one in self.text.assertions]
        self.assertEqual(
            found,
            [
                ("wi", "a", False, "wff ( p -> q )"),
                ("ax", "a", False, "|- ( p -> x )"),
                ("first", "p", False, "|- ( p -> x )"),
                ("second", "p", True, "|- q"),
                ("third", "p", True, "|- x"),
                ("fourth", "a", False, "|- x"),
            ],
        )
        self.assertEqual(self.text.assertions[0].typecode, "wff")

    def test_places(self) -> None:
        for one in self.text.assertions:
            self.assertTrue(SMALL[one.place :].startswith(one.label.encode() + b" "))
            self.assertTrue(SMALL[: one.end].endswith(b" $."))
            self.assertEqual(self.text.line(one.place), SMALL[: one.place].count(b"\n") + 1)
        for ending, place in enumerate(i for i, byte in enumerate(SMALL) if byte == 10):
            self.assertEqual(self.text.line(place), ending + 1)
            self.assertEqual(self.text.line(place + 1), ending + 2)

    def test_frames(self) -> None:
        frames = {one.label: one.frame() for one in self.text.assertions}
        self.assertEqual(
            frames["first"].hypotheses(),
            [("f", "wp", "wff p"), ("f", "vx", "set x"), ("e", "first.e", "|- p")],
        )
        self.assertEqual(frames["fourth"].hypotheses(), [("f", "vx", "set x")])
        pairs = {label: list(frame.pairs()) for label, frame in frames.items()}
        self.assertEqual(pairs.pop("first"), [("p", "x")])
        self.assertEqual(pairs.pop("second"), [("p", "q")])
        self.assertEqual({*map(len, pairs.values())}, {0})

    def test_comments(self) -> None:
        found = {one.label: self.text.comment(one) for one in self.text.assertions}
        self.assertIn("Whole\n     comment", found["first"])
        self.assertEqual(found["fourth"], " The last one. ")
        for label in ("wi", "ax", "second", "third"):
            self.assertEqual(found[label], "", label)

    def test_a_comment_behind_much_white_space(self) -> None:
        for size in (0, 1, 63, 64, 65, 1000):
            text = database_text(
                b"$c a $." + b" " * size + b" $( x $) " + b"\n" * size + b"b $a a $."
            )
            self.assertEqual(text.comment(text.assertions[0]), " x ")
            text = database_text(b"$c a $." + b" " * size + b"\nb $a a $.")
            self.assertEqual(text.comment(text.assertions[0]), "")

    def test_headers(self) -> None:
        found = [(one.number, one.title, one.first, one.end) for one in self.text.headers]
        self.assertEqual(
            found,
            [
                ("1", "THE PART", 0, 6),
                ("1.1", "Chapter", 0, 4),
                ("1.1.1", "Mathbox for Ann", 1, 4),
                ("1.2", "Next", 4, 6),
            ],
        )
        boxes = [self.text.mathbox(one) for one in self.text.assertions]
        self.assertEqual(boxes, [None, "Ann", "Ann", "Ann", None, None])
        self.assertEqual(list(map(self.text.header, self.text.assertions)), [1, 2, 2, 2, 3, 3])

    def test_headers_within_statements(self) -> None:
        heading = "$(\n####\n  {}\n####\n$) "
        one, two, three = (heading.format(word) for word in ("one", "two", "three"))
        for text, titles in (
            (f"{one}$c a $. {two}b $a a $. {three}", ["one", "two", "three"]),
            (f"$c {one}{two}a $. {three}b $a a $.", ["three"]),
            (f"$c a {one}$. ${{ {two}$}} b {three}$a a $.", ["two"]),
            (f"$c a $. b $a {one}a $. c {two}$a a $. {three}$( x $)", ["three"]),
            (f"$c a $. $( x $) {one}$( y $) {two}$c {three}b $. c $a a $.", ["one", "two"]),
        ):
            self.assertEqual(
                [each.title for each in database_text(text.encode()).headers], titles, text
            )

    def test_proofs(self) -> None:
        found = {one.label: self.text.proof(one) for one in self.text.assertions}
        self.assertEqual(found["first"], ["(", "vy", "ax", ")", "ABE"])
        self.assertEqual((found["second"], found["third"]), (["?"], ["(", ")", "?"]))
        self.assertEqual(found["wi"], [])

    def test_without_comments(self) -> None:
        text = without_comments(SMALL)
        self.assertEqual(len(text), len(SMALL))
        self.assertEqual(re.findall(rb"\$[()]|stray|inner", text), [])
        start, end = proof_of(text, "first") or (0, 0)
        self.assertEqual(SMALL[start:end], b" ( vy $( ) $) ax ) ABE ")
        outline = TextBefore(text, [start], {b"ax"})
        self.assertEqual(outline.floating["vy"], ["set", "y"])
        self.assertEqual([one.label for one in outline.theorems], ["first"])
        for label in ("wp", "first.e", "first", "fourth"):
            place = declared_at(text, label)
            self.assertIsNotNone(place)
            self.assertTrue(SMALL[place:].startswith(label.encode() + b" "))
        for label in ("p", "irst", "e", "x", "->", "None", "\u2192"):
            self.assertIsNone(declared_at(text, label), label)
        self.assertIsNone(proof_of(text, "wi"))
        self.assertNotIn("first.e", outline.floating)
        self.assertEqual(without_comments(b"a $( $( b"), b"a " + b" " * 7)


class Lines(World):
    """The lines themselves, and damaged ones."""

    LINE = "t:p:9:30: $f wp wff p $e t.1 |- p $d p q $v x y $d p x $p |- p\n"
    DATA = b"$c |- $. t $p |- p $= ( ) $. ${ $}"

    def test_databases(self) -> None:
        chance = random.Random(8)
        texts = [b"", b"$c a $.", b"$c a $. a1 $a a $.", b"${ $}", b"$( $t x $)", SMALL]
        texts += [invented(chance).text.encode() for _ in range(20)]
        texts += [path.read_bytes() for path in sorted(DATABASES.glob("*.mm"))]
        for data in texts:
            self.agree(database_text(data))

    def agree(self, text: Text) -> None:
        """What the lines tell stands in the text, where they say that it does."""
        for one in text.assertions:
            words = without_comments(text.data[one.place : one.end]).decode("latin-1").split()
            formula = words[2 : words.index("$=")] if "$=" in words else words[2:-1]
            self.assertEqual([one.label, f"${one.kind}", "$."], words[:2] + words[-1:])
            self.assertEqual(one.formula, " ".join(formula))
            one.frame()

    def test_what_a_line_says(self) -> None:
        (one,) = assertions_of(self.LINE.encode(), self.DATA)
        self.assertEqual((one.label, one.kind, one.is_open), ("t", "p", False))
        self.assertEqual((one.formula, one.typecode), ("|- p", "|-"))
        hypotheses = [("f", "wp", "wff p"), ("e", "t.1", "|- p")]
        self.assertEqual(one.frame().hypotheses(), hypotheses)
        self.assertEqual(list(one.frame().pairs()), [("p", "q")])

    def test_damaged_fronts(self) -> None:
        for line in (
            "t:p:9:30:",
            "t:q:9:30: $p |- p\n",
            "t:p:9:30\n",
            ":p:9:30: $p |- p\n",
            "t u:p:9:30: $p |- p\n",
            "t:p:09:30: $p |- p\n",
            "t:p:+9:30: $p |- p\n",
            "t:p:9:3_0: $p |- p\n",
            "t:p:9:\u0663: $p |- p\n",
            "t:p:8:30: $p |- p\n",
            "t:p:9:9: $p |- p\n",
            "t:p:9:35: $p |- p\n",
            self.LINE + "t:p:9:30: $p |- p\n",
            self.LINE + "\n",
            "\n" + self.LINE,
            self.LINE[:-1],
        ):
            with self.assertRaises(Damaged, msg=line):
                assertions_of(line.encode(), self.DATA)

    def test_damaged_lines(self) -> None:
        said = self.LINE[9:-1]
        for old, new in (
            ("$f wp wff p", "$f wp wff"),
            ("$f wp wff p", "$f wp wff p q"),
            ("$e t.1 |- p", "$e t.1"),
            ("$d p q", "$d p"),
            ("$d p q", "$d p q r"),
            ("$v x y", "$v"),
            ("$v x y", "$w x y"),
            ("$p |- p", "$p"),
            ("$p |- p", "$p "),
            (" $p |- p", ""),
            ("$p |- p", "$p |-  p"),
            ("$f", "f"),
            (" $f", "$f"),
            ("$e t.1", "$d a b $e t.1"),
            ("p q", "p \u00e9"),
        ):
            self.assertIn(old, said)
            line = self.LINE[:9] + said.replace(old, new, 1) + "\n"
            with self.assertRaises(Damaged, msg=line):
                (one,) = assertions_of(line.encode(), self.DATA)
                self.assertEqual((one.frame(), one.formula), ())


if __name__ == "__main__":
    unittest.main()
