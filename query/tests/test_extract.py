"""`extract`: what is in the part, by hand and by trying everything, and that it is a database."""

import random
import re
import unittest
from collections import Counter

from query.tests.world import DATABASES, World, database_text, invented
from query.texts.text import Text
from tests.shared import metamath

DATABASE = """
$( Nobody needs # and s. $) $c wff |- ( -> ) & # $.
$v p q r $. $v s $.
wp $f wff p $. wq $f wff q $. wr $f wff r $. ws $f wff s $.
$(
#*#*
  A header
#*#*
$)
$( Implication. $)
wi $a wff ( p -> q ) $.
wa $a wff ( p & q ) $.
${ $d p q s $. idle $e |- r $. ax-idle $a |- ( r -> # ) $. $}
${
  ${ $d p r s $. $d p s $.
  min $e |- p $. maj $e |- ( p -> q ) $.
  $( Modus ponens. $)
  ax-mp $a |- q $.
  late $e |- s $.
  $}
  behind $e |- q $.
$}
open $p |- ( p -> q ) $= ? $.
${ h $e |- p $.
   $( The first. $)
   first $p |- q $= wp wq h wp
      wq open $( a remark $) ax-mp $. $}
${ g $e |- p $. second $p |- ( q -> q ) $= ( wr wi first wa ) ABBECF $. $}
ABBECF $a |- # $.
"""
# By its proof `second` needs `wr` and `wa` too, for which no letter stands, but not ABBECF.
PART = """\
$c wff |- ( -> ) & $.
$v p q r $.
wp $f wff p $.
wq $f wff q $.
wr $f wff r $.
$( Implication. $)
wi $a wff ( p -> q ) $.
wa $a wff ( p & q ) $.
${
  ${
    $d p r $.
    min $e |- p $.
    maj $e |- ( p -> q ) $.
    $( Modus ponens. $)
    ax-mp $a |- q $.
  $}
$}
open $p |- ( p -> q ) $= ? $.
${
  h $e |- p $.
  $( The first. $)
  first $p |- q $= wp wq h wp
      wq open $( a remark $) ax-mp $.
$}
${
  g $e |- p $.
  second $p |- ( q -> q ) $= ( wr wi first wa ) ABBECF $.
$}
"""
DEBIAN = ("demo0.mm", "peano.mm", "hol.mm", "ql.mm", "nf.mm", "iset.mm", "set.mm")
SAMPLE = 3
"""So many theorems of each database of Debian are taken out."""


def said(text: Text) -> dict[str, list[list[str]]]:
    """What the program tells of each assertion, by labels: hypotheses and formula, then dummy
    variables and pairs. These are told in the order in which variables are declared, and where one
    is declared several times, it may be another one in a part."""
    found = {}
    for one in text.assertions:
        parts = [part.split(" ") for part in one.said.split(" $")]
        unordered = sorted(sorted(part) for part in parts if part[0] in ("d", "v"))
        ordered = [part for part in parts if part[0] not in ("d", "v")]
        found[one.label] = [[one.letter], *ordered, *unordered]
    return found


def told(name: str, part: str) -> str:
    """What standard error says of a part: how many theorems and axioms it has."""
    kinds = Counter(one.kind for one in database_text(part.encode()).assertions)
    numbers = [f"{kinds[kind]} {what}" for kind, what in (("p", "theorem"), ("a", "axiom"))]
    words = [each if each.startswith("1 ") else f"{each}s" for each in numbers]
    return f"mmquery: {name}: the part has {' and '.join(words)}\n"


class Small(World):
    """Small databases."""

    def part(self, name: str, *words: str) -> str:
        """What is written."""
        done = self.query("extract", name, *words)
        self.assertEqual((done.status, done.err), (0, told(name, done.out)), done)
        return done.out

    def test_by_hand(self) -> None:
        self.write("some.mm", DATABASE)
        self.assertEqual(self.part("some.mm", "second"), PART)
        self.assertEqual(self.part("some.mm", "second", "wi", "second", "first"), PART)
        alone = "$c |- ( -> ) wff $.\n$v p q $.\nwp $f wff p $.\nwq $f wff q $.\n"
        alone += "open $p |- ( p -> q ) $= ? $.\n"
        words = sorted(alone.split())
        self.assertEqual(sorted(self.part("some.mm", "open").split()), words)
        self.assertEqual(self.part("some.mm", "ABBECF"), "$c |- # $.\nABBECF $a |- # $.\n")
        for label, said in (
            ("ABBECF", "0 theorems and 1 axiom"),
            ("open", "1 theorem and 0 axioms"),
        ):
            err = self.query("extract", "some.mm", label).err
            self.assertEqual(err, f"mmquery: some.mm: the part has {said}\n")

    def test_what_has_no_answer(self) -> None:
        self.write("some.mm", DATABASE)
        self.refuses("extract", "some.mm", why="at least one LABEL")
        self.refuses("extract", "some.mm", "wp", why="has no assertion 'wp'")
        self.refuses("extract", "some.mm", "wff", why="it is a symbol")
        self.write("wrong.mm", DATABASE.replace("ABBECF $. $}", "ABBEDF $. $}"))
        self.refuses("extract", "wrong.mm", "open", why="refused E")
        self.write("report", self.report("some.mm", "--open"))
        self.refuses("extract", "report", "open", why="report")

    def test_long_lines_and_deep_blocks(self) -> None:
        symbols = [f"symbol-{number}-" * 3 for number in range(50)]
        count = 3000
        text = f"$c {' '.join(symbols)} $.\n" + "${ " * count
        text += f"ax $a {' '.join(symbols)} $." + " $}" * count
        self.write("some.mm", text)
        part = self.part("some.mm", "ax")
        self.assertEqual(part.split(), text.split())
        declared = part[: part.index("$.")].splitlines()
        self.assertLessEqual(max(map(len, declared)), 79)

    def test_by_chance(self) -> None:
        """The part has all that a theorem rests on, and nothing else; each of these says the same
        as before; and of the part there is no smaller one."""
        chance = random.Random(8)
        for _ in range(8):
            database = invented(chance)
            self.write("some.mm", database.text)
            whole = said(database_text(database.text.encode()))
            for theorem in chance.sample(database.theorems(), 2):
                part = self.part("some.mm", theorem)
                found = said(database_text(part.encode()))
                self.assertEqual({*found}, {theorem} | database.rests(theorem))
                self.assertEqual(found, {label: whole[label] for label in found})
                self.write("part.mm", part)
                self.assertEqual(self.part("part.mm", theorem), part)

    def test_symbols(self) -> None:
        """Each symbol that is declared stands elsewhere too."""
        self.write("some.mm", DATABASE)
        for label in ("second", "first", "open", "ax-mp", "ax-idle", "wa"):
            part = self.part("some.mm", label)
            for declaration in re.findall(r"\$[cv] (.*?) \$\.", part):
                for symbol in declaration.split():
                    self.assertGreater(part.split().count(symbol), 1, (label, symbol))


@unittest.skipUnless(DATABASES.is_dir(), "Debian's databases aren't there")
class OfDebian(World):
    """Theorems of real databases, which metamath.exe verifies too."""

    def test_samples(self) -> None:
        chance = random.Random(10)
        for name in DEBIAN:
            text = database_text((DATABASES / name).read_bytes())
            theorems = [one.label for one in text.assertions if one.letter == "p"]
            for label in chance.sample(theorems, min(SAMPLE, len(theorems))):
                done = self.query("extract", str(DATABASES / name), label)
                said_of = told(str(DATABASES / name), done.out)
                self.assertEqual((done.status, done.err), (0, said_of), f"{name} {label}")
                whole, found = said(text), said(database_text(done.out.encode()))
                self.assertEqual(found, {each: whole[each] for each in found}, f"{name} {label}")
                self.assertIn(label, found)
                self.write("part.mm", done.out)
                (answer,) = metamath.asked(self.folder / "part.mm", ["verify proof *"])
                self.assertNotIn("?", answer, f"{name} {label}")
                self.assertIn("All proofs in the database", answer, f"{name} {label}")


if __name__ == "__main__":
    unittest.main()
