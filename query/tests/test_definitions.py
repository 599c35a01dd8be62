"""`definitions`: each condition broken by itself, and what is proved by that; the databases of
Debian; and the trees of formulas against all trees that there are."""

import itertools
import random
import re
import shutil
import unittest
from collections import Counter
from collections.abc import Sequence

from query.definitions.clauses import Clauses
from query.definitions.soundness import (
    CONDITIONS,
    MOST_DUMMIES,
    NO_EQUALITY,
    SHAPE,
    Definitions,
    cites_by,
)
from query.formulas.ambiguity import Comparison, GivenUp, ambiguity
from query.formulas.grammar import STEPS, STEPS_OF_SYMBOL, FormulaReader, Grammar, NotRead, Tree
from query.reports.choice import Options
from query.reports.database import Database
from query.tests.repositories import changed
from query.tests.unsound import (
    AXIOMS,
    BASE,
    DATABASES,
    IDENTITY,
    SYMBOLS,
    TERMS,
    WITHOUT_CONSTANTS,
)
from query.tests.world import DATABASES as OF_DEBIAN, TOP, World, needs_program
from tests.shared import metamath

LOGIC = (
    SYMBOLS
    + AXIOMS
    + """$c T. E. C_ Foo F/ [ / ] $.
wtru $a wff T. $.
df-tru $a |- ( T. <-> A. x x = x ) $.
wex $a wff E. x ph $.
df-ex $a |- ( E. x ph <-> ( A. x ph -> T. ) ) $.
wnf $a wff F/ x ph $.
df-nf $a |- ( F/ x ph <-> A. x ( ph -> A. x ph ) ) $.
wsb $a wff [ x / y ] ph $.
${ $d x z $. $d y z $. $d ph z $.
df-sb $a |- ( [ x / y ] ph <-> A. z ( z = x -> A. y ( y = z -> ph ) ) ) $. $}
wss $a wff A C_ B $.
${ $d x A $. $d x B $.
df-ss $a |- ( A C_ B <-> A. x ( x e. A -> x e. B ) ) $. $}
cfoo $a class Foo $.
${ $d x y $.
df-foo $a |- Foo = { x | E. y y e. x } $. $}
last $a |- Foo C_ Foo $.
"""
)
OPTIONS = Options(open=True)
SOUND = ["df-tru", "df-ex", "df-nf", "df-sb", "df-ss", "df-foo"]
FOO = "df-foo $a |- Foo = { x | E. y y e. x } $. $}"
SS = "df-ss $a |- ( A C_ B <-> A. x ( x e. A -> x e. B ) ) $. $}"
# What is changed, the definition that is found, whether it is unsound or not judged, and why.
BROKEN = (
    (
        (FOO, "df-foo $a |- ( Foo = A -> ph ) $. $}"),
        "df-foo",
        "not judged",
        "neither ( LEFT <-> RIGHT )",
    ),
    ((FOO, "df-foo $a |- A = Foo $. $}"), "df-foo", "no", "so anything equals the right one"),
    (
        (FOO, "df-foo $a |- A = { x | x e. A } $. $}"),
        "df-foo",
        "not judged",
        "its left side is a variable",
    ),
    ((FOO, "${ h $e |- ph $. " + FOO + " $}"), "df-foo", "not judged", "it has a $e"),
    ((SS, SS.replace("A C_ B <->", "A C_ A <->")), "df-ss", "no", "has a variable twice"),
    (
        (SS, SS.replace("A C_ B <->", "A C_ { x | ph } <->")),
        "df-ss",
        "no",
        "so it leaves out cases",
    ),
    ((SS, SS.replace("A C_ B <->", "A C_ y <->")), "df-ss", "no", "so it leaves out cases"),
    # What is used before, or comes first within a form, may be what it defines.
    (
        (FOO, "df-foo $a |- ( x e. Foo <-> E. y y e. x ) $. $}"),
        "df-foo",
        "not judged",
        "its left side has more than a form and variables",
    ),
    (
        (SS, f"use $a |- A C_ A $. {SS.replace('A C_ B <->', 'A C_ y <->')}"),
        "df-ss",
        "not judged",
        "its left side has more than a form and variables",
    ),
    # An equality may be defined by another one, but not by itself.
    (
        (FOO, "df-foo $a |- ( ( ph <-> ps ) <-> E. y y = y ) $. $}"),
        "df-foo",
        "no",
        "the form wb, by which it is an equation",
    ),
    # A form without variables, and two variables that aren't a side.
    (("last $a", "df-foo2 $a |- F. $. last $a"), "df-foo2", "not judged", "neither ( LEFT <->"),
    (("last $a", "df-foo2 $a |- ph $. last $a"), "df-foo2", "not judged", "neither ( LEFT <->"),
    ((FOO, FOO.replace("y e. x", "y e. Foo")), "df-foo", "no", "right side has the form cfoo"),
    (("${ $d x y $.\ndf-foo", "use $a |- Foo = A $. ${ $d x y $.\ndf-foo"), "df-foo", "no", "use"),
    (
        (
            "${ $d x y $.\ndf-foo",
            "${ h $e |- A e. Foo $. use $a |- A = B $. $}\n${ $d x y $. df-foo",
        ),
        "df-foo",
        "no",
        "use before it has the form cfoo",
    ),
    (("last $a", "df-foo2 $a |- Foo = { x | T. } $. last $a"), "df-foo2", "no", "df-foo before it"),
    (("${ $d x A $.", "${ $d A B $. $d x A $."), "df-ss", "no", "a $d keeps A and B of its left"),
    (("$d x A $. ", ""), "df-ss", "no", "no $d says that the dummy x is distinct from A"),
    (("${ $d x y $.\ndf-foo", "${ \ndf-foo"), "df-foo", "no", "x is distinct from y"),
    ((FOO, "df-foo $a |- Foo = { x | ph } $. $}"), "df-foo", "no", "no $d says that the dummy x"),
    (
        (FOO, "$d x ph $. df-foo $a |- Foo = { x | ph } $. $}"),
        "df-foo",
        "not judged",
        "the dummy ph is no setvar",
    ),
    ((FOO, "df-foo $a |- Foo = A $. $}"), "df-foo", "no", "its right side is just the dummy A, so"),
    ((FOO, FOO.replace("E. y y e. x", "y e. x")), "df-foo", "no", "nothing binds the dummy y"),
    ((FOO, "df-foo $a |- Foo = x $. $}"), "df-foo", "no", "nothing binds the dummy x"),
    (
        (FOO, FOO.replace("E. y y e. x", "( E. y y e. x -> y e. x )")),
        "df-foo",
        "not judged",
        "the dummy y stands also where nothing binds it",
    ),
    ((FOO, FOO.replace("E. y y e. x", "[ x / y ] y e. x")), "df-foo", "yes", ""),
    ((FOO, FOO.replace("E. y y e. x", "[ y / x ] y e. x")), "df-foo", "no", "binds the dummy y"),
    ((FOO, FOO.replace("E. y y e. x", "F/ y y e. x")), "df-foo", "yes", ""),
)


class Rules(World):
    """Each rule, broken in a small database."""

    def sound(self, text: str) -> dict[str, tuple[object, str]]:
        """What is found of each definition."""
        self.write("db.mm", text)
        rows = self.query("definitions", "db.mm", "--format=json").rows()
        return {str(row["definition"]): (row["sound"], str(row["why_not"])) for row in rows}

    def test_all_are_kept(self) -> None:
        self.assertEqual(self.sound(LOGIC), dict.fromkeys(SOUND, ("yes", "None")))

    def test_each_is_broken(self) -> None:
        for change, label, sound, why in BROKEN:
            found = self.sound(changed(LOGIC, change))
            self.assertEqual(found[label][0], sound, change)
            self.assertIn(why, found[label][1], change)
            # What a wrong one says counts as an axiom, so others may not be judged.
            self.assertNotIn("no", {found[each][0] for each in found if each != label}, change)

    def test_a_form_is_as_its_definition(self) -> None:
        """What a form binds is what its right side binds; of a wrong one it is taken as given."""
        right = "A. z ( z = x -> A. y ( y = z -> ph ) )"
        for other, sound in (
            ("A. z ( z = x -> ( y = z -> ph ) )", "no"),
            ("A. z ( z = x -> A. y y = z )", "yes"),
            ("A. z ( z = x -> ( A. y ph -> y = z ) )", "not judged"),
        ):
            text = changed(LOGIC, (right, other), ("E. y y e. x", "[ x / y ] y e. x"))
            self.assertEqual(self.sound(text)["df-foo"][0], sound, other)

    def test_a_variable_in_two_places(self) -> None:
        """A form binds a variable also where another one stands that may be the same."""
        forms = "$c G H $. wg $a wff G x y $. df-g $a |- ( G x y <-> A. x x = y ) $.\n"
        forms += "wh $a wff H $. df-h $a |- ( H <-> G x x ) $.\n"
        found = self.sound(LOGIC.replace("last $a", f"{forms}last $a"))
        self.assertEqual((found["df-g"][0], found["df-h"][0]), ("yes", "yes"))
        other = forms.replace("A. x x = y", "A. y x = y")
        found = self.sound(LOGIC.replace("last $a", f"{other}last $a"))
        self.assertEqual((found["df-g"][0], found["df-h"][0]), ("yes", "yes"))
        free = forms.replace("A. x x = y", "( A. x x = x -> x = y )")
        found = self.sound(LOGIC.replace("last $a", f"{free}last $a"))
        self.assertEqual(found["df-h"], ("no", "nothing binds the dummy x"))

    def test_a_part_that_is_dropped(self) -> None:
        """What stands there isn't in the formula, unfolded, so nothing has to bind it."""
        forms = "$c G H $. wg $a wff G ph ps $. df-g $a |- ( G ph ps <-> ( ps -> ps ) ) $.\n"
        forms += "wh $a wff H $. df-h $a |- ( H <-> G x = x F. ) $.\n"
        for text, sound in (
            (forms, "yes"),
            (forms.replace("G x = x F.", "G F. x = x"), "no"),
            (forms.replace("G x = x F.", "G G x = x F. F."), "yes"),
            (forms.replace("G x = x F.", "G F. G x = x F."), "yes"),
            (forms.replace("G x = x F.", "G F. G F. x = x"), "no"),
        ):
            found = self.sound(LOGIC.replace("last $a", f"{text}last $a"))
            self.assertEqual((found["df-g"][0], found["df-h"][0]), ("yes", sound), text)

    def test_many_dummies(self) -> None:
        names = [f"v{number}" for number in range(MOST_DUMMIES + 1)]
        head = f"$v {' '.join(names)} $. " + "".join(f"s{v} $f setvar {v} $. " for v in names)
        for some, sound in ((names[1:], "yes"), (names, "not judged")):
            right = "".join(f"A. {name} " for name in some) + "F."
            more = f"{head}$c G $. wg $a wff G $. ${{ $d {' '.join(some)} $."
            more += f" df-g $a |- ( G <-> {right} ) $. $}}\n"
            found = self.sound(LOGIC.replace("last $a", f"{more}last $a"))
            self.assertEqual(found["df-g"][0], sound)
        self.assertIn("more than 100 dummies", found["df-g"][1])

    def test_open_theorems_are_axioms(self) -> None:
        """What they say may not be so, also what their $d say."""
        (each,) = (one for one in DATABASES if "unfolded aren't" in one.name)
        text = each.base + changed(
            each.text, ("p1 $a |- ( A P B -> F. ) $.", "p1 $p |- ( A P B -> F. ) $= ? $.")
        )
        self.write("db.mm", text)
        (row,) = self.query("definitions", "db.mm", "--open", "--format=json").rows()
        self.assertEqual((row["sound"], row["condition"]), ("not judged", "pairs"))

    def test_a_dummy_alone(self) -> None:
        """A right side that is one equals anything; that is right where all is equal anyway."""
        foo = (FOO, "df-foo $a |- Foo = A $. $}")
        found = self.sound(changed(LOGIC, foo))
        self.assertEqual(found["df-foo"][0], "no")
        found = self.sound(changed(LOGIC, foo, ("cfoo $a", "all $a |- A = B $.\ncfoo $a")))
        self.assertEqual(found["df-foo"], ("yes", "None"))

    def test_status(self) -> None:
        """Of definitions that are named each has to be sound, or on trust."""
        free = FOO.replace("E. y y e. x", "( E. y y e. x -> y e. x )")
        for change, sound, statuses in (
            ((FOO, FOO), "yes", (0, 0)),
            ((FOO, free), "not judged", (0, 1)),
            ((FOO, FOO.replace("E. y y e. x", "y e. x")), "no", (1, 1)),
        ):
            self.assertEqual(self.sound(changed(LOGIC, change))["df-foo"][0], sound)
            for words, status in zip(((), ("df-foo",)), statuses):
                self.assertEqual(self.query("definitions", "db.mm", *words).status, status, words)
            for words in (("df-ss", "df-foo"), ("df-foo", "--format=github")):
                done = self.query("definitions", "db.mm", *words)
                self.assertEqual(done.status, statuses[1], words)
            for words in (("df-ss",), ("--like=df-ss",), ("df-foo", "df-ss", "--not=df-foo")):
                self.assertEqual(self.query("definitions", "db.mm", *words).status, 0, words)
            done = self.query("definitions", "db.mm", "df-foo", "--trust=df-foo")
            self.assertEqual(done.status, 0)

    def test_formulas_that_are_not_read(self) -> None:
        """One axiom without a tree, or a grammar with two, and nothing is judged."""
        for more, why in (
            ("wbad $a wff ph -> ps $.", "a formula of typecode wff begins with one of that"),
            ("wbad $a wff A. A ph $.", "df-tru can't be read: it can be read in two ways"),
            ("wbad $a wff E. A ph $.", "df-ex can't be read: it can be read in two ways"),
            ("wbad $a wff ! x $. wbae $a wff ! A $.", "the formula ! <setvar> has two trees"),
            ("cc $a class A $.", "df-tru can't be read: it can be read in two ways"),
            ("bad $a |- ( ph $.", "bad can't be read: it isn't built by the syntax axioms"),
            ("ce $a class $.", "an axiom has no symbol"),
        ):
            found = self.sound(LOGIC.replace("cfoo $a", f"$c ! $. {more}\ncfoo $a"))
            self.assertEqual({sound for sound, _ in found.values()}, {"not judged"}, more)
            self.assertTrue(any(why in told for _, told in found.values()), (found, why))

    def test_an_equality_that_another_one_defines(self) -> None:
        """It may be right where no axiom before has it."""
        same = "$d x A $. $d x B $. df-eq $a |- ( A = B <-> A. x ( x e. A <-> x e. B ) ) $."
        for text, sound, why in (
            (SYMBOLS + f"${{ {same} $}}\n" + AXIOMS, "not judged", "the form of an equality, wceq"),
            (SYMBOLS + AXIOMS + f"${{ {same} $}}\n", "no", "before it has the form wceq"),
        ):
            found = self.sound(text)["df-eq"]
            self.assertEqual(found[0], sound)
            self.assertIn(why, found[1])

    def test_nothing_is_judged(self) -> None:
        """Standard error says so of a whole database, and the status is as before."""
        free = FOO.replace("E. y y e. x", "( E. y y e. x -> y e. x )")
        without = SYMBOLS.replace("<->", "<=>").replace("wceq $a wff A = B", "wceq $a wff A == B")
        without = without.replace("|- wff", "== |- wff")
        none = "no definition could be judged: 0 sound, 0 not, {} not judged"
        foo = "$c Foo $. cfoo $a class Foo $. df-foo $a |- Foo == Foo $.\n"
        more = "$c Baz $. cbaz $a class Baz $. df-baz $a |- Baz == Baz $.\n"
        for text, words, said, status in (
            (without + foo, (), none.format(1), 1),
            (without + foo, ("df-foo",), none.format(1), 1),
            (without + foo + more, (), none.format(2), 1),
            (without + foo + more, ("df-foo",), none.format(1), 1),
            (without + foo + more, ("--like=df-foo",), none.format(1), 1),
            (without + foo + more, ("--trust=df-baz",), f"{none.format(1)}; on trust: df-baz", 1),
            (changed(LOGIC, (FOO, free)), (), "5 sound, 0 not, 1 not judged", 0),
            (changed(LOGIC, (FOO, free)), ("df-foo",), "0 sound, 0 not, 1 not judged", 1),
        ):
            self.write("db.mm", text)
            done = self.query("definitions", "db.mm", *words)
            self.assertEqual((done.err, done.status), (f"mmquery: db.mm: {said}\n", status))
        told = self.sound(without + foo)["df-foo"]
        self.assertEqual(told, ("not judged", NO_EQUALITY))
        self.assertIn("`definitions --equality` names the syntax axioms", NO_EQUALITY)

    def test_other_databases(self) -> None:
        self.write("db.mm", "$c |- a b $.\ndf-a $a |- a b $.\n")
        ((sound, why),) = self.sound("$c |- a b $.\ndf-a $a |- a b $.\n").values()
        self.assertEqual(sound, "not judged")
        self.assertIn("df-a can't be read", why)
        self.assertEqual(
            self.answers("definitions", self.write("no.mm", "$c |- a $. x $a |- a $.")), []
        )
        self.write("report", self.report("db.mm"))
        self.refuses("definitions", "report", why="a report, where the database is wanted")
        self.write("db.mm", LOGIC)
        rows = self.answers("definitions", "db.mm", "--like", "df-s*", "--format", "tsv")
        self.assertEqual([row.split("\t")[0] for row in rows[1:]], ["df-sb", "df-ss"])

    def test_open_theorems(self) -> None:
        """A theorem that is left open says nothing."""
        text = LOGIC.replace("biid $a |- ( ph <-> ph )", "biid $p |- ( ph <-> ph ) $= ?")
        self.write("open.mm", text)
        rows = self.query("definitions", "open.mm", "--open", "--format=json").rows()
        self.assertEqual(rows[0]["why_not"], "no theorem is found which says that wb is reflexive")
        through = text + "bi $p |- ( ph <-> ph ) $= wph biid $.\n"
        self.write("open.mm", through)
        rows = self.query("definitions", "open.mm", "--open", "--format=json").rows()
        self.assertEqual(rows[0]["why_not"], "bi, which says that wb is reflexive, rests on biid")


class Proved(World):
    """Wrong definitions, each with the proof of something new."""

    def test_something_new_is_proved(self) -> None:
        """The program and metamath.exe verify the proof, and the definition isn't sound."""
        for each in DATABASES:
            path = self.folder / self.write("bad.mm", each.database())
            self.assertEqual(
                self.query("verify", "bad.mm").out.split(":")[1][:6], " valid", each.name
            )
            if shutil.which("metamath"):
                (said,) = metamath.asked(path, ["verify proof *"])
                self.assertIn("All proofs in the database were verified", said, each.name)
                self.assertNotRegex(said, r"\?(Error|Warning)", each.name)
            done = self.query("definitions", "bad.mm", "--format=json", *each.options)
            found = {row["definition"]: row for row in done.rows()}
            verdicts = {
                label: (row["sound"], row["condition"] or "") for label, row in found.items()
            }
            self.assertEqual(verdicts, each.verdicts, each.name)
            words = {sound for sound, _ in verdicts.values()}
            has_another_shape = any(condition in SHAPE for _, condition in verdicts.values())
            is_refused = "no" in words or has_another_shape or "yes" not in words
            self.assertEqual(done.status, int(is_refused), each.name)

    def test_what_they_share_is_sound(self) -> None:
        """A right definition in the same place, so that what is found is by the wrong one."""
        for base in (BASE, WITHOUT_CONSTANTS):
            right = "$c Bar $. wbar $a wff Bar y $.\n"
            right += "${ $d x y $. df-bar $a |- ( Bar y <-> A. x x = y ) $. $}\n"
            self.write("good.mm", base + right)
            (row,) = self.query("definitions", "good.mm", "--format=json").rows()
            self.assertEqual((row["sound"], row["why_not"]), ("yes", None))

    def test_each_condition_is_broken(self) -> None:
        """By one of these databases at least, alone."""
        broken = {condition for each in DATABASES for _, condition in each.verdicts.values()}
        self.assertEqual(broken - {""}, CONDITIONS.keys())
        self.assertEqual(len({each.name for each in DATABASES}), len(DATABASES))


class Page(unittest.TestCase):
    """docs/SOUNDNESS.md has the conditions of the program, and examples that are tried here."""

    TEXT = (TOP / "docs" / "SOUNDNESS.md").read_text("utf-8")

    def test_conditions(self) -> None:
        table = self.TEXT[self.TEXT.index("## The conditions") :]
        self.assertEqual(re.findall(r"^\| `(\w+)` \|", table, re.M), list(CONDITIONS))

    def test_examples(self) -> None:
        blocks = re.findall(r"^```\n(.*?)^```$", self.TEXT, re.M | re.S)
        self.assertGreater(len(blocks), 7)
        texts = [" ".join((each.base + each.text).split()) for each in DATABASES]
        for block in blocks:
            lines = block.splitlines()
            self.assertTrue(
                any(all(line in text for line in lines) for text in texts), (block, texts)
            )


class Terms(World):
    """Databases with an equality of terms, and none of formulas, as ql.mm."""

    FOO = "$c F $. tfoo $a term F a $. df-foo $a |- F a = o o a $.\n"

    def found(self, text: str, *words: str) -> tuple[object, object, str]:
        """What is found of the one definition."""
        self.write("db.mm", text)
        (row,) = self.query("definitions", "db.mm", *words, "--format=json").rows()
        return row["sound"], row["condition"], str(row["why_not"])

    def test_what_is_needed(self) -> None:
        text = TERMS + IDENTITY + self.FOO
        self.assertEqual(self.found(text), ("yes", None, "None"))
        self.assertEqual(self.found(text, "--equality=weq"), ("yes", None, "None"))
        for label, why in (
            ("id", "that weq is reflexive"),
            ("com", "that weq is symmetric"),
            ("tr", "that weq is transitive"),
            ("ro", "that equals may be put into to in the place of its variable 1"),
        ):
            lines = [line for line in text.splitlines() if f"{label} $a " not in line]
            sound, condition, why_not = self.found("\n".join(lines))
            self.assertEqual((sound, condition), ("not judged", "equality"), label)
            self.assertEqual(why_not, f"no theorem is found which says {why}")

    def test_dummies(self) -> None:
        """A theorem may justify them; names of bound variables aren't changed here."""
        foo = "tfoo $a term Foo $. df-foo $a |- Foo = o a $.\n"
        base = TERMS + IDENTITY
        self.assertEqual(self.found(base + foo)[:2], ("not judged", "dummy"))
        self.assertEqual(self.found(f"{base}same $a |- o a = o b $.\n{foo}")[0], "yes")
        same = "same $a |- Foo = o b $.\n"
        self.assertEqual(self.found(base + foo + same)[:2], ("not judged", "dummy"))
        bound = foo.replace("o a $.", "\\ x ' x $.")
        sound, condition, why = self.found(base + bound)
        self.assertEqual((sound, condition), ("not judged", "equality"))
        self.assertIn("it has a dummy, and there is no equality of typecode wff", why)
        alone = foo.replace("o a $.", "a $.")
        self.assertEqual(self.found(base + alone)[:2], ("no", "dummy"))

    def test_the_usual_equality_comes_first(self) -> None:
        """Where it is there, another one isn't taken for one unless it is named."""
        usual = "$c <-> ( ) $. $v p q $. wp $f wff p $. wq $f wff q $. wb $a wff ( p <-> q ) $.\n"
        text = TERMS + IDENTITY + usual + self.FOO
        self.assertEqual(self.found(text)[:2], ("not judged", "form"))
        self.assertEqual(self.found(text, "--equality=weq")[0], "yes")
        other = text.replace(" = ", " == ").replace(usual, "")
        self.assertEqual(self.found(other)[1:], ("form", NO_EQUALITY))

    def test_basis(self) -> None:
        """In which formulas what is equal may stand for one another, by rules."""
        less = "$c =< $. wle $a wff a =< b $.\n"
        rules = (
            "${ l.1 $e |- a = b $. l.2 $e |- b =< c $. l $a |- a =< c $. $}\n",
            "${ r.1 $e |- a =< b $. r.2 $e |- c = b $. r $a |- a =< c $. $}\n",
        )
        closed = "; no theorem is found which says that equals may be put into it"
        says = "what equals something may stand for it in wle in the place of its variable"
        for some, is_closed in (((), True), (rules[:1], True), (rules[1:], True), (rules, False)):
            self.write("db.mm", TERMS + IDENTITY + less + "".join(some) + self.FOO)
            rows = self.query("definitions", "db.mm", "--basis", "--format=json").rows()
            found = {(str(row["what"]), row["label"]): row["says"] for row in rows}
            self.assertEqual(found["equality", "weq"], "term = term")
            self.assertEqual(found["primitive", "weq"], "wff term = term")
            told = "wff term =< term" + (closed if is_closed else "")
            self.assertEqual(found["primitive", "wle"], told, some)
            for number, label in ((1, "l"), (2, "r")):
                is_there = any(f" {label} $a" in rule for rule in some)
                wanted = f"{says} {number}" if is_there else None
                self.assertEqual(found.get(("theorem", label)), wanted)


class Chosen(World):
    """What is on trust, what is an equality, and on what the verdicts rest."""

    def test_trust(self) -> None:
        (order,) = (each for each in DATABASES if each.options)
        self.write("db.mm", LOGIC)
        every = self.query("definitions", "db.mm", "--format=json").rows()
        words = ("df-tru", "df-ex", "--format=json")
        some = [row for row in every if row["definition"] in words]
        self.assertEqual((len(some), self.query("definitions", "db.mm", *words).rows()), (2, some))
        rows = self.query("definitions", "db.mm", "--trust", "df-tru,df-ex", "--format=json").rows()
        sound = {row["definition"]: row["sound"] for row in rows}
        self.assertEqual(sound, dict.fromkeys(SOUND, "yes") | dict.fromkeys(SOUND[:2], "on trust"))
        wrong = LOGIC.replace("df-ex $a |- ( E. x ph <->", "df-ex $a |- ( E. x ph ->")
        self.write("db.mm", wrong)
        done = self.query("definitions", "db.mm", "--format=json")
        self.assertEqual(done.status, 1)
        self.assertEqual(self.query("definitions", "db.mm", "df-foo").status, 1)
        self.assertEqual(self.query("definitions", "db.mm", "--like=df-foo").status, 0)
        self.assertEqual({row["condition"] for row in done.rows()}, {None, "form", "rests"})
        done = self.query("definitions", "db.mm", "--trust=df-ex", "--format=json")
        self.assertEqual(done.status, 0)
        found = {str(row["definition"]): row for row in done.rows()}
        self.assertEqual(found["df-ex"]["sound"], "on trust")
        self.assertIn("neither ( LEFT <-> RIGHT )", str(found["df-ex"]["why_not"]))
        # Nothing says that equals may be put into E. x ph, so Foo isn't judged.
        self.assertEqual(found["df-foo"]["sound"], "not judged")
        self.assertIn("equals may be put into wex", str(found["df-foo"]["why_not"]))
        self.refuses("definitions", "db.mm", "--trust", "df-none", why="has no assertion 'df-none'")
        self.refuses("definitions", "db.mm", "--trust", "biid", why="biid is no definition")
        self.refuses("definitions", "db.mm", "biid", why="biid is no definition")
        self.refuses("definitions", "db.mm", "df-xyz", why="has no assertion 'df-xyz'")
        self.refuses("definitions", "db.mm", "--basis", "df-bi", why="take no LABEL")
        self.write("order.mm", order.database())
        for label in ("wal", "cfoo", "biid"):
            why = f"{label} is no syntax axiom of a wff with two parts"
            self.refuses("definitions", "order.mm", "--equality", label, why=why)
        self.refuses("definitions", "order.mm", "--equality", "wlt,wceq", why="or another one is")

    def test_basis(self) -> None:
        self.write("db.mm", LOGIC)
        rows = self.query("definitions", "db.mm", "--basis", "--format=json").rows()
        found = {(str(row["what"]), row["label"]): row["says"] for row in rows}
        self.assertEqual(found["grammar", None], "each formula has one tree")
        self.assertEqual(found["equality", "wb"], "( wff <-> wff )")
        self.assertEqual(found["primitive", "wal"], "wff A. setvar wff")
        self.assertEqual(found["theorem", "biid"], "wb is reflexive")
        renames = "the variable that wal binds may have another name"
        self.assertEqual(found["theorem", "cbvalv"], renames)

    @unittest.skipUnless((OF_DEBIAN / "ql.mm").exists(), "ql.mm isn't installed")
    def test_rules_that_define(self) -> None:
        """Two of them say in ql.mm what a form is, and nothing is wrong with that."""
        path = str(OF_DEBIAN / "ql.mm")
        labels = ("df-le1", "df-le2", "df-c1", "df-c2")
        done = self.query("definitions", path, *labels, "--equality=wb", "--format=json")
        self.assertEqual(done.status, 1)
        told = {(row["sound"], row["condition"]) for row in done.rows()}
        self.assertEqual(told, {("not judged", "form")})

    def test_annotations(self) -> None:
        self.write("db.mm", changed(LOGIC, BROKEN[0][0], (SS, SS.replace("C_ B <->", "C_ A <->"))))
        done = self.query("definitions", "db.mm", "--format=github")
        first, second = done.lines()
        pattern = r"::{} file=db.mm,line=\d+,title=mmquery definitions \({}\)::{}: .*"
        self.assertRegex(first, pattern.format("error", "left", "df-ss: no"))
        self.assertRegex(second, pattern.format("error", "form", "df-foo: not judged"))
        self.assertRegex(done.err, r"db.mm: 4 sound, 1 not, 1 not judged")


@needs_program
class RealDatabases(unittest.TestCase):
    """Those of Debian. `conventions` names the four definitions that are axioms."""

    TRUSTED = ["df-bi", "df-clab", "df-cleq", "df-clel"]

    def found(self, name: str) -> tuple[Counter[str], dict[str, str], bool | None]:
        """How many there are of each kind, why others aren't judged, and whether the grammar is
        unambiguous."""
        path = OF_DEBIAN / name
        if not path.exists():
            self.skipTest(f"{name} isn't installed")
        database = Database.opened(str(path), uses_cache=False, options=OPTIONS)
        judged = Definitions(database.text.assertions, cites_by(database.graph()))
        verdicts = judged.verdicts.values()
        trusted = [each.label for each in verdicts if each.sound == "on trust"]
        self.assertIn(trusted, ([], self.TRUSTED))
        left = {
            each.label: str(each.why) for each in verdicts if each.sound in ("no", "not judged")
        }
        return Counter(each.sound for each in verdicts), left, judged.ambiguity.is_unambiguous

    def test_set(self) -> None:
        counts, left, is_unambiguous = self.found("set.mm")
        self.assertEqual(counts, {"yes": 1262, "on trust": 4, "not judged": 1})
        self.assertEqual(left, {"df-gmdl": "the dummy c stands also where nothing binds it"})
        self.assertTrue(is_unambiguous)

    def test_iset(self) -> None:
        counts, left, is_unambiguous = self.found("iset.mm")
        self.assertEqual(counts, {"yes": 183, "on trust": 4, "not judged": 1})
        self.assertIn("equals under a condition may be put into wbd", left["df-bdc"])
        self.assertTrue(is_unambiguous)

    def test_ql(self) -> None:
        """The four that say by rules what a form is aren't of the form that is judged."""
        counts, left, is_unambiguous = self.found("ql.mm")
        self.assertEqual(counts, {"yes": 24, "not judged": 4})
        rules = {label: "it has a $e" for label in ("df-le2", "df-c2")}
        rules |= {label: "it is not LEFT = RIGHT" for label in ("df-le1", "df-c1")}
        self.assertEqual(left, rules)
        self.assertTrue(is_unambiguous)

    def test_nf(self) -> None:
        counts, left, is_unambiguous = self.found("nf.mm")
        self.assertEqual((counts, left), ({"yes": 152, "on trust": 4}, {}))
        self.assertTrue(is_unambiguous)

    def test_other_languages(self) -> None:
        counts, left, is_unambiguous = self.found("hol.mm")
        self.assertEqual(counts, {"not judged": 11})
        self.assertEqual(set(left.values()), {NO_EQUALITY})
        self.assertTrue(is_unambiguous)


Rule = tuple[str, str, tuple[str, ...]]
VARIABLES = {"P": "p", "O": "p", "Q": "q", "R": "q"}


class Counted:
    """In how many ways each stretch of a formula is a part of each typecode: none, one or more, by
    trying everything until nothing is added. Where they `are_equal`, all that stands for one
    variable is the same."""

    def __init__(self, rules: Sequence[Rule], symbols: tuple[str, ...], are_equal: bool) -> None:
        self.rules = rules
        self.symbols = symbols
        self.are_equal = are_equal
        places = range(len(symbols) + 1)
        self.found = {(k, i, j): 0 for k in "pq" for i in places for j in places if i <= j}
        is_changed = True
        while is_changed:
            is_changed = False
            for (kind, start, end), before in self.found.items():
                own = symbols[start:end]
                count = int(len(own) == 1 and VARIABLES.get(own[0]) == kind)
                bodies = [body for _, other, body in rules if other == kind]
                count += sum(self.ways(body, start, end, {}) for body in bodies)
                self.found[kind, start, end] = min(2, count)
                is_changed = is_changed or min(2, count) != before

    def ways(
        self, body: tuple[str, ...], start: int, end: int, bound: dict[str, tuple[str, ...]]
    ) -> int:
        """In how many ways a stretch is what a body says."""
        if not body:
            return int(start == end)
        first, rest = body[0], body[1:]
        if first.islower():
            is_there = start < end and self.symbols[start] == first
            return self.ways(rest, start + 1, end, bound) if is_there else 0
        count = 0
        for middle in range(start, end + 1):
            part = self.symbols[start:middle]
            if not self.are_equal or bound.get(first, part) == part:
                one = self.found[VARIABLES[first], start, middle]
                if one:
                    count += one * self.ways(rest, middle, end, {**bound, first: part})
        return min(2, count)


class Grammars(unittest.TestCase):
    """Whether grammars are unambiguous, against the trees of short formulas."""

    KINDS = {"P": "p", "Q": "q", "R": "r"}

    def both(self, rules: Sequence[tuple[str, str]]) -> tuple[Grammar, Grammar]:
        """The grammar of these axioms, a typecode and symbols each, and the one that is turned."""
        grammar, backward = Grammar(), Grammar()
        for number, (typecode, body) in enumerate(rules):
            grammar.add(f"r{number}", typecode, body, self.KINDS)
            backward.add(f"r{number}", typecode, body[::-1], self.KINDS)
        return grammar, backward

    def is_double(self, grammar: Grammar, symbols: Sequence[str]) -> bool:
        """Whether a formula has two trees, of some typecode."""
        for typecode in "pqr":
            try:
                grammar.tree(typecode, symbols, self.KINDS)
            except NotRead as why:
                if "two ways" in str(why):
                    return True
        return False

    def test_by_chance(self) -> None:
        """What is said to be unambiguous has no formula with two trees; and of what is said to have
        one, that formula has."""
        chance = random.Random(11)
        counts: Counter[bool | None] = Counter()
        for _ in range(150):
            rules = [
                (chance.choice("pqr"), "".join(chance.choices("abcPQR", k=chance.randint(1, 4))))
                for _ in range(chance.randint(1, 6))
            ]
            grammar, backward = self.both(rules)
            found = ambiguity(grammar, backward)
            counts[found.is_unambiguous] += 1
            if found.is_unambiguous is False:
                words = found.why.removeprefix("the formula ").removesuffix(" has two trees")
                symbols = re.sub("<(.)>", lambda match: match[1].upper(), words).split(" ")
                self.assertTrue(self.is_double(grammar, symbols), (rules, words))
            if found.is_unambiguous:
                for length in range(1, 5):
                    for symbols_of in itertools.product("abcPQR", repeat=length):
                        self.assertFalse(self.is_double(grammar, symbols_of), (rules, symbols_of))
        self.assertGreater(counts[True], 30, counts)

    def test_known_ones(self) -> None:
        """Grammars in which the difference shows late, or never."""
        for rules, is_unambiguous in (
            # `{ x | ph }` and `{ A }`, `( x e. A |-> B )` and `( x e. A -> ph )`, as in set.mm.
            ((("p", "{RbQ}"), ("p", "{P}"), ("p", "R"), ("q", "PcP")), True),
            ((("p", "(RcPaP)"), ("q", "(QbQ)"), ("q", "PcP"), ("p", "R")), True),
            ((("p", "(PPP)"), ("q", "(QbQ)"), ("q", "PPP"), ("p", "a")), True),
            ((("p", "aRa"), ("p", "aPa"), ("p", "R")), False),
            ((("p", "(PPP)"), ("p", "(QP)"), ("q", "PP")), False),
            ((("p", "aP"), ("p", "Pb")), None),
            ((("p", "Pb"), ("p", "(PcP)")), True),
            ((("p", "PcP"),), None),
            ((("p", "a"), ("q", "b"), ("p", "Q"), ("q", "P")), None),
        ):
            self.assertEqual(ambiguity(*self.both(rules)).is_unambiguous, is_unambiguous, rules)

    def test_large_ones(self) -> None:
        """The steps grow with the grammar, and what takes too many is given up."""
        long = [("p", "(" * 20_000 + "P)")]
        self.assertTrue(ambiguity(*self.both(long)).is_unambiguous)
        wide = [("p", f"({'abc'[number % 3]}{'ab' * number}P)") for number in range(200)]
        self.assertTrue(ambiguity(*self.both(wide)).is_unambiguous)
        grammar, backward = Grammar(), Grammar()
        kinds = {
            f"{name}{number}".upper(): f"{name}{number}" for number in range(60) for name in "st"
        }
        for number in range(59):
            for one, other in itertools.product("st", repeat=2):
                label, body = f"{one}{other}{number}", [f"{other}{number + 1}".upper(), one + other]
                grammar.add(label, f"{one}{number}", body, kinds)
                backward.add(label, f"{one}{number}", body[::-1], kinds)
        with self.assertRaises(GivenUp):
            Comparison(grammar, turned=False).answer()
        self.assertTrue(ambiguity(grammar, backward).is_unambiguous)


class Implied(unittest.TestCase):
    """What follows from clauses, against trying everything."""

    def test_by_chance(self) -> None:
        chance = random.Random(5)
        for _ in range(200):
            rules = [
                (chance.randint(0, 5), [chance.randint(0, 5) for _ in range(chance.randint(0, 2))])
                for _ in range(chance.randint(0, 8))
            ]
            clauses: Clauses[int] = Clauses()
            for head, conditions in rules:
                clauses.add(head, conditions)
            wanted: set[int] = set()
            for _ in range(7):
                wanted |= {head for head, conditions in rules if wanted.issuperset(conditions)}
            self.assertEqual(clauses.implied(), wanted, rules)


class Trees(unittest.TestCase):
    """Grammars made by chance; each formula has the tree that trying everything finds."""

    def test_by_chance(self) -> None:
        chance = random.Random(4)
        counts = {"one tree": 0, "two ways": 0, "isn't built": 0, "not the same": 0}
        for _ in range(40):
            rules: list[Rule] = []
            grammar = Grammar()
            shapes = set()
            for number in range(chance.randint(1, 5)):
                body = tuple(chance.choice("aabPOQR") for _ in range(chance.randint(0, 4)))
                kind = chance.choice("pq")
                grammar.add(f"r{number}", kind, body, VARIABLES)
                shape = (kind, *(VARIABLES.get(each, each.upper()) for each in body))
                if shape not in shapes:
                    shapes.add(shape)
                    rules.append((f"r{number}", kind, body))
            for length in range(4):
                for symbols in itertools.product("abPQ", repeat=length):
                    counts[self.seen(grammar, symbols, rules)] += 1
        self.assertGreater(min(counts.values()), 20, counts)

    def seen(self, grammar: Grammar, symbols: tuple[str, ...], rules: Sequence[Rule]) -> str:
        """A formula has a tree where it has one alone, and the tree spells the formula."""
        wanted = Counted(rules, symbols, False).found["p", 0, len(symbols)]
        is_same = Counted(rules, symbols, True).found["p", 0, len(symbols)] == 1
        try:
            tree = grammar.tree("p", symbols, VARIABLES)
        except NotRead as why:
            told = "two ways" if wanted > 1 else "isn't built"
            self.assertIn(told, str(why), (symbols, rules))
            self.assertFalse(wanted == 1 and is_same, (symbols, rules))
            return "not the same" if wanted == 1 else told
        self.assertTrue(wanted == 1 and is_same, (symbols, rules))
        self.see(tree, symbols, rules)
        return "one tree"

    def see(self, tree: Tree, symbols: tuple[str, ...], rules: Sequence[Rule]) -> None:
        """The tree spells the formula."""
        for part, rule in tree.rules.items():
            body = next(rule_body for label, _, rule_body in rules if label == rule)
            place = part.start
            below = iter(tree.below[part])
            for each in body:
                if each.islower():
                    self.assertEqual(symbols[place], each)
                    place += 1
                else:
                    one = next(below)
                    self.assertEqual((one.typecode, one.start), (VARIABLES[each], place))
                    place = one.end
            self.assertEqual(place, part.end)

    def test_long_formulas(self) -> None:
        """Nothing is recursive, and a formula that takes too long is given up."""
        grammar = Grammar()
        grammar.add("n", "p", ["a", "P"], VARIABLES)
        deep = ["a"] * 20_000 + ["P"]
        self.assertEqual(len(grammar.tree("p", deep, VARIABLES).rules), 20_000)
        grammar.add("two", "p", ["P", "P"], VARIABLES)
        reader = FormulaReader(grammar, ["P"] * 3000, VARIABLES)
        with self.assertRaisesRegex(NotRead, "too long"):
            reader.tree("p")
        self.assertLess(reader.left, 0)

    def test_hostile_grammars(self) -> None:
        """Each takes a few steps for a symbol, or is given up after a few more."""
        pair = ("(", "P", ",", "O", ")")
        right = ["(", "P", ","] * 2**16 + ["P"] + [")"] * 2**16
        left = ["("] * 2**16 + ["P"] + [",", "P", ")"] * 2**16
        likes: list[tuple[str, ...]]
        likes = [("(", "P", f"c{number}", "O", ")") for number in range(10_000)]
        lists = [("a",), ("a", ",", "P")]
        cases: list[tuple[list[tuple[str, ...]], list[str], str | None]] = [
            ([pair], right, None),
            ([pair], left, None),
            (likes, [*likes[7]], None),
            ([("a",), ("P", ",", "a")], ["a"] + [",", "a"] * 20_000, None),
            (lists, ["a"] + [",", "a"] * 15, None),
            (lists, ["a"] + [",", "a"] * 20_000, "too long"),
            ([("a",), ("P", "O")], ["a"] * 20_000, "too long"),
            ([(), ("a",), ("P", "O")], ["a"] * 20_000, "too long"),
            ([("P",), ("a",)], ["a"], "two ways"),
        ]
        for rules, symbols, told in cases:
            grammar = Grammar()
            for number, body in enumerate(rules):
                grammar.add(f"r{number}", "p", body, VARIABLES)
            reader = FormulaReader(grammar, symbols, VARIABLES)
            before = reader.left
            if told is None:
                self.assertTrue(reader.tree("p").rules)
                self.assertLess(before - reader.left, 100 + 4 * len(symbols))
            else:
                with self.assertRaisesRegex(NotRead, told):
                    reader.tree("p")
            self.assertLessEqual(before, STEPS + STEPS_OF_SYMBOL * len(symbols))


if __name__ == "__main__":
    unittest.main()
