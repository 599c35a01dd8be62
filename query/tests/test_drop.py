"""What `drop` says of theorems and axioms: the program judges the databases without them."""

import itertools
import random
import re
import shutil
import unittest
from collections.abc import Collection
from unittest import mock

from query.answers.errors import NoAnswer
from query.arguments.context import Context
from query.exports import removal
from query.reports.choice import Options
from query.tests.commands import WHOLE
from query.tests.world import DATABASES, SMALL, Invented, World, built_program, invented
from query.texts.named import names_in

NAMED = """$( See ~ ax1 and ` x ~ a1i ` and ``~ a1i and ~~ a1i ; ~
  a2 , (~ a2) . $)
$( $j restatement 'a1i' of 'ax-1'; /* 'a2' */ usage "a1i" avoids ' a2 '; $)
$( $t htmldef 'a1i' as ' ~ a1i '; $)
$( $j $)
"""


def citing(database: Invented, label: str) -> list[str]:
    """The theorems that cite an assertion."""
    return [each for each, cited in database.cites.items() if label in cited]


class Dropped(World):
    """Over databases made by chance, in which each assertion is a line."""

    def is_valid(self, lines: list[str]) -> bool:
        """Whether the program accepts a database of these lines."""
        self.write("left.mm", "\n".join(lines) + "\n")
        return self.ran(built_program(), "--report=counts", "left.mm").status == 0

    def test_by_chance(self) -> None:
        """What may be dropped is the largest set of which none is cited by what is left, nor named
        by a `$j` comment; and the database is valid without it."""
        answers = []
        for seed in range(12):
            chance = random.Random(seed)
            database = invented(chance, chance.randint(4, 9))
            for _ in range(4):
                some = database.theorems()[-6:]
                labels = chance.sample(some, chance.randint(1, min(5, len(some))))
                marked = {each for each in labels if chance.random() < 0.1}
                marks = [
                    f"$( $j usage '{each}' avoids '{database.axioms[0]}'; $)" for each in marked
                ]
                self.write("db.mm", "\n".join([database.text, *marks]) + "\n")
                done = self.query("drop", "db.mm", "--format=json", *labels)
                rows = done.rows()
                self.assertEqual([row["label"] for row in rows], labels)
                gone = {str(row["label"]) for row in rows if row["drop"]}
                self.assertEqual(gone, self.largest(database, labels, marked), (seed, labels))
                self.assertEqual(done.status == 0, gone == {*labels})
                for row in rows:
                    users = citing(database, str(row["label"]))
                    self.assertEqual(row["cited"], [each for each in users if each not in gone])
                    self.assertEqual(bool(row["marks"]), row["label"] in marked)
                answers.append(len(gone) - len(labels) if gone else None)
        self.assertGreater(min(answers.count(None), answers.count(0)), 4, answers)
        self.assertGreater(sum(each is not None and each < 0 for each in answers), 4, answers)

    def test_axioms_by_chance(self) -> None:
        """The same, with axioms among the labels."""
        answers = []
        for seed in range(8):
            chance = random.Random(200 + seed)
            database = invented(chance, chance.randint(4, 7))
            for count in (1, 2):
                axioms = chance.sample(database.axioms, min(count, len(database.axioms)))
                labels = axioms + chance.sample(database.theorems(), 3)
                self.write("db.mm", database.text)
                done = self.query("drop", "db.mm", "--format=json", *labels)
                rows = done.rows()
                self.assertEqual([row["label"] for row in rows], labels)
                gone = {str(row["label"]) for row in rows if row["drop"]}
                self.assertEqual(gone, self.largest(database, labels, set()), (seed, labels))
                self.assertEqual(done.status == 0, gone == {*labels})
                for row in rows:
                    users = citing(database, str(row["label"]))
                    self.assertEqual(row["cited"], [each for each in users if each not in gone])
                answers += [(each in gone, bool(citing(database, each))) for each in axioms]
        self.assertEqual({*answers}, {(False, True), (True, False), (True, True)})

    def largest(self, database: Invented, labels: list[str], marked: set[str]) -> set[str]:
        """The largest set of these labels that may be dropped, by trying each: the program accepts
        the database without just the sets of which nobody else cites one."""
        lines = database.text.splitlines()
        found = []
        for count in range(len(labels) + 1):
            for some in itertools.combinations(labels, count):
                taken = [f" {each} ${letter}" for each in some for letter in "ap"]
                left = [line for line in lines if not any(each in line for each in taken)]
                self.assertEqual(len(left), len(lines) - count)
                is_valid = all({*citing(database, each)} <= {*some} for each in some)
                if count > 1:
                    self.assertEqual(self.is_valid(left), is_valid, some)
                if is_valid and marked.isdisjoint(some):
                    found.append({*some})
        self.assertTrue(all(each <= found[-1] for each in found), found)
        return found[-1]

    def test_by_hand(self) -> None:
        """What a LABEL cites that stays itself is said to stay too, by how long a chain ever."""
        self.write(
            "db.mm", SMALL + "${ i $e |- p $. a3 $p |- ( q -> ( q -> p ) ) $= wp wq i a2 $. $}\n"
        )
        done = self.query("drop", "db.mm", "a1i", "a2", "ax1", "--format=csv")
        self.assertEqual(done.lines()[1:], ["a1i,false,a2,,,", "a2,false,a3,,,", "ax1,true,,,,"])
        self.assertEqual((done.status, done.err), (1, ""))
        done = self.query("drop", "db.mm", "a*", "--format=csv")
        self.assertEqual({line.split(",")[1] for line in done.lines()[1:]}, {"true"})
        self.assertEqual(done.status, 0)
        self.write("db.mm", SMALL + "$( $j usage 'a2' avoids 'ax-1'; $)\n")
        done = self.query("drop", "db.mm", "a*", "--format=csv")
        self.assertEqual(
            done.lines()[1:],
            ["ax1,true,,,,", "a1i,false,a2,,,", f"a2,false,,{SMALL.count(chr(10)) + 1},,"],
        )

    def test_axioms_by_hand(self) -> None:
        """An axiom stays where a theorem that stays cites it; one of syntax also where a formula
        has its constant."""
        self.write("db.mm", SMALL + "$( By ~ ax-1 . $) $( $j usage 'a2' avoids 'ax-mp'; $)\n")
        last = SMALL.count("\n") + 1
        done = self.query("drop", "db.mm", "ax-1", "ax1", "--format=csv")
        self.assertEqual(done.lines()[1:], [f"ax-1,false,a1i,,{last},", "ax1,true,,,,"])
        self.assertEqual((done.status, done.err), (1, ""))
        done = self.query("drop", "db.mm", "ax-1", "a*", "--format=csv")
        rows = [line.split(",") for line in done.lines()[1:]]
        self.assertEqual([row[0] for row in rows], ["ax-1", "ax1", "a1i", "a2"])
        self.assertEqual([row[1] for row in rows], ["false", "true", "false", "false"])
        (row,) = self.query("drop", "db.mm", "ax-mp", "--format=json").rows()
        self.assertEqual((row["drop"], row["cited"], row["marks"]), (False, ["a1i"], [str(last)]))
        self.write("db.mm", SMALL)
        fields = self.query("drop", "db.mm", "wi", "--format=tsv").lines()[1].split("\t")
        every = ["a1i", "a2", "ax-1", "ax-mp", "ax1", "wi2"]
        self.assertEqual((fields[1], sorted(fields[2].split())), ("false", every))
        done = self.query("drop", "db.mm", "wi", "ax-1", "ax-mp", "wi2", "a*", "--format=csv")
        self.assertEqual({line.split(",")[1] for line in done.lines()[1:]}, {"true"})
        self.assertEqual(done.status, 0)

    def test_comments(self) -> None:
        """A comment `$j` that names a theorem is in the way, and a remark isn't."""
        self.write("db.mm", WHOLE + "$( By ~ wi2 and ~ a2 . $)\n")
        marks = str(WHOLE.splitlines().index("$( $j usage 'wi2' avoids 'ax-1'; $)") + 1)
        remarks = str(WHOLE.count("\n") + 1)
        done = self.query("drop", "db.mm", "wi2", "a2", "--format=tsv")
        self.assertEqual(
            done.lines()[1:],
            [f"wi2\tfalse\t\t{marks}\t{remarks}\t", f"a2\ttrue\t\t\t{remarks}\t"],
        )
        self.assertEqual((done.status, done.err), (1, ""))
        self.assertEqual(self.query("drop", "db.mm", "a2").status, 0)

    def test_names(self) -> None:
        """Formulas, doubled signs, remarks of `$j` and the comments `$t` name nothing."""
        data = NAMED.encode()
        named = names_in(data, {"ax1", "a1i", "a2", "ax-1", "~", "x"})
        lines = {
            label: [
                [data.count(b"\n", 0, place) + 1 for place in places]
                for places in (each.remarks, each.marks)
            ]
            for label, each in named.items()
        }
        self.assertEqual(
            lines,
            {
                "ax1": [[1], []],
                "a1i": [[1], [3]],
                "a2": [[1, 2], [3]],
                "ax-1": [[], [3]],
                "~": [[], []],
                "x": [[], []],
            },
        )
        self.assertEqual(names_in(b"", {"x"})["x"].remarks, [])

    def test_what_is_discouraged(self) -> None:
        comment = "$( (New usage is discouraged.)\n (Proof modification is\n discouraged.) $)\n"
        self.write("db.mm", SMALL.replace("wi2 $p", comment + "wi2 $p"))
        self.assertEqual(
            self.answers("drop", "db.mm", "wi2", "--format=csv")[1:], ["wi2,true,,,,usage proof"]
        )

    def test_patterns(self) -> None:
        self.write("db.mm", SMALL)
        rows = self.query("drop", "db.mm", "a1*", "a?", "a2", "--format=json").rows()
        self.assertEqual(
            [(row["label"], row["drop"]) for row in rows], [("a1i", True), ("a2", True)]
        )
        self.assertEqual(self.query("drop", "db.mm", "*").status, 0)
        self.refuses("drop", "db.mm", "ax-*", why="has no theorem like 'ax-*'")

    def test_what_has_no_answer(self) -> None:
        self.write("db.mm", SMALL.replace("a2 $p", "-x $p"))
        self.refuses("drop", "db.mm", "wp", why="has no assertion 'wp'")
        self.refuses("drop", "db.mm", "wi3", why="has no assertion 'wi3'; did you mean wi?")
        self.refuses("drop", "db.mm", "-x", why="there is no option -x")
        self.assertEqual(
            self.query("drop", "db.mm", "--", "-x", "-x").lines()[1].split()[:2], ["-x", "yes"]
        )
        self.write("report", self.report("db.mm", "--report", "citations"))
        self.refuses("drop", "report", "a1i", why="a report, where the database is wanted")
        self.write("empty.mm", "")
        self.refuses("drop", "empty.mm", "a1i", why="empty.mm: ")
        open_one = SMALL.replace("$= wp wq ax-1 $.", "$= ? $.")
        self.write("open.mm", open_one)
        self.refuses("drop", "open.mm", "ax1", why="E32")
        self.assertEqual(self.query("drop", "open.mm", "ax1", "--open").status, 0)


HEADING = """$(
#*#*#*#*
  Rules
#*#*#*#*
$)
"""
BLOCKS = (
    SMALL[: SMALL.index("ax-1")]
    + HEADING
    + """ax-1 $a |- ( p -> ( q -> p ) ) $.
$( Of both. $)
${ $( The minor one. $) min $e |- p $.
   ${ maj $e |- ( p -> q ) $.  $( Modus ponens. $)
      ax-mp $a |- q $.  $( See ~ one and ~ two . $)
      $( The first; see ~ one . $)
      one $p |- q $= ( ax-mp ) ABCDE $.  two $p |- q $= wp wq min maj one $.
      $( Has a comment within. $) \t
      three $( its $) $p |- q $= wp wq min maj $( by ~ two $) two $.\r
   $}
   $( Of ~ ax-1 . $) $( $j usage 'four' avoids 'ax-mp'; $)
   four $p |- ( q -> p ) $= wp wq wp wi min wp wq ax-1 ax-mp $.
$}

$( Begin $[ part.mm $] $) five $p |- ( p -> ( q -> p ) ) $= wp wq ax-1 $. $( End $[ part.mm $] $)

six $p wff ( p -> p ) $= wp wp wi $.
$( $t htmldef '->' as '~ ax-mp'; $)
"""
)
KEPT = (
    SMALL[: SMALL.index("ax-1")]
    + HEADING
    + """ax-1 $a |- ( p -> ( q -> p ) ) $.
$( Of both. $)
${ $( The minor one. $) min $e |- p $.
   ${ maj $e |- ( p -> q ) $.  $( Modus ponens. $)
      ax-mp $a |- q $.  $( See ~ one and ~ two . $)
   $}
   $( Of ~ ax-1 . $) $( $j usage 'four' avoids 'ax-mp'; $)
   four $p |- ( q -> p ) $= wp wq wp wi min wp wq ax-1 ax-mp $.
$}

$( Begin $[ part.mm $] $) five $p |- ( p -> ( q -> p ) ) $= wp wq ax-1 $. $( End $[ part.mm $] $)

six $p wff ( p -> p ) $= wp wp wi $.
$( $t htmldef '->' as '~ ax-mp'; $)
"""
)
"""BLOCKS without `one`, and with it without `two` and `three`."""
UNUSED = SMALL + "three $p |- ( p -> ( q -> p ) ) $= ( ax-1 a2 ) ABC $.\n"
"""The last theorem names `a2` in brackets, and no letter stands for that."""
MARKED = (
    SMALL
    + "$( (New usage is discouraged.) $)\n$( By ~ ax-1 . $)\n"
    + "b1 $p wff ( p -> q ) $= wp wq wi $.\nb2 $p wff ( p -> q ) $= wp wq wi $.\n"
)


def left_of(text: str, labels: Collection[str]) -> tuple[list[str], set[str]]:
    """The words and comments of a database without some assertions and all that rest on them, by
    one loop over its words, and the labels that are gone. A comment is one word."""
    words = re.findall(r"\$\(.*?\$\)|\S+", text, re.S)
    left: list[str] = []
    gone, place = {*labels}, 0
    while place < len(words):
        end = place + 1
        keyword = next((each for each in words[end:] if not each.startswith("$(")), "")
        if words[place][0] != "$" and keyword in ("$a", "$p"):
            end = words.index("$.", place) + 1
            cited = words[words.index("$=", place) : end] if keyword == "$p" else []
            if words[place] in gone or not gone.isdisjoint(cited):
                gone.add(words[place])
                before = words[place - 1]
                if re.match(r"\$\((?!\s+(?:\$[jt]|#\*|Begin|End))", before):
                    left.pop()
                place = end
                continue
        left += words[place:end]
        place = end
    return left, gone


class Removed(World):
    """The databases that `drop --write` makes."""

    def wrote(self, *labels: str) -> tuple[str, str]:
        """What is written without some assertions of db.mm, and what standard error says. The
        program accepts it."""
        (self.folder / "new.mm").unlink(missing_ok=True)
        before = self.query("drop", "db.mm", *labels)
        done = self.query("drop", "db.mm", *labels, "--write", "new.mm")
        self.assertEqual((done.out, done.status), (before.out, before.status))
        self.assertEqual(self.ran(built_program(), "new.mm").status, 0)
        return (self.folder / "new.mm").read_bytes().decode("latin-1"), done.err

    def test_by_chance(self) -> None:
        """Just the assertions go that are named, and those that rest on them."""
        answers = []
        for seed in range(12):
            chance = random.Random(400 + seed)
            database = invented(chance, chance.randint(4, 9))
            self.write("db.mm", database.text)
            some = (
                [*database.axioms, *database.theorems()] if seed % 2 else database.theorems()[-2:]
            )
            labels = chance.sample(some, chance.randint(1, 2))
            gone = {*labels}.union(*map(database.users, labels))
            left = database.text
            for label in gone:
                left = re.sub(rf" {label} \$[ap] [^$]*(\$= [^$]*)?\$\. ", "  ", left)
            new, said = self.wrote(*labels)
            self.assertEqual(new, left)
            along = len(gone) - len(labels)
            words = f"theorems that went along: {along}"
            self.assertEqual(said, f"mmquery: db.mm: {words}\n" if along else "")
            answers.append(along)
        self.assertGreater(min(answers.count(0), len(answers) - answers.count(0)), 2, answers)

    def test_blocks(self) -> None:
        """Blocks, headings, comments `$j`, and where lines end."""
        self.write("db.mm", BLOCKS)
        new, said = self.wrote("one")
        self.assertEqual(new, KEPT)
        along = "theorems that went along: 2"
        named = "lines of comments that still name what is gone: 1"
        self.assertEqual(said, f"mmquery: db.mm: {along}; {named}\n")
        for labels in (["ax-1"], ["ax-mp"], ["two", "five"], ["four"], ["wi"], ["six", "three"]):
            new, said = self.wrote(*labels)
            left, gone = left_of(BLOCKS, labels)
            self.assertEqual(left_of(new, [])[0], left, labels)
            along = f"theorems that went along: {len(gone) - len(labels)}"
            self.assertEqual(along in said, len(gone) > len(labels))
        new, _ = self.wrote("ax-1", "four", "five")
        for each in (HEADING, "$( Of ~ ax-1 . $) $( $j", "$( Begin $[ part.mm $] $)"):
            self.assertIn(each, new)

    def test_headers(self) -> None:
        """All below a header, also of a database that standard input has; nothing may be left."""
        self.write("db.mm", WHOLE)
        new, said = self.wrote("--under", "mathbox")
        self.assertEqual(left_of(new, [])[0], left_of(WHOLE, ["a2"])[0])
        self.assertEqual(said, "")
        words = ("drop", "-", "--under", "Logic", "--write", "all.mm", "--format=csv")
        done = self.query(*words, given=WHOLE.encode())
        self.assertEqual((done.status, done.err.count("\n")), (1, 1))
        all_labels = re.findall(r"(\S+) \$[ap]", WHOLE)
        left = left_of((self.folder / "all.mm").read_text(), [])[0]
        self.assertEqual(left, left_of(WHOLE, all_labels)[0])

    def test_open(self) -> None:
        text = SMALL.replace("wp wq ax-1 $.", "? $.", 1)
        self.write("db.mm", text)
        self.refuses("drop", "db.mm", "a1i", "--write", "new.mm", why="E32")
        done = self.query("drop", "db.mm", "a1i", "--open", "--write", "new.mm")
        self.assertEqual((done.status, done.err.count("went along")), (1, 1))
        new = (self.folder / "new.mm").read_text()
        self.assertEqual(left_of(new, [])[0], left_of(text, ["a1i"])[0])

    def test_what_is_not_written(self) -> None:
        """Nothing is written where the answer says so, nor over a file."""
        self.write("db.mm", UNUSED)
        self.refuses("drop", "db.mm", "a2", "--write", "new.mm", why="nothing is written: the new")
        self.write("db.mm", MARKED)
        self.refuses("drop", "db.mm", "b1", "--write", "new.mm", why="the comment of 'b2' would be")
        self.write("db.mm", SMALL)
        self.refuses("drop", "db.mm", "nope", "--write", "new.mm", why="has no assertion 'nope'")
        self.refuses("drop", "db.mm", "a2", "--essential", "--write", "new.mm", why="--essential")
        (self.folder / "link.mm").symlink_to("nowhere.mm")
        for name in ("db.mm", "link.mm"):
            self.refuses("drop", "db.mm", "a2", "--write", name, why="isn't replaced")
        self.refuses("drop", "db.mm", "a2", "--write", "no/new.mm", why="no such file")
        self.write("report", self.report("db.mm", "--report", "citations"))
        self.refuses("drop", "report", "a2", "--write", "new.mm", why="a report, where")
        names = sorted(file.name for file in self.folder.iterdir())
        self.assertEqual(names, ["db.mm", "link.mm", "report"])
        self.assertEqual((self.folder / "db.mm").read_text(), SMALL)

    def test_the_judge(self) -> None:
        """A database that isn't the old one without just these assertions has no answer."""
        path = str(self.folder / self.write("db.mm", SMALL))
        database = Context(uses_cache=False).database(path, Options(only=None))
        new = removal.without(database.text, {"a2"})
        removal.judged(database, new, {"a2"})
        for data, why in (
            (new.replace(b"wp wq ax-1 $.", b"wp wq wi $."), "refused E"),
            (SMALL.encode(), "other assertions"),
            (new.replace(b"h $e |- p $.", b"h $e |- p $. $d p q $."), "'a1i' would be"),
            (new.replace(b"wq ax-1 $.", b"wq  ax-1 $."), "'ax1' would be another one"),
            (new + b"$( Skip $[ none.mm $] $)\n", "metamath.exe read something else"),
        ):
            with mock.patch.object(removal, "progress"):
                with self.assertRaisesRegex(NoAnswer, why):
                    removal.judged(database, data, {"a2"})

    @unittest.skipUnless((DATABASES / "ql.mm").exists(), "ql.mm isn't installed")
    def test_a_database_of_debian(self) -> None:
        """Beside the loop over the words, and metamath.exe verifies what is left."""
        text = (DATABASES / "ql.mm").read_text("latin-1")
        self.write("db.mm", text)
        new, _ = self.wrote("ax-r3")
        left, gone = left_of(text, ["ax-r3"])
        self.assertGreater(len(gone), 100)
        self.assertEqual(left_of(new, [])[0], left)
        if shutil.which("metamath"):
            given = 'read "new.mm"\nverify proof *\nexit\n'.encode()
            self.assertIn("were verified", self.ran("metamath", given=given).out)
