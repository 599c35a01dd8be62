"""The theorems to which `spare` is restricted, and what it allows to be gained."""

import json
import os
from unittest import mock

from query.answers.output import Output
from query.arguments.context import Context
from query.cli import parser_of
from query.commands import command
from query.commands.spare import wanted_of
from query.reports.choice import Options
from query.spare.changes import Changer
from query.tests.test_spare import BASE, NAMES, ROWS, SPARE
from query.tests.world import World, built_program

BOXED = (
    SPARE
    + "$(\n#*#*#*#\n  Mathbox for Ann\n#*#*#*#\n$)\n"
    + SPARE[SPARE.index("t1 $p") : SPARE.index("t2 $p")].replace("t1 $p", "t4 $p")
    + "t5 $p |- ( ( q -> q ) -> ( p -> p ) ) $= wq wp t4 $.\n"
    + "t6 $p |- ( p -> p ) $= wq wq wi wp wp wi wq bad wp i low $.\n"
).replace("near $a", "${ l.1 $e |- p $. l.2 $e |- q $. low $a |- q $. $}\nnear $a")
"""Of the theorems t1, t3, t4 and t6 can be mended, each by itself."""
GAIN = (
    BASE
    + "ax-a $a |- ( q -> ( r -> r ) ) $.\nax-b $a |- ( q -> ( r -> r ) ) $.\n"
    + "${ m.1 $e |- p $. m.2 $e |- ( p -> q ) $. ax-mp $a |- q $. $}\n"
    + "other $p |- ( r -> r ) $= wp wp wi wr wr wi wp i wp wp wi wr ax-a ax-mp $.\n"
    + "self $p |- ( q -> q ) $= wq bad $.\n"
)
"""`self` can do without `bad` by `i`, or by `other`, which rests on more."""


class Restricted(World):
    """The theorems whose proofs may be changed."""

    def setUp(self) -> None:
        super().setUp()
        self.write("db.mm", BOXED)
        self.write("some", "t1 t6 # and no other\n")

    def rows(self, *words: str) -> list[list[str]]:
        """The rows of an answer."""
        done = self.query("spare", "--format", "tsv", "db.mm", *words)
        self.assertEqual(done.status, 0, done.err)
        lines = [line.split("\t") for line in done.lines()]
        self.assertEqual(lines[0], NAMES)
        return lines[1:]

    def test_one_by_one(self) -> None:
        """The rows with a filter are those with `--theorem` of each one that passes."""
        for words in (["bad"], ["--all", "--new-steps"], ["--shorter"]):
            all_theorems = ("t1", "t3", "t4", "t6")
            each = {label: self.rows(*words, "--theorem", label) for label in all_theorems}
            self.assertTrue(each["t6"], words)
            for filters, labels in (
                (["--main"], ("t1", "t3")),
                (["--mathbox", "Ann"], ("t4", "t6")),
                (["--under", "0.1"], ("t1", "t3")),
                (["--under", "Mathbox for Ann", "--not", "t6"], ("t4",)),
                (["--among", "some"], ("t1", "t6")),
                (["--among", "some", "--main"], ("t1",)),
                (["--theorem", "t1", "--theorem", "t6"], ("t1", "t6")),
                (["--theorem", "t1", "--theorem", "t6", "--main"], ("t1",)),
            ):
                found = self.rows(*words, *filters)
                wanted = [row for label in labels for row in each[label]]
                self.assertEqual(sorted(found), sorted(wanted), (words, filters))

    def test_what_cites_them(self) -> None:
        """What loses an axiom outside of the filters is told, and all that is said is written."""
        self.assertEqual(self.rows("bad", "--among", "some", "--not", "t6"), ROWS)
        self.assertEqual(self.rows("bad", "--like", "t1", "--write", "new.mm"), ROWS)
        wanted = BOXED.replace("( wi i bad both ) AACBBCADBEF", "( wi i both ) AACBBCADBDE", 1)
        self.assertEqual((self.folder / "new.mm").read_text(), wanted)
        self.assertEqual(self.query("verify", "new.mm").status, 0)
        self.assertEqual(self.answers("falls", "new.mm", "bad"), ["t4", "t5", "t6"])
        words = ("spare", "db.mm", "bad", "--main", "--proof", "t1")
        self.assertIn("AACBBCADBDE", self.answers(*words)[1])
        self.refuses(*words[:-1], "t4", why="no new proof of 't4'")

    def test_none_passes(self) -> None:
        """It is said without a search."""
        said = "mmquery: db.mm: none of the theorems passes the filters --like 'x*'\n"
        for words in (("bad",), ("--shorter",), ("--all",)):
            done = self.query("spare", "db.mm", *words, "--like", "x*", "--write", f"{words[0]}.mm")
            self.assertEqual((done.status, done.out, done.err), (0, "", said), words)
            self.assertEqual((self.folder / f"{words[0]}.mm").read_text(), BOXED)
        why = "passes the filters --like 'x*', so none gets a new proof"
        self.refuses("spare", "db.mm", "bad", "--like=x*", "--proof=t1", why=why)
        done = self.query("spare", "db.mm", "up", "--main")
        said = "mmquery: db.mm: none of the theorems among what passes --main rests on up\n"
        self.assertEqual((done.status, done.err), (0, said))
        done = self.query("spare", "db.mm", "far", "--mathbox", "Ann", "--not", "t6")
        self.assertIn("rests on far", done.err)
        self.refuses("spare", "db.mm", "--main", why="an AXIOM is wanted")
        self.refuses("spare", "db.mm", "bad", "--mathbox", "Bo", why="has no mathbox for 'Bo'")
        self.refuses("spare", "db.mm", "bad", "--among", "no", why="no: no such file")

    def test_what_is_kept(self) -> None:
        """What was found of some theorems isn't taken for what is found of others, or of all."""
        asked = (
            ["bad", "--main"],
            ["bad"],
            ["bad", "--mathbox", "Ann"],
            ["bad", "--among", "some"],
            ["bad", "--theorem", "t1", "--theorem", "t6"],
            ["bad", "--main"],
        )
        kept = [self.rows(*words) for words in asked]
        self.assertEqual(kept, [self.rows(*words, "--no-cache") for words in asked])
        self.assertEqual(kept[0], kept[-1])
        self.assertEqual(kept[3], kept[4])
        self.assertEqual(len({json.dumps(each) for each in kept}), 4)

    def test_keys(self) -> None:
        """What is kept of a search has a key for each choice of theorems and of what is gained."""
        path = str(self.folder / "db.mm")
        names = {"XDG_CACHE_HOME": str(self.cache), "XDG_CONFIG_HOME": str(self.config)}
        keys: dict[str | None, str] = {}
        with mock.patch.dict(os.environ, {**names, "MMDEPEND": built_program()}):
            for words in (
                "bad", "bad --theorem t1", "bad --theorem t4", "bad --theorem t1 --theorem t4",
                "bad --may-gain i", "bad --may-gain i,near", "bad --may-gain-of t3",
                "--all", "--shorter", "--shorter --theorem t1",
            ):  # fmt: skip
                context = Context(Output(), True)
                database = context.database(path, Options(only="|-"))
                arguments = parser_of(command("spare")).read([path, *words.split()])
                key = Changer(database, wanted_of(context, database, arguments)).key
                self.assertNotIn(key, keys, words)
                keys[key] = words


class Gaining(World):
    """What theorems may come to rest on."""

    def setUp(self) -> None:
        super().setUp()
        self.write("db.mm", GAIN)

    def freed(self, *words: str) -> list[tuple[str, str, str]]:
        """Each theorem that is freed of `bad`, by what, and what it gains."""
        done = self.query("spare", "--format", "json", "db.mm", "bad", *words)
        self.assertEqual(done.status, 0, done.err)
        found = done.rows()
        return [(str(row["theorem"]), str(row["by"]), str(row["gains"])) for row in found]

    def test_several_and_patterns(self) -> None:
        self.assertEqual(self.freed(), [])
        by_i = [("self", "i", "['i']")]
        by_other = [("self", "other", "['i', 'ax-a', 'ax-mp']")]
        for words, wanted in (
            ("--may-gain=i", by_i),
            ("--may-gain=near,i", by_i),
            ("--may-gain=near --may-gain=i", by_i),
            ("--may-gain=?", by_i),
            ("--may-gain=*", by_i),
            ("--may-gain=near,ax-*", []),
            ("--may-gain=b*,i", by_i),
            ("--may-gain-of=i", by_i),
            ("--may-gain-of=other", by_i),
            ("--may-gain-of=near,i", by_i),
            ("--may-gain-of=near --may-gain-of=other", by_i),
            ("--may-gain-of=near --may-gain=i", by_i),
            ("--may-gain-of=near", []),
        ):
            self.assertEqual(self.freed(*words.split()), wanted, words)
        self.write(
            "db.mm",
            GAIN.replace(
                "i $a |- ( p -> p )", "$( (New usage is discouraged.) $) i $a |- ( p -> p )", 1
            ),
        )
        self.assertEqual(self.freed("--may-gain-of=other"), by_other)
        self.assertEqual(self.freed("--may-gain=i,ax-*"), by_other)
        self.assertEqual(self.freed("--may-gain=i,ax-a"), [])

    def test_refused(self) -> None:
        for words, why in (
            ("--may-gain=bad", "bad can't be lost and gained"),
            ("--may-gain=i,bad", "bad can't be lost and gained"),
            ("--may-gain=ba*", "ba* can't be lost and gained"),
            ("--may-gain=i,other", "has no axiom of typecode '|-' 'other'"),
            ("--may-gain=x*", "db.mm: has no axiom like 'x*'"),
            ("--may-gain=oth*", "db.mm: has no axiom like 'oth*'"),
            ("--may-gain=wi", "another typecode"),
            ("--may-gain-of=othr", "has no assertion 'othr'; did you mean other?"),
            ("--may-gain-of=wi", "wi rests on no axiom that may be gained"),
            ("--may-gain-of=self", "self rests on no axiom that may be gained"),
            ("--may-gain-of=i,bad", "bad rests on no axiom that may be gained"),
        ):
            self.refuses("spare", "db.mm", "bad", *words.split(), why=why)

    def test_what_would_do(self) -> None:
        """Standard error says what would do, and what it allows is found."""
        words = ("spare", "db.mm", "bad", "--theorem", "self", "--may-gain", "near")
        done = self.query(*words)
        none = "mmquery: db.mm: no theorem was found that can do without bad\n"
        told = "mmquery: db.mm: i would do in the proof of self, which would gain i;"
        said = f"{none}{told} --may-gain-of i allows it\n"
        self.assertEqual((done.status, done.out, done.err), (0, "", said))
        self.assertEqual(self.freed(*words[3:], "--may-gain-of", "i")[0][0], "self")
        for others in (
            ("bad", "--may-gain", "near"),
            ("bad", "--theorem", "self"),
            ("--theorem", "self", "--may-gain", "near"),
            ("bad", "--theorem", "self", "--may-gain", "i"),
        ):
            self.assertNotIn("would do", self.query("spare", "db.mm", *others).err, others)
        failed = self.query(*words, "--proof", "self")
        self.assertEqual(failed.status, 2)
        self.assertIn(told, failed.err)
        self.assertIn("no new proof of 'self'", failed.err)

    def test_what_would_do_gains_much(self) -> None:
        """The first axioms are named, and the first theorems."""
        text = GAIN.replace("i $a |- ( p -> p ) $.", "$c I $. wI $a wff I $. i $a |- I $.")
        text = text[: text.index("other $p")]
        text += "".join(f"ax-{name} $a |- I $.\n" for name in "cdef")
        text += "${ n.1 $e |- p $. n.2 $e |- q $. n $a |- ( r -> r ) $. $}\n"
        text += "many $p |- ( r -> r ) $= wI wI wr i ax-c n $.\n"
        for name in "abcd":
            text += f"self{name} $p |- ( q -> q ) $= wq bad $.\n"
        self.write("db.mm", text)
        named = [word for name in "abcd" for word in ("--theorem", f"self{name}")]
        done = self.query("spare", "db.mm", "bad", *named, "--may-gain", "near")
        lines = done.err.splitlines()
        self.assertEqual(len(lines), 4, done.err)
        for name, line in zip("abc", lines[1:], strict=True):
            told = f"mmquery: db.mm: many would do in the proof of self{name}, which would gain"
            self.assertEqual(line, f"{told} i ax-c n; --may-gain-of many allows them")
