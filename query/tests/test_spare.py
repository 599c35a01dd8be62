"""What `spare` answers and writes, which conventions it keeps, and that nothing wrong is answered
where the search is broken by hand."""

import os
import shutil
import unittest
from collections.abc import Callable
from typing import Any
from unittest import mock

from query.answers.errors import NoAnswer
from query.answers.output import Output
from query.arguments.context import Context
from query.cli import parser_of
from query.commands import command
from query.commands.spare import GIVEN_UP, rows_of
from query.proofs import layout
from query.proofs.letters import letters_of
from query.reports.choice import Options
from query.spare import changes, judge, kept, proofs, rules, search, writing
from query.spare.changes import Changer, Wanted
from query.spare.kept import Change, Replaced
from query.spare.roots import Roots
from query.tests import shapes
from query.tests.world import DATABASES, SMALL, World, built_program
from query.texts.text import Text
from tests.shared.metamath import asked

BASE = """$c ( ) -> |- wff $.
$v p q r $.
wp $f wff p $. wq $f wff q $. wr $f wff r $.
wi $a wff ( p -> q ) $.
i $a |- ( p -> p ) $.
bad $a |- ( p -> p ) $.
${ up.1 $e |- p $. up $a |- ( q -> p ) $. $}
${ b.1 $e |- p $. b.2 $e |- q $. both $a |- ( p -> q ) $. $}
${ $d p q $. far $a |- ( p -> ( q -> p ) ) $. $}
near $a |- ( p -> ( q -> p ) ) $.
"""
ONE = "( ( p -> p ) -> ( q -> q ) )"
SPARE = (
    BASE
    + f"""$(
#*#*#*#
  Chapter
#*#*#*#
$)
$( The first. $)
t1 $p |- {ONE} $=
  ( wi i bad both ) AACBBCADBEF $.
t2 $p |- ( ( q -> q ) -> ( p -> p ) ) $= wq wp t1 $.
${{ $d p q $. t3 $p |- ( ( p -> ( q -> p ) ) -> ( p -> ( p -> p ) ) ) $=
  wp wq wp wi wi wp wp wp wi wi wp wq far wp wp near both $. $}}
"""
)
NEW = SPARE.replace("( wi i bad both ) AACBBCADBEF", "( wi i both ) AACBBCADBDE")
ROWS = [
    ["direct", "t1", "bad", "bad", "i", "|- ( q -> q )", "-4", "0.1", *4 * [""]],
    ["cascade", "t2", "bad", "", "", "", "", "0.1", "", "t1", "", ""],
]
NAMES = ["how", "theorem", "loses", "replaced", "by", "step", "bytes", "chapter", "gains"]
NAMES += ["with", "fault", "hides"]


class Spare(World):
    """Over small databases."""

    def setUp(self) -> None:
        super().setUp()
        self.write("db.mm", SPARE)

    def rows(self, *words: str) -> list[list[str]]:
        """The rows of an answer."""
        done = self.query("spare", "--format", "tsv", *words)
        self.assertEqual(done.status, 0, done.err)
        lines = [line.split("\t") for line in done.lines()]
        self.assertEqual(lines[0], NAMES)
        return lines[1:]

    def test_rows(self) -> None:
        self.assertEqual(self.rows("db.mm", "bad"), ROWS)
        self.assertEqual(self.rows("db.mm", "bad", "--theorem", "t1"), ROWS)
        self.assertEqual(self.rows("db.mm", "--theorem", "t1"), ROWS)
        other = ["direct", "t3", "far", "far", "near", "|- ( p -> ( q -> p ) )", "-21", "0.1"]
        other += 4 * [""]
        self.assertEqual(self.rows("db.mm", "--all"), [other, *ROWS])
        self.assertEqual(self.rows("db.mm", "near", "bad"), ROWS)
        self.assertEqual(self.rows("db.mm", "bad", "--theorem", "t2"), [])
        done = self.query("spare", "db.mm", "near")
        self.assertEqual((done.out, done.status), ("", 0))
        self.assertIn("no theorem was found that can do without near\n", done.err)
        for words, said in (
            (("far", "--theorem", "t1"), "t1 doesn't rest on far"),
            (("up", "far", "--theorem", "t1", "--theorem", "t2"),
             "none of the theorems rests on any of the axioms"),
            (("up",), "none of the theorems rests on up"),
            (("bad", "far", "--theorem", "t2"),
             "no theorem was found that can do without any of the axioms"),
            (("--theorem", "t2"),
             "no theorem was found that can do without an axiom on which it rests"),
        ):  # fmt: skip
            done = self.query("spare", "db.mm", *words)
            self.assertEqual((done.status, done.out), (0, ""), words)
            self.assertIn(f"mmquery: db.mm: {said}\n", done.err, words)
        self.write("small.mm", SMALL)
        done = self.query("spare", "small.mm", "--shorter")
        self.assertEqual(done.err, "mmquery: small.mm: no shorter proof was found\n")

    def test_what_may_be_gained(self) -> None:
        """A proof gains what is named where it can't do without AXIOM otherwise, and so does what
        cites it; the program and metamath.exe verify what is written."""
        text = SPARE + (
            "only $p |- ( q -> q ) $= wq bad $.\n"
            "over $p |- ( r -> ( q -> q ) ) $= wq wq wi wr wq only up $.\n"
            "free $p |- ( p -> p ) $= wp i $.\n"
            "own $p |- ( p -> ( p -> p ) ) $= wp wp near $.\n"
        )
        self.write("gain.mm", text)
        self.assertEqual(self.rows("gain.mm", "bad"), ROWS)
        step = ["bad", "i", "|- ( q -> q )"]
        gained = [
            ["direct", "only", "bad", *step, "", "0.1", "i", "", "", ""],
            ["cascade", "over", "bad", "", "", "", "", "0.1", "i", "only", "", ""],
        ]
        for jobs in ("1", "3"):
            words = ("gain.mm", "bad", "--may-gain", "i", f"--jobs={jobs}")
            rows = self.rows(*words, "--no-cache")
            for row in rows:
                if row[1] == "only":
                    row[6] = ""
            self.assertEqual(rows, [*ROWS, *gained])
        self.assertEqual(self.rows("gain.mm", "bad", "--may-gain=near"), ROWS)
        self.rows("gain.mm", "bad", "--may-gain=i", "--write=new.mm")
        self.assertEqual(self.query("verify", "new.mm").status, 0)
        self.assertEqual(self.answers("rests", "new.mm", "over"), ["i", "up"])
        self.assertEqual(self.answers("falls", "new.mm", "bad"), [])
        if shutil.which("metamath"):
            (said,) = asked(self.folder / "new.mm", ["verify proof *"])
            self.assertIn("All proofs in the database were verified", said)
        lines = self.query("spare", "gain.mm", "bad", "--may-gain", "i").lines()
        self.assertTrue(lines[0].endswith("chapter  gains  with"))
        all_rows = self.rows("gain.mm", "--all", "--may-gain", "i", "--no-cache")
        self.assertEqual([row[1] for row in all_rows], ["only", "over", "t1", "t2", "t3"])
        self.refuses("spare", "gain.mm", "bad", "--may-gain=bad", why="can't be lost and gained")
        self.refuses("spare", "gain.mm", "bad", "--may-gain=t1", why="has no axiom")

    def test_more_is_gained_than_may_be(self) -> None:
        """The judge refuses what gains another axiom, or isn't said to gain it."""
        text = SPARE + "only $p |- ( q -> q ) $= wq bad $.\n"
        self.write("gain.mm", text)
        data = text.replace("wq bad $.", "wq i $.").encode()
        environment = mock.patch.dict(os.environ, {"MMDEPEND": built_program()})
        with environment:
            database = Context(uses_cache=False).database(str(self.folder / "gain.mm"))
            said = Change("only", ("bad",), b" wq i ", 7, [Replaced(("bad",), "i", "")])
            for gains, may_gain, is_so in (
                (("i",), {"i"}, True),
                ((), {"i"}, False),
                (("i",), set[str](), False),
                (("i", "near"), {"i", "near"}, False),
            ):
                said.gains = gains
                if is_so:
                    judge.judge_changes(database, data, [said], may_gain)
                else:
                    with self.assertRaisesRegex(NoAnswer, "only rests on an axiom"):
                        judge.judge_changes(database, data, [said], may_gain)

    def test_write(self) -> None:
        self.assertEqual(self.rows("db.mm", "bad", "--write", "new.mm"), ROWS)
        self.assertEqual((self.folder / "new.mm").read_text(), NEW)
        self.assertEqual(self.query("verify", "new.mm").status, 0)
        self.assertEqual(self.rows("new.mm", "bad"), [])
        for name in ("new.mm", "db.mm"):
            before = (self.folder / name).read_bytes()
            self.refuses("spare", "db.mm", "bad", "--write", name, why="isn't replaced")
            self.assertEqual((self.folder / name).read_bytes(), before)
        self.refuses("spare", "db.mm", "bad", "--write", "no/new.mm", why="no such file")
        names = sorted(file.name for file in self.folder.iterdir())
        self.assertEqual(names, ["db.mm", "new.mm"])

    def test_proof(self) -> None:
        lines = self.answers("spare", "db.mm", "bad", "--proof", "t1")
        self.assertEqual(lines, [f"t1 $p |- {ONE} $=", "  ( wi i both ) AACBBCADBDE $."])
        self.refuses("spare", "db.mm", "bad", "--proof", "t2", why="no new proof of 't2'")

    def test_nothing_to_lose(self) -> None:
        """That a theorem doesn't rest on an axiom is said without a search."""
        said = "t1 doesn't rest on near"
        with mock.patch.object(Changer, "changes", side_effect=AssertionError):
            done = self.query("spare", "db.mm", "near", "--theorem", "t1", "--write", "same.mm")
            self.assertEqual((done.status, done.err), (0, f"mmquery: db.mm: {said}\n"))
            self.refuses("spare", "db.mm", "near", "--proof", "t1", why=f"{said}, so it gets no")
        self.assertEqual((self.folder / "same.mm").read_text(), SPARE)

    def test_words(self) -> None:
        self.refuses("spare", "db.mm", why="an AXIOM is wanted")
        self.refuses("spare", "db.mm", "t1", why="no axiom of typecode '|-' 't1'")
        self.refuses("spare", "db.mm", "bad", "--theorem", "i", why="has no theorem 'i'")
        self.refuses("spare", "db.mm", "bad", "--all", why="exclude one another")
        self.refuses("spare", "db.mm", "wi", why="another typecode")
        self.write("report", self.report("db.mm"))
        self.refuses("spare", "report", "bad", why="a report, where the database is wanted")

    def test_conventions(self) -> None:
        self.write("alt.mm", SPARE.replace("\ni $a", "\niALT $a").replace(" i ", " iALT "))
        self.assertEqual(self.rows("alt.mm", "bad"), [])
        self.assertEqual(self.rows("alt.mm", "bad", "--cite-old")[0][4], "iALT")
        said = "$( (New usage is\n discouraged.) $) i $a"
        self.write("use.mm", SPARE.replace("i $a |- ( p -> p )", f"{said} |- ( p -> p )", 1))
        self.assertEqual(self.rows("use.mm", "bad"), [])
        self.assertEqual(len(self.rows("use.mm", "bad", "--cite-discouraged")), 2)
        said = "The first. (Proof modification is discouraged.)"
        self.write("proof.mm", SPARE.replace("The first.", said))
        self.assertEqual(self.rows("proof.mm", "bad"), [])
        self.assertEqual(len(self.rows("proof.mm", "bad", "--change-discouraged")), 2)

    def test_mathboxes(self) -> None:
        box = "$(\n#*#*#*#\n  Mathbox for {}\n#*#*#*#\n$)\n"
        own = SPARE.replace("i $a |-", "WAIT", 1).replace(
            "$(\n#*#*#*#\n  Chapter\n#*#*#*#\n$)\n", ""
        )
        text = own.replace("WAIT", box.format("A") + "i $a |-").replace(
            "bad $a", box.format("B") + "bad $a"
        )
        self.write("box.mm", text)
        self.assertEqual(self.rows("box.mm", "bad"), [])
        self.assertEqual(len(self.rows("box.mm", "bad", "--cite-mathboxes")), 2)
        self.write("same.mm", text.replace("Mathbox for B", "Mathbox for A", 1))
        self.assertEqual(self.rows("same.mm", "bad"), [])  # another one of the same name
        self.write("one.mm", text.replace(box.format("B"), ""))
        self.assertEqual(len(self.rows("one.mm", "bad")), 2)

    def test_a_comment_in_a_proof_stays(self) -> None:
        self.write("said.mm", SPARE.replace("( wi i bad", "( wi $( Here. $) i bad"))
        self.assertEqual(self.rows("said.mm", "bad"), [])
        self.write("before.mm", SPARE.replace("t1 $p |-", "t1 $p $( Here. $) |-"))
        self.assertEqual(self.rows("before.mm", "bad", "--write", "new.mm"), ROWS)
        wanted = NEW.replace("t1 $p |-", "t1 $p $( Here. $) |-")
        self.assertEqual((self.folder / "new.mm").read_text(), wanted)

    def test_lines_end_as_they_did(self) -> None:
        self.write("crlf.mm", SPARE.replace("\n", "\r\n"))
        self.assertEqual(self.rows("crlf.mm", "bad", "--write", "new.mm"), ROWS)
        self.assertEqual((self.folder / "new.mm").read_bytes(), NEW.replace("\n", "\r\n").encode())

    def test_grammars(self) -> None:
        for syntax, why in (
            ("wz $a wff $. wb $a wff p q $.", "it can be read in two ways"),  # in endless ways
            ("wb $a wff p q $. wc $a wff ( p -> q $.", None),
            ("wb $a wff p $.", "it can be read in two ways"),  # a rule that leads to itself
            ("wz $a wff $.", None),
            ("we $a wff ( p = p ) $. e $a |- ( p = p ) $. f $a |- ( p = q ) $.", "it isn't built"),
        ):
            text = SPARE.replace("wi $a", f"{syntax} wi $a").replace("$c", "$c =")
            self.write("rules.mm", text)
            done = self.query("spare", "--format", "tsv", "rules.mm", "bad")
            found = [line.split("\t")[:3] for line in done.lines()[1:]]
            self.assertEqual(found, [row[:3] for row in ROWS], syntax)
            if why is None:
                self.assertEqual(done.err, "")
            else:
                self.assertIn("formulas aren't read by the syntax axioms, so less", done.err)
                self.assertIn(why, done.err)

    def test_without_syntax_axioms(self) -> None:
        text = "$c |- wff * $. $v p q $. wp $f wff p $. wq $f wff q $.\n"
        text += "i $a |- p * p $. bad $a |- p * p $.\n"
        text += "${ j.1 $e |- p * p $. j.2 $e |- q * q $. j $a |- p * q $. $}\n"
        text += "wpp $p wff p $= wp $.\n"
        text += "t $p |- p * q $= wp wpp wq wp i wq bad j $.\n"
        self.write("flat.mm", text)
        rows = self.rows("flat.mm", "bad", "--write", "new.mm")
        self.assertEqual(
            [row[:6] for row in rows], [["direct", "t", "bad", "bad", "i", "|- q * q"]]
        )
        self.assertIn("$= wp wpp", text)
        self.assertEqual(self.query("verify", "new.mm").status, 0)

    def test_new_steps(self) -> None:
        """What another statement needs isn't proved yet."""
        text = BASE + "${ w.1 $e |- ( q -> q ) $. w.2 $e |- p $. w $a |- ( q -> p ) $. $}\n"
        text += "${ v.1 $e |- p $. v $a |- ( q -> p ) $. $}\n"
        text += "${ t.1 $e |- p $. t $p |- ( ( q -> p ) -> ( r -> p ) ) $=\n"
        text += "wq wp wi wr wp wi wp wq t.1 v wp wr wr i t.1 w both $. $}\n"
        self.write("steps.mm", text)
        self.assertEqual(self.rows("steps.mm", "v"), [])
        rows = self.rows("steps.mm", "v", "--new-steps", "--write", "new.mm")
        wanted = [
            ["direct", "t", "v", "", "i", "|- ( q -> q )"],
            ["direct", "t", "v", "v", "w", "|- ( q -> p )"],
        ]
        self.assertEqual([row[:6] for row in rows], wanted)
        self.assertEqual(self.query("verify", "new.mm").status, 0)
        self.refuses("spare", "steps.mm", "--shorter", "--new-steps", why="--new-steps exclude one")

    def test_deep_formulas(self) -> None:
        """Formulas that are nested as deeply as they are long, on either side."""
        for before, after in (("( p -> ", " )"), ("( ", " -> p )")):
            deep = f"{before * 4000}p{after * 4000}"
            text = SPARE + f"d $a |- ( {deep} -> p ) $.\n"
            text += f"${{ e.1 $e |- {deep} $. e $p |- ( {deep} -> ( q -> q ) ) $=\n"
            steps = ["wp"] * 4001 + ["wi"] * 4000
            if before != "( p -> ":
                steps = ["wp", *["wp", "wi"] * 4000]
            steps += ["wq", "wq", "wi", "e.1", "wq", "bad", "both"]
            self.write("deep.mm", f"{text}{' '.join(steps)} $. $}}\n")
            rows = self.rows("deep.mm", "bad")
            self.assertEqual([row[:5] for row in rows], [row[:5] for row in ROWS])

    def test_a_detour(self) -> None:
        """The axiom is cited for what the theorem says already."""
        text = BASE + "${ d.1 $e |- p $. d.2 $e |- q $. drop $a |- q $. $}\n"
        proof = "wq wq wi wp wp wi wq bad wp i drop"
        self.write("long.mm", f"{text}t $p |- ( p -> p ) $= {proof} $.\n")
        [row] = self.rows("long.mm", "bad", "--write", "new.mm")
        self.assertEqual(row[:6], ["direct", "t", "bad drop", "", "", ""])
        wanted = f"{text}t $p |- ( p -> p ) $= ( i ) AB $.\n"
        self.assertEqual((self.folder / "new.mm").read_text().split(), wanted.split())

    def test_a_formula_that_doubles(self) -> None:
        """A formula of the proof has 2^18 symbols, which are parts of one another."""
        letters = "A"
        for number in range(18):  # each part is marked, and stands twice in the next one
            letters += f"{'A' if number == 0 else REAL_LETTERS(number + 5)}BZ"
        last = REAL_LETTERS(6 + 16)
        text = BASE + "${ d.1 $e |- p $. d.2 $e |- q $. drop $a |- ( q -> q ) $. $}\n"
        proof = f"( wi i bad both drop ) {letters}AAB{last}DACF"
        self.write("double.mm", f"{text}t $p |- {ONE.replace('q', 'p')} $= {proof} $.\n")
        [row] = self.rows("double.mm", "bad", "--write", "new.mm")
        self.assertEqual(row[:5], ["direct", "t", "bad", "bad", "i"])
        self.assertTrue(row[5].endswith(" ..."))
        self.assertEqual(len(row[5].split()), 402)
        self.assertEqual(self.query("verify", "new.mm").status, 0)


def broken(target: Any, name: str, made: Callable[..., Any]) -> Any:
    """A patch of what the search has."""
    return mock.patch.object(target, name, made)


def without_text(found: list[Change], label: str) -> list[Change]:
    """The changes but that of a theorem."""
    return [change for change in found if change.theorem != label]


def edited(change: Change, **fields: Any) -> Change:
    """A change with other fields."""
    for name, value in fields.items():
        setattr(change, name, value)
    return change


REAL_CHANGES = Changer.changes
REAL_REWRITTEN = judge.rewritten
REAL_LETTERS = letters_of


def all_with(edit: Callable[[Change], Change]) -> Callable[[Changer], list[Change]]:
    """The changes, each edited."""
    return lambda self: [edit(change) for change in REAL_CHANGES(self)]


def wrong_label(change: Change) -> Change:
    """A change whose rows name another statement."""
    change.replaced = [Replaced(each.old, "near", each.formula) for each in change.replaced]
    return change


def words_backwards(self: writing.Writer, *words: Any) -> tuple[list[str], str]:
    """The labels and the letters of a proof, these from the end."""
    labels, letters = writing.Writing(self, *words).words()
    return labels, letters[::-1]


def cited_wrongly(
    self: search.Search, citable: search.Citable, bound: tuple[int, ...]
) -> proofs.Step | None:
    """A step in which another formula stands for the variables."""
    trees = tuple(self.proof.root for _ in citable.rule.hypotheses)
    return proofs.Step(citable.rule.number, trees, ())


WAYS: dict[str, tuple[str, Any]] = {
    "no conditions of distinct variables": (
        "near",
        broken(search.Search, "keeps_distinct", lambda *_: True),
    ),
    "another substitution": ("bad", broken(search.Search, "cited", cited_wrongly)),
    "letters of other steps": (
        "bad",
        broken(layout, "letters_of", lambda number: REAL_LETTERS(number + (number == 3))),
    ),
    "letters in another order": ("bad", broken(writing.Writer, "words", words_backwards)),
    "a theorem that loses something else": (
        "bad",
        broken(Changer, "changes", all_with(lambda change: edited(change, loses=("near",)))),
    ),
    "a theorem that loses nothing": (
        "bad",
        broken(Changer, "changes", all_with(lambda change: edited(change, loses=()))),
    ),
    "a theorem left out": (
        "bad",
        broken(Changer, "changes", lambda self: without_text([*REAL_CHANGES(self)], "t2")),
    ),
    "a theorem twice": (
        "bad",
        broken(Changer, "changes", lambda self: [*REAL_CHANGES(self)] * 2),
    ),
    "a statement that isn't cited": ("bad", broken(Changer, "changes", all_with(wrong_label))),
    "the proof of another theorem": (
        "bad",
        broken(
            Changer, "changes", all_with(lambda change: edited(change, proof=b" wp wq wr bad "))
        ),
    ),
    "an axiom that is gained": (
        "bad",
        broken(
            Changer,
            "changes",
            all_with(
                lambda change: edited(change, proof=b" wp wp wi wq wq wi wp i wq wq near up both ")
                if change.theorem == "t1"
                else change
            ),
        ),
    ),
}


def settled_with(label: str, **fields: Any) -> Any:
    """A patch by which the change of a theorem says something else when all are settled."""

    def settled(self: Roots) -> list[Change]:
        found = REAL_SETTLED(self)
        return [edited(each, **fields) if each.theorem == label else each for each in found]

    return broken(Roots, "settled", settled)


REAL_SETTLED = Roots.settled
WAYS |= {
    "what stands after it": ("bad", settled_with("t2", sources=("t3",))),
    "what keeps its proof": ("bad", settled_with("t2", sources=("t2",))),
    "a source of a new proof": ("bad", settled_with("t1", sources=("t1",))),
    "a fault that rests on nothing lost": ("bad", settled_with("t1", faults=("t1",))),
    "a fault that isn't cited": ("bad", settled_with("t1", faults=("t3",))),
    "a definition that it doesn't rest on": ("bad", settled_with("t1", hides=("near",))),
    "no definition": ("bad", settled_with("t1", hides=("t2",))),
}


class Broken(World):
    """The search is broken in many ways; nothing wrong is answered."""

    def answer(self, axiom: str) -> None:
        """Asks in this process."""
        path = str(self.folder / "db.mm")
        words = [path, axiom, "--write", str(self.folder / "new.mm")]
        arguments = parser_of(command("spare")).read(words)
        command("spare").run(Context(Output(), False), arguments)

    def test_ways(self) -> None:
        self.write("db.mm", SPARE)
        self.assertGreaterEqual(len(WAYS), 10)
        for way, (axiom, patch) in WAYS.items():
            with patch, self.assertRaises(NoAnswer, msg=way) as why:
                self.answer(axiom)
            self.assertIn("what was found isn't so: ", str(why.exception), way)
            self.assertFalse((self.folder / "new.mm").exists(), way)
        self.answer("bad")
        self.assertEqual((self.folder / "new.mm").read_text(), NEW)

    def test_texts(self) -> None:
        """A new database in which something else is changed."""
        self.write("db.mm", SPARE)
        for old, new in (
            (b"The first.", b"The last."),
            (b"t2 $p", b"t4 $p"),
            (b"wq wp t1", b"wq  wp t1"),
            (b"$d p q $. t3", b"$d p q r $. t3"),
            (b"$}\n", b"$}\n\n"),
            (b"t1 $p |-", b"t1 $p  |-"),
            (b"${ up.1 $e |- p $.", b"${ up.1 $e |- q $."),
        ):

            def other(text: Text, found: list[Change], old: bytes = old, new: bytes = new) -> bytes:
                return REAL_REWRITTEN(text, found).replace(old, new, 1)

            with mock.patch("query.commands.spare.rewritten", other):
                with self.assertRaises(NoAnswer) as why:
                    self.answer("bad")
            self.assertIn("what was found isn't so: ", str(why.exception))
            self.assertFalse((self.folder / "new.mm").exists())


class Limits(World):
    """What takes too long is said, and what is too large is refused."""

    def test_given_up(self) -> None:
        path = str(self.folder / self.write("db.mm", SPARE))
        database = Context(uses_cache=False).database(path, Options())
        with mock.patch.multiple(search, STEPS=0, STEPS_OF_FORMULA=1):
            found = list(Changer(database, Wanted("|-", ("bad",))).changes())
        given_up = [(each.theorem, each.loses, each.is_given_up) for each in found]
        self.assertEqual(given_up, [("t1", (), True), ("t2", (), True)])
        judge.judge_changes(database, judge.rewritten(database.text, found), found)
        self.assertEqual(rows_of(database, found), [])
        words = parser_of(command("spare")).read([path, "bad", "--no-cache"])
        context = Context(Output(), False)
        with mock.patch.multiple(search, STEPS=0, STEPS_OF_FORMULA=1):
            command("spare").run(context, words)
        said = GIVEN_UP.format(2, "t1")
        none = "no theorem was found that can do without bad"
        self.assertEqual(context.remarks, [f"{path}: {none}; {said}"])

    def test_given_up_in_one_statement(self) -> None:
        """Hypotheses that could be matched in very many orders."""
        self.write("db.mm", shapes.premises(2)["a.mm"])
        done = self.query("repeats", "db.mm")
        self.assertEqual((done.out, done.status), ("", 0))
        self.assertIn("of 2 theorems it takes too long to say what they repeat", done.err)
        self.assertIn("the first is t0", done.err)

    def test_sizes(self) -> None:
        path = str(self.folder / self.write("db.mm", SPARE))
        database = Context(uses_cache=False).database(path, Options())
        for name, what in (
            ("MOST_ASSERTIONS", "assertions"),
            ("MOST_VARIABLES", "variables"),
            ("MOST_MARKS", "pairs of an assertion and an axiom"),
        ):
            with mock.patch.object(rules, name, 2), self.assertRaises(NoAnswer) as why:
                Changer(database, Wanted("|-", ("bad",)))
            self.assertIn(f"has more than 2 {what}, too many to search", str(why.exception))

    def test_a_long_formula_is_cited_often(self) -> None:
        """A proof isn't carried out that takes too long."""
        path = str(self.folder / self.write("db.mm", SPARE))
        database = Context(uses_cache=False).database(path, Options())
        with mock.patch.multiple(proofs, STEPS=0, STEPS_OF_LETTER=0):
            self.assertEqual(list(Changer(database, Wanted("|-", ("bad",))).changes()), [])


class Kept(World):
    """Trees that were kept."""

    def test_the_same_answer(self) -> None:
        self.write("db.mm", SPARE)
        first = self.query("spare", "db.mm", "--all")
        kept = len(list((self.cache / "mmquery").iterdir()))
        self.assertEqual(kept, 3)
        self.assertEqual(self.query("spare", "db.mm", "--all"), first)
        self.assertEqual(self.query("spare", "db.mm", "--all", "--no-cache"), first)
        self.assertEqual(len(list((self.cache / "mmquery").iterdir())), kept)
        words = ("spare", "db.mm", "bad", "--theorem", "t1", "--write")
        self.assertEqual(self.query(*words, "one.mm"), self.query(*words, "two.mm"))
        self.assertEqual((self.folder / "two.mm").read_text(), NEW)
        self.assertEqual(self.query("repeats", "db.mm"), self.query("repeats", "db.mm"))

    def test_a_search_goes_on(self) -> None:
        """It is interrupted at each theorem, and tries none twice."""
        path = str(self.folder / self.write("db.mm", SPARE))
        names = {"XDG_CACHE_HOME": str(self.cache), "XDG_CONFIG_HOME": str(self.config)}
        tried: list[int] = []
        real = Changer.change

        def change(self: Changer, number: int) -> Change | None:
            tried.append(number)
            if len(tried) % 2:
                raise InterruptedError
            return real(self, number)

        with mock.patch.dict(os.environ, names), mock.patch.object(changes, "SECONDS", 0):
            database = Context().database(path, Options())
            wanted = Wanted("|-", ("bad", "near"))
            with mock.patch.object(Changer, "change", change):
                for _ in range(3):
                    with self.assertRaises(InterruptedError):
                        list(Changer(database, wanted).changes())
                found = list(Changer(database, wanted).changes())
        self.assertEqual(len(tried), 6, tried)
        self.assertEqual([each.theorem for each in found], ["t1", "t2"])
        judge.judge_changes(database, judge.rewritten(database.text, found), found)

    def test_what_another_kept_is_not_believed(self) -> None:
        """Somebody else keeps in the user's folder that all is searched, and nothing found; with
        the user's own secret that would be the answer."""
        path = str(self.folder / self.write("db.mm", SPARE))
        names = {"XDG_CACHE_HOME": str(self.cache), "XDG_CONFIG_HOME": str(self.config)}
        other = self.folder.parent / "other"
        other.mkdir()
        for config, is_believed in ((other, False), (self.config, True)):
            with mock.patch.dict(os.environ, {**names, "XDG_CONFIG_HOME": str(config)}):
                changer = Changer(Context().database(path, Options()), Wanted("|-", ("bad",)))
                assert changer.key is not None
                kept.store(changer.key, len(changer.cites), [])
                self.assertEqual(kept.load(changer.key), (3, {}))
            with mock.patch.dict(os.environ, names):
                changer = Changer(Context().database(path, Options()), Wanted("|-", ("bad",)))
                found = [change.theorem for change in changer.changes()]
            self.assertEqual(found, [] if is_believed else ["t1", "t2"])


@unittest.skipUnless(
    shutil.which("metamath") and (DATABASES / "ql.mm").exists(), "no metamath.exe or no ql.mm"
)
class BesideMetamath(World):
    """What is written is verified by metamath.exe, which traces the theorems back to the axioms."""

    def checked(self, name: str, *axioms: str) -> None:
        """A database is changed, and judged."""
        path = str(DATABASES / name)
        words = ("spare", path, *axioms, "--write", "new.mm", "--format", "tsv")
        rows = [line.split("\t") for line in self.answers(*words)[1:]]
        self.assertTrue(rows, name)
        some = rows[:5]
        traces = [f"show trace_back {row[1]} /axioms /match *" for row in some]
        told, *traced = asked(self.folder / "new.mm", ["verify proof *", *traces])
        self.assertIn("All proofs in the database were verified", told)
        for row, trace in zip(some, traced, strict=True):
            self.assertTrue(set(trace.split()).isdisjoint(row[2].split()), row)
        (self.folder / "new.mm").unlink()

    def test_databases(self) -> None:
        self.checked("ql.mm", "ax-r3")
        self.checked("hol.mm", "--all")
        self.checked("nf.mm", "ax-4", "ax-6o")
        self.checked("iset.mm", "ax-pow")

    def test_miu(self) -> None:
        self.assertEqual(self.answers("spare", str(DATABASES / "miu.mm"), "--all"), [])
