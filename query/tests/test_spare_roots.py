"""Faults that lie below the theorems that lose an axiom: they are mended there, or it is said where
they lie."""

import random
import re
from itertools import product
from typing import NamedTuple
from unittest import mock

from query.arguments.context import Context
from query.reports.choice import Options
from query.reports.database import Database
from query.spare.changes import Changer, Wanted
from query.spare.judge import judge_changes, rewritten
from query.spare.kept import Change
from query.spare.proofs import Proof
from query.spare.roots import Roots
from query.spare.rules import Rule
from query.spare.seeking import Answer
from query.tests.test_spare_search import Maker
from query.tests.world import World

HEAD = """$c ( ) -> & |- wff $.
$v p q r $.
wp $f wff p $. wq $f wff q $. wr $f wff r $.
wi $a wff ( p -> q ) $.
wa $a wff ( p & q ) $.
${ l.1 $e |- ( p & q ) $. left $a |- p $. $}
${ b.1 $e |- p $. b.2 $e |- q $. both $a |- ( p & q ) $. $}
worse $a |- p $.
"""
GOOD = "{}good $a |- ( ( p -> p ) & ( p -> p ) ) $.\n"
BAD = """bad $p |- ( ( p -> p ) & q ) $=
  wp wp wi wq wp wp wi wp wp wi wp good left wq worse both $.
"""
LOW = "{}low $p |- ( p -> p ) $= wp wp wi wq wp wq bad left $.\n"
"""Its proof needs less than `bad`, but no formula of it is what `good` says."""
HIGH = """high $p |- ( ( p -> p ) & ( ( p -> p ) & ( p -> p ) ) ) $=
  wp wp wi wp wp wi wp wp wi wa wp low wp good both $.
"""
"""Its proof has the formula of `good`, from which what `low` says can be proved once more."""
TOP = "top $p |- ( q -> q ) $= wq low $.\n"
FREED = [
    ["direct", "low", "bad", "good", "", ""],
    ["cascade", "high", "", "", "low", ""],
    ["cascade", "top", "", "", "low", ""],
]
TOLD = [["direct", "high", "low", "left", "", "low"]]


class Asked(World):
    """Questions of small databases."""

    def rows(self, text: str, *words: str) -> list[list[str]]:
        """For each row of an answer `how`, `theorem`, `replaced`, `by`, `with` and `fault`."""
        self.write("db.mm", text)
        lines = self.answers("spare", "--format", "tsv", "db.mm", *words)
        rows = [line.split("\t") for line in lines[1:]]
        return [[row[place] for place in (0, 1, 3, 4, 9, 10)] for row in rows]


class AtTheRoot(Asked):
    """What lies below is mended, or told."""

    def test_below_is_mended(self) -> None:
        """The one above proves it once more, and then keeps its proof."""
        text = HEAD + GOOD.format("") + BAD + LOW.format("") + HIGH + TOP
        for words in (["--jobs", "1"], ["--jobs", "2"], ["--new-steps"]):
            self.assertEqual(self.rows(text, "worse", *words, "--no-cache"), FREED)
        self.assertEqual(self.rows(text, "worse", "--write", "new.mm"), FREED)
        self.assertEqual(self.query("verify", "new.mm").status, 0)
        new = (self.folder / "new.mm").read_text()
        proof = "\n".join(self.answers("spare", "db.mm", "worse", "--proof", "low"))
        self.assertEqual(new, text.replace(LOW.format("").rstrip(), proof))
        self.assertEqual(self.answers("falls", "new.mm", "worse"), ["bad"])

    def test_it_cannot_be_mended_below(self) -> None:
        """What it would have to cite, or its own proof, isn't to be touched; or it isn't asked
        about."""
        use, proof = (
            f"$( ({word} is discouraged.) $) " for word in ("New usage", "Proof modification")
        )
        for before, after, word in ((use, "", "cite"), ("", proof, "change")):
            text = HEAD + GOOD.format(before) + BAD + LOW.format(after) + HIGH + TOP
            self.assertEqual(self.rows(text, "worse"), TOLD)
            self.assertEqual(self.rows(text, "worse", "--new-steps"), TOLD)
            self.assertEqual(self.rows(text, "worse", f"--{word}-discouraged"), FREED)
        text = HEAD + GOOD.format("") + BAD + LOW.format("") + HIGH + TOP
        self.assertEqual(self.rows(text, "worse", "--theorem", "high"), TOLD)

    def test_what_it_needs_stands_after_it(self) -> None:
        """The same steps can't be those of the one below."""
        later = "later $p |- ( ( p -> p ) & ( p -> p ) ) $= wp good $.\n"
        use = "$( (New usage is discouraged.) $) "
        text = (
            HEAD + GOOD.format(use) + BAD + LOW.format("") + later + HIGH.replace("good", "later")
        )
        self.assertEqual(self.rows(text, "worse"), TOLD)
        self.assertEqual(self.rows(text, "worse", "--cite-discouraged"), FREED[:2])

    def test_what_says_more_is_not_at_fault(self) -> None:
        """What is proved once more is a special case that needs less."""
        text = HEAD + "more $a |- ( p -> p ) $. low $p |- ( p -> p ) $= wp more $.\n"
        text += "case $a |- ( ( p & p ) -> ( p & p ) ) $.\n"
        text += "high $p |- ( ( ( p & p ) -> ( p & p ) ) & ( ( q & q ) -> ( q & q ) ) ) $=\n"
        text += "wp wp wa wp wp wa wi wq wq wa wq wq wa wi wp wp wa low wq case both $.\n"
        wanted = [["direct", "high", "low", "case", "", ""]]
        self.assertEqual(self.rows(text, "more"), wanted)

    def test_what_has_more_conditions_is_no_proof(self) -> None:
        """The theorem above has a condition of distinct variables which the one below hasn't."""
        text = HEAD + "${ $d p q $. far $a |- ( p -> ( q -> p ) ) $.\n"
        text += "lf $p |- ( ( p -> ( q -> p ) ) & ( p -> ( q -> p ) ) ) $=\n"
        text += "wp wq wp wi wi wp wq wp wi wi wp wq far wp wq far both $. $}\n"
        said, other = "wp wq wp wi wi", "wr wq wr wi wi wr wq wr wi wi wa"
        proof = f"{said} {other} {said} {other} {said} worse wr wq lf both left"
        high = "high $p |- ( ( p -> ( q -> p ) ) & ( r -> ( q -> r ) ) ) $=\n"
        high += "wp wq wp wi wi wr wq wr wi wi wp wq low wr wq far both $. $}\n"
        for more, fault in (("", ""), ("$d p q $. ", "low")):
            low = f"${{ $d q r $. {more}low $p |- ( p -> ( q -> p ) ) $= {proof} $. $}}\n"
            rows = self.rows(
                f"{text}{low}${{ $d p q $. $d r q $. {high}", "worse", "--theorem=high"
            )
            self.assertEqual(rows, [["direct", "high", "low", "far", "", fault]])

    def test_what_would_gain_an_axiom_is_not_at_fault(self) -> None:
        """What is below would rest on another axiom by the steps of the one above."""
        text = HEAD + "id $a |- ( p -> p ) $. low $p |- ( p -> p ) $= wp wp wi worse $.\n"
        text += "high $p |- ( ( p -> p ) & ( q -> q ) ) $=\n"
        text += "wp wp wi wq wq wi wp low wq id both $.\n"
        self.assertEqual(self.rows(text, "worse"), [["direct", "high", "low", "id", "", ""]])

    def test_with_hypotheses(self) -> None:
        """The steps have what the theorem below has as hypotheses."""
        text = HEAD + "${ f.1 $e |- ( p & p ) $. fair $a |- ( q -> p ) $. $}\n"
        text += "${ s.1 $e |- p $. sly $p |- ( ( q -> p ) & r ) $= wq wp wi wr wp wq\n"
        text += "wp wp s.1 s.1 both fair wr worse both $. $}\n"
        text += (
            "${ m.1 $e |- p $. low $p |- ( q -> p ) $= wq wp wi wp wp wq wp m.1 sly left $. $}\n"
        )
        text += "${ n.1 $e |- r $. high $p |- ( ( q -> r ) & ( r & r ) ) $=\n"
        text += "wq wr wi wr wr wa wr wq n.1 low wr wr n.1 n.1 both both $. $}\n"
        wanted = [
            ["direct", "low", "", "both", "", ""],
            ["direct", "low", "left", "fair", "", ""],
            ["cascade", "high", "", "", "low", ""],
        ]
        self.assertEqual(self.rows(text, "worse", "--write", "new.mm"), wanted)
        self.assertEqual(self.query("verify", "new.mm").status, 0)


SETS = (
    HEAD.replace("|- wff", "|- wff set A.").replace("p q r $.", "p q r x y $.", 1)
    + """
vx $f set x $. vy $f set y $. wal $a wff A. x p $. same $a |- ( A. x p -> A. x p ) $.
${ $d x p $. dum $a |- ( ( p -> p ) & A. x p ) $. $}
bad $p |- ( ( p -> p ) & q ) $= wp wp wi wq wp wp wi wp vx wal wp vx dum left wq worse both $.
"""
)


class OtherShapes(Asked):
    """With new steps a proof may say something else on the way."""

    def test_a_new_dummy_variable(self) -> None:
        """The text says of which variables a new one is distinct; the old proof doesn't."""
        bad = "bad $p |- ( ( p -> p ) & q ) $= wp wp wi wq wp wp wi wp vx wal wp vx dum left"
        text = SETS.replace(bad, f"${{ $d x p $. {bad}").replace(
            "worse both $.", "worse both $. $}"
        )
        low = LOW.format("")
        self.assertEqual(self.rows(text + low, "worse", "--new-steps"), [])
        row = ["direct", "low", "bad", "dum", "", ""]
        for names in ("x p", "p y", "q y p"):
            block = f"${{ $d {names} $. {low} $}}\n"
            rows = self.rows(text + block, "worse", "--new-steps", "--write", "new.mm")
            self.assertEqual(rows, [row], names)
            self.assertEqual(self.query("verify", "new.mm").status, 0)
            (self.folder / "new.mm").unlink()
            self.assertEqual(self.rows(text + block, "worse"), [])
        for before in ("$d x p $.\n", ""):
            block = f"${{ ${{ $d y p $. $}} {low} $d x p $. $}}\n"
            wanted = [row] if before else []
            self.assertEqual(self.rows(text + before + block, "worse", "--new-steps"), wanted)


class Donated(NamedTuple):
    """Steps that are said to prove what a theorem says, as the letters of a proof."""

    theorem: str
    proof: str


class ByChance(World):
    """Databases made by chance, some of whose statements nothing new may cite."""

    def text(self, seed: int) -> str:
        """A database."""
        chance = random.Random(seed)
        lines = Maker(seed).text(60).split("\n")
        for place, line in enumerate(lines):
            if chance.random() < 0.3:
                words = "$( (New usage is discouraged.) $)"
                lines[place] = re.sub(r"(\S+ \$[ap])", rf"{words} \1", line)
        return "\n".join(lines)

    def settled(self, database: Database, axiom: str) -> list[Change]:
        """The changes when it was looked at what lies below, judged."""
        changer = Changer(database, Wanted("|-", (axiom,)))
        before = list(changer.changes())
        freed = {each.theorem for each in before if axiom in each.loses}
        found = Roots(changer, before).settled()
        judge_changes(database, rewritten(database.text, found), found)
        self.assertLessEqual(freed, {each.theorem for each in found if axiom in each.loses})
        return found

    def see_sources(self, database: Database, found: list[Change]) -> int:
        """Compares by whose proofs theorems lose axioms with what can be reached."""
        graph = database.graph()
        changes = {change.theorem: change for change in found}
        count = 0
        for change in found:
            if change.proof is not None or not change.loses:
                continue
            reached: set[str] = set()
            left = [change.theorem]
            while left:
                for node in graph.cites[graph.index[left.pop()]]:
                    other = changes.get(graph.labels[node])
                    if other is None:
                        continue
                    if other.proof is not None:
                        reached.add(other.theorem)
                    else:
                        left.append(other.theorem)
            self.assertTrue(change.sources)
            self.assertLessEqual({*change.sources}, reached)
            count += 1
        return count

    def test_steps_that_are_donated(self) -> None:
        """The program verifies that they prove what the theorem below says, also where it may not
        be mended so, and that they do without the axiom."""
        real = Roots.donated
        counts = {"mended": 0, "donated": 0, "sources": 0}
        for seed, axiom in product(range(40), ("bad", "five")):
            text = self.text(seed)
            path = str(self.folder / self.write("chance.mm", text))
            found: list[Donated] = []

            def donated(
                self: Roots, own: Proof, below: Rule, old: Proof, new: Proof
            ) -> Answer | None:
                answer = real(self, own, below, old, new)
                if answer is not None:
                    writer = self.changer.writer
                    labels, letters = writer.words(below, own, answer.steps, 70)
                    found.append(Donated(below.label, f"( {' '.join(labels)} ) {letters}"))
                return answer

            database = Context(uses_cache=False).database(path, Options())
            with mock.patch.object(Roots, "donated", donated):
                changes = self.settled(database, axiom)
            counts["sources"] += self.see_sources(database, changes)
            counts["donated"] += len(found)
            names = {each.theorem for each in found}
            counts["mended"] += sum(
                each.proof is not None and each.theorem in names for each in changes
            )
            self.assertLessEqual({label for each in changes for label in each.faults}, names)
            self.see_donated(text, axiom, found)
        self.assertGreater(counts["mended"], 0)
        self.assertGreater(min(counts["donated"], counts["sources"]), 10, counts)

    def see_donated(self, text: str, axiom: str, donated: list[Donated]) -> None:
        """Adds each donated proof at the end of the text, and asks on what it rests."""
        for number, each in enumerate(donated):
            (line,) = re.findall(rf"\$\{{.* {re.escape(each.theorem)} \$p .*", text)
            line = re.sub(r"(\S+) \$e", rf"again{number}.\1 $e", line)
            line = re.sub(
                r"\S+ \$p (.*) \$= .* \$\.", rf"again{number} $p \1 $= {each.proof} $.", line
            )
            self.write("again.mm", f"{text}\n{line}\n")
            self.assertEqual(self.query("verify", "again.mm").status, 0, line)
            self.assertNotIn(axiom, self.answers("rests", "again.mm", f"again{number}"))
