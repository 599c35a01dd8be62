"""New proofs as they are written: beside what metamath.exe writes of the same proofs, and of proofs
that stay as they are."""

import random
import re
import shutil
import subprocess
import unittest
from collections.abc import Sequence
from itertools import combinations
from pathlib import Path
from unittest import mock

from query.arguments.context import Context
from query.proofs.layout import beginning, laid_out
from query.reports.choice import Options
from query.spare.changes import Changer, ProofRange, Wanted
from query.spare.judge import judge_changes, rewritten
from query.spare.kept import Change
from query.spare.labels import filling, saved_order
from query.spare.proofs import Unfit
from query.spare.search import Steps
from query.tests.world import DATABASES, World
from query.texts.uncommented import without_comments

needs_metamath = unittest.skipUnless(
    shutil.which("metamath") and (DATABASES / "ql.mm").exists(), "no metamath.exe or no ql.mm"
)


class Labels(unittest.TestCase):
    """The order of the labels."""

    def test_what_fills_a_line(self) -> None:
        """Beside all choices: the largest sum, and of these the one whose last member is earliest,
        and so on to the front."""
        chance = random.Random(5)
        for _ in range(2000):
            sizes = [chance.randint(1, 9) for _ in range(chance.randint(0, 8))]
            room = chance.randint(-1, 25)
            choices = [
                each
                for count in range(len(sizes) + 1)
                for each in combinations(range(len(sizes)), count)
                if sum(sizes[place] for place in each) <= room
            ]
            best = min(
                choices or [()],
                key=lambda each: (-sum(sizes[place] for place in each), each[::-1]),
            )
            self.assertEqual(filling(sizes, room), list(best))

    def test_by_use(self) -> None:
        """Those that are used most have the shortest letters, whatever their place."""
        labels = [f"l{number:02}" for number in range(40)]
        uses = {label: 1 + (number % 3 == 2) for number, label in enumerate(labels)}
        found = saved_order(labels, uses, 5, 1000)
        often = [label for label in labels if uses[label] == 2]
        self.assertEqual(found[:15], sorted([*often, "l00", "l01"])[:15])
        self.assertEqual(sorted(found), labels)
        self.assertEqual(
            saved_order(["x" * 100, "y"], {"x" * 100: 1, "y": 1}, 0, 9), ["y", "x" * 100]
        )
        self.assertEqual(saved_order([], {}, 3, 70), [])


def saved(path: Path, labels: Sequence[str]) -> bytes:
    """A database when metamath.exe has saved the proofs of some theorems, with lines as wide as it
    has them by itself, and no comments: it adds a date to some."""
    commands = [f"save proof {label} /compressed" for label in labels]
    commands = [f'read "{path.name}"', *commands, 'write source "saved.mm"', "exit"]
    subprocess.run(
        ["metamath"],
        input="\n".join(["set scroll continuous", *commands, ""]).encode(),
        stdout=subprocess.DEVNULL,
        cwd=path.parent,
        check=True,
    )
    return (path.parent / "saved.mm").read_bytes()


def words_and_lines(data: bytes) -> list[bytes]:
    """The lines of a text without its comments, but for empty ones."""
    lines = without_comments(data).split(b"\n")
    return [line.rstrip() for line in lines if line.strip()]


@needs_metamath
class BesideMetamath(World):
    """What is written is what metamath.exe writes when it saves the same proof."""

    def test_own_steps(self) -> None:
        """All proofs are written anew by their own steps. Most stay as they are, and the others,
        that prove a formula twice, become what metamath.exe saves."""
        for name, least in (("ql.mm", 0.97), ("hol.mm", 0.85), ("nf.mm", 0.999)):
            database = Context(uses_cache=False).database(str(DATABASES / name), Options())
            changes, count = self.written_anew(Changer(database, Wanted("|-")))
            self.assertGreater(1 - len(changes) / count, least, name)
            self.assertGreater(len(changes), 0)
            data = rewritten(database.text, changes)
            judge_changes(database, data, changes)
            self.write("new.mm", data)
            again = saved(self.folder / "new.mm", [change.theorem for change in changes])
            self.assertEqual(words_and_lines(again), words_and_lines(data), name)

    def written_anew(self, changer: Changer) -> tuple[list[Change], int]:
        """The proofs of which other bytes come out, and how many were written."""
        count, found = 0, []
        for number in changer.cites:
            one, first = changer.text.assertions[number], len(changer.rules.trees)
            if not changer.rules[number].is_logical:
                continue
            proof_range = ProofRange(changer.text.data, one.place, one.end)
            old = changer.text.data[proof_range.start : proof_range.end]
            try:
                proof = changer.proof(number)
                steps: Steps = dict.fromkeys(proof.given)
                steps.update({tree: next(iter(ways)) for tree, ways in proof.steps.items()})
                room = changer.width - len(beginning(old)[1])
                words = changer.writer.words(changer.rules[number], proof, steps, room)
            except Unfit:
                continue
            finally:
                changer.rules.trees.forget(first)
            count += 1
            new = laid_out(*words, old, changer.width)
            if new != old:
                found.append(Change(one.label, (), new, len(old)))
        return found, count

    def test_new_proofs(self) -> None:
        """Proofs that lose an axiom, and ones that get shorter."""
        for name, *words in (
            ("ql.mm", "ax-r3"),
            ("ql.mm", "--shorter"),
            ("hol.mm", "--all"),
            ("nf.mm", "ax-4", "ax-6o"),
            ("iset.mm", "ax-pow"),
        ):
            asked = ("spare", str(DATABASES / name), *words, "--write", "new.mm", "--format", "tsv")
            rows = [line.split("\t") for line in self.answers(*asked)[1:]]
            labels = list(dict.fromkeys(row[1] for row in rows if row[0] == "direct"))
            self.assertGreater(len(labels), 1)
            new = (self.folder / "new.mm").read_bytes()
            again = saved(self.folder / "new.mm", labels)
            self.assertEqual(words_and_lines(again), words_and_lines(new), name)
            (self.folder / "new.mm").unlink()


@needs_metamath
class Minimized(World):
    """Proofs that metamath.exe makes shorter by `minimize_with`."""

    FOUND = {"mss": "snex", "elxp5": "eqvisset", "oprabid": "opex"}
    """Theorems of iset.mm, each with the statement by which it gets shorter. Of 61 that were chosen
    by chance these three were all that `minimize_with * /no_new_axioms_from *` made shorter."""

    def test_they_get_as_short(self) -> None:
        path = DATABASES / "iset.mm"
        (self.folder / "iset.mm").symlink_to(path)
        commands = ['read "iset.mm"']
        for label, other in self.FOUND.items():
            save = "save new_proof /compressed"
            commands += [f"prove {label}", f"minimize_with {other}", save, "exit"]
        commands += ['write source "minimized.mm"', "exit"]
        told = "\n".join(["set scroll continuous", *commands, ""])
        self.ran("metamath", given=told.encode())
        names = [word for label in self.FOUND for word in ("--theorem", label)]
        self.answers("spare", str(path), "--shorter", *names, "--write", "new.mm")
        lengths = [
            {label: proof_in(self.folder / name, label) for label in self.FOUND}
            for name in ("iset.mm", "minimized.mm", "new.mm")
        ]
        old, minimized, new = lengths
        for label in self.FOUND:
            self.assertLess(len(minimized[label]), len(old[label]), label)
            self.assertLessEqual(len(new[label]), len(minimized[label]), label)
        self.assertEqual(new["mss"], minimized["mss"])


def proof_in(path: Path, label: str) -> bytes:
    """The proof of a theorem as it stands in a file."""
    data = without_comments(path.read_bytes())
    found = re.search(rb"\s%b\s+\$p[^$]*\$=([^$]*)\$\." % re.escape(label.encode()), data)
    assert found is not None
    return found[1]


class FewSteps(World):
    """What has fewer steps, and what is shorter."""

    TEXT = """$c ( ) -> |- wff $.
$v p q r $.
wp $f wff p $. wq $f wff q $. wr $f wff r $.
wi $a wff ( p -> q ) $.
two $a |- ( p -> p ) $.
${ b.1 $e |- p $. b.2 $e |- q $. both $a |- ( p -> q ) $. $}
${ l.1 $e |- ( p -> q ) $.
long.label.for.one.step $p |- ( ( p -> p ) -> ( p -> q ) ) $=
  wp wp wi wp wq wi wp two l.1 both $. $}
${ s.1 $e |- ( q -> p ) $. s $p |- ( ( p -> p ) -> ( q -> p ) ) $=
  wp wp wi wq wp wi wp two s.1 both $. $}
${ t.1 $e |- ( p -> r ) $.
t $p |- ( ( ( p -> p ) -> ( p -> r ) ) -> ( ( r -> r ) -> ( p -> r ) ) ) $=
  ( wi two both ) AADZABDZDBBDZHDGHAECFIHBECFF $. $}
"""

    def test_each_step_by_itself(self) -> None:
        """Two statements take a step less each. With both of them the proof would be longer, since
        one has a long label. So only the other one is cited."""
        self.write("db.mm", self.TEXT)
        words = ("spare", "db.mm", "--shorter", "--theorem", "t")
        rows = [line.split("\t") for line in self.answers(*words, "--format", "tsv")[1:]]
        self.assertEqual(
            [row[3:7] for row in rows], [["both", "s", "|- ( ( r -> r ) -> ( p -> r ) )", "-1"]]
        )
        lines = self.answers(*words, "--proof", "t")
        self.assertEqual(lines[-1], "  ( wi two both s ) AADZABDZDBBDIDHIAECFBACGF $.")
        self.write("db.mm", self.TEXT.replace("long.label.for.one.step", "l"))
        rows = [line.split("\t") for line in self.answers(*words, "--format", "tsv")[1:]]
        self.assertEqual([row[4] for row in rows], ["l", "s"])


class Order(World):
    """The labels in brackets, beside those of the old proof."""

    BASE = """$c ( ) -> |- wff $.
$v p q r $.
wp $f wff p $. wq $f wff q $. wr $f wff r $.
wi $a wff ( p -> q ) $.
two $a |- ( p -> p ) $.
bad $a |- ( p -> p ) $.
${ up.1 $e |- p $. up $a |- ( q -> p ) $. $}
${ b.1 $e |- p $. b.2 $e |- q $. both $a |- ( p -> q ) $. $}
lem $p |- ( ( p -> p ) -> ( p -> p ) ) $=
  ( wi two up ) AABZEACD $.
t $p |- ( ( ( p -> p ) -> ( p -> p ) ) -> ( ( q -> q ) -> ( q -> q ) ) ) $=
  PROOF $.
"""

    def changed(self, proof: str) -> str:
        """What stands in place of a proof of `t`."""
        text = self.BASE.replace("PROOF", proof)
        self.write("db.mm", text)
        self.answers("spare", "db.mm", "bad", "--write", "new.mm")
        new = (self.folder / "new.mm").read_text()
        (self.folder / "new.mm").unlink()
        before, after = self.BASE.split("PROOF")
        self.assertTrue(new.startswith(before) and new.endswith(after))
        return new[len(before) : -len(after)]

    def test_one_word_for_another(self) -> None:
        """Where a label takes the place of another one that is as long, nothing else is
        different."""
        proof = "( wi lem {} both ) AACZGCBBCZHCADHHBEZIFF"
        self.assertEqual(self.changed(proof.format("bad")), proof.format("two"))

    def test_in_an_order_of_its_own(self) -> None:
        """Labels that another program has put in another order stay in it, with the new one behind
        them."""
        found = self.changed("( both bad lem wi ) AAFZGFBBFZHFAEHHBDZICC")
        self.assertEqual(found, "( both lem wi two ) AAEZGEBBEZHEADHHBFZICC")

    def test_trees_are_built_as_they_were(self) -> None:
        """A theorem of the syntax isn't taken where the old proof has the axiom, nor the other way
        round."""
        syntax = "wii $p wff ( p -> ( q -> q ) ) $= ( wi ) ABBCC $.\ntwo $a"
        text = self.BASE.replace("two $a", syntax)
        for proof in (
            "( wi lem {} both ) AACZGCBBCZHCADHHBEZIFF",
            "( wi wii lem {} both ) AACZHCBBCZBDAEIIBFZJGG",
        ):
            with mock.patch.object(self, "BASE", text):
                self.assertEqual(self.changed(proof.format("bad")), proof.format("two"))

    def test_no_labels(self) -> None:
        """As metamath.exe writes them, with two spaces."""
        self.assertEqual(laid_out([], "B", b"\n  ( a ) AB ", 79), b"\n  (  ) B ")
