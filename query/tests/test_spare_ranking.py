"""Which new proofs come first, and which of several for one theorem is taken."""

import json
import random
import re

from query.arguments.context import Context
from query.reports.choice import Options
from query.spare.changes import Changer, Wanted
from query.spare.judge import judge_changes, rewritten
from query.spare.roots import Roots
from query.tests.test_spare_search import Maker
from query.tests.world import World

HEAD = """$c ( ) -> & |- wff $.
$v p q r $.
wp $f wff p $. wq $f wff q $. wr $f wff r $.
wi $a wff ( p -> q ) $.
wa $a wff ( p & q ) $.
${ b.1 $e |- p $. b.2 $e |- q $. both $a |- ( p & q ) $. $}
one $a |- ( p -> p ) $.
eno $a |- ( p -> p ) $.
"""
USE = "$( (New usage is discouraged.) $) "
TWO = f"{USE}two $a |- ( p -> p ) $.\n"
PAIR = "pair $p |- ( ( p -> p ) & ( p -> p ) ) $= wp wp wi wp wp wi wp two wp two both $.\n"
T = """t $p |- ( ( p -> p ) & ( ( q -> q ) & ( q -> q ) ) ) $=
  wp wp wi wq wq wi wq wq wi wa wp one wq pair both $.
"""
"""It rests on `two` by what says something else."""


def by_two(label: str) -> str:
    """A theorem that says what `one` says, and rests on `two`."""
    return f"{label} $p |- ( p -> p ) $= wp two $.\n"


class OfSeveral(World):
    """Several proofs of one theorem, of which one is taken."""

    def taken(self, text: str, *words: str) -> list[str]:
        """What the steps cite that are replaced, whose answer is verified."""
        self.write("db.mm", text)
        (self.folder / "new.mm").unlink(missing_ok=True)
        words = ("spare", "--format", "tsv", "db.mm", *words, "--theorem", "t", "--write", "new.mm")
        rows = [line.split("\t") for line in self.answers(*words)[1:]]
        self.assertEqual(self.query("verify", "new.mm").status, 0)
        return [row[4] for row in rows]

    def test_what_is_discouraged_comes_last(self) -> None:
        """Another one is cited, though it stands later, and its label is longer."""
        text = HEAD + TWO + PAIR
        self.assertEqual(self.taken(text + T, "one"), [])
        self.assertEqual(self.taken(text + T, "one", "--cite-discouraged"), ["two"])
        whole = T.replace("t $p", "whole $p").replace("wp one", "wp two")
        self.assertEqual(self.taken(text + whole + T, "one", "--cite-discouraged"), ["whole"])
        text += by_two("another.one") + T
        for words in (["one"], ["one", "--cite-discouraged"]):
            self.assertEqual(self.taken(text, *words), ["another.one"])

    def test_fewer_axioms_come_first(self) -> None:
        """What is discouraged is cited where more of the axioms are lost by that."""
        text = HEAD + TWO + PAIR + "more $p |- ( p -> p ) $= wp eno $.\n"
        text += (
            "pare $p |- ( ( p -> p ) & ( p -> p ) ) $= wp wp wi wp wp wi wp eno wp eno both $.\n"
        )
        said = "( ( ( p -> p ) & ( p -> p ) ) & ( ( q -> q ) & ( q -> q ) ) )"
        text += f"t $p |- ( ( p -> p ) & {said} ) $=\n"
        pairs = "wp wp wi wp wp wi wa wq wq wi wq wq wi wa"
        text += f"wp wp wi {pairs} wa wp one {pairs} wp pare wq pair both both $.\n"
        self.assertEqual(self.taken(text, "one"), ["eno"])
        self.assertEqual(self.taken(text, "one", "--cite-discouraged"), ["eno"])
        self.assertEqual(self.taken(text, "one", "eno"), ["eno"])
        found = self.taken(text, "one", "eno", "--cite-discouraged")
        self.assertEqual(found, ["two", "pair"])

    def test_the_shorter_one(self) -> None:
        """Of equal ones the shorter proof is taken, wherever the statement stands."""
        text = HEAD + TWO + PAIR
        for labels in (("long.label", "s"), ("s", "long.label")):
            both = "".join(map(by_two, labels))
            self.assertEqual(self.taken(text + both + T, "one"), ["s"])

    def test_an_axiom_that_a_definition_hides(self) -> None:
        """What rests on a definition that isn't known to be sound, where the old step didn't, is
        told, and comes after a longer proof without it."""
        text = HEAD + "df-p $a |- ( p -> p ) $.\n" + TWO.replace(USE, "")
        hiding = "h $p |- ( p -> p ) $= wp df-p $.\n"
        for cited, others, by, hides in (
            ("wp df-p wp df-p", "", "df-p", ["df-p"]),
            ("wp df-p wp df-p", hiding, "h", ["df-p"]),
            ("wp df-p wp two", hiding + by_two("longer.label"), "two", None),
        ):
            pair = PAIR.replace("wp two wp two", cited)
            self.write("db.mm", text + pair + others + T)
            words = ("spare", "db.mm", "one", "--theorem", "t", "--format", "json")
            (row,) = json.loads("\n".join(self.answers(*words)))
            self.assertEqual((row["by"], row["hides"]), (by, hides))
        keep = "${ k.1 $e |- p $. k.2 $e |- p $. keep $a |- p $. $}\n"
        keep += "mixed $p |- ( p -> p ) $= wp wp wi wp one wp df-p keep $.\n"
        pair = PAIR.replace("wp two wp two", "wp df-p wp df-p")
        self.write("db.mm", text + keep + pair + hiding + T.replace("wp one", "wp mixed"))
        (row,) = json.loads("\n".join(self.answers(*words)))
        self.assertEqual((row["replaced"], row["by"], row["hides"]), (["mixed"], "h", None))

    def test_definitions_that_may_hide_an_axiom(self) -> None:
        """They are only gained where nothing else does."""
        text = HEAD + "df-p $a |- ( p -> p ) $.\n"
        gain = ("--may-gain", "df-p", "--may-gain", "ax-p")
        t = "t $p |- ( ( p -> p ) & ( p -> p ) ) $= wp wp wi wp wp wi wp one wp one both $.\n"
        ax = "ax-p $a |- ( p -> p ) $.\n"
        self.assertEqual(self.taken(text + ax + t, "one", *gain), ["ax-p"])
        self.assertEqual(self.taken(text + t + ax, "one", *gain), ["df-p"])
        whole = "ax-p $a |- ( ( p -> p ) & ( p -> p ) ) $.\n"
        self.assertEqual(self.taken(text + whole + t, "one", *gain), ["ax-p"])


class InOrder(World):
    """The order of the rows."""

    def test_by_chance(self) -> None:
        """Beside the rank of each as the new database has it."""
        kinds = {"left": 0, "use": 0, "bytes": 0, "cascades": 0}
        for seed in range(30):
            chance = random.Random(seed)
            lines = Maker(seed).text(60).split("\n")
            for place, line in enumerate(lines):
                if chance.random() < 0.3:
                    lines[place] = re.sub(r"(\S+ \$[ap])", rf"{USE}\1", line)
            path = str(self.folder / self.write("chance.mm", "\n".join(lines)))
            self.see(path, ("bad", "tr", "five"), kinds)
        self.assertGreater(min(kinds.values()), 0, kinds)

    def see(self, path: str, axioms: tuple[str, ...], kinds: dict[str, int]) -> None:
        """Compares the order of one answer with the ranks."""
        old = Context(uses_cache=False).database(path, Options())
        changer = Changer(old, Wanted("|-", axioms, cites_discouraged=True))
        changes = Roots(changer, changer.changes()).settled()
        data = rewritten(old.text, changes)
        judge_changes(old, data, changes)
        new_path = str(self.folder / self.write("new.mm", data))
        new = Context(uses_cache=False).database(new_path, Options())
        was, graph, dependence = old.graph(), new.graph(), new.dependence()
        ranks: dict[str, tuple[int, int, int, int]] = {}
        for change in changes:
            if change.proof is not None:
                label = change.theorem
                row = dependence.theorems.index(label)
                rests = {dependence.axioms[column] for column in dependence.rests(row)}
                cited = {graph.labels[each] for each in graph.cites[graph.index[label]]}
                before = {was.labels[each] for each in was.cites[was.index[label]]}
                used = [
                    each
                    for each in cited - before
                    if "discouraged" in old.text.comment(old.text.by_label[each])
                ]
                one, other = old.text.by_label[label], new.text.by_label[label]
                longer = (other.end - other.place) - (one.end - one.place)
                ranks[label] = (len(rests & {*axioms}), len(used), longer, one.number)
                kinds["left"] += bool(rests & {*axioms})
                kinds["use"] += bool(used)
        found = changer.ranked(changes)
        self.assertEqual([*map(id, sorted(found, key=id))], [*map(id, sorted(changes, key=id))])
        direct = [change.theorem for change in found if change.proof is not None]
        self.assertEqual(direct, sorted(ranks, key=ranks.__getitem__))
        kinds["bytes"] += len({rank[:2] for rank in ranks.values()}) < len(ranks)
        best = ""
        for change in found:
            if change.proof is not None:
                best = change.theorem
            elif change.sources:
                kinds["cascades"] += 1
                self.assertEqual(best, min(change.sources, key=ranks.__getitem__))
