"""What `review` says of a change, against what was changed."""

import json
import os
import random
import re
import unittest
from collections import Counter
from collections.abc import Iterable
from dataclasses import dataclass, replace
from unittest import mock

from query.commands.review import SHOWN_ROWS, out_of_order
from query.citations.cuts import Meetings
from query.tests.shapes import HEAD, theorem
from query.tests.world import SMALL, World, answered, asked, built_program, invented

A2 = "a2 $p |- ( q -> ( q -> p ) ) $= wq wp wi wq wp wq g a1i a1i $. $}\n"


class Reviewed(World):
    """Over changes of small databases."""

    def setUp(self) -> None:
        super().setUp()
        patch = mock.patch.dict(os.environ, {"MMDEPEND": built_program()})
        patch.start()
        self.addCleanup(patch.stop)
        self.write("old.mm", SMALL)

    def reviewed(self, new: str) -> list[list[str]]:
        """The rows about a change of the small database."""
        paths = [str(self.folder / "old.mm"), str(self.folder / self.write("new.mm", new))]
        rows = asked("review", *paths)
        for row in rows:
            self.assertEqual(any(row[8:]), "changed" in row[1] or row[1] == "new", row)
        return [row[:8] for row in rows]

    def test_each_status(self) -> None:
        ax1 = "ax1 $p |- ( p -> ( q -> p ) ) $= wp wq ax-1 $.\n"
        new = "nu $p wff ( p -> p ) $= wp wp wi $.\n"
        empty = ["", "", "", "", ""]
        for text, rows in (
            (SMALL, []),
            (SMALL + new, [["nu", "new", "", "0", "", "", "", str(len(new) - 1)]]),
            (SMALL.replace("a2 $p", "a3 $p"), [["a3", "renamed", "a2", "", "", "", "", "0"]]),
            (SMALL.replace(ax1, ""), [["ax1", "gone", *empty, str(1 - len(ax1))]]),
            (SMALL.replace(ax1, "") + ax1, [["ax1", "moved", *empty, "0"]]),
            (
                SMALL.replace(ax1, ax1.replace("wp wq ax-1", "( ax-1 ) ABC")),
                [["ax1", "proof", *empty, "2"]],
            ),
            (
                SMALL.replace(ax1, ax1.replace("( q -> p )", "( p -> p )").replace("wq", "wp")),
                [["ax1", "changed proof", "", "1", *empty[2:], "0"]],
            ),
        ):
            self.assertEqual(self.reviewed(text), rows, text)

    def test_axioms(self) -> None:
        """A proof by another axiom brings that one, and loses the others; through a theorem too."""
        with_axiom = SMALL.replace("${ h $e", "all $a |- p $.\n${ h $e")
        self.write("old.mm", with_axiom)
        a2 = with_axiom.replace("wq wp wi wq wp wq g a1i a1i $.", "wq wq wp wi wi all $.")
        [row] = self.reviewed(a2)
        self.assertEqual(row[:7], ["a2", "proof", "", "", "all", "ax-1 ax-mp", "all"])
        a1i = with_axiom.replace("wp wq wp wi h wp wq ax-1 ax-mp $.", "wq wp wi all $.")
        [row] = self.reviewed(a1i)
        self.assertEqual(row[:7], ["a1i", "proof", "", "", "all", "ax-1 ax-mp", "all"])
        both = a1i.replace("wq wp wi wq wp wq g a1i a1i", "wq wp wi wq wp wq g a1i  a1i")
        self.assertEqual([row[0] for row in self.reviewed(both)], ["a1i"])
        again = a1i.replace("wq wp wi wq wp wq g a1i a1i", "( wi a1i ) BADBABCEE")
        rows = self.reviewed(again)
        self.assertEqual(
            [(row[0], row[4], row[6]) for row in rows if row[0] == "a2"], [("a2", "all", "a1i")]
        )

    def test_comment(self) -> None:
        news = "".join(
            f"n{number} $p wff ( p -> p ) $= wp wp wi $.\n" for number in range(SHOWN_ROWS + 5)
        )
        self.write("new.mm", SMALL.replace("a2 $p", "a3 $p") + news)
        lines = self.answers("review", "old.mm", "new.mm", "--format", "markdown")
        self.assertEqual(lines[0], "**Axioms**: no change.")
        self.assertEqual(lines[2], f"**Theorems**: {SHOWN_ROWS + 5} new, 1 renamed.")
        self.assertEqual(lines[6], "| `a3` | renamed from `a2` |  |  |  | +0 |")
        self.assertEqual(sum(line.startswith("| `") for line in lines), SHOWN_ROWS)
        self.assertIn("6 more aren't shown; `mmquery review` lists them.", lines)
        statements = lines[lines.index("**New statements**:") + 2 :]
        self.assertEqual(statements[0], "- `n0`: `wff ( p -> p )`")
        self.assertEqual(len(statements), SHOWN_ROWS + 2)
        self.assertEqual(
            statements[-1], "5 more aren't shown; `mmquery review` lists the theorems."
        )
        same = self.answers("review", "old.mm", "old.mm", "--format", "markdown")
        self.assertEqual(same, ["**Axioms**: no change.", "", "**Theorems**: no change."])

    def test_axioms_come_first(self) -> None:
        """Whatever their typecode, and whatever the options choose."""
        ax = "ax-1 $a |- ( p -> ( q -> p ) ) $."
        for text, said in (
            (SMALL + "cheat $a |- p $.\n", "1 new (`cheat`)"),
            (SMALL + "wx $a wff -> $.\n", "1 new (`wx`)"),
            (SMALL.replace("ax-1", "ax-x"), "1 renamed (`ax-x` from `ax-1`)"),
            (
                SMALL.replace("ax1 $p", "ax1o $p").replace(ax, ax[:-2] + "$. ax1 $a |- p $."),
                "1 changed (`ax1`)",
            ),
            (SMALL + "www.evil.example $a |- p $.\n", "1 new (`www.evil.example`)"),
            (SMALL + "GH-1 $a |- p $.\n" + "x" * 300 + " $a |- q $.\n", f"`{'x' * 200}..`)"),
            (SMALL.split("ax-1 $a")[0], "2 gone (`ax-1`, `ax-mp`)"),
        ):
            self.write("new.mm", text)
            words = ("review", "old.mm", "new.mm", "--all")
            lines = self.answers(*words, "--format", "markdown")
            self.assertTrue(lines[0].startswith("**Axioms**: "), lines)
            self.assertIn(said, lines[0])
            self.assertRegex(self.query(*words).err, "axioms: [123] (new|renamed|gone|changed)")

    def test_by_chance(self) -> None:
        """Of two databases made by chance: what is new and gone, and what each new one rests on. A
        theorem that is an axiom now and says something else has a row too."""
        for seed in range(3):
            old, new = (invented(random.Random(2 * seed + k), 6) for k in (0, 1))
            self.write("a.mm", old.text)
            self.write("b.mm", new.text)
            rows = asked("review", str(self.folder / "a.mm"), str(self.folder / "b.mm"))
            for label, status, _, axioms, *_ in rows:
                if "new" in status:
                    rests = [axiom for axiom in new.axioms if axiom in new.rests(label)]
                    self.assertEqual(int(axioms), len(rests), label)
            named = {row[0] for row in rows if "gone" not in row[1]}
            self.assertLessEqual(named, {*new.theorems(), *old.theorems()} & {*new.labels()})

    def test_order(self) -> None:
        """As few as can be are told as moved."""
        some: list[list[int]] = [[], [1, 2, 3], [3, 1, 2], [2, 3, 1], [4, 3, 2, 1], [1, 5, 2, 3, 4]]
        for numbers in some:
            pairs = [(str(number), number) for number in numbers]
            moved = out_of_order(pairs)
            left = [number for label, number in pairs if label not in moved]
            self.assertEqual(left, sorted(left))
            self.assertEqual(len(left), most_rising(numbers))


EDIT = re.compile(r"(?:- )?(\S+) newly cites (\S+), by which theorems came to rest on (.*?)\.?")
COUNTS = re.compile(r"(\S+) \((\d+) did; without its new citations (?:as many|(\d+ fewer)) would\)")
OF_EACH = re.compile(
    r"(.+) \((\d+) did each; without its new citations (?:as many|(\d+ fewer)) would\)"
)
HEADING = "**Edits that let axioms in**:"
Cites = dict[str, list[str]]


class Trees(unittest.TestCase):
    """Common ancestors, against the lists of all ancestors."""

    def test_common(self) -> None:
        for seed in range(6):
            chance = random.Random(seed)
            tree, above = Meetings(0), [[0]]
            for number in range(1, 400):
                parent = number - 1 - int(chance.random() ** (1 + seed) * min(number, 9))
                tree.put(number, parent)
                above.append([*above[parent], number])
            for _ in range(3000):
                one, other = chance.randrange(400), chance.randrange(400)
                wanted = [a for a, b in zip(above[one], above[other]) if a == b][-1]
                self.assertEqual(tree.common([one, other]), wanted, (seed, one, other))
            self.assertGreater(max(tree.deep.values()), 80)

    def test_few_steps(self) -> None:
        """A path of 100,000 nodes is passed in few steps."""
        tree = Meetings(0)
        for node in range(100_000):
            tree.put(node + 1, node)
        steps, part = 0, tree.far[100_000]
        while part != 0:
            part = tree.far[part]
            steps += 1
        self.assertLess(steps, 40)


@dataclass(frozen=True)
class Proved:
    """A theorem whose formula has so many arrows, which no other one has, or with none an axiom.
    `cites` are those that its proof cites, by their arrows."""

    label: str
    cites: tuple[int, ...] = ()
    is_compressed: bool = False


Known = dict[int, Proved]


class NewLabels(World):
    """Proofs that cite what was renamed."""

    def setUp(self) -> None:
        super().setUp()
        patch = mock.patch.dict(os.environ, {"MMDEPEND": built_program()})
        patch.start()
        self.addCleanup(patch.stop)

    def told(self, old: str, new: str) -> tuple[dict[str, str], int]:
        """The words about each theorem, and of how many the proof is said to be the same by new
        labels, which a comment says as well."""
        self.write("a.mm", old)
        self.write("b.mm", new)
        done = self.query("review", "a.mm", "b.mm", "--format", "json")
        self.assertEqual(done.status, 0, done)
        said = re.search(r"of (\d+) the proof is the same by new labels, such as", done.err)
        count = int(said[1]) if said else 0
        comment = "\n".join(self.answers("review", "a.mm", "b.mm", "--format", "markdown"))
        counted = re.search(r"(\d+) with the same proof by new labels", comment)
        self.assertEqual(int(counted[1]) if counted else 0, count, comment)
        return {str(row["theorem"]): " ".join(words(row["status"])) for row in done.rows()}, count

    def test_one_label(self) -> None:
        """What cites it is only counted, unless something else became of it."""
        new = SMALL.replace("a1i", "a1")
        self.assertEqual(self.told(SMALL, new), ({"a1": "renamed"}, 1))
        both = new.replace("a2 $p", "a3 $p")
        self.assertEqual(self.told(SMALL, both), ({"a1": "renamed", "a3": "renamed"}, 1))
        done = self.query("review", "a.mm", "b.mm", "--format", "markdown")
        said = "**Theorems**: 2 renamed, 1 with the same proof by new labels."
        self.assertEqual(done.out.splitlines()[2], said)
        self.assertEqual(self.told(SMALL, SMALL.replace("ax-1", "ax-x")), ({}, 2))
        done = self.query("review", "a.mm", "b.mm")
        self.assertIn(
            "(ax-x from ax-1); of 2 the proof is the same by new labels, such as ax1\n", done.err
        )

    def test_another_proof_besides(self) -> None:
        """The proof of a2 has the new label, and is another one."""
        proof, steps = "wq wp wi wq wp wq g a1i a1i", "wq wp wi wq wp wq g a1 a1"
        new = SMALL.replace(proof, steps).replace("a1i $p", "a1 $p")
        self.assertEqual(self.told(SMALL, new), ({"a1": "renamed"}, 1))
        by_axiom = "wq wp wi wq wq wp wi wi wp wq g a1 wq wp wi wq ax-1 ax-mp"
        for other in ("( wi a1 ) BADBABCEE", by_axiom):
            text = new.replace(steps, other)
            self.assertEqual(self.told(SMALL, text), ({"a1": "renamed", "a2": "proof"}, 0), other)
        old = SMALL.replace(proof, "( wi a1i ) BADBABCEE")
        broken = new.replace(steps, "( wi a1 ) BADB\n ABCEE")
        self.assertEqual(self.told(old, broken), ({"a1": "renamed"}, 1))

    def test_labels_of_hypotheses(self) -> None:
        """Who cites an assertion that has the label that a hypothesis had keeps the words."""
        head = "$c wff |- 0 $.\nz $a |- 0 0 $.\n"
        proved = "t $p |- 0 $= h $. $}\n"
        by_hypothesis = f"{head}${{ h $e |- 0 $. {proved}"
        by_axiom = f"{head}h $a |- 0 $.\n${{ k $e |- 0 $. {proved}"
        self.assertEqual(self.told(by_hypothesis, by_axiom), ({}, 0))
        self.assertEqual(self.told(by_axiom, by_hypothesis), ({}, 0))

    def test_labels_that_are_swapped(self) -> None:
        """A proof that keeps its labels cites other statements, which here differ in a `$d`. These
        are told as changed, and the proof is no other one."""
        proofs = "t $p |- ( p -> q ) $= wp wq x $. u $p |- ( q -> p ) $= wq wp y $. $}\n"
        last = f"${{ $d p q $. {proofs}"
        head = "$c wff |- ( -> ) $.\n$v p q $.\nwp $f wff p $.\nwq $f wff q $.\n"
        head += "wi $a wff ( p -> q ) $.\n"
        free, apart = "%s $a |- ( p -> q ) $.\n", "${ $d p q $. %s $a |- ( p -> q ) $. $}\n"
        turned = last.replace("x $.", "Y $.").replace("y $.", "x $.").replace("Y $.", "y $.")
        old, swapped = head + free % "x" + apart % "y", head + free % "y" + apart % "x"
        self.assertEqual(self.told(old + last, swapped + last), ({}, 0))
        done = self.query("review", "a.mm", "b.mm")
        self.assertIn("; axioms: 2 changed (y, x), 2 renamed (y from x, x from y)\n", done.err)
        self.assertEqual(self.told(old + last, swapped + turned), ({}, 2))
        given = head + free % "z" + apart % "x" + apart % "y"
        self.assertEqual(self.told(old + last, given + last), ({}, 0))
        self.assertEqual(self.told(old + last, given + last.replace("x $.", "z $.")), ({}, 1))
        taken = head + apart % "x" + last.replace("y $.", "x $.")
        self.assertEqual(self.told(old + last, taken), ({}, 1))

    def test_by_chance(self) -> None:
        """Against what was cited: labels are exchanged and go round, some are given to what is new,
        and some proofs are others. Statements are known by their arrows, whatever their labels."""
        kinds: Counter[str] = Counter()
        for seed in range(25):
            chance = random.Random(seed)
            old = {n: proved_by_chance(chance, f"t{n}", range(n)) for n in range(7)}
            new = edited(chance, old)
            rows, count = self.told(*(text_of_proved(some) for some in (old, new)))
            by_label = {one.label: (n, one) for n, one in old.items()}
            renewed = 0
            for n, one in new.items():
                if n == 0:
                    continue
                was = n if n in old else by_label.get(one.label, (None,))[0]
                keeps = was is not None and words_of(was, old) == words_of(n, new)
                is_same = n in old and proof_in_model(old[n]) == proof_in_model(one)
                has_proof = "proof" in rows.get(one.label, "").split()
                is_another = was is not None and not keeps and not is_same
                self.assertEqual(has_proof, is_another, (seed, n, rows))
                renewed += is_same and not keeps
            self.assertEqual(count, renewed, seed)
            kinds.update(
                {"by new labels": renewed, "another": sum("proof" in e for e in rows.values())}
            )
        self.assertGreater(min(kinds["by new labels"], kinds["another"]), 10, kinds)


def words(value: object) -> list[str]:
    """The words of a list in an answer."""
    return [str(each) for each in value] if isinstance(value, list) else []


def proved_by_chance(chance: random.Random, label: str, before: Iterable[int]) -> Proved:
    """A theorem that cites some of those before it."""
    some = tuple(n for n in before if n and chance.random() < 0.5)
    return Proved(label, some[:3], chance.random() < 0.5)


def edited(chance: random.Random, old: Known) -> Known:
    """What became of theorems: labels go round, a proof is another one, and one is new."""
    labels = [one.label for one in old.values()] + ["u0", "u1"]
    some = chance.sample(range(len(labels)), chance.choice((0, 1, 2, 2, 3)))
    turned = dict(zip(some, some[1:] + some[:1]))
    if len(some) == 1:
        turned = {some[0]: len(labels) - 1}
    new = {n: replace(one, label=labels[turned.get(n, n)]) for n, one in old.items()}
    number = chance.randrange(1, len(old))
    if chance.random() < 0.5:
        new[number] = proved_by_chance(chance, new[number].label, range(number))
    taken = {one.label for one in new.values()}
    free = [label for label in labels if label not in taken]
    return new | {len(old): proved_by_chance(chance, chance.choice(free), range(len(old)))}


def proof_in_model(one: Proved) -> tuple[tuple[int, ...], bool]:
    """What is cited, whatever its labels, and in which form the proof is."""
    return one.cites, one.is_compressed


def formula_steps(arrows: int) -> list[str]:
    """How a formula with so many arrows is put together."""
    return ["wp"] * (arrows + 1) + ["wi"] * arrows


def words_of(arrows: int, known: Known) -> str:
    """A proof: that of an axiom for all formulas, by which others are brought in."""
    one = known[arrows]
    steps = [*formula_steps(arrows), known[0].label]
    for cited in one.cites:
        brought = [*formula_steps(cited), "wp", known[cited].label]
        steps = [*formula_steps(arrows), *brought, *steps, "use"]
    if not one.is_compressed:
        return " ".join(steps)
    labels = [label for label in dict.fromkeys(steps) if label != "wp"]
    letters = "".join("ABCDEFGHIJKLMNOPQRST"[["wp", *labels].index(label)] for label in steps)
    return f"( {' '.join(labels)} ) {letters}"


def text_of_proved(known: Known) -> str:
    """The database. The statement without an arrow is the axiom."""
    head = "$c wff |- ( -> ) $.\n$v p q $.\nwp $f wff p $.\nwq $f wff q $.\n"
    head += "wi $a wff ( p -> q ) $.\n"
    head += "${ use.1 $e |- q $. use.2 $e |- p $. use $a |- p $. $}\n"
    lines = [f"{known[0].label} $a |- p $."]
    for n in sorted(known):
        formula = "( p -> " * n + "p" + " )" * n
        if n:
            lines.append(f"{known[n].label} $p |- {formula} $= {words_of(n, known)} $.")
    return head + "\n".join(lines) + "\n"


class NewOnes(World):
    """What new theorems say, and on which axioms that OLD hasn't they rest."""

    BAD = "bad $a |- ( p -> q ) $.\n"
    NEW = (
        BAD + "one $p |- ( q -> p ) $= wq wp bad $.\n"
        "${ h2 $e |- p $. $d p q $. two $p |- q $= wp wq h2 wp wq bad ax-mp $. $}\n"
        "three $p |- ( p -> p ) $= wp wp one $. four $p |- ( p -> ( p -> p ) ) $= wp wp ax-1 $.\n"
    )

    def setUp(self) -> None:
        super().setUp()
        patch = mock.patch.dict(os.environ, {"MMDEPEND": built_program()})
        patch.start()
        self.addCleanup(patch.stop)
        self.write("old.mm", SMALL)

    def lines(self, form: str, new: str, *words: str) -> list[str]:
        """The lines about a change of the small database."""
        paths = [str(self.folder / "old.mm"), str(self.folder / self.write("new.mm", new))]
        return answered(form, "review", *paths, *words).decode().splitlines()

    def test_rows(self) -> None:
        rows = json.loads("\n".join(self.lines("json", SMALL + self.NEW)))
        names = ("theorem", "axioms", "gained", "via", "differ", "old", "new", "how")
        self.assertEqual(
            [tuple(row[name] for name in names) for row in rows],
            [
                ("one", 1, ["bad"], ["bad"], None, None, "|- ( q -> p )", None),
                ("two", 2, ["bad"], ["bad"], None, None, "$e |- p $. $d p q $. |- q", None),
                ("three", 1, ["bad"], ["one"], None, None, "|- ( p -> p )", None),
                ("four", 1, [], [], None, None, "|- ( p -> ( p -> p ) )", None),
            ],
        )

    def test_lines(self) -> None:
        """As text and in a comment these stand first; statements stand last."""
        said = (
            "bad is new among the axioms, and new or changed theorems rest on it: one, two, three"
        )
        text = self.lines("text", SMALL + self.NEW)
        self.assertEqual(text[:2], [said, ""])
        self.assertEqual(text[-6:-3], ["", "three: new", "  is   |- ( p -> p )"])
        comment = [line.replace("`", "") for line in self.lines("markdown", SMALL + self.NEW)]
        self.assertEqual(
            comment[:5],
            [
                "**Axioms**: 1 new (bad).",
                "",
                "**New and changed theorems on new axioms**:",
                "",
                f"- {said}.",
            ],
        )
        news = comment[comment.index("**New statements**:") + 2 :]
        self.assertEqual(news[0], "- bad: |- ( p -> q )")
        self.assertEqual(news[2], "- two: $e |- p $. $d p q $. |- q")
        self.assertEqual(len(news), 5)

    def test_changed_statements(self) -> None:
        """A theorem that says something else is told as a new one is. One that was renamed as well
        is compared with what it was."""
        a2 = "a2 $p |- ( q -> ( q -> p ) ) $= wq wp wi wq wp wq g a1i a1i $."
        other = "a2 $p |- ( q -> p ) $= wq wp bad $."
        text = SMALL.replace("${ g $e", f"{self.BAD}${{ g $e").replace(a2, other)
        (row,) = json.loads("\n".join(self.lines("json", text)))
        self.assertEqual((row["theorem"], row["status"]), ("a2", ["changed", "proof"]))
        self.assertEqual((row["axioms"], row["gained"], row["via"]), (1, ["bad"], ["bad"]))
        said = "bad is new among the axioms, and new or changed theorems rest on it: a2"
        self.assertEqual(self.lines("text", text)[0], said)
        renamed = SMALL.replace("${ g $e", f"{self.BAD}${{ g $e").replace(a2, f"x{a2}\n{other}")
        rows = json.loads("\n".join(self.lines("json", renamed)))
        self.assertEqual(
            [(row["theorem"], row["gained"]) for row in rows], [("xa2", []), ("a2", ["bad"])]
        )

    def test_by_chance(self) -> None:
        """On which of two new axioms new theorems rest, by what they cite: of themselves, or by
        theorems of both, of which some have other proofs."""
        told: Counter[bool] = Counter()
        for seed in range(8):
            chance = random.Random(seed)
            old = cites_by_chance(chance)
            new = old | {label: ["b0", "ax"] for label in chance.sample(THEOREMS, 1)}
            before = ["b0", "b1", *AXIOMS, *THEOREMS]
            for number in range(6):
                new[f"n{number}"] = chance.sample(before[:3] + before[-6:], 2)
                before.append(f"n{number}")
            self.write("old.mm", text_of(old))
            last = "a1 $a |- p $.\n"
            text = text_of(new).replace(last, f"{last}b0 $a |- p $.\nb1 $a |- p $.\n")
            rows = json.loads("\n".join(self.lines("json", text)))
            fresh = [row for row in rows if row["status"] == ["new"]]
            self.assertEqual([row["theorem"] for row in fresh], before[-6:])
            for label, gained, via in (
                (row["theorem"], row["gained"], row["via"]) for row in fresh
            ):
                wanted = [axiom for axiom in ("b0", "b1") if axiom in resting(new, label)]
                self.assertEqual(gained, wanted, (seed, label))
                for axiom, cited in zip(gained, via, strict=True):
                    self.assertIn(cited, new[label])
                    self.assertIn(axiom, resting(new, cited))
                    told[cited in THEOREMS] += 1
        self.assertGreater(min(told[True], told[False]), 3, told)

    def test_what_is_no_new_axiom(self) -> None:
        """One that was renamed, or isn't chosen, is none; and one that was a theorem is."""
        renamed = (SMALL + self.NEW).replace("ax-1", "ax-x")
        self.assertIn("four", "".join(self.lines("text", renamed)))
        self.assertEqual(sum("is new among" in line for line in self.lines("text", renamed)), 1)
        rows = self.lines("csv", SMALL + self.NEW, "--axioms", "ax-")
        self.assertEqual(rows[1].split(",")[:6], ["one", "new", "", "0", "", ""])
        proof = "$p |- ( p -> ( q -> p ) ) $= wp wq ax-1 $."
        axiom = SMALL.replace(f"ax1 {proof}", "ax1 $a |- ( p -> ( q -> p ) ) $.")
        axiom += "new $p |- ( q -> ( p -> q ) ) $= wq wp ax1 $.\n"
        said = "ax1 is new among the axioms, and new or changed theorems rest on it: new"
        self.assertEqual(self.lines("text", axiom)[0], said)

    def test_long_ones(self) -> None:
        """Many pairs are counted, and what is longer still is cut; and few theorems are named."""
        names = [f"v{number}" for number in range(60)]
        head = f"$v {' '.join(names)} $.\n"
        head += "".join(f"f{name} $f wff {name} $.\n" for name in names)
        for count, said in ((4, "$d v0 v1 $. "), (30, "$d 435 pairs $. |- ( v0 -> ")):
            some = names[:count]
            formula = "".join(f"( {name} -> " for name in some) + "p" + " )" * count
            proof = " ".join(f"f{name}" for name in some) + " wp" + " wi" * count
            block = f"${{ $d {' '.join(some)} $. ax $a |- {formula} $. t $p |- {formula} $= "
            steps = "wp " + " ".join(f"f{name}" for name in some)
            new = f"{SMALL}{head}{block}{steps} ax $. $}}\nu $p wff {formula} $= {proof} $.\n"
            rows = json.loads("\n".join(self.lines("json", new)))
            self.assertEqual([row["theorem"] for row in rows], ["t", "u"])
            self.assertTrue(rows[0]["new"].startswith(said), rows)
            self.assertTrue(rows[0]["new"].endswith(f"|- {formula}"), rows)
        shown = [line for line in self.lines("text", new) if line.startswith("  is   ")]
        self.assertTrue(shown[0].endswith(" ..") and len(shown[0]) < 320, shown)
        many = "".join(f"n{number} $p |- ( q -> p ) $= wq wp bad $.\n" for number in range(14))
        first = self.lines("text", SMALL + self.BAD + many)[0]
        self.assertTrue(
            first.endswith(": n0, n1, n2, n3, n4, n5, n6, n7, n8, n9 and 4 more"), first
        )


class Edits(World):
    """What let an axiom in, as text and in Markdown."""

    def setUp(self) -> None:
        super().setUp()
        patch = mock.patch.dict(os.environ, {"MMDEPEND": built_program()})
        patch.start()
        self.addCleanup(patch.stop)

    def both(self, old: str, new: str) -> tuple[list[str], list[str]]:
        """The lines of both forms. In a comment labels stand as code."""
        paths = [str(self.folder / self.write(*each)) for each in (("a.mm", old), ("b.mm", new))]
        text, markdown = (
            answered(form, "review", *paths).decode().replace("`", "").splitlines()
            for form in ("text", "markdown")
        )
        return text, markdown

    def test_edits_stand_first(self) -> None:
        """Which proof newly cites what, and then how many theorems followed; the theorems are
        listed behind that."""
        old = SMALL.replace("${ h $e", "all $a |- p $.\n${ h $e")
        old += "${ k $e |- p $. a3 $p |- ( q -> ( q -> p ) ) $= wp wq k a2 $. $}\n"
        proof = "wp wq wp wi h wp wq ax-1 ax-mp $."
        new = old.replace(proof, "wq wp wi all $.")
        text, markdown = self.both(old, new)
        said = (
            "a1i newly cites all, by which theorems came to rest on all"
            " (3 did; without its new citations 3 fewer would)"
        )
        self.assertEqual(text[:2], [said, ""])
        self.assertEqual([line.split()[0] for line in text[2:]], ["theorem", "a1i"])
        self.assertEqual(markdown[2:6], [HEADING, "", f"- {said}.", ""])
        self.assertEqual(markdown[6], "**Theorems**: 1 with another proof.")

    def test_the_same_of_all_axioms(self) -> None:
        """Numbers that are the same for all axioms of an edit are told once."""
        old = {"s": ["other", "a0"], "t": ["ax", "ax"], "u": ["t", "ax"]}
        text, markdown = self.both(text_of(old), text_of(old | {"t": ["ax", "s"]}))
        said = (
            "t newly cites s, by which theorems came to rest on other, a0"
            " (2 did each; without its new citations 2 fewer would)"
        )
        self.assertEqual((text[0], markdown[4]), (said, f"- {said}."))

    def test_an_edit_that_lets_nothing_in(self) -> None:
        """Another proof by the same axioms, or by fewer, isn't told as such an edit."""
        by_ax1 = SMALL.replace("h wp wq ax-1 ax-mp $.", "h wp wq ax1 ax-mp $.")
        fewer = [HEAD + theorem("t", *cited) for cited in (("ax", "other"), ("ax",))]
        for before, after, label in ((SMALL, by_ax1, "a1i"), (*fewer, "t")):
            text, markdown = self.both(before, after)
            self.assertEqual([line.split()[0] for line in text], ["theorem", label])
            self.assertEqual(markdown[2], "**Theorems**: 1 with another proof.")
            self.assertNotIn(HEADING, markdown)
            self.assertFalse([line for line in markdown if "newly cites" in line])

    def test_a_theorem_becomes_an_axiom(self) -> None:
        """No proof is another one: it is the axiom that is told."""
        proved = "ax1 $p |- ( p -> ( q -> p ) ) $= wp wq ax-1 $.\n"
        old = SMALL + "both $p |- ( p -> ( q -> p ) ) $= wp wq ax1 $.\n"
        old += "again $p |- ( p -> ( p -> p ) ) $= wp wp ax1 $.\n"
        axiom = "ax1 $a |- ( p -> ( q -> p ) ) $.\n"
        text, markdown = self.both(old, old.replace(proved, axiom))
        said = "ax1 is new among the axioms, by which theorems came to rest on ax1 (2)"
        self.assertEqual(text[0], said)
        self.assertIn(f"- {said}.", markdown)

    def test_by_chance(self) -> None:
        """Each edit is a new citation of what rests on the axiom, and together they are the reason
        for all that came to rest on it; these are counted by trying everything."""
        told = both = alike = 0
        for seed in range(40):
            chance = random.Random(seed)
            old = cites_by_chance(chance)
            new = old | {
                label: cited_by_chance(chance, label) for label in chance.sample([*old], 3)
            }
            text, markdown = self.both(*map(text_of, (old, new)))
            edits = [match for line in text if (match := EDIT.fullmatch(line))]
            self.assertEqual(
                [match.groups() for match in edits],
                [match.groups() for line in markdown if (match := EDIT.fullmatch(line))],
            )
            counts: Counter[str] = Counter()
            for citing, cited, axioms in (match.groups() for match in edits):
                self.assertIn(cited, new[citing])
                self.assertNotIn(cited, old[citing])
                numbers = [numbers for _, *numbers in counts_in(axioms)]
                is_alike = len(numbers) > 1 and all(each == numbers[0] for each in numbers)
                self.assertEqual(is_alike, "each" in axioms, (seed, axioms))
                alike += is_alike
                for axiom, count, fewer in counts_in(axioms):
                    self.assertIn(axiom, resting(new, cited))
                    came = came_to_rest(old, new, axiom)
                    followed = [each for each in came if citing in resting(new, each)]
                    self.assertTrue(0 < int(count) <= len(followed), (seed, citing, axiom))
                    without = new | {citing: [e for e in new[citing] if e in old[citing]]}
                    freed = len(came) - len(came_to_rest(old, without, axiom))
                    self.assertEqual(int(fewer.removesuffix(" fewer") or 0), freed, (seed, axiom))
                    both += 0 < freed < len(came)
                    counts[axiom] += int(count)
                    told += 1
            wanted = {axiom: len(came_to_rest(old, new, axiom)) for axiom in AXIOMS}
            self.assertEqual(dict(counts), {axiom: n for axiom, n in wanted.items() if n}, seed)
        self.assertGreater(told, 40)
        self.assertGreater(both, 10)
        self.assertGreater(alike, 0)


def counts_in(axioms: str) -> list[tuple[str, str, str]]:
    """What a line tells of each axiom: how many theorems came to rest on it, and how many fewer
    would, both in words. Where it is the same for all it is told once."""
    match = OF_EACH.fullmatch(axioms)
    if match is None:
        return COUNTS.findall(axioms)
    return [(axiom, match[2], match[3] or "") for axiom in match[1].split(", ")]


AXIOMS = ["ax", "other", "a0", "a1"]
THEOREMS = [f"t{number}" for number in range(14)]


def cited_by_chance(chance: random.Random, label: str) -> list[str]:
    """What the proof of a theorem cites."""
    before = AXIOMS + THEOREMS[: THEOREMS.index(label)]
    return chance.sample(before[-6:] if chance.random() < 0.8 else before, 2)


def cites_by_chance(chance: random.Random) -> Cites:
    """What the proofs of theorems cite."""
    return {label: cited_by_chance(chance, label) for label in THEOREMS}


def text_of(cites: Cites) -> str:
    """The database with these proofs."""
    lines = "".join(theorem(label, *cited) for label, cited in cites.items())
    return f"{HEAD}a0 $a |- p $.\na1 $a |- p $.\n{lines}"


def resting(cites: Cites, label: str) -> set[str]:
    """On what an assertion rests, itself included."""
    return {label}.union(*(resting(cites, each) for each in cites.get(label, ())))


def came_to_rest(old: Cites, new: Cites, axiom: str) -> list[str]:
    """The theorems that rest on an axiom by the new proofs, and not by the old ones."""
    return [
        each for each in THEOREMS if axiom in resting(new, each) and axiom not in resting(old, each)
    ]


def most_rising(numbers: list[int]) -> int:
    """The length of a longest rising selection, by trying everything."""
    best = 0
    for chosen in range(1 << len(numbers)):
        some = [number for place, number in enumerate(numbers) if chosen >> place & 1]
        if some == sorted(some):
            best = max(best, len(some))
    return best
