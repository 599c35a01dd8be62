"""What `compare` and the gate's rules say of two databases, against trying everything."""

import json
import os
import random
import re
from collections import Counter
from collections.abc import Callable
from itertools import permutations, product
from unittest import mock

from query.comparisons.changed_statements import HOW
from query.comparisons.pairing import (
    OTHER_NAMES,
    SAME_THEOREM,
    are_alike,
    difference,
    statement_of,
)
from query.tests import replay
from query.tests.repositories import BASE, TAKEN, Repositories, changed
from query.tests.world import SMALL, World, asked, built_program, database_text
from query.texts.assertions import Assertion
from tests.shared.generations import Generation, Part, generation, next_generation

Row = dict[str, str]
COLUMNS = (
    "change",
    "kind",
    "label",
    "was",
    "axiom",
    "citing",
    "cited",
    "differ",
    "old",
    "new",
    "how",
)


def is_changed(part: Part, other: Part) -> bool:
    """Whether an assertion says something else under the same label."""
    return part.label == other.label and part.says != other.says


def expected(old: Generation, new: Generation) -> set[tuple[str, ...]]:
    """The rows that there have to be, without the reasons and the statements."""
    rows: set[tuple[str, ...]] = set()
    for part in new.parts:
        before = old.part(part.number)
        kind = "axiom" if part.is_axiom else "theorem"
        if before is None:
            rows.add(("new", kind, part.label, "", ""))
        elif before.label != part.label:
            rows.add(("renamed", kind, part.label, before.label, ""))
        elif is_changed(part, before):
            rows.add(("changed", kind, part.label, "", ""))
    for part in old.parts:
        if new.part(part.number) is None:
            kind = "axiom" if part.is_axiom else "theorem"
            rows.add(("gone", kind, part.label, "", ""))
    for change, there, other in (("gained", new, old), ("lost", old, new)):
        for part in there.parts:
            counterpart = other.part(part.number)
            if part.is_axiom or counterpart is None or is_changed(part, counterpart):
                continue
            for axiom in there.rests(part.number) - other.rests(part.number):
                rows.add((change, "theorem", part.label, "", there.label(axiom)))
    return rows


def is_renamed(old: Assertion, new: Assertion) -> bool:
    """Whether some renaming of variables makes one statement the other, by trying all."""
    said = []
    for one in (old, new):
        hypotheses = one.frame().hypotheses()
        kinds = dict(each.formula.split(" ")[::-1] for each in hypotheses if each.kind == "f")
        essential = [each.formula for each in hypotheses if each.kind == "e"]
        words = [formula.split(" ") for formula in [*essential, one.formula]]
        said.append((kinds, words, {frozenset(pair) for pair in one.frame().pairs()}))
    (kinds, formulas, pairs), (others, wanted, apart) = said
    for names in permutations(others) if len(kinds) == len(others) else ():
        to_new = dict(zip(kinds, names))
        renamed = [[to_new.get(word, word) for word in formula] for formula in formulas]
        moved = {frozenset(to_new[name] for name in pair) for pair in pairs}
        same_kinds = all(kinds[name] == others[to_new[name]] for name in kinds)
        if same_kinds and renamed == wanted and moved == apart:
            return True
    return False


class Comparisons(World):
    """Over pairs of databases made by chance."""

    def setUp(self) -> None:
        super().setUp()
        patch = mock.patch.dict(os.environ, {"MMDEPEND": built_program()})
        patch.start()
        self.addCleanup(patch.stop)

    def pairs(self, count: int) -> list[tuple[Generation, Generation]]:
        """Databases, written as old.N.mm and new.N.mm."""
        found = []
        for seed in range(count):
            chance = random.Random(seed)
            old = generation(chance, chance.randint(6, 16))
            new = next_generation(chance, old)
            self.write(f"old.{seed}.mm", old.text())
            self.write(f"new.{seed}.mm", new.text())
            found.append((old, new))
        return found

    def rows(self, *words: str) -> list[Row]:
        """The rows that compare answers."""
        names = [str(self.folder / word) if word.endswith(".mm") else word for word in words]
        return [dict(zip(COLUMNS, row, strict=True)) for row in asked("compare", *names)]

    def test_rows(self) -> None:
        changes: dict[str, int] = {}
        for number, (old, new) in enumerate(self.pairs(30)):
            rows = self.rows(f"old.{number}.mm", f"new.{number}.mm")
            found = [tuple(row[name] for name in COLUMNS[:5]) for row in rows]
            self.assertEqual(len(found), len(set(found)))
            self.assertEqual(set(found), expected(old, new), f"seed {number}")
            for row in rows:
                changes[row["change"]] = changes.get(row["change"], 0) + 1
                if row["change"] in ("gained", "lost"):
                    sides = (new, old) if row["change"] == "gained" else (old, new)
                    self.check_reason(row, *sides)
                self.check_statements(row, old, new)
        self.assertEqual(set(changes), {"new", "gone", "renamed", "changed", "gained", "lost"})
        self.assertGreater(min(changes.values()), 5)

    def check_statements(self, row: Row, old: Generation, new: Generation) -> None:
        """Checks that of what was changed both statements are told, and of nothing else."""
        wanted = ["", "", ""]
        if row["change"] == "changed":
            after = next(part for part in new.parts if part.label == row["label"])
            before = old.part(after.number)
            assert before is not None
            wanted = ["the formula changed", f"|- c{before.says}", f"|- c{after.says}"]
        self.assertEqual([row[name] for name in ("differ", "old", "new")], wanted)

    def check_reason(self, row: Row, there: Generation, other: Generation) -> None:
        """Checks that a citation is on a shortest chain, and that the other database lacks it or it
        is the last one."""
        numbers = {part.label: part.number for part in there.parts}
        theorem, axiom = numbers[row["label"]], numbers[row["axiom"]]
        citing, cited = numbers[row["citing"]], numbers[row["cited"]]
        whole = there.distance(theorem, axiom)
        before, after = there.distance(theorem, citing), there.distance(cited, axiom)
        assert whole is not None and before is not None and after is not None
        self.assertEqual(before + 1 + after, whole)
        part, counterpart = there.part(citing), other.part(citing)
        assert part is not None and part.combines is not None
        self.assertIn(cited, part.combines)
        lacks = counterpart is None or cited not in (counterpart.combines or ())
        self.assertTrue(lacks or cited == axiom)

    def test_order_and_axioms(self) -> None:
        for number, (old, new) in enumerate(self.pairs(8)):
            files = (f"old.{number}.mm", f"new.{number}.mm")
            rows = self.rows(*files)
            axioms = [part for part in new.parts if part.is_axiom]
            order = {part.label: place for place, part in enumerate(new.parts)}
            gained = [row for row in rows if row["change"] == "gained"]
            places = [(order[row["axiom"]], order[row["label"]]) for row in gained]
            self.assertEqual(places, sorted(places))
            for axiom in axioms:
                before = old.part(axiom.number)
                names = {axiom.label, before.label if before else axiom.label}
                about = [
                    row
                    for row in rows
                    if row["axiom"] in names
                    or row["kind"] == "axiom"
                    and row["label"] in names
                    or self.rests_in_one(row, axiom.number, old, new)
                ]
                self.assertEqual(self.rows(*files, axiom.label), about)

    def rests_in_one(self, row: Row, axiom: int, old: Generation, new: Generation) -> bool:
        """Whether a row is about a theorem that was changed, and only one of its statements rests
        on an axiom."""
        if (row["change"], row["kind"]) != ("changed", "theorem"):
            return False
        number = next(part.number for part in new.parts if part.label == row["label"])
        return (axiom in old.rests(number)) != (axiom in new.rests(number))

    def test_reports_have_no_texts(self) -> None:
        self.write("a.mm", SMALL)
        report = self.report("a.mm") + self.report("a.mm", "--report=citations,statements")
        self.write("a.report", report)
        for words in (("a.report", "a.report"), ("a.mm", "a.report"), ("a.report", "a.mm")):
            for command in ("compare", "review"):
                why = "a.report: a report, where the database is wanted"
                self.refuses(command, *words, why=why)

    def test_nothing(self) -> None:
        self.write("a.mm", SMALL)
        self.write("b.mm", SMALL)
        (self.folder / "c.mm").symlink_to("a.mm")
        for command, same in (("compare", "don't differ in this"), ("review", "have the same")):
            for other, why in (("a.mm", "are the same file"), ("c.mm", "are the same file")):
                done = self.query(command, "a.mm", other)
                self.assertEqual((done.status, done.out), (0, ""))
                self.assertEqual(done.err, f"mmquery: a.mm and {other} {why}\n")
            done = self.query(command, "a.mm", "b.mm")
            self.assertIn(f"mmquery: a.mm and b.mm {same}", done.err)
            why = "only one of two databases can be the standard input"
            self.refuses(command, "-", "-", why=why)
        self.assertEqual(self.answers("compare", "a.mm", "a.mm"), [])
        self.refuses("compare", "a.mm", "a.mm", "a2", why="has an axiom 'a2'")
        self.refuses("compare", "a.mm", why="compare")

    def test_gate(self) -> None:
        """The gate's `newly`, `new` and `axioms` against the same."""
        tried = 0
        for number, (old, new) in enumerate(self.pairs(20)):
            watched = [part for part in new.parts if part.is_axiom][:4]
            lines = [f"{label!r}" for label in (part.label for part in watched)]
            asked = f"typecode = '|-'\nwatch = [{', '.join(lines)}]\n"
            self.write("mmdepend.toml", asked)
            words = ("gate", "--format", "json", f"old.{number}.mm", f"new.{number}.mm")
            found = self.json_findings(self.query(*words, "--all").out)
            wanted = set()
            for part in new.parts:
                if part.is_axiom:
                    continue
                for axiom in watched:
                    before = old.part(part.number)
                    rested = before is not None and axiom.number in old.rests(part.number)
                    if axiom.number in new.rests(part.number) and not rested:
                        rule = "new" if before is None else "newly"
                        wanted.add((rule, part.label, axiom.label))
            self.assertEqual({each for each in found if each[0] in ("newly", "new")}, wanted)
            theorems = {(rule, label) for rule, label, _ in wanted}
            told = Counter(rule for rule, _ in theorems)
            self.assertEqual(by_causes(self.query(*words).out), told)
            tried += len(wanted)
            axioms = {part.label for part in (*old.parts, *new.parts) if part.is_axiom}
            same = {
                part.label
                for part in new.parts
                if part.is_axiom and (before := old.part(part.number)) and before == part
            }
            changed = {each[1] for each in found if each[0] == "axioms"}
            self.assertEqual(changed, axioms - same)
        self.assertGreater(tried, 50)

    @staticmethod
    def json_findings(out: str) -> set[tuple[str, str, str]]:
        """Rule, label and axiom of each finding."""
        return {
            (each["rule"], each["label"], each["axiom"]) for each in json.loads(out)["findings"]
        }


class Statements(World):
    """When two statements are the same."""

    HEAD = "$c |- wff a ( ) -> $. $v p q x $. wp $f wff p $. wq $f wff q $. vx $f a x $.\n"
    ONE = "${ h1 $e |- p $. h2 $e |- q $. $d p q $. one $a |- ( p -> q ) $. $}"

    def compared(self, first: str, second: str) -> str:
        """In what two assertions differ."""
        texts = [database_text((self.HEAD + each).encode()) for each in (first, second)]
        one, other = (statement_of(text.assertions[-1]) for text in texts)
        self.assertEqual(one == other, not difference(one, other))
        return difference(one, other)

    def test_the_same(self) -> None:
        for second in (
            self.ONE.replace("one", "two").replace("h1", "g1"),
            self.ONE.replace("$d p q", "$d q p"),
            self.ONE.replace("$d p q $.", "$d p q x $."),
            self.ONE.replace("( p ->", "(\n  p $( a comment $) ->"),
            "${ $d q p $. h1 $e |- p $. h2 $e |- q $. one $p |- ( p -> q ) $= ? $. $}",
        ):
            self.assertEqual(self.compared(self.ONE, second), "", second)

    def test_others(self) -> None:
        for before, after, said in (
            ("( p -> q )", "( q -> p )", "the formula"),
            ("h1 $e |- p", "h1 $e |- q", "the hypotheses"),
            ("h1 $e |- p $. h2 $e |- q", "h1 $e |- q $. h2 $e |- p", "the hypotheses"),
            ("$d p q $.", "", "the $d conditions"),
            ("h1 $e |- p", "h1 $e wff p", "the hypotheses"),
        ):
            self.assertIn(said, self.compared(self.ONE, self.ONE.replace(before, after)))


class Restated(World):
    """Both statements of what was changed."""

    HEAD = "$c |- wff ( ) -> ` | <b> @me [x](y) $. $v p q r $.\n"
    HEAD += "wp $f wff p $. wq $f wff q $. wr $f wff r $. wi $a wff ( p -> q ) $. all $a |- p $.\n"
    ONE = "${ h1 $e |- p $. h2 $e |- q $. $d p q $. one $p |- ( p -> q ) $= wp wq wi all $. $}\n"
    TWO = "two $p |- ( p -> p ) $= wp wp wi all $.\n"
    AXIOM = "${ a.1 $e |- p $. ax-one $a |- ( p -> q ) $. $}\n"

    CASES: tuple[tuple[str, list[tuple[str, str]]], ...] = (
        (ONE, [("( p -> q )", "( q -> p )"), ("wp wq wi", "wq wp wi")]),
        (ONE, [("h2 $e |- q $. ", "")]),
        (ONE, [("h1 $e |- p $. h2 $e |- q $.", "h2 $e |- q $. h1 $e |- p $.")]),
        (ONE, [("$d p q $. ", "")]),
        (ONE, [("$d p q $. one", "$d p q $. h3 $e |- r $. $d q r $. $d p r $. one")]),
        (ONE, [("$d p q $. one $p |- ( p -> q )", "one $p |- ( p -> p )"), ("wp wq", "wp wp")]),
        (AXIOM, [("( p -> q )", "( q -> p )")]),
        (AXIOM, [("a.1 $e |- p", "a.1 $e |- q")]),
        (AXIOM, [("a.1 $e |- p $. ", "")]),
        (AXIOM, [("a.1 $e |- p $. ax-one", "$d p q $. a.1 $e |- p $. ax-one")]),
    )

    def statement(self, text: str, label: str) -> tuple[str, list[str], set[str]]:
        """The formula of an assertion, its hypotheses, and its pairs of distinct variables."""
        frame = next(one for one in replay.frames(text) if one.label == label)
        pairs = {" ".join(sorted(pair)) for pair in frame.apart if pair <= frame.variables}
        return frame.formula, [formula for _, formula in frame.essentials], pairs

    def wanted(self, one: str, other: str, label: str) -> str:
        """What has to be told of one of two databases, by what the other one has."""
        formula, given, pairs = self.statement(one, label)
        _, others, known = self.statement(other, label)
        parts = [f"$e {each} $. " for each in given if given != others]
        parts += [f"$d {each} $. " for each in sorted(pairs - known)]
        return "".join(parts) + formula

    def test_both_statements(self) -> None:
        for part, changes in self.CASES:
            changed = part
            for before, after in changes:
                self.assertIn(before, changed)
                changed = changed.replace(before, after)
            old, new = (self.HEAD + each + self.TWO for each in (part, changed))
            label = "one" if part == self.ONE else "ax-one"
            both = [self.wanted(old, new, label), self.wanted(new, old, label)]
            self.write("old.mm", old)
            self.write("new.mm", new)
            done = self.query("compare", "old.mm", "new.mm", "--format=json")
            self.assertEqual((done.status, done.err), (0, ""), changes)
            (row,) = done.rows()
            self.assertEqual((row["change"], row["label"]), ("changed", label))
            told = [
                re.sub(r"(?:\$d \S+ \S+ \$\. )+", in_order, str(row[e])) for e in ("old", "new")
            ]
            self.assertEqual(told, both, changes)
            self.assertNotEqual(row["old"], row["new"])
            lines = self.query("compare", "old.mm", "new.mm").lines()
            is_same = row["differ"] in SAME_THEOREM
            how = "" if is_same else f"; {HOW[str(row['how'] or '')]}"
            self.assertEqual(lines[2:], ["", f"{label}: {row['differ']}{how}"] + lines[4:])
            shown = [f"  was  {row['old']}", f"  is   {row['new']}"]
            self.assertEqual(lines[4:], shown)
            comment = self.query("review", "old.mm", "new.mm", "--format=markdown").out
            self.assertIn(f"\n- `{label}`: {row['differ']}{how}\n", comment)
            self.assertIn(f"\n  - was `{row['old']}`\n  - is `{row['new']}`\n", comment)
            if label == "one":
                (row,) = self.query("review", "old.mm", "new.mm", "--format=json").rows()
                self.assertEqual((row["gained"], row["lost"], row["axioms"]), ([], [], 1))
                self.assertEqual([row["old"], row["new"]], [told[0], told[1]] if told else [])

    def test_another_order(self) -> None:
        """Where only the order of `$f` is other, all hypotheses are told, and what it gained: it
        says what it said."""
        cited = "ax-2 $a |- ( p -> q ) $. ax-3 $a |- ( p -> q ) $.\n"
        self.write("old.mm", self.HEAD + cited + "one $p |- ( r -> q ) $= wr wq ax-2 $.\n")
        order = "wq $f wff q $. wr $f wff r $."
        swapped = self.HEAD.replace(order, "wr $f wff r $. wq $f wff q $.")
        self.write("new.mm", swapped + cited + "one $p |- ( r -> q ) $= wr wq ax-3 $.\n")
        rows = self.query("compare", "old.mm", "new.mm", "--format=json").rows()
        told = [(row["change"], row["label"], row["axiom"], row["old"], row["new"]) for row in rows]
        old, new = "$f wff q $. $f wff r $. |- ( r -> q )", "$f wff r $. $f wff q $. |- ( r -> q )"
        wanted = [("changed", "one", None, old, new), ("lost", "one", "ax-2", None, None)]
        self.assertEqual(told, [*wanted, ("gained", "one", "ax-3", None, None)])

    def test_other_names(self) -> None:
        """A variable that has another name hides nothing that a theorem gained."""
        cited = "${ $d p q $. e.2 $e |- p $. ax-2 $a |- ( p -> q ) $. $}\n"
        cited += "${ $d p q $. e.3 $e |- p $. ax-3 $a |- ( p -> q ) $. $}\n"
        old = "${ $d q r $. e $e |- r $. one $p |- ( r -> q ) $= wr wq e ax-2 $. $}\n"
        new = "${ $d p r $. e $e |- p $. one $p |- ( p -> r ) $= wp wr e ax-3 $. $}\n"
        self.write("old.mm", self.HEAD + cited + old)
        self.write("new.mm", self.HEAD + cited + new)
        done = self.query("compare", "old.mm", "new.mm", "--format=json")
        told = [
            (row["change"], row["label"], row["axiom"], row["differ"], row["old"], row["new"])
            for row in done.rows()
        ]
        both = (OTHER_NAMES, "$e |- r $. |- ( r -> q )", "$e |- p $. |- ( p -> r )")
        lost, gained = (
            (way, "one", f"ax-{n}", *[None] * 3) for way, n in (("lost", 2), ("gained", 3))
        )
        self.assertEqual(told, [("changed", "one", None, *both), lost, gained])
        self.assertIn(f"of 1 changed {OTHER_NAMES}, such as one", done.err)
        (row,) = self.query("review", "old.mm", "new.mm", "--format=json").rows()
        self.assertEqual((row["gained"], row["lost"], row["via"]), (["ax-3"], ["ax-2"], ["ax-3"]))

    def test_what_is_alike(self) -> None:
        """By chance: whether some renaming of the variables of one statement gives the other."""
        chance = random.Random(12)
        kinds = {"p": "wff", "q": "wff", "r": "wff", "x": "set", "y": "set"}
        text = "$c wff set |- ( ) $. $v p q r x y $.\n"
        text += "".join(f"f{name} $f {kind} {name} $. " for name, kind in kinds.items())
        for number in range(60):
            symbols = [*kinds, "(", ")"]
            given, said = (chance.choices(symbols, k=chance.randint(0, 2)) for _ in "12")
            pairs = [chance.sample([*kinds], 2) for _ in range(chance.randint(0, 2))]
            text += "${ " + "".join(f"$d {' '.join(pair)} $. " for pair in pairs)
            text += f"e{number} $e |- {' '.join(given)} $. " if chance.random() < 0.5 else ""
            text += f"a{number} $a |- {' '.join(said)} $. $}}\n"
        ones = database_text(text.encode()).assertions
        alike = 0
        for old, new in product(ones, ones):
            found = are_alike(old, new)
            self.assertEqual(found, is_renamed(old, new), (old, new))
            alike += found
        self.assertGreater(alike, len(ones) + 20)

    def test_what_a_changed_theorem_rests_on(self) -> None:
        """It neither gains nor loses an axiom, what cites it does, and the gate finds both."""
        head = self.HEAD + "${ c.1 $e |- p $. ax-c $a |- ( q -> p ) $. $}\n"
        old = head + self.TWO + "citing $p |- ( p -> p ) $= wp two $.\n"
        new = head + "two $p |- ( q -> p ) $= wp wq wp all ax-c $.\n"
        new += "citing $p |- ( p -> p ) $= wp wp two $.\n"
        self.write("old.mm", old)
        self.write("new.mm", new)
        both = ["the formula changed", "|- ( p -> p )", "|- ( q -> p )"]
        changed = "\t".join(("changed", "theorem", "two", "", "", "", "", *both, "general"))
        gained = "\t".join(("gained", "theorem", "citing", "", "ax-c", "two", "ax-c", *[""] * 4))
        words = ("compare", "old.mm", "new.mm", "--format=tsv")
        self.assertEqual(self.answers(*words)[1:], [changed, gained])
        self.assertEqual(self.answers(*words, "ax-c")[1:], [changed, gained])
        self.assertEqual(self.answers(*words, "all")[1:], [])
        self.write("mmdepend.toml", 'watch = ["ax-c"]\n')
        done = self.query("gate", "old.mm", "new.mm", "--all")
        self.assertEqual(done.status, 1)
        found = [line.split(": ")[1:3] for line in done.lines() if line.startswith("new.mm:")]
        self.assertEqual(found, [["two", "newly rests on ax-c"], ["citing", "newly rests on ax-c"]])
        rows = self.query("review", "old.mm", "new.mm", "--format=json").rows()
        told = [(row["theorem"], row["gained"], row["axioms"], row["differ"]) for row in rows]
        wanted = [("two", [], 2, both[0]), ("citing", ["ax-c"], None, None)]
        self.assertEqual(told, wanted)
        comment = self.query("review", "old.mm", "new.mm", "--format=markdown").out
        self.assertIn("\nTheorems of both came to rest on `ax-c` (1).\n", comment)

    def test_symbols_that_markdown_means(self) -> None:
        """They stand as code: no run of backticks within is as long as that around it."""
        for symbols in ("` `` |", "<b> @me [x](y) **", "``", "`", "| --- |", "~~ \\"):
            head = "$c wff |- $. $v p $. wp $f wff p $. all $a |- p $.\n"
            head += f"$c {' '.join(dict.fromkeys(symbols.split()))} $.\n"
            head += f"ws $a wff {symbols} $. wt $a wff {symbols} p $.\n"
            self.write("old.mm", f"{head}one $p |- {symbols} $= ws all $.\n")
            self.write("new.mm", f"{head}one $p |- {symbols} p $= wp wt all $.\n")
            comment = self.query("review", "old.mm", "new.mm", "--format=markdown").out
            for word, wanted in (("was", f"|- {symbols}"), ("is", f"|- {symbols} p")):
                match = re.search(rf"(?m)^  - {word} (`+)( ?)(.*)\2\1$", comment)
                assert match is not None, comment
                self.assertEqual(match[3], wanted)
                self.assertNotIn(match[1], re.findall("`+", match[3]))

    def test_long_ones_are_cut(self) -> None:
        """From a little before the place where they differ on."""
        long = "( p -> " * 700
        steps = "wp " * 701 + "wi " * 700 + "all"
        for form, most in (("text", 300), ("json", 1000)):
            self.write("old.mm", f"{self.HEAD}one $p |- {long}p{' )' * 700} $= {steps} $.\n")
            other = steps.replace("wp wi", "wq wi", 1)
            self.write("new.mm", f"{self.HEAD}one $p |- {long}q{' )' * 700} $= {other} $.\n")
            done = self.query("compare", "old.mm", "new.mm", f"--format={form}")
            self.assertEqual((done.status, done.err), (0, ""))
            old, new = re.findall(r"\.\. [^.\n\"]* \.\.", done.out)
            self.assertEqual(old.replace("-> p )", "-> q )", 1), new)
            self.assertLessEqual(len(old), most + 6)
            self.assertGreater(len(old), most - 6)


def swapped(text: str, one: str, other: str) -> str:
    """A text with two words in the places of each other."""
    words = {one: other, other: one}
    return re.sub(r"\S+", lambda word: words.get(word[0], word[0]), text)


OF_AC, OF_ONE = "|- ( p -> ( p -> p ) )", "|- ( p -> ( q -> p ) )"
WEAKER = f"$e |- ( 2 + 2 ) = 4 $. {OF_AC}"


SAYING = re.compile(
    r"^(?:\$\{ \S+ \$e (.*?) \$\. )?(\S+) \$([ap]) (.*?) (?:\$= .*? )?\$\.", re.MULTILINE
)
"""A line of the databases below: its hypothesis, its label, its keyword and its formula."""


class OnlyChanged(World):
    """`--changed`, over pairs of databases made by chance, against what their lines say."""

    HEAD = Restated.HEAD.replace("$c |-", "$c |- x0 x1 x2").replace(" $. w", " $.\nw")
    LABELS = "w0 w1 w2 a1 a2 df-1 df-2 t1 t2 t3".split()
    CHOICES: dict[tuple[str, ...], Callable[[str], bool]] = {
        (): lambda label: True,
        ("--all",): lambda label: True,
        ("--only", "|-"): lambda label: label[0] != "w",
        ("--only", "wff"): lambda label: label[0] == "w",
        ("--axioms", "a,w"): lambda label: label[0] in "aw",
        ("--ignore-definitions",): lambda label: label[0] != "d",
    }
    """Options, each with the labels that are those of axioms by it, where they are axioms."""

    def line(self, chance: random.Random, label: str) -> str:
        """An assertion, by chance."""
        one, other, given = (chance.choice("pq") for _ in range(3))
        is_axiom = chance.random() < 0.6
        said, proof = f"( {one} -> {other} )", f"w{one} w{other} wi"
        if label.startswith("w"):
            axiom = f"{label} $a wff x{label[1]} {chance.choice((one, said))} $."
            return axiom if is_axiom else f"{label} $p wff {said} $= {proof} $."
        keyword, end = ("$a", "$.") if is_axiom else ("$p", f"$= {proof} all $.")
        line = f"{label} {keyword} |- {said} {end}"
        return line if chance.random() < 0.6 else f"${{ {label}.1 $e |- {given} $. {line} $}}"

    def pair(self, seed: int) -> list[str]:
        """A database, and what became of it. Either may lack some labels."""
        chance = random.Random(seed)
        old = {label: self.line(chance, label) for label in self.LABELS}
        stays = {label: chance.random() < 0.5 for label in self.LABELS}
        new = {each: old[each] if stays[each] else self.line(chance, each) for each in old}
        sides = ([line for line in lines.values() if chance.random() < 0.9] for lines in (old, new))
        return [self.HEAD + "".join(f"{line}\n" for line in lines) for lines in sides]

    def wanted(self, texts: list[str], is_chosen: Callable[[str], bool]) -> list[Row]:
        """What has to be told, by the lines of both texts: theorems first."""
        before = {found[2]: found for found in SAYING.finditer(texts[0])}
        rows: dict[str, list[Row]] = {"theorem": [], "axiom": []}
        for found in SAYING.finditer(texts[1]):
            was, kind = before.get(found[2]), "theorem" if found[3] == "p" else "axiom"
            if was is None or (was[1], was[4]) == (found[1], found[4]):
                continue
            if kind == "theorem" or is_chosen(found[2]):
                row = {"kind": kind, "label": found[2], "old": was[4], "new": found[4]}
                rows[kind].append(row)
        return [*rows["theorem"], *rows["axiom"]]

    def rows(self, *words: str) -> list[Row]:
        """The rows of an answer that say what was changed. Of a statement its formula."""
        done = self.query("compare", "old.mm", "new.mm", "--format=json", *words)
        why = "mmquery: old.mm and new.mm don't differ in this"
        self.assertEqual(done.status, 0, done)
        self.assertIn(why if not done.rows() else "", done.err)
        names = ("kind", "label", "old", "new")
        rows = [row for row in done.rows() if row["change"] == "changed"]
        if "--changed" in words:
            self.assertEqual(rows, done.rows())
        found = [{name: str(row[name]) for name in names} for row in rows]
        return [{name: said.rpartition("$. ")[2] for name, said in row.items()} for row in found]

    def test_by_chance(self) -> None:
        """Both statements of each such label. The whole answer says the same of them, as far as it
        tells of their axioms."""
        kinds: Counter[tuple[str, bool]] = Counter()
        for seed in range(20):
            texts = self.pair(seed)
            for name, text in zip(("old.mm", "new.mm"), texts):
                self.write(name, text)
            for words, is_chosen in self.CHOICES.items():
                wanted = self.wanted(texts, is_chosen)
                self.assertEqual(self.rows("--changed", *words), wanted, (seed, words))
                kinds.update((row["kind"], row["new"].startswith("wff")) for row in wanted)
            for words, is_chosen in [*self.CHOICES.items()][1:3]:
                self.assertEqual(self.rows(*words), self.wanted(texts, is_chosen), (seed, words))
        self.assertEqual(len(kinds), 4)
        self.assertGreater(min(kinds.values()), 10)

    def test_what_a_person_is_shown(self) -> None:
        """Columns that have nothing for what was changed are left out."""
        old = self.HEAD + "w0 $a wff x0 p $.\n"
        self.write("old.mm", old + "gone $a |- x1 $.\n")
        self.write("new.mm", old.replace("x0 p", "x0 ( p -> q )") + "new $a |- x2 $.\n")
        lines = self.answers("compare", "old.mm", "new.mm", "--changed")
        table = [line.split() for line in lines[:2]]
        self.assertEqual(table, ["change kind label".split(), "changed axiom w0".split()])
        self.assertEqual(lines[4:], ["  was  wff x0 p", "  is   wff x0 ( p -> q )"])
        done = self.query("compare", "old.mm", "new.mm", "--changed", "--format=tsv")
        self.assertEqual(done.lines()[0].split("\t"), [*COLUMNS])

    def test_axioms_that_are_named(self) -> None:
        """These, and the theorems of which only one statement rests on one of them."""
        old, new = "a{} $a |- ( p -> q ) $.\n", "a{} $a |- ( q -> q ) $.\n"
        was, now = "t{} $p |- ( p -> q ) $= wp wq wi {} $.\n", "t{} $p |- ( q -> q ) $= {} $.\n"
        sides = (
            (old, was.format(1, "all") + was.format(2, "all")),
            (new, now.format(1, "wq a1") + now.format(2, "wq wq wi all")),
        )
        for name, (axiom, theorems) in zip(("old.mm", "new.mm"), sides):
            self.write(name, self.HEAD + axiom.format(1) + axiom.format(2) + theorems)
        for words, labels in (((), "t1 t2 a1 a2"), (("a1",), "t1 a1"), (("a2",), "a2")):
            told = [row["label"] for row in self.rows("--changed", *words)]
            self.assertEqual(told, labels.split(), words)


class LabelsOfBoth(Repositories):
    """A label that both databases have with another statement is changed, whatever was renamed."""

    def setUp(self) -> None:
        super().setUp()
        self.write("mmdepend.toml", "")
        self.write("old.mm", BASE)

    def compared(self, *words: str) -> list[tuple[object, ...]]:
        """The rows of `compare` about what became of labels."""
        done = self.query("compare", "old.mm", "new.mm", "--format=json", *words)
        self.assertEqual(done.status, 0, done)
        names = ("change", "kind", "label", "was", "old", "new", "how")
        rows = [tuple(row[name] for name in names) for row in done.rows()]
        return [row for row in rows if row[0] not in ("gained", "lost")]

    def test_a_label_that_was_given_away(self) -> None:
        self.write("new.mm", changed(BASE, TAKEN))
        self.assertEqual(
            self.compared(),
            [
                ("renamed", "theorem", "freelem", "free", None, None, None),
                ("changed", "theorem", "free", None, OF_AC, WEAKER, "weaker"),
            ],
        )
        how = "free: the hypotheses changed; the new one is weaker"
        both = [f"  was  {OF_AC}", f"  is   {WEAKER}"]
        for command in ("compare", "review"):
            self.assertEqual(self.answers(command, "old.mm", "new.mm")[-3:], [how, *both])
        rows = self.query("review", "old.mm", "new.mm", "--format=json").rows()
        names = ("theorem", "status", "was", "axioms", "old", "new", "how")
        found = [tuple(row[name] for name in names) for row in rows]
        self.assertEqual(
            found,
            [
                ("freelem", ["renamed"], "free", None, None, None, None),
                ("free", ["changed", "proof"], None, 1, OF_AC, WEAKER, "weaker"),
            ],
        )
        lines = self.answers("review", "old.mm", "new.mm", "--format=markdown")
        self.assertIn("**Theorems**: 1 renamed, 1 changed, 1 with another proof.", lines)
        self.assertEqual(lines[-2:], [f"  - was `{OF_AC}`", f"  - is `{WEAKER}`"])
        self.assertIn("- `free`: the hypotheses changed; the new one is weaker", lines)
        self.assertIn("| `freelem` | renamed from `free` |  |  |  | +3 |", lines)

    def test_the_same_backwards(self) -> None:
        """The old statement of a label is gone, and the new one had another label."""
        self.write("new.mm", BASE)
        self.write("old.mm", changed(BASE, TAKEN))
        self.assertEqual(
            self.compared(),
            [
                ("renamed", "theorem", "free", "freelem", None, None, None),
                ("changed", "theorem", "free", None, WEAKER, OF_AC, "stronger"),
            ],
        )
        (row,) = self.query("review", "old.mm", "new.mm", "--format=json").rows()
        told = (row["theorem"], row["status"], row["was"], row["old"], row["new"])
        self.assertEqual(told, ("free", ["renamed", "changed"], "freelem", WEAKER, OF_AC))
        lines = self.answers("review", "old.mm", "new.mm", "--format=markdown")
        self.assertIn("| `free` | renamed from `freelem`, changed | 1 |  |  | -3 |", lines)

    def test_labels_that_are_swapped(self) -> None:
        self.write("new.mm", swapped(BASE, "axac3", "ax1"))
        rows = self.compared()
        self.assertEqual([row[:4] for row in rows], self.both_ways("theorem", "axac3", "ax1"))
        self.assertEqual([row[4:6] for row in rows[2:]], [(OF_AC, OF_ONE), (OF_ONE, OF_AC)])
        told = self.query("review", "old.mm", "new.mm", "--format=json").rows()
        for row, label, was, new in zip(told, ("axac3", "ax1"), ("ax1", "axac3"), (OF_ONE, OF_AC)):
            self.assertEqual((row["theorem"], row["was"], row["new"]), (label, was, new))
            self.assertRegex(str(row["status"]), "renamed', 'changed")

    def both_ways(self, kind: str, one: str, other: str) -> list[tuple[object, ...]]:
        """The rows of two labels that are swapped."""
        pairs = ((one, other), (other, one))
        renamed = [("renamed", kind, label, was) for label, was in pairs]
        return [*renamed, *(("changed", kind, label, None) for label, _ in pairs)]

    def test_axioms_that_are_swapped(self) -> None:
        """Each has its rows once, and the gate tells of each that it was changed, besides what it
        told of the labels."""
        self.write("new.mm", swapped(BASE, "ax-1", "ax-ac2"))
        wanted = self.both_ways("axiom", "ax-ac2", "ax-1")
        for words in ((), ("ax-1",), ("ax-ac2",), ("ax-1", "ax-ac2")):
            rows = [row[:4] for row in self.compared(*words)]
            self.assertEqual(sorted(rows, key=str), sorted(wanted, key=str), words)
        done = self.query("gate", "old.mm", "new.mm", "--format=json")
        reasons = [(each["label"], each["reason"]) for each in json.loads(done.out)["findings"]]
        starts = []
        for label, was, old, new in (
            ("ax-ac2", "ax-1", OF_AC, OF_ONE),
            ("ax-1", "ax-ac2", OF_ONE, OF_AC),
        ):
            starts.append((label, f"a changed axiom: the formula changed, from {old} to {new}"))
            starts.append((label, f"a new label of the axiom {was}: {new}"))
        told = [(label, reason.partition(";")[0]) for label, reason in reasons]
        self.assertEqual(told, starts)
        self.write("mmdepend.toml", '[allow]\naxioms = ["ax-1"]\n')
        done = self.query("gate", "old.mm", "new.mm", "--format=json")
        labels = [each["label"] for each in json.loads(done.out)["findings"]]
        self.assertEqual(labels, ["ax-ac2"] * 2)

    def test_an_axiom_whose_label_was_given_away(self) -> None:
        """What rests on either is the same as before."""
        new = BASE.replace("ax-ac2", "ax-ac3") + f"ax-ac2 $a {OF_ONE} $.\n"
        self.write("new.mm", new)
        renamed = ("renamed", "axiom", "ax-ac3", "ax-ac2")
        told = ("changed", "axiom", "ax-ac2", None)
        self.assertEqual([row[:4] for row in self.compared()], [renamed, told])
        lines = self.query("gate", "old.mm", "new.mm").lines()[:-1]
        differ = f"the formula changed, from {OF_AC} to {OF_ONE}"
        wanted = [
            f"a new label of the axiom ax-ac2: {OF_AC}; 2 theorems rest on it [axioms]",
            f"a changed axiom: {differ} [axioms]",
        ]
        self.assertEqual([line.split(": ", 2)[2] for line in lines], wanted)

    def test_axioms_and_theorems(self) -> None:
        """A label that says something else as one of the other kind is changed too; and one that
        says the same is gone as the one, and new as the other."""
        theorem = "2p2e4 $p |- ( 2 + 2 ) = 4 $= df-4 $."
        self.write("new.mm", changed(BASE, (theorem, f"2p2e4 $a {OF_AC} $.")))
        differ = "it is an axiom now, and was a theorem; the formula changed"
        both = ("|- ( 2 + 2 ) = 4", OF_AC)
        self.assertEqual(self.compared(), [("changed", "axiom", "2p2e4", None, *both, None)])
        (row,) = self.query("review", "old.mm", "new.mm", "--format=json").rows()
        told = (row["theorem"], row["status"], row["differ"], row["old"], row["new"])
        self.assertEqual(told, ("2p2e4", ["changed"], differ, *both))
        comment = self.query("review", "old.mm", "new.mm", "--format=markdown").out
        self.assertEqual(comment.count(differ), 1, comment)
        (line,) = self.query("gate", "old.mm", "new.mm").lines()[:-1]
        self.assertIn(f"2p2e4: an axiom now, and a theorem before: {OF_AC} [axioms]", line)
        new = changed(BASE, (theorem, f"2p2e4 $p {OF_ONE} $= wp wq ax-1 $."))
        self.write("new.mm", new)
        self.write("old.mm", changed(BASE, (theorem, "2p2e4 $a |- ( 2 + 2 ) = 4 $.")))
        for words in ((), ("2p2e4",)):
            (theorem_now,) = self.compared(*words)
            wanted_now = ("changed", "theorem", "2p2e4", None, both[0], OF_ONE, None)
            self.assertEqual(theorem_now, wanted_now)
        (row,) = self.query("review", "old.mm", "new.mm", "--format=json").rows()
        self.assertEqual((row["status"], row["axioms"]), (["changed"], 1))
        self.write("new.mm", BASE)
        rows = [row[:4] for row in self.compared()]
        wanted = [("new", "theorem", "2p2e4", None), ("gone", "axiom", "2p2e4", None)]
        self.assertEqual(rows, wanted)

    def test_what_a_renamed_one_gained(self) -> None:
        """It is compared with its old label, also where its own was another one's."""
        new = swapped(BASE, "zorn", "2p2e4")
        proof = "zorn $p |- ( 2 + 2 ) = 4 $= "
        axiom = "ax-x $a |- ( 2 + 2 ) = 4 $.\n"
        self.write("new.mm", changed(new, (f"{proof}df-4 $.", f"{axiom}{proof}ax-x $.")))
        rows = self.query("compare", "old.mm", "new.mm", "--format=json").rows()
        told = [(row["change"], row["label"], row["axiom"]) for row in rows]
        shifts = [each for each in told if each[0] in ("gained", "lost")]
        wanted = [("lost", "2p2e4", "df-4"), ("gained", "zorn", "ax-x")]
        self.assertEqual(shifts, wanted)
        self.assertEqual(sum(each[0] == "changed" for each in told), 2)
        self.write("mmdepend.toml", 'watch = ["ax-x", "df-4"]\n[allow]\naxioms = ["ax-x"]\n')
        lines = self.query("gate", "old.mm", "new.mm", "--all").lines()
        findings = [line.partition(": ")[2] for line in lines if line.startswith("new.mm:")]
        self.assertEqual(findings, ["zorn: newly rests on ax-x: it cites ax-x [newly]"])


def in_order(match: re.Match[str]) -> str:
    """Pairs of distinct variables in the order of their names."""
    return "".join(sorted(re.findall(r"\$d \S+ \S+ \$\. ", match[0])))


def by_causes(out: str) -> Counter[str]:
    """How many theorems the findings of `newly` and `new` are about, one for each cause."""
    found: Counter[str] = Counter()
    for each in json.loads(out)["findings"]:
        if each["rule"] in ("newly", "new"):
            more = re.search(r"; with ([0-9]+) more theorems? by that", each["reason"])
            found[each["rule"]] += 1 + (int(more[1]) if more else 0)
    return found
