"""What the program says of two databases, as `Comparison` reads it, beside what was computed of two
reports before.

`python3 -m query.tests.test_changes --pairs 2000` compares so many pairs that are made by chance.
"""

from __future__ import annotations

import argparse
import os
import random
import re
import sys
import tempfile
from collections import Counter
from collections.abc import Callable, Iterator, Sequence
from dataclasses import replace
from importlib.machinery import SourceFileLoader
from importlib.util import module_from_spec, spec_from_loader
from pathlib import Path
from unittest import mock

from query.comparisons.changes import Comparison, side_by_side
from query.gate.config import Config
from query.gate.rules import Case, axioms as changed_axioms
from query.program.refusals import Refused
from query.reports.choice import Options
from query.reports.database import Database
from query.tests import old_changes
from query.tests.replay import frames
from query.tests.world import DATABASES, TOP, World, built_program
from tests.shared.samples import LARGER, SMALLER

ALL = Options(only=None)
PAIRS = 40
"""How many are compared, where nothing else is said."""
OPTIONS = (ALL, Options(), replace(ALL, open=True), replace(ALL, essential=True))

Ways = Sequence[Callable[[Database, Database], Comparison | old_changes.Comparison]]
WAYS: Ways = (side_by_side, old_changes.side_by_side)


def pairs_by_chance(chance: random.Random, count: int) -> list[tuple[str, str]]:
    """The texts of pairs of databases, made as `tests/compared` makes them."""
    loader = SourceFileLoader("compared", str(TOP / "tests" / "compared"))
    spec = spec_from_loader("compared", loader)
    assert spec is not None
    compared = module_from_spec(spec)
    with mock.patch.object(sys, "path", [*sys.path]):
        loader.exec_module(compared)
    return [compared.pair(chance) for _ in range(count)]


Known = dict[str, object]


def told(comparison: Comparison | old_changes.Comparison) -> Known:
    """What is known of two databases. What only one of both statements of a theorem rests on that
    was changed counted as gained or lost before, and stands apart now. A label of both with another
    statement may have counted as new, gone, or only as renamed before, and is changed now."""
    axioms, theorems = comparison.axioms, comparison.theorems
    chosen, chosen_before = (side.dependence.axioms for side in (comparison.new, comparison.old))
    gained = {each: found for each in chosen if (found := comparison.gained(each))}
    lost = {each: found for each in chosen_before if (found := comparison.lost(each))}
    apart = {}
    if isinstance(comparison, Comparison):
        apart = {label: comparison.shift(label, label) for label in comparison.restated}
        changed = [*axioms.changed, *theorems.changed]
        new, gone = [*axioms.new, *theorems.new], [*axioms.gone, *theorems.gone]
    else:
        apart = {label: (taken(gained, label), taken(lost, label)) for label in theorems.changed}
        changed = [*restated(comparison, "a"), *(labels := restated(comparison, "p"))]
        apart |= {e: shift(comparison, e) for e in labels if e not in theorems.changed}
        new = [each for each in (*axioms.new, *theorems.new) if each not in changed]
        gone = [each for each in (*axioms.gone, *theorems.gone) if each not in changed]
    return {
        "to_old": comparison.to_old,
        "renamed": axioms.renamed | theorems.renamed,
        "changed": changed,
        "new": new,
        "gone": gone,
        "gained": gained,
        "lost": lost,
        "apart": {
            label: (sorted(came), sorted(went))
            for label, (came, went) in apart.items()
            if came or went
        },
        "moved": comparison.moved,
    }


def restated(comparison: old_changes.Comparison, kind: str) -> list[str]:
    """The labels of both with another statement, of which NEW has one of this kind."""
    before = comparison.old.text.by_label
    return [
        one.label
        for one in old_changes.of_kind(comparison.new.text.assertions, kind)
        if one.label in before and not old_changes.is_same_statement(before[one.label], one)
    ]


def shift(comparison: old_changes.Comparison, label: str) -> tuple[list[str], list[str]]:
    """The axioms on which only one of both statements of a label rests, by two reports."""
    old, new = comparison.old.dependence, comparison.new.dependence
    if label not in old.rows or label not in new.rows:
        return [], []
    moves = old_changes.Moves(old, new, comparison.to_old)
    return moves.difference(old.bits(old.rows[label]), new.bits(new.rows[label]))


def taken(shifts: dict[str, list[str]], theorem: str) -> list[str]:
    """The axioms that have a theorem in their lists. It is taken out of these."""
    axioms = [axiom for axiom, theorems in shifts.items() if theorem in theorems]
    for axiom in axioms:
        left = [each for each in shifts.pop(axiom) if each != theorem]
        shifts |= {axiom: left} if left else {}
    return axioms


def both(folder: Path, old: str, new: str, options: Options) -> tuple[Known, Known]:
    """What is known of two texts: by the program's answer, and as it was computed before."""
    paths = [folder / "old.mm", folder / "new.mm"]
    for path, text in zip(paths, (old, new)):
        path.write_text(text, "latin-1")
    found: list[Known] = []
    for make in WAYS:
        first, second = (Database.opened(str(path), options, False) for path in paths)
        try:
            found.append(told(make(first, second)))
        except Refused as why:
            found.append({"refused": str(why)})
    return found[0], found[1]


def further(chance: random.Random, text: str) -> str:
    """A database in which perhaps two labels are swapped, or a theorem is an axiom now."""
    labels = re.findall(r"(?<!\S)(\S+) \$[ap]", text)
    if chance.random() < 0.3:
        one, other = chance.sample(labels, 2)
        swapped = {one: other, other: one}
        text = re.sub(r"\S+", lambda word: swapped.get(word[0], word[0]), text)
    proved = re.findall(r"\S+ \$p [^$]*\$= [^$]*\$\.", text)
    if proved and chance.random() < 0.3:
        theorem = chance.choice(proved)
        axiom = theorem.replace("$p", "$a").partition("$=")[0] + "$."
        text = text.replace(theorem, axiom)
    return text


def by_chance(folder: Path, seed: int, count: int) -> Iterator[tuple[str, Known, Known]]:
    """For so many pairs what they are, and what both know of them."""
    chance = random.Random(seed)
    for number, (old, new) in enumerate(pairs_by_chance(chance, count)):
        new = further(chance, new)
        options = chance.choice(OPTIONS)
        if "= ? $." in old + new:
            options = replace(options, open=True)
        yield f"pair {number} of seed {seed}, {options}", *both(folder, old, new, options)


def said_by(text: str) -> dict[str, tuple[bool, object]]:
    """For each label of a text whether it is a theorem's, and what it says: its formula, its
    mandatory hypotheses in order, and its pairs of distinct variables."""
    found: dict[str, tuple[bool, object]] = {}
    for one in frames(text):
        given = tuple((says, bool(name)) for _, says, name, _ in one.mandatory)
        apart = {pair for pair in one.apart if pair <= one.variables and len(pair) == 2}
        found[one.label] = bool(one.words), (one.formula, given, frozenset(apart))
    return found


class Pairs(World):
    """Pairs of databases that the program tells apart."""

    def setUp(self) -> None:
        super().setUp()
        patch = mock.patch.dict(os.environ, {"MMDEPEND": built_program()})
        patch.start()
        self.addCleanup(patch.stop)


class ByText(Pairs):
    """A label of both texts with another statement was changed, whatever was renamed; by the texts
    alone."""

    def test_pairs_made_by_chance(self) -> None:
        chance = random.Random(21)
        seen: Counter[str] = Counter()
        for number, (old, new) in enumerate(pairs_by_chance(chance, PAIRS)):
            new = further(chance, further(chance, new))
            paths = [str(self.folder / self.write(*e)) for e in (("a.mm", old), ("b.mm", new))]
            first, second = (
                Database.opened(path, replace(ALL, open=True), False) for path in paths
            )
            try:
                comparison = side_by_side(first, second)
            except Refused:
                continue
            self.check(comparison, said_by(old), said_by(new), number)
            for pairing in (comparison.axioms, comparison.theorems):
                seen.update(renamed=len(pairing.changed.keys() & pairing.renamed.keys()))
                seen.update(taken=len(pairing.changed.keys() & pairing.now.keys()))
                seen.update(plain=sum(not pairing.is_another(e) for e in pairing.changed))
            seen.update(crossed=len(comparison.crossed))
        self.assertGreater(min(seen.values()), 2, seen)

    def check(
        self,
        comparison: Comparison,
        old: dict[str, tuple[bool, object]],
        new: dict[str, tuple[bool, object]],
        number: int,
    ) -> None:
        """Checks what is told of labels, and that each axiom is found that isn't as it was."""
        for is_theorem, pairing in ((False, comparison.axioms), (True, comparison.theorems)):
            here = [label for label, (is_so, _) in new.items() if is_so == is_theorem]
            wanted = [each for each in here if each in old and old[each][1] != new[each][1]]
            self.assertEqual([*pairing.changed], wanted, number)
            for one, other, labels in ((new, old, pairing.new), (old, new, pairing.gone)):
                for label in labels:
                    known = other.get(label)
                    self.assertTrue(known is None or known == (not is_theorem, one[label][1]))
            others = {*pairing.new, *pairing.changed, *pairing.renamed}
            self.assertEqual(others, {each for each in here if new[each] != old.get(each)}, number)
        reasons: dict[str, list[str]] = {}
        for each in changed_axioms(Case(comparison, Config())):
            reasons.setdefault(each.label, []).append(each.reason)
        named = {label for label, (is_so, _) in (*old.items(), *new.items()) if not is_so}
        others = {label for label in named if old.get(label) != new.get(label)}
        self.assertEqual({*reasons}, others, number)
        for label, found in reasons.items():
            is_changed = old.get(label, (True,))[0] == new.get(label, (True,))[0] is False
            starts = ["a changed axiom: "] if is_changed else []
            if label in comparison.axioms.renamed:
                starts.append(f"a new label of the axiom {comparison.axioms.renamed[label]}: ")
            for reason, start in zip(found, starts or [""], strict=True):
                self.assertTrue(reason.startswith(start), (number, found))


class Agreement(Pairs):
    """The same is known in both ways."""

    def test_pairs_made_by_chance(self) -> None:
        seen: Counter[str] = Counter()
        for pair, now, before in by_chance(self.folder, 7, PAIRS):
            self.assertEqual(now, before, pair)
            seen.update(name for name, found in now.items() if found)
        names = {"renamed", "changed", "new", "gone", "gained", "lost", "to_old", "refused"}
        names.add("apart")
        self.assertLessEqual(names, set(seen))

    def test_what_is_meant_to_differ(self) -> None:
        """Hypotheses of another order are another frame now, also where those of each kind alone
        have theirs; and so what has another label too isn't taken for renamed."""
        head = "$c |- wff a $. $v p q $. "
        forms = ("wp $f wff p $. ", "wq $f wff q $. ", "e $e |- p $. ")
        axiom = "${{ {}{}{}ax $a |- a p q $. $}}\n"
        old = head + axiom.format(*forms)
        for order in ((1, 0, 2), (0, 2, 1)):
            new = head + axiom.format(*(forms[number] for number in order))
            now, before = both(self.folder, old, new, ALL)
            self.assertEqual((now.pop("changed"), before.pop("changed")), (["ax"], []))
            self.assertEqual(now, before)
            now, before = both(self.folder, old, new.replace("ax ", "bx "), ALL)
            self.assertEqual((now["renamed"], before["renamed"]), ({}, {"bx": "ax"}))
            self.assertEqual((now["new"], now["gone"]), (["bx"], ["ax"]))

    def check_versions(self, name: str) -> None:
        """Compares a database of Debian's with one in which it is changed in several ways."""
        path = DATABASES / f"{name}.mm"
        if not path.exists():
            self.skipTest(f"there is no {path}")
        text = path.read_text("latin-1")
        theorems = re.findall(r"(?<!\S)(\S+)\s+\$p(?=\s)", text)
        chance = random.Random(3)
        renamed = {each: f"{each}-x" for each in chance.sample(theorems, min(9, len(theorems)))}
        swapped = dict(zip(theorems[:2], theorems[1::-1]))
        words = renamed | swapped
        new = re.sub(r"(?<!\S)\S+", lambda word: words.get(word[0], word[0]), text)
        for label in chance.sample(theorems, min(9, len(theorems))):
            statement = rf"(?<!\S)({re.escape(label)}\s+)\$p(\s[^$]*)\$=[^$]*\$\."
            new = re.sub(statement, r"\1$a\2$.", new)
        for first, second in ((text, new), (new, text), (text, text)):
            now, before = both(self.folder, first, second, ALL)
            self.assertEqual(now, before, name)

    def test_versions_of_smaller_databases(self) -> None:
        for name in SMALLER:
            self.check_versions(name)

    def test_versions_of_larger_databases(self) -> None:
        for name in LARGER:
            if name != "set":
                self.check_versions(name)


def main() -> int:
    """Compares as many pairs as are wanted."""
    parser = argparse.ArgumentParser(description=__doc__)
    parser.add_argument("--pairs", type=int, default=PAIRS)
    parser.add_argument("--seed", type=int, default=20261129)
    words = parser.parse_args()
    wrong = 0
    with tempfile.TemporaryDirectory(prefix="mmquery-") as folder:
        for pair, now, before in by_chance(Path(folder), words.seed, words.pairs):
            if now != before:
                wrong += 1
                print(f"{pair}: {now} was {before}")
    print(f"{words.pairs - wrong} passed, {wrong} failed")
    return 1 if wrong else 0


if __name__ == "__main__":
    sys.exit(main())
