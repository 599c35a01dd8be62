"""How `mmquery` computed what became of one database in another before the program compared two:
from the reports on both. It stands here for one release, beside what reads the program's answer.

Two differences are meant. Here the order of the `$f` is no part of a statement, and of the
hypotheses only the `$e` have an order. And an axiom or theorem that is left open in one database
alone is the same kind in both.
"""

from __future__ import annotations

from array import array
from collections import deque
from collections.abc import Callable, Iterable, Iterator
from dataclasses import dataclass, field
from functools import cached_property
from hashlib import blake2b
from typing import NamedTuple

from query.citations.graph import Graph
from query.reports.database import Database, Dependence
from query.texts.assertions import Assertion, Pair
from query.texts.text import Text

Cites = Callable[[str], frozenset[str]]
"""For a theorem's label the labels that it cites."""


class Statement(NamedTuple):
    """What an assertion says; equal for two databases exactly where it is the same. Hypotheses and
    pairs have sums in their place: there may be many of them."""

    formula: str
    hypotheses: bytes
    disjoint: bytes
    typecodes: frozenset[Pair]
    """Each variable with its typecode."""


def statement_of(assertion: Assertion) -> Statement:
    """The statement of an assertion."""
    frame = assertion.frame()
    hypotheses = frame.hypotheses()
    given = [each.formula for each in hypotheses if each.kind == "e"]
    floating = [each.formula.split(" ") for each in hypotheses if each.kind == "f"]
    return Statement(
        assertion.formula,
        sum_of("\n".join(given).encode()),
        sum_of_pairs(frame.pairs()),
        frozenset((variable, typecode) for typecode, variable in floating),
    )


def sum_of(*parts: bytes) -> bytes:
    """A sum of bytes."""
    total = blake2b(digest_size=20)
    for part in parts:
        total.update(part)
    return total.digest()


def sum_of_pairs(pairs: Iterable[Pair]) -> bytes:
    """What is the same for pairs exactly where they are the same, in whatever order. A pair takes
    four bytes, since there may be millions of them."""
    numbers: dict[str, int] = {}
    others: dict[str, array[int]] = {}
    for one, other in pairs:
        others.setdefault(one, array("I")).append(numbers.setdefault(other, len(numbers)))
    names = sorted(numbers)
    ranks = {numbers[name]: rank for rank, name in enumerate(names)}
    total = [sum_of("\n".join(names).encode())]
    for one in sorted(others):
        ranked = array("I", sorted(ranks[number] for number in others[one]))
        total += [sum_of(one.encode()), sum_of(ranked.tobytes())]
    return sum_of(*total)


def is_same_statement(old: Assertion, new: Assertion) -> bool:
    """Whether two assertions have the same statement. Most are told by the same line."""
    return old.said == new.said or statement_of(old) == statement_of(new)


@dataclass
class Pairing:
    """Which assertions of one kind, axioms or theorems, of NEW are which of OLD.

    Labels are in file order. An assertion is that of OLD with its label and its statement; else one
    with its statement that lost its label; else that with its label.
    """

    origin: dict[str, str] = field(default_factory=dict)
    """For labels of NEW the label in OLD."""
    renamed: dict[str, str] = field(default_factory=dict)
    """Those whose statement had another label in OLD, which is gone or another statement's now."""
    changed: list[str] = field(default_factory=list)
    """Those with the same label and another statement."""
    new: list[str] = field(default_factory=list)
    gone: list[str] = field(default_factory=list)
    moved: dict[str, str] = field(default_factory=dict)
    """New theorems with the statement and the citations that a theorem of OLD had, which kept its
    label and statement and got another proof: its old proof, that is."""


class Candidates:
    """Assertions by their statements and by what they cite, those of each in file order."""

    def __init__(self) -> None:
        self.all: dict[Statement, deque[str]] = {}
        self.citing: dict[tuple[Statement, frozenset[str]], deque[str]] = {}
        self.taken: set[str] = set()

    def add(self, statement: Statement, cites: frozenset[str], label: str) -> None:
        """Adds one."""
        self.all.setdefault(statement, deque()).append(label)
        self.citing.setdefault((statement, cites), deque()).append(label)

    def take(self, statement: Statement, cites: frozenset[str] | None) -> str | None:
        """The first one of a statement that wasn't taken, or the first one that cites these; None
        where there is none."""
        left = self.all.get(statement) if cites is None else self.citing.get((statement, cites))
        while left:
            label = left.popleft()
            if label not in self.taken:
                self.taken.add(label)
                return label
        return None


def of_kind(assertions: Iterable[Assertion], kind: str) -> Iterator[Assertion]:
    """The axioms (`a`) or the theorems (`p`)."""
    # This asks for no kind, since the property of so many takes longer than all else.
    return (one for one in assertions if (one.letter == "a") == (kind == "a"))


class Pairer:
    """Pairs the assertions of two databases."""

    def __init__(self, old: Text, new: Text) -> None:
        self.old = old
        self.new = new

    def pair(self, kind: str, old_cites: Cites, new_cites: Cites) -> Pairing:
        """Pairs the axioms (`a`) or the theorems (`p`)."""
        pairing = Pairing()
        old = {one.label: one for one in of_kind(self.old.assertions, kind)}
        new = {one.label: one for one in of_kind(self.new.assertions, kind)}
        for label, assertion in new.items():
            if label in old and is_same_statement(old[label], assertion):
                pairing.origin[label] = label
        kept = set(pairing.origin)
        freed = [one for label, one in old.items() if label not in kept]
        left = [one for label, one in new.items() if label not in kept]
        for label, other in self.renames(freed, left, old_cites, new_cites):
            pairing.origin[label] = pairing.renamed[label] = other
        taken = set(pairing.renamed.values())
        for one in left:
            if one.label in pairing.origin:
                continue
            if one.label in old and one.label not in taken:
                pairing.origin[one.label] = one.label
                pairing.changed.append(one.label)
            else:
                pairing.new.append(one.label)
        found = set(pairing.origin.values())
        pairing.gone = [label for label in old if label not in found]
        if kind == "p":
            stayed = [old[label] for label in pairing.origin if label in kept]
            pairing.moved = self.moves(stayed, pairing.new, old_cites, new_cites)
        return pairing

    def renames(
        self, old: list[Assertion], new: list[Assertion], old_cites: Cites, new_cites: Cites
    ) -> Iterator[tuple[str, str]]:
        """Pairs of labels, of NEW and of OLD, with the same statement: of several first those that
        cite the same, then the others in file order."""
        candidates = Candidates()
        for one in old:
            candidates.add(statement_of(one), old_cites(one.label), one.label)
        left = []
        for one in new:
            statement = statement_of(one)
            same = candidates.take(statement, new_cites(one.label))
            if same is None:
                left.append((one.label, statement))
            else:
                yield one.label, same
        for label, statement in left:
            other = candidates.take(statement, None)
            if other is not None:
                yield label, other

    def moves(
        self, stayed: list[Assertion], new: list[str], old_cites: Cites, new_cites: Cites
    ) -> dict[str, str]:
        """New theorems that have the statement and the citations that one of OLD had, which is
        still there but cites something else."""
        wanted: dict[tuple[Statement, frozenset[str]], list[str]] = {}
        formulas = set()
        for label in new:
            statement = statement_of(self.new.by_label[label])
            wanted.setdefault((statement, new_cites(label)), []).append(label)
            formulas.add(statement.formula)
        found: dict[str, str] = {}
        for one in stayed if wanted else ():
            if one.formula not in formulas:
                continue
            cites = old_cites(one.label)
            if cites == new_cites(one.label):
                continue
            for label in wanted.pop((statement_of(one), cites), ()):
                found[label] = one.label
        return found


class Side:
    """One of the two databases."""

    def __init__(self, database: Database) -> None:
        self.dependence = database.dependence()
        self.graph: Graph = self.dependence.graph
        self.text = database.text
        self.cited: dict[str, frozenset[str]] = {}  # of theorems that were asked for

    def cites(self, label: str) -> frozenset[str]:
        """The labels that a theorem cites; none where this database has no such theorem."""
        known = self.cited.get(label)
        if known is None:
            node = self.graph.index.get(label)
            labels = self.graph.labels
            cited = () if node is None else self.graph.cites[node]
            known = self.cited[label] = frozenset(labels[each] for each in cited)
        return known


def side_by_side(old: Database, new: Database) -> Comparison:
    """Two databases, by the reports on both."""
    return Comparison(Side(old), Side(new))


class Comparison:
    """Two databases side by side."""

    def __init__(self, old: Side, new: Side) -> None:
        self.old = old
        self.new = new
        pairer = Pairer(old.text, new.text)
        self.axioms = pairer.pair("a", old.cites, new.cites)
        self.theorems = pairer.pair("p", old.cites, new.cites)

    @property
    def moved(self) -> dict[str, str]:
        """The theorems that have an old proof."""
        return self.theorems.moved

    @cached_property
    def to_old(self) -> dict[str, str]:
        """For labels of NEW, that of the same assertion in OLD. A label that stands for an axiom in
        one and a theorem in the other is its own."""
        taken = {*self.axioms.renamed.values(), *self.theorems.renamed.values()}
        same = {
            label: label
            for label in self.new.graph.labels
            if label in self.old.graph.index and label not in taken
        }
        return same | self.axioms.origin | self.theorems.origin

    @cached_property
    def _shifted(self) -> tuple[dict[str, list[str]], dict[str, list[str]]]:
        """For each axiom the theorems of both that came to rest on it, by labels of NEW, and those
        that no longer do, by labels of OLD."""
        gained: dict[str, list[str]] = {}
        lost: dict[str, list[str]] = {}
        old, new = self.old.dependence, self.new.dependence
        moves = Moves(old, new, self.to_old)
        for row, label in enumerate(new.theorems):
            was = self.to_old.get(label)
            before = None if was is None else old.rows.get(was)
            if was is None or before is None:
                continue
            came, went = moves.difference(old.bits(before), new.bits(row))
            for axiom in came:
                gained.setdefault(axiom, []).append(label)
            for axiom in went:
                lost.setdefault(axiom, []).append(was)
        order = old.rows
        for theorems in lost.values():
            theorems.sort(key=order.__getitem__)
        return gained, lost

    def gained(self, axiom: str) -> list[str]:
        """The theorems of both that rest on an axiom of NEW and in OLD didn't."""
        return self._shifted[0].get(axiom, [])

    def lost(self, axiom: str) -> list[str]:
        """The theorems of both that rested on an axiom of OLD and in NEW don't."""
        return self._shifted[1].get(axiom, [])


MOST_RUNS = 256
"""Up to so many runs of columns are moved one by one."""


class Moves:
    """Compares rows of marks of two databases, whose axioms have other columns.

    A row is a number with a bit for each column. Columns that follow one another in both are moved
    from one to the other at once; where these runs are many, column by column.
    """

    def __init__(self, old: Dependence, new: Dependence, to_old: dict[str, str]) -> None:
        self.old, self.new = old, new
        self.to_old = to_old
        self.before = [old.columns.get(to_old.get(label, "")) for label in new.axioms]
        """For each column of NEW that of OLD, or None."""
        common = [column for column in self.before if column is not None]
        self.common = old.mask_of(common)
        self.after = {before: column for column, before in enumerate(self.before)}
        runs = list(self.found_runs())
        self.runs = [(old.mask_of(run), by) for run, by in runs] if len(runs) <= MOST_RUNS else []

    def found_runs(self) -> Iterator[tuple[list[int], int]]:
        """The columns of a run in OLD, and how far left they stand in NEW."""
        shift = 0
        run: list[int] = []
        for column, before in enumerate(self.before):
            if before is None:
                continue
            here = self.new.place_of(column) - self.old.place_of(before)
            if run and here != shift:
                yield run, shift
                run = []
            shift = here
            run.append(before)
        if run:
            yield run, shift

    def moved(self, old: int) -> int:
        """A row of OLD as it stands in NEW, without the axioms that only OLD has."""
        if not self.runs:
            columns = self.old.columns_of(old & self.common)
            return self.new.mask_of([self.after[column] for column in columns])
        moved = 0
        for bits, shift in self.runs:
            moved |= (old & bits) << shift if shift >= 0 else (old & bits) >> -shift
        return moved

    def difference(self, old: int, new: int) -> tuple[list[str], list[str]]:
        """The axioms of a row of NEW that one of OLD lacks, and those of it that NEW lacks."""
        gone = old & ~self.common
        moved = self.moved(old)
        if moved == new and not gone:
            return [], []
        came = [self.new.axioms[column] for column in self.new.columns_of(new & ~moved)]
        went = [
            self.to_old[self.new.axioms[column]] for column in self.new.columns_of(moved & ~new)
        ]
        return came, went + [self.old.axioms[column] for column in self.old.columns_of(gone)]
