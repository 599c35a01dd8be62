"""What became of the theorems and axioms of one database in another, and why.

`Comparison` puts two databases side by side. What the program says of both is proved. Three things
are added to it: which labels were renamed, that an axiom which was changed or renamed is the same
one to what rests on it, and the citation that is the reason why a theorem came to rest on an axiom.
"""

from __future__ import annotations

from collections import Counter
from collections.abc import Iterable, Iterator
from dataclasses import dataclass
from functools import cached_property

from query.citations.graph import Graph
from query.citations.marks import columns_of, mask
from query.comparisons.differences import Differences, compared
from query.comparisons.pairing import (
    SAME_THEOREM,
    Cites,
    Pairing,
    Statement,
    crossing,
    pairing_of,
    statement_of,
)
from query.comparisons.two_texts import OldText
from query.platform import progress
from query.reports.database import Database, Dependence
from query.texts.assertions import Assertion, Damaged
from query.texts.text import Text

MOST_ROWS = 10_000
"""So many rows of OLD are remembered at the most."""


class Side:
    """One of the two databases. Its report is read where it is asked for."""

    def __init__(self, database: Database) -> None:
        self.name = database.name
        self.database = database
        self.cited: dict[str, frozenset[str]] = {}  # of theorems that were asked for

    @cached_property
    def dependence(self) -> Dependence:
        """On which axioms its theorems rest."""
        return self.database.dependence()

    @property
    def graph(self) -> Graph:
        """Its citations."""
        return self.dependence.graph

    def cites(self, label: str) -> frozenset[str]:
        """The labels that a theorem cites; none where this database has no such theorem."""
        known = self.cited.get(label)
        if known is None:
            node = self.graph.index.get(label)
            labels = self.graph.labels
            cited = () if node is None else self.graph.cites[node]
            known = self.cited[label] = frozenset(labels[each] for each in cited)
        return known


def side_by_side(old: Database, new: Database) -> Comparison:
    """Both databases, compared by one run of the program. Refused where one of them is refused: if
    both are, OLD."""
    for each in (old, new):
        each.see_text()
    progress.now(f"comparing {old.name} and {new.name}")
    comparison = Comparison(Side(old), Side(new), compared(old, new))
    comparison.see_axioms()
    return comparison


@dataclass(frozen=True)
class Shift:
    """A theorem of both databases that came to rest on an axiom, or no longer does.

    All labels are those of the database in which it rests on it. `citing` and `cited` are the first
    citation, on a shortest chain from theorem to axiom, that the other database lacks.
    """

    theorem: str
    axiom: str
    citing: str
    cited: str


class Comparison:
    """Two databases side by side."""

    def __init__(self, old: Side, new: Side, differences: Differences) -> None:
        self.old = old
        self.new = new
        self.differences = differences
        self.proved_alike: dict[str, bool] = {}  # of assertions that were asked for
        self.rows_before: dict[str, int] = {}  # of theorems that were asked for, not too many

    @staticmethod
    def within(side: Side) -> Comparison:
        """A database beside itself."""
        return Comparison(side, side, Differences())

    @property
    def text(self) -> Text:
        """The text of NEW."""
        return self.new.database.text

    @cached_property
    def old_text(self) -> OldText:
        """The text of OLD."""
        return OldText(self.old.database.data(), self.text, self.differences)

    @cached_property
    def gaining(self) -> Counter[str]:
        """How many theorems gained each axiom of NEW, as the program says. For one that OLD hasn't,
        or has otherwise, these are all that rest on it."""
        gained = self.differences.gained.values()
        return Counter(axiom for axioms in gained for axiom in axioms.split())

    @cached_property
    def touched(self) -> list[Assertion]:
        """The assertions of NEW that may be others than in OLD, have another proof or another
        comment: those that don't stand where the texts are alike, and those of which the program
        tells."""
        return told_and(self.text, self.old_text.touched[1], self.differences.new)

    @cached_property
    def touched_before(self) -> list[Assertion]:
        """The same of OLD."""
        return told_and(self.old_text, self.old_text.touched[0], self.differences.gone)

    @cached_property
    def axioms(self) -> Pairing:
        """What became of the axioms, which cite nothing."""
        return self._paired("a", lambda _: frozenset(), lambda _: frozenset())

    @cached_property
    def theorems(self) -> Pairing:
        """What became of the theorems."""
        return self._paired("p", self.old.cites, self.new.cites)

    def _paired(self, kind: str, old_cites: Cites, new_cites: Cites) -> Pairing:
        gone, new = (
            [one for one in some.values() if one.kind == kind]
            for some in (self.differences.gone, self.differences.new)
        )
        return pairing_of(gone, new, old_cites, new_cites, self.crossed)

    @cached_property
    def crossed(self) -> dict[str, str]:
        """The labels that were an axiom's and are a theorem's now, or the other way round, and say
        something else, in words."""
        return crossing(self.differences.gone, self.differences.new)

    @cached_property
    def to_old(self) -> dict[str, str]:
        """For labels of NEW, that of the same assertion in OLD. A label that stands for an axiom in
        one and a theorem in the other is its own."""
        renamed = self.axioms.renamed | self.theorems.renamed
        lacking = (self.differences.new.keys() - self.differences.gone.keys()) | {*renamed.values()}
        labels = (one.label for one in self.text.assertions)
        return {label: label for label in labels if label not in lacking} | renamed

    @cached_property
    def to_new(self) -> dict[str, str]:
        """For labels of OLD, that of the same assertion in NEW."""
        return {old: new for new, old in self.to_old.items()}

    @cached_property
    def old_axioms(self) -> dict[str, None]:
        """The axioms of OLD that the options choose: those that NEW has too, in its order, and then
        the others."""
        options, differences = self.new.database.options, self.differences
        same = [each for each in self.new.dependence.axioms if each not in differences.new]
        gone = [
            one.label
            for one in differences.gone.values()
            if one.letter != "p" and options.only in (None, one.typecode)
        ]
        return dict.fromkeys(same + [label for label in gone if options.has_axiom(label)])

    def see_axioms(self) -> None:
        """NoAnswer where the options choose no axiom of OLD or of NEW, as its report says. It isn't
        asked where all axioms are chosen, and both have one."""
        options, texts = self.new.database.options, (self.old_text, self.text)
        is_all = options.only is None and not options.axioms and not options.ignore_definitions
        if is_all and all(any(one.kind == "a" for one in text.assertions) for text in texts):
            return
        known = self.old_axioms
        if not known or not all(
            any(each.startswith(word) for each in known) for word in options.axioms
        ):
            _ = self.old.dependence

    @cached_property
    def _numbers(self) -> dict[str, int]:
        """The number of each axiom of NEW."""
        columns = self.new.database.content.columns
        return {label: number for number, label in enumerate(columns)}

    def _bits(self, axioms: Iterable[str]) -> int:
        """The bits of axioms of NEW in a row."""
        try:
            return mask(len(self._numbers), [self._numbers[axiom] for axiom in axioms])
        except KeyError:
            raise Damaged from None

    def row(self, theorem: str) -> int:
        """The axioms on which a theorem of NEW rests, as bits; 0 where NEW has no such theorem."""
        row = self.new.dependence.rows.get(theorem)
        return 0 if row is None else self.new.dependence.marks.row(row)

    def row_before(self, theorem: str) -> int:
        """The axioms on which a theorem of OLD rests, as the bits of those that NEW has of them; 0
        where OLD has no such theorem. Those that were changed or renamed are the same ones."""
        if theorem not in self.rows_before:
            if len(self.rows_before) > MOST_ROWS:
                self.rows_before.clear()
            self.rows_before[theorem] = self._row_before(theorem)
        return self.rows_before[theorem]

    def _row_before(self, theorem: str) -> int:
        now = self.row(theorem)
        gained = self._bits(self.differences.gained.get(theorem, "").split())
        if gained & ~now:
            raise Damaged
        lost = [self.to_new.get(axiom, "") for axiom in self._lost(theorem)]
        return now & ~gained | self._bits(axiom for axiom in lost if axiom in self._numbers)

    def _lost(self, theorem: str) -> list[str]:
        """The axioms of OLD, of those chosen, on which a theorem of this label rests there alone,
        as the program says."""
        lost = self.differences.lost.get(theorem, "").split()
        return [axiom for axiom in lost if axiom in self.old_axioms]

    @cached_property
    def restated(self) -> frozenset[str]:
        """The labels of theorems that say something else in OLD and in NEW. What one statement
        rests on and the other doesn't is no gain or loss."""
        changed = self.theorems.changed.items()
        return frozenset(label for label, differ in changed if differ not in SAME_THEOREM)

    def shift(self, theorem: str, was: str) -> tuple[list[str], list[str]]:
        """The axioms on which a theorem rests in NEW alone, by their labels there, and those on
        which that of a label of OLD rests there alone. None where it is left open in one of them.
        """
        if theorem not in self.new.dependence.rows or self.old_text.by_label[was].letter != "p":
            return [], []
        now, before = self.row(theorem), self.row_before(was)
        dependence = self.new.dependence
        gained = [dependence.axioms[column] for column in dependence.columns_of(now & ~before)]
        left = columns_of(before & ~now, len(self._numbers))
        went = [self.to_old[self.new.database.content.columns[number]] for number in left]
        went += [each for each in self._lost(was) if self.to_new.get(each) not in self._numbers]
        return gained, [axiom for axiom in dict.fromkeys(went) if axiom in self.old_axioms]

    @cached_property
    def _shifted(self) -> tuple[dict[str, list[str]], dict[str, list[str]]]:
        """For each axiom the theorems of both that came to rest on it, by labels of NEW, and those
        that no longer do, by labels of OLD."""
        gained: dict[str, list[str]] = {}
        lost: dict[str, list[str]] = {}
        for theorem, was in self._shifting():
            came, went = self.shift(theorem, was)
            for axiom in came:
                gained.setdefault(axiom, []).append(theorem)
            for axiom in went:
                lost.setdefault(axiom, []).append(was)
        order = self.old_text.by_label
        for theorems in lost.values():
            theorems.sort(key=lambda label: order[label].number)
        return gained, lost

    def _shifting(self) -> Iterator[tuple[str, str]]:
        """The theorems of both of which the program tells more or less axioms, or that were
        renamed; each by its labels in NEW and in OLD. One that says something else isn't one of
        both."""
        told = self.differences
        for theorem in self.new.dependence.theorems:
            was = self.to_old.get(theorem)
            if was is None or (was == theorem and theorem in self.restated):
                continue
            if was != theorem or theorem in told.gained or theorem in told.lost:
                yield theorem, was

    def gained(self, axiom: str) -> list[str]:
        """The theorems of both that rest on an axiom of NEW and in OLD didn't. One that says
        something else is none of them."""
        return self._shifted[0].get(axiom, [])

    def lost(self, axiom: str) -> list[str]:
        """The theorems of both that rested on an axiom of OLD and in NEW don't."""
        return self._shifted[1].get(axiom, [])

    def is_proved_alike(self, label: str) -> bool:
        """Whether an assertion is the same in both, with the same words of its proof."""
        if label not in self.proved_alike:
            self.proved_alike[label] = self._is_proved_alike(label)
        return self.proved_alike[label]

    def _is_proved_alike(self, label: str) -> bool:
        one, before = self.text.find(label), self.old_text.find(label)
        if one is None or before is None or label in self.differences.new:
            return False
        statement = self.text.data[one.place : one.end]
        if statement == self.old_text.data[before.place : before.end]:
            return True
        return self.text.proof(one) == self.old_text.proof(before)

    def was(self, label: str) -> str:
        """What a label of NEW was in OLD: that of the same assertion, or of the theorem whose old
        proof it has; "" if there was none."""
        return self.to_old[label] if label in self.to_old else self.moved.get(label, "")

    def was_cited(self, citing: str, cited: str) -> bool:
        """Whether OLD has a citation of NEW. OLD's report is asked only where the proof is another:
        the same proof of the same assertion cites the same."""
        user, used = self.was(citing), self.was(cited)
        if not user or not used:
            return False
        if user == citing and used == cited and self.is_proved_alike(citing):
            return True
        return used in self.old.cites(user)

    @cached_property
    def moved(self) -> dict[str, str]:
        """New theorems that say and cite what a theorem of OLD did, which is there and says the
        same but got another proof: they have its old proof. For each the label of that theorem."""
        wanted: dict[Statement, list[str]] = {}
        for label in self.theorems.unknown:
            wanted.setdefault(statement_of(self.text.by_label[label]), []).append(label)
        formulas = {statement.formula for statement in wanted}
        found: dict[str, str] = {}
        for one in self.new.database.text.assertions if wanted else ():
            if one.formula not in formulas or not self._has_stayed(one):
                continue
            labels = wanted.get(statement_of(one), [])
            if not labels or self.is_proved_alike(one.label):
                continue
            cites = self.old.cites(one.label)
            same = [label for label in labels if self.new.cites(label) == cites]
            if cites != self.new.cites(one.label):
                found.update(dict.fromkeys(same, one.label))
                labels[:] = [label for label in labels if label not in found]
        return found

    def _has_stayed(self, one: Assertion) -> bool:
        """Whether a theorem of NEW is in OLD under its label, and says the same."""
        is_there = self.to_old.get(one.label) == one.label
        is_theorem = one.kind == "p" and is_there and self.old_text.by_label[one.label].kind == "p"
        return is_theorem and one.label not in self.theorems.changed

    def why_gained(self, axiom: str) -> Reasons:
        """For theorems of NEW that rest on an axiom, because of which new citation."""
        return Reasons(self.new, self.old, self.to_old, axiom)

    def why_lost(self, axiom: str) -> Reasons:
        """For theorems of OLD that rested on an axiom, because of which citation that is gone."""
        return Reasons(self.old, self.new, self.to_new, axiom)

    def shifts(self, axiom: str, *, lost: bool = False) -> Iterator[Shift]:
        """What came to rest on an axiom of NEW, or no longer rests on one of OLD, in file order."""
        found = self.lost(axiom) if lost else self.gained(axiom)
        if not found:
            return
        reasons = self.why_lost(axiom) if lost else self.why_gained(axiom)
        for theorem in found:
            yield Shift(theorem, axiom, *reasons.why(theorem))


def told_and(text: Text, some: list[Assertion], told: Iterable[str]) -> list[Assertion]:
    """Some assertions of a text and those of which the program tells, in file order."""
    numbers = {one.number for one in some} | {text.by_label[label].number for label in told}
    return [text.assertions[number] for number in sorted(numbers)]


class Reasons:
    """Why theorems of one database rest on an axiom and those of another don't."""

    def __init__(self, side: Side, other: Side, there: dict[str, str], axiom: str) -> None:
        self.graph = side.graph
        self.other = other.graph
        self.there = there
        column = side.dependence.columns.get(axiom)
        rows = None if column is None else side.dependence.users(column)
        self.far = self.graph.distances(self.graph.node(axiom), rows)
        self.known: dict[int, tuple[str, str]] = {}

    def is_new(self, citing: int, cited: int) -> bool:
        """Whether the other database lacks a citation."""
        labels, index = self.graph.labels, self.other.index
        user = index.get(self.there.get(labels[citing], ""))
        used = index.get(self.there.get(labels[cited], ""))
        return user is None or used is None or used not in self.other.cites[user]

    def why(self, theorem: str) -> tuple[str, str]:
        """The first citation on a shortest chain that the other database lacks, by the labels of
        what cites and what it cites. If it has all, the last one: the axiom is none there."""
        node = self.graph.index[theorem]
        passed = []
        while node not in self.known:
            passed.append(node)
            cited = self.graph.following(node, self.far)
            if self.far[cited] == 0 or self.is_new(node, cited):
                self.known[node] = (self.graph.labels[node], self.graph.labels[cited])
                break
            node = cited
        for each in passed:
            self.known[each] = self.known[node]
        return self.known[node]
