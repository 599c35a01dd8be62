"""Which theorems of NEW came to rest on watched axioms, and because of which proof.

A theorem comes to rest on an axiom because its proof has a new citation of what rests on the axiom
without having come to, or because it cites what came to rest on it. So each has a cause: a theorem
and what that cites. Whatever rests on the watched axioms because of one proof is one thing to be
judged, however many theorems and axioms these are.
"""

from __future__ import annotations

from collections.abc import Iterable, Iterator
from dataclasses import dataclass, field

from query.comparisons.changes import Comparison
from query.gate.allowances import Resting
from query.gate.config import Config
from query.gate.mathboxes import MainPart


@dataclass(frozen=True)
class Arrival:
    """A theorem of NEW, and the columns of the watched axioms on which it came to rest. `was_there`
    is whether OLD has the theorem too, where a rule judges the main part alone: there."""

    row: int
    theorem: str
    columns: list[int]
    was_there: bool


@dataclass
class Effect:
    """What one proof does: that of `citing`, which cites `cited`. `theorem` is the first that came
    to rest on `axiom` by it, and on `axioms` others; `theorems` are how many more did."""

    citing: str
    cited: str
    theorem: str
    axiom: str
    axioms: int
    theorems: int = 0


@dataclass
class Arrivals:
    """Those of a comparison."""

    comparison: Comparison
    axioms: list[str]
    config: Config
    main_part: MainPart | None = None
    """The main part, where one of the rules judges it alone."""
    causes: dict[tuple[int, int], tuple[str, str]] = field(default_factory=dict)
    """For rows and columns why the theorem rests on the axiom, as far as that was asked."""

    def __post_init__(self) -> None:
        self.new = self.comparison.new.dependence
        self.watched = self.bits(self.axioms)
        self.allowed = {
            rule: Resting(lists, self.axioms, self.bits)
            for rule, lists in self.config.resting.items()
        }

    def bits(self, labels: Iterable[str]) -> int:
        """The bits of axioms in a row."""
        return self.new.mask_of([self.new.columns[label] for label in labels])

    def has_entered(self, theorem: str) -> bool:
        """Whether a theorem came out of a mathbox into the main part, where a rule judges that
        alone. What it rests on was nobody's concern in the mathbox, so all of it is new."""
        return self.main_part is not None and theorem in self.main_part.entered

    def is_left(self, rule: str, theorem: str) -> bool:
        """Whether a rule judges the main part alone, and a theorem isn't in it."""
        part = self.main_part
        return part is not None and rule in self.config.of_main and theorem in part.left

    def row_before(self, theorem: str) -> int:
        """The axioms on which a theorem of NEW rested in OLD, as bits. In the main part the old
        proof of a theorem of a mathbox is new."""
        before, part = self.comparison.was(theorem), self.main_part
        if part is not None and before in part.boxed_before and theorem not in part.left:
            return 0
        return self.comparison.row_before(before)

    def came(self, row: int) -> int:
        """The bits of the watched axioms on which a theorem came to rest."""
        theorem = self.new.theorems[row]
        bits = self.new.bits(row) & self.watched
        if not bits or not (self.is_told(theorem) or self.has_entered(theorem)):
            return 0
        return bits & ~self.row_before(theorem)

    def is_told(self, theorem: str) -> bool:
        """Whether the program tells of a theorem that it is new or rests on more. What it tells of
        none of these didn't come to rest on anything."""
        differences = self.comparison.differences
        return theorem in differences.gained or theorem in differences.new

    def all(self, rule: str) -> Iterator[Arrival]:
        """Those of the rule `newly`, which OLD has too, or of the rule `new`, which it hasn't,
        without what is allowed. Where a rule judges the main part alone, what came into it counts
        as new."""
        if not self.watched:
            return
        for row, theorem in enumerate(self.new.theorems):
            was_there = theorem in self.comparison.to_old and not self.has_entered(theorem)
            if was_there != (rule == "newly") or self.is_left(rule, theorem):
                continue
            bits = self.came(row)
            if bits and rule in self.allowed:
                bits &= ~self.allowed[rule].allowed(theorem)
            if bits:
                yield Arrival(row, theorem, self.new.columns_of(bits), was_there)

    def effects(self, rule: str) -> Iterator[Effect]:
        """The same by the proofs that are the causes, each at its first theorem, in file order."""
        found: dict[str, Effect] = {}
        for each in self.all(rule):
            column = each.columns[0]
            citing, cited = self.cause(each.row, column)
            if citing in found:
                found[citing].theorems += 1
            else:
                axiom, others = self.new.axioms[column], len(each.columns) - 1
                found[citing] = Effect(citing, cited, each.theorem, axiom, others)
        yield from found.values()

    def cause(self, row: int, column: int) -> tuple[str, str]:
        """Why a theorem came to rest on an axiom: whose citation is the cause, and of what."""
        passed: list[tuple[int, int]] = []
        while (row, column) not in self.causes:
            passed.append((row, column))
            cited, following = self.step(row, column)
            if following is None:
                self.causes[row, column] = (self.new.theorems[row], cited)
                break
            row = following
        found = self.causes[row, column]
        for each in passed:
            self.causes[each] = found
        return found

    def step(self, row: int, column: int) -> tuple[str, int | None]:
        """Through which citation a theorem rests on an axiom: the first one of what didn't come to
        rest on it, where that citation is new; else the first one, with its row."""
        graph, axiom = self.new.graph, self.new.axioms[column]
        theorem = self.new.theorems[row]
        bit = self.new.mask_of([column])
        first: tuple[str, int | None] | None = None
        for node in graph.cites[graph.index[theorem]]:
            cited = graph.labels[node]
            below = self.new.rows.get(cited)
            if cited != axiom and (below is None or not self.new.is_marked(below, column)):
                continue
            came = below is not None and bool(self.came(below) & bit)
            if not came and not self.comparison.was_cited(theorem, cited):
                return cited, None
            if first is None or (came and first[1] is None):
                first = (cited, below if came else None)
        return first or (axiom, None)
