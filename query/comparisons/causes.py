"""Which edits of a change let axioms in: the proofs that newly cite what rests on one.

A theorem comes to rest on an axiom by a new citation of its own, or by one of a theorem that it
rests on. So few edits may be the reason for very many theorems, and it is these that a reader looks
at first.

Each theorem is counted with one edit. How many would be free without the new citations of the same
proof is another number: those of which all chains of citations to the axiom have one of these. In a
tree where each theorem stands below what all of its chains have, they stand below that proof.
"""

from __future__ import annotations

from collections import Counter
from collections.abc import Callable, Iterable, Set
from dataclasses import dataclass, field

from query.citations.cuts import Citation, Meetings
from query.citations.graph import Graph
from query.comparisons.changes import Comparison, Shift


@dataclass
class Cause:
    """An edit: the proof of `citing` newly cites `cited`. There is no `citing` where `cited` wasn't
    among the axioms before: what cites it may have the proof that it had. `axioms` has how many
    theorems of both came to rest on each axiom by that, and `fewer` how many wouldn't without the
    new citations of this proof; a theorem that is counted with another edit may be one of these.
    """

    citing: str | None
    cited: str
    axioms: Counter[str] = field(default_factory=Counter)
    fewer: Counter[str] = field(default_factory=Counter)

    def is_alike(self) -> bool:
        """Whether both numbers are the same for all of several axioms."""
        counts = {(count, self.fewer[axiom]) for axiom, count in self.axioms.items()}
        return len(self.axioms) > 1 and len(counts) == 1

    def count_in_words(self, axiom: str, each: str = "") -> str:
        """How many theorems came to rest on an axiom, and how many fewer would without the new
        citations. `each` is the word for that the axiom is one of several."""
        count, fewer = self.axioms[axiom], self.fewer[axiom]
        if self.citing is None:
            return f"{count}{each}"
        would = f"{fewer} fewer" if fewer else "as many"
        return f"{count} did{each}; without its new citations {would} would"


class Causes:
    """Those of the theorems that came to rest on an axiom, which are added one by one."""

    def __init__(self, comparison: Comparison) -> None:
        self.comparison = comparison
        self.found: dict[tuple[str | None, str], Cause] = {}
        self.edits: dict[str, list[Cause]] = {}
        """For each axiom the edits that let it in."""

    def add(self, shift: Shift) -> None:
        """Adds a theorem with the citation that is the reason."""
        citing: str | None = shift.citing
        if shift.cited == shift.axiom and self.comparison.was_cited(shift.citing, shift.cited):
            citing = None
        cause = self.found.get((citing, shift.cited))
        if cause is None:
            cause = self.found[citing, shift.cited] = Cause(citing, shift.cited)
        if citing is not None and shift.axiom not in cause.axioms:
            self.edits.setdefault(shift.axiom, []).append(cause)
        cause.axioms[shift.axiom] += 1

    def weigh(self, axiom: str) -> None:
        """Finds how many theorems wouldn't have come to rest on an axiom without the new citations
        of each proof; all theorems that did were added before."""
        causes = self.edits.get(axiom)
        if not causes:
            return
        graph, dependence = self.comparison.new.graph, self.comparison.new.dependence
        nodes = {cause.citing: graph.index[cause.citing] for cause in causes if cause.citing}
        theorems = dependence.users(dependence.columns[axiom])
        gained = {graph.index[label] for label in self.comparison.gained(axiom)}
        edited = Edited({*nodes.values()}, self.is_new)
        counts = fewer_without(graph, graph.node(axiom), theorems, gained, edited)
        for cause in causes:
            if cause.citing is not None:
                cause.fewer[axiom] = counts.get(nodes[cause.citing], 0)

    def is_new(self, citing: int, cited: int) -> bool:
        """Whether OLD lacks a citation of NEW."""
        labels = self.comparison.new.graph.labels
        return not self.comparison.was_cited(labels[citing], labels[cited])

    def in_order(self) -> list[Cause]:
        """All of them: first what is new among the axioms, then in file order of what cites."""
        order = self.comparison.text.by_label
        return sorted(
            self.found.values(),
            key=lambda cause: -1 if cause.citing is None else order[cause.citing].number,
        )


@dataclass(frozen=True)
class Edited:
    """The theorems whose proofs newly cite something, as nodes, and which of their citations are
    new."""

    theorems: Set[int]
    is_new: Callable[[int, int], bool]


def fewer_without(
    graph: Graph, axiom: int, theorems: Iterable[int], counted: Set[int], edited: Edited
) -> dict[int, int]:
    """For each edited theorem, of how many theorems that are counted all chains to the axiom have
    one of its new citations. `theorems` are those that rest on the axiom, and rise."""
    tree = Meetings(axiom)
    edits: dict[int, Citation] = {}
    parts: list[int | Citation] = []
    for theorem in theorems:
        cited = [each for each in graph.cites[theorem] if each in tree.deep]
        fresh = {
            each for each in cited if theorem in edited.theorems and edited.is_new(theorem, each)
        }
        ways: list[int | Citation] = [each for each in cited if each not in fresh]
        if fresh:
            edits[theorem] = theorem, axiom  # stands for all its new citations
            tree.put(edits[theorem], tree.common([*fresh]))
            ways.append(edits[theorem])
            parts.append(edits[theorem])
        if ways:
            tree.put(theorem, tree.common(ways))
            parts.append(theorem)
    below: dict[int | Citation, int] = dict.fromkeys([axiom, *parts], 0)
    for part in reversed(parts):
        below[part] += part in counted
        below[tree.over[part]] += below[part]
    return {theorem: below[edit] for theorem, edit in edits.items()}
