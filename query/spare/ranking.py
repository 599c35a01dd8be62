"""Which new proofs a maintainer would rather take, as a number for each; the least is the best.

First comes what leaves the theorem on fewer of the axioms that are asked about; of equal ones what
newly cites fewer statements whose new usage is discouraged; then what has fewer definitions in
place of axioms that aren't known to be sound, since these may hide an axiom; and then the shorter
one.
"""

from __future__ import annotations

from functools import cached_property

from query.definitions.foundations import BEGINNING
from query.definitions.soundness import YES, Definitions, cites_by
from query.reports.database import Database
from query.spare.kept import Change
from query.texts.discouraged import is_discouraged

Rank = tuple[int, int, int, int]
"""How many axioms of those asked about are left, statements newly cited whose new usage is
discouraged, definitions that may hide an axiom, and bytes more."""


class Ranking:
    """Ranks the changes of a database."""

    def __init__(self, database: Database) -> None:
        self.database = database
        self.text = database.text

    def rank(self, change: Change, left: int) -> Rank:
        """The rank of a new proof, with so many axioms left."""
        longer = 0 if change.proof is None else len(change.proof) - change.old_length
        return left, self.discouraged(change), len(change.hides), longer

    def discouraged(self, change: Change) -> int:
        """How many statements a new proof cites whose new usage is discouraged, and which the old
        proof doesn't cite."""
        graph = self.database.graph()
        cited = {graph.labels[each] for each in graph.cites[graph.index[change.theorem]]}
        new = [self.text.by_label.get(each) for each in {*change.labels()} - cited]
        return sum(one is not None and is_discouraged(self.text, one) for one in new)

    def is_hiding(self, label: str) -> bool:
        """Whether an axiom is a definition that may hide another axiom."""
        return label.startswith(BEGINNING) and label not in self.sound

    @cached_property
    def sound(self) -> frozenset[str]:
        """The definitions that are sound."""
        judged = Definitions(self.text.assertions, cites_by(self.database.graph()))
        return frozenset(label for label, each in judged.verdicts.items() if each.sound == YES)
