"""One proof after another: which ways of searching are tried for a theorem, and in which order."""

from __future__ import annotations

from collections.abc import Sequence
from dataclasses import dataclass, field

from query.citations.bits import joined
from query.spare.active import Active
from query.spare.general import General
from query.spare.proofs import Proof
from query.spare.rules import Rule
from query.spare.search import AllSteps, Search, Shelf, State, Steps
from query.spare.variables import Variables


@dataclass(slots=True)
class Answer:
    """The steps of another proof, which loses some axioms, and rests on no others than `rests`.
    `instead` has, where some keep their shape, for the formulas of these those of the old proof in
    whose place they stand."""

    steps: Steps
    rests: int
    lost: int = 0
    instead: dict[int, int] = field(default_factory=dict)


@dataclass(slots=True)
class Seeker:
    """Seeks proofs. `old_rests` are the axioms on which each assertion rested at first, `axioms`
    those that proofs shall do without, as bits, in the order in which they are wanted; `closed`
    the statements that may be new steps, and `discouraged` those that are only cited where nothing
    else does. With `is_general` a proof may get another shape, too."""

    shelf: Shelf
    state: State
    old_rests: Sequence[int]
    active: Active
    axioms: Sequence[int]
    closed: int
    discouraged: int
    is_general: bool

    def best(self, theorem: Rule, proof: Proof, axioms: int, rests: int) -> Answer | None:
        """A proof without as many of these axioms as are found, which rests on no others than
        `rests`. What is discouraged is only cited anew where more of them are lost by that."""
        barred = self.barred(proof)
        found = self.first(theorem, proof, axioms, rests, barred)
        if not barred or (found is not None and found.lost == axioms):
            return found
        other = self.first(theorem, proof, axioms, rests, 0)
        lost = 0 if found is None else found.lost
        return found if other is None or other.lost.bit_count() <= lost.bit_count() else other

    def barred(self, proof: Proof) -> int:
        """The statements that are only cited where nothing else does, as bits: those whose new
        usage is discouraged, and which the proof doesn't cite."""
        if not self.discouraged:
            return 0
        cited = joined(step.rule for steps in proof.steps.values() for step in steps)
        return self.discouraged & ~cited

    def first(
        self, theorem: Rule, proof: Proof, axioms: int, rests: int, barred: int
    ) -> Answer | None:
        """A proof that newly cites none of those that are barred: without all axioms at once that
        it can do without one by one, or else one after the other, in the order in which they are
        wanted; and last those for which it needs another shape."""
        losable = axioms
        if axioms.bit_count() > 1 and not self.closed:
            all_steps = AllSteps(self.shelf, self.state, theorem, proof, rests, barred)
            losable &= all_steps.losable()
        search = Search(self.shelf, self.state, theorem, proof, barred)
        search.closed = self.closed
        found = self.plain(search, losable, rests) if losable else None
        lost = 0 if found is None else found.lost
        for bit in self.axioms if losable.bit_count() > 1 and found is None else ():
            one = self.plain(search, lost | bit, rests) if losable & bit else None
            if one is not None:
                found, lost = one, one.lost
        for bit in self.axioms if self.is_general else ():
            one = self.general(search, lost | bit, rests) if axioms & bit & ~lost else None
            if one is not None:
                found, lost = one, one.lost
        return found

    def plain(self, search: Search, axioms: int, rests: int) -> Answer | None:
        """A proof with formulas that it has, or none."""
        steps = search.without(axioms, rests)
        return None if steps is None else Answer(steps, rests, axioms)

    def general(self, search: Search, axioms: int, rests: int) -> Answer | None:
        """A proof of another shape; or none."""
        if search.asked != (axioms, rests):
            found = self.plain(search, axioms, rests)
            if found is not None:
                return found
        without = rests & ~axioms
        changed = {*self.state.changed}
        wanted = search.wanted & ~joined(
            each for each in changed if self.old_rests[each] & ~without
        )
        general = General(search, axioms, wanted)
        variables = Variables(self.shelf.rules, search.theorem, search.proof.scope, self.active)
        steps = general.steps(variables)
        return None if steps is None else Answer(steps, rests, axioms, general.instead)
