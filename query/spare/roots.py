"""The statements below at which the faults of proofs lie.

A theorem can lose an axiom by steps that prove once more what a theorem below says, one that rests
on the axiom. Then the fault is the proof of that one, and what cites it has the fault by it. So it
is tried to mend that proof: by the same steps or by others, also by new ones. Where that is done,
those above lose the axiom by what they cite, and keep their proofs. Where it isn't, it is said at
which theorem the fault lies.
"""

from __future__ import annotations

from collections.abc import Iterable
from dataclasses import replace
from functools import cached_property

from query.citations.bits import joined
from query.platform import progress
from query.spare.changes import Changer, ProofRange
from query.spare.index import GivenUp
from query.spare.kept import Change
from query.spare.proofs import Proof, Step, Unfit, run
from query.spare.rules import Rule
from query.spare.search import closed_of
from query.spare.seeking import Answer
from query.spare.shape import Shape
from query.spare.variables import Variables

MOST_ROUNDS = 3
"""So many times it is looked at what lies below new proofs, of which there may be more then."""
MOST_PLACES = 10
"""So many steps of a proof are looked at that cite one theorem."""
MOST_SOURCES = 10
"""So many theorems are named by whose new proofs another one loses axioms."""


class Roots:
    """What lies below the changes that a search found."""

    def __init__(self, changer: Changer, found: Iterable[Change]) -> None:
        self.changer = changer
        self.rules = changer.rules
        self.found = list(found)
        self.changes = {changer.numbers[change.theorem]: change for change in self.found}
        self.mended: set[int] = set()
        self.given_up: set[int] = set()
        """The theorems that it was tried in vain to mend."""
        self.faults: dict[int, list[int]] = {}
        """For theorems with new proofs those at which the fault lies."""

    def settled(self) -> list[Change]:
        """The changes in file order, where theorems below are mended that can be. What is said
        twice is left to the judge."""
        if len(self.changes) < len(self.found):
            return self.found
        for _ in range(MOST_ROUNDS):
            before = len(self.mended)
            self.faults = {}
            new = [number for number in sorted(self.changes) if self.changes[number].proof]
            for place, number in enumerate(new):
                progress.now(f"looking below new proofs, {place} of {len(new)} are done")
                self.look_below(number)
            if len(self.mended) == before:
                break
            self.follow()
        for number, faults in self.faults.items():
            self.changes[number].faults = tuple(self.changer.names[each] for each in faults)
        self.name_sources()
        return [change for _, change in sorted(self.changes.items())]

    def look_below(self, number: int) -> None:
        """Mends or notes the theorems that a new proof proves once more."""
        changer, rests = self.changer, self.changer.state.rests
        lost = changer.old_rests[number] & ~rests[number] & changer.axioms
        below = [each for each in changer.cites[number] if rests[each] & lost]
        below = [each for each in sorted(below) if each in changer.cites]
        first = len(self.rules.trees)
        try:
            if not below:
                return
            old, new = changer.proof(number), self.proof(self.changes[number])
            for each in below:
                own = changer.proof(each)
                answer = self.donated(own, self.rules[each], old, new)
                if answer is None or self.gains(each, answer):
                    continue
                if not self.is_mended(each, own, answer, lost):
                    self.faults.setdefault(number, []).append(each)
        except Unfit:
            return
        finally:
            self.rules.trees.forget(first)

    def proof(self, change: Change) -> Proof:
        """The new proof of a theorem."""
        assert change.proof is not None
        theorem = self.rules[self.changer.numbers[change.theorem]]
        words = change.proof.decode("latin-1").split()
        return run(self.rules, self.changer.numbers, theorem, words)

    def donated(self, own: Proof, below: Rule, old: Proof, new: Proof) -> Answer | None:
        """A proof of a theorem below, which has a proof of its own, by steps that prove anew what
        an old proof had by citing it; None where these steps prove less than it says."""
        places = (
            (formula, step)
            for formula, steps in old.steps.items()
            for step in steps
            if step.rule == below.number and formula in new.steps
        )
        for (formula, step), _ in zip(places, range(MOST_PLACES)):
            try:
                found = self.shaped(own, below, formula, step, new)
            except (GivenUp, Unfit):
                continue
            if found is not None:
                return found
        return None

    def shaped(
        self, own: Proof, below: Rule, formula: int, step: Step, new: Proof
    ) -> Answer | None:
        """What the new steps for a formula prove of a theorem, which was cited in one step."""
        given = [each.number for each in below.essential()]
        shape = Shape(self.rules, formula, below.tree, dict(zip(step.premises, given)))
        left = [formula]
        while left:
            tree = left.pop()
            if tree not in new.steps:
                return None
            left += shape.add(tree, next(iter(new.steps[tree])))
        shape.original.clear()  # the variables of another theorem
        variables = Variables(self.rules, below, own.scope, self.changer.seeker.active)
        steps = shape.with_variables(dict.fromkeys(given), variables)
        return None if steps is None else Answer(steps, 0)

    def gains(self, number: int, answer: Answer) -> int:
        """The axioms that a theorem would gain by a proof, but for rules of syntax and what it may
        gain: with one of them it isn't its proof that is at fault."""
        changer = self.changer
        steps = [step.rule for step in answer.steps.values() if step is not None]
        gained = changer.resting(steps) & ~changer.state.rests[number] & ~changer.may_gain
        return gained & self.logical

    @cached_property
    def logical(self) -> int:
        """The axioms of what is proved, as bits."""
        changer = self.changer
        pairs = zip(changer.columns, changer.typecodes, strict=True)
        return changer.bits([label for label, kind in pairs if kind == changer.wanted.typecode])

    def is_mended(self, number: int, proof: Proof, answer: Answer, lost: int) -> bool:
        """Whether a theorem loses what one above it lost; notes its new proof."""
        changer, one = self.changer, self.changer.text.assertions[number]
        proof_range = ProofRange(changer.text.data, one.place, one.end)
        if number in self.mended:
            return True
        if number in self.given_up or not changer.may_change(number) or proof_range.has_comment:
            return False
        rule = self.rules[number]
        rests = changer.resting(changer.cites[number])
        answers: list[Answer] = []
        try:
            is_general = not changer.wanted.is_all
            seeker = replace(changer.seeker, closed=self.closed, is_general=is_general)
            found = seeker.best(rule, proof, lost & rests, rests)
            answers += [] if found is None else [found]
        except GivenUp:
            pass
        answers += [answer] if self.may_cite(number, answer) else []
        written = [changer.written(rule, proof, each, proof_range, rests) for each in answers]
        whole = [
            (changer.rank(changer.finished(each.change, each.rests), each.rests), place, each)
            for place, each in enumerate(written)
            if each is not None and not each.rests & lost
        ]
        if not whole:
            self.given_up.add(number)
            return False
        *_, best = min(whole)
        changer.state.rest(number, best.rests)
        self.changes[number] = best.change
        self.mended.add(number)
        return True

    @cached_property
    def closed(self) -> int:
        """The statements that may be new steps."""
        return closed_of(self.changer.shelf)

    def may_cite(self, number: int, answer: Answer) -> bool:
        """Whether a theorem may cite what these steps cite."""
        allowed = self.changer.shelf.conventions.allowed(number)
        allowed |= joined(self.changer.cites[number])
        return all(step is None or allowed >> step.rule & 1 for step in answer.steps.values())

    def follow(self) -> None:
        """Finds what becomes of those that cite what was mended, and so on."""
        changer = self.changer
        others = set(self.mended)
        for number in changer.cites:
            change = self.changes.get(number)
            cited = [*changer.cites[number], *self.cited(change)]
            if others.isdisjoint(cited):
                continue
            before = changer.state.rests[number]
            if number in self.mended and changer.resting(changer.cites[number]) & ~before:
                changer.known(number, change)
                again = change and changer.finished(change, changer.state.rests[number])
            else:
                again = changer.change(number)
            if again is not None:
                self.changes[number] = again
            elif change is not None:
                del self.changes[number]
            if changer.state.rests[number] != before:
                others.add(number)

    def cited(self, change: Change | None) -> list[int]:
        """What a new proof cites; nothing where there is none."""
        labels = [] if change is None or change.proof is None else change.labels()
        return [self.changer.numbers[each] for each in labels if each in self.changer.numbers]

    def name_sources(self) -> None:
        """Names for each theorem that keeps its proof those by whose new proofs it loses."""
        rests, old = self.changer.state.rests, self.changer.old_rests
        sources: dict[int, list[int]] = {}
        for number, change in sorted(self.changes.items()):
            if change.proof is not None:
                sources[number] = [number]
                continue
            lost = old[number] & ~rests[number]
            found: set[int] = set()
            for each in self.changer.cites[number]:
                if each in sources and old[each] & ~rests[each] & lost:
                    found.update(sources[each])
            sources[number] = sorted(found)[:MOST_SOURCES]
            change.sources = tuple(self.changer.names[each] for each in sources[number])
