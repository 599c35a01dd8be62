"""Steps by which a proof ranks before another one, in most cases since it is shorter as it is
written.

A proof with the fewest steps needn't be the shortest one: a label that it cites for the first time
takes more than a step, and a formula that is used twice is written once. So each other step is
tried by itself, from what is proved down, and kept if the proof that is written ranks before.
"""

from __future__ import annotations

from collections.abc import Callable, Mapping

from query.spare.index import Budget
from query.spare.proofs import Step
from query.spare.ranking import Rank
from query.spare.search import Steps

MOST_WRITTEN = 60
"""So many times a proof is written to be measured."""


class Shorter:
    """Makes one proof shorter. `others` are other steps by which its formulas are proved, `rank`
    says how a proof ranks, and `budget` how much may be tried."""

    def __init__(
        self,
        root: int,
        others: Mapping[int, Mapping[Step, None]],
        rank: Callable[[Steps], Rank],
        budget: Budget,
    ) -> None:
        self.root = root
        self.others = others
        self.rank = rank
        self.budget = budget
        self.left = MOST_WRITTEN

    def steps(self, steps: Steps) -> tuple[Steps, Rank]:
        """The steps of the best proof that is found, beginning with one, and its rank."""
        found = dict(steps)
        rank, order = self.rank(found), self.order(found) or []
        used = {*order}
        for tree in reversed(order):
            for step in self.others.get(tree, ()) if tree in used else ():
                was = found[tree]
                if self.left == 0 or step == was or not found.keys() >= {*step.premises}:
                    continue
                found[tree] = step
                new = self.order(found)
                if new is None or len(new) > len(used):
                    found[tree] = was
                    continue
                self.left -= 1
                other = self.rank(found)
                if other < rank:
                    rank, used = other, {*new}
                else:
                    found[tree] = was
        return found, rank

    def order(self, steps: Steps) -> list[int] | None:
        """The formulas that a proof has by these steps, premises first; None where one of them
        would be its own premise."""
        done: dict[int, None] = {}
        begun: set[int] = set()
        left = [self.root]
        while left:
            tree = left[-1]
            step = steps[tree]
            if tree in done or step is None:
                done[tree] = None
                left.pop()
            elif tree in begun:
                done[tree] = None
            else:
                begun.add(tree)
                for each in step.premises:
                    if each in begun and each not in done:
                        return None
                    left.append(each)
        self.budget.take(1 + len(done))
        return list(done)
