"""Theorems that say what an earlier statement says, or a special case of it."""

from __future__ import annotations

import json
from collections.abc import Iterator, Sequence
from dataclasses import astuple, dataclass

from query.platform import cache
from query.spare.index import GivenUp
from query.spare.proofs import Proof, Step
from query.spare.rules import Rule, Rules
from query.spare.search import Citable, Search, Shelf, State, step_of
from query.spare.trees import Binding

HOW = ("same", "weaker", "instance")
"""How a theorem says what an earlier statement says, the nearest first."""
FORM = 1
"""Counts the forms in which repeats are kept, and the ways in which they are sought."""


@dataclass(frozen=True, slots=True)
class Repeat:
    """A theorem, and the statement before it that says as much. `how` is one of HOW."""

    theorem: str
    earlier: str
    how: str


@dataclass(frozen=True, slots=True)
class Found:
    """What was found: the repeats in file order, the theorems of which it takes too long to say
    what they repeat, and the statements whose formulas aren't read."""

    repeats: Sequence[Repeat]
    given_up: Sequence[str]
    unread: Sequence[str]


def store(key: str, found: Found) -> None:
    """Keeps what was found."""
    cache.store(key, {"found": json.dumps(astuple(found)).encode()})


def load(key: str) -> Found | None:
    """What was found; None where nothing is kept."""
    parts = cache.load(key)
    if parts is None:
        return None
    repeats, given_up, unread = json.loads(parts["found"])
    return Found([Repeat(*each) for each in repeats], given_up, unread)


class Ways(Search):
    """All steps by which statements before a theorem prove it from its own hypotheses."""

    def __init__(self, shelf: Shelf, state: State, theorem: Rule, proof: Proof) -> None:
        super().__init__(shelf, state, theorem, proof)
        self.found: list[Step] = []
        for tree in proof.given:
            self.free.add(tree, None, self.keys[tree])

    def is_enough(self, citable: Citable, binding: Binding, premises: list[int]) -> bool:
        """Notes a step, and goes on."""
        self.found.append(step_of(citable.rule, binding, premises))
        return False

    def leave_untried(self) -> None:
        """Gives up: another one might have been nearer."""
        raise GivenUp

    def alike(self, tree: int) -> Iterator[Step]:
        """The steps that cite a statement with this formula but for the names of variables, in the
        order of the statements."""
        for number in self.shelf.index.alike(tree):
            if number >= self.theorem.number:
                break
            self.budget.take(1)
            if self.may_be >> number & 1:
                citable = self.shelf.citable[number]
                bound: Binding = {}
                self.trees.match(citable.rule.tree, tree, bound)
                self.cited(citable, tuple(bound[each] for each in citable.variables))
                yield from self.found
                self.found.clear()

    def all(self, tree: int) -> list[Step]:
        """The steps for a formula."""
        flags = f"{self.may_be:0{self.theorem.number}b}"[::-1]
        for number, bound in self.shelf.index.find(tree, self.may_be, flags, self.budget):
            citable = self.shelf.citable[number]
            if all(key is None or key in self.free.by_key for key in citable.keys):
                self.cited(citable, bound)
        return self.found


class Finder:
    """Finds what repeats what."""

    def __init__(self, rules: Rules, shelf: Shelf) -> None:
        self.rules = rules
        self.shelf = shelf
        self.state = State([])
        self.given_up: list[str] = []
        """The theorems of which it isn't found what they repeat, since that takes too long."""

    def repeat(self, theorem: Rule) -> Repeat | None:
        """What a theorem repeats, of several the nearest, and of these the first one."""
        given = {each.number: each.label for each in theorem.essential()}
        proof = Proof(self.rules.scope(theorem), given, theorem.tree, {theorem.tree: {}})
        best: tuple[int, int] | None = None
        ways = Ways(self.shelf, self.state, theorem, proof)
        for step in ways.alike(theorem.tree):
            if self.how(theorem, step) == "same":
                return Repeat(theorem.label, self.rules[step.rule].label, "same")
        for step in ways.all(theorem.tree):
            found = (HOW.index(self.how(theorem, step)), step.rule)
            best = found if best is None else min(best, found)
        if best is None:
            return None
        return Repeat(theorem.label, self.rules[best[1]].label, HOW[best[0]])

    def how(self, theorem: Rule, step: Step) -> str:
        """How a theorem says what a statement says that would prove it in one step."""
        rule, heads = self.rules[step.rule], self.rules.trees.heads
        named = [tree for one, tree in zip(rule.hypotheses, step.trees) if one.is_floating]
        if len({*named}) < len(named) or any(heads[tree] >= 0 for tree in named):
            return "instance"
        has_same_given = len({*step.premises}) == len({each.number for each in theorem.essential()})
        pairs = self.rules.pairs
        has_same_pairs = len({*pairs(rule)}) == len({*pairs(theorem)})
        return "same" if has_same_given and has_same_pairs else "weaker"

    def repeats(self, theorems: Iterator[Rule]) -> Iterator[Repeat]:
        """What of these theorems repeats something."""
        for theorem in theorems:
            try:
                found = self.repeat(theorem)
            except GivenUp:
                self.given_up.append(theorem.label)
                continue
            if found is not None:
                yield found
