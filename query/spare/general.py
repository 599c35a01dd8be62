"""The search for another statement in place of one that is at fault, which says something else.

The steps that lead from a fault to what is proved don't always need all that is said there: of
`( ps /\\ ch )` it may be that only `ps` is used. So it is asked of these steps what their formulas
have to be, while what is proved and all free formulas stay. What stands in place of the fault then
has unknown parts. A statement that becomes such a formula, and whose premises are free, gives these
parts, and with them the other formulas.

Only a statement is taken that didn't rest on the axioms before anything was changed. So the answer
doesn't depend on what other processes find.
"""

from __future__ import annotations

from collections.abc import Iterator, Sequence

from query.spare.index import GivenUp, Prefix, chosen
from query.spare.proofs import Step
from query.spare.search import MOST_TRIED, Premise, Search, Steps
from query.spare.shape import Cited, Shape
from query.spare.unknowns import UNKNOWN, NodesOfVariables
from query.spare.variables import Variables

MOST_FAULTS = 3
"""With more faults in one proof none is replaced so."""
MOST_FORMULAS = 1000
"""So many formulas may lead from the faults to what is proved."""
ANY_PART = -1
"""Stands for any part of a formula."""

Left = tuple[int, "Left | None"]
"""Nodes, or ANY_PART, that are still to be matched: the first one, and the others."""


class General(Shape):
    """The search in a proof in which another search found nothing. `axioms` are those that it shall
    do without, `wanted` the statements that may be cited in place of a fault, as bits."""

    def __init__(self, search: Search, axioms: int, wanted: int) -> None:
        root = search.proof.root
        known = {tree: tree for tree in search.free.steps}
        super().__init__(search.shelf.rules, root, root, known)
        self.search = search
        self.axioms = axioms
        self.wanted = wanted
        self.flags = f"{wanted:0{search.theorem.number}b}"[::-1]
        self.tries = 0
        self.faults: list[int] = []
        self.found: Steps | None = None

    def steps(self, variables: Variables) -> Steps | None:
        """A proof that does without the axioms; None where none is found."""
        try:
            if self.has_faults() and self.fill(0, variables):
                return self.found
        except GivenUp:
            pass
        return None

    def has_faults(self) -> bool:
        """Makes the shape of what isn't free. Returns whether it ends at faults for which something
        may be found."""
        left = [self.formula]
        while left:
            tree = left.pop()
            step = self.sound(tree)
            if step is None:
                self.faults.append(tree)
            else:
                left += self.add(tree, step)
            if len(self.cited) > MOST_FORMULAS or len(self.faults) > MOST_FAULTS:
                return False
        return bool(self.faults and self.cited)

    def sound(self, tree: int) -> Step | None:
        """The first step by which a formula is proved that isn't at fault itself."""
        rests, steps = self.search.state.rests, self.search.proof.steps[tree]
        return next((step for step in steps if not rests[step.rule] & self.axioms), None)

    def fill(self, number: int, variables: Variables) -> bool:
        """Finds something for the faults from this number on. There are at most MOST_FAULTS, one
        within the other."""
        if number == len(self.faults):
            self.found = self.with_variables(self.search.free.steps, variables)
            return self.found is not None
        ways = self.ways(self.faults[number])
        return any(self.fill(number + 1, variables) for _ in ways)

    def ways(self, fault: int) -> Iterator[None]:
        """What may stand in place of a fault: a free formula, or what a statement says. Each stands
        there until the next one is asked for."""
        nodes, node = self.nodes, self.node_of[fault]
        length = len(nodes.trail)
        for tree in self.search.free.order:
            if nodes.unify(node, nodes.of(tree), self.budget):
                yield
            nodes.undo(length)
        for statement in sorted(self.fitting(node)):
            citable = self.search.shelf.citable[statement]
            rule = citable.rule
            node_of_variable: NodesOfVariables = {}
            if nodes.unify(self.instance(rule.tree, node_of_variable), node, self.budget):
                essential = [
                    self.instance(one.number, node_of_variable) for one in rule.essential()
                ]
                self.cited[fault] = Cited(rule, node_of_variable, [])
                self.tries = MOST_TRIED
                yield from self.proved(citable.premises, essential)
                del self.cited[fault]
            nodes.undo(length)

    def fitting(self, node: int) -> list[int]:
        """The statements that are wanted whose formula may become a node, and not many others."""
        nodes = self.nodes
        found: list[int] = []
        work: list[tuple[Prefix, Left | None]] = [(self.search.shelf.index.first, (node, None))]
        while work:
            branch, left = work.pop()
            if left is None:
                found += chosen(branch, self.wanted, self.flags)
                self.budget.take(1 + len(branch.statements))
                continue
            one, rest = left
            one = ANY_PART if one == ANY_PART else nodes.find(one)
            kind = None if one == ANY_PART else nodes.kinds[one]
            self.budget.take(1 + len(branch.slots))
            for (_, slot_kind), following in branch.slots.items():
                if one == ANY_PART or slot_kind == kind:
                    work.append((following, rest))
            if one == ANY_PART or nodes.heads[one] == UNKNOWN:
                work += self.with_any_head(branch, kind, rest)
            elif nodes.heads[one] in branch.heads:
                following = branch.heads[nodes.heads[one]]
                work.append((following, before(nodes.parts_of(one), rest)))
        return found

    def with_any_head(
        self, branch: Prefix, kind: str | None, rest: Left | None
    ) -> Iterator[tuple[Prefix, Left | None]]:
        """What follows where a part isn't known but for its typecode; None for any."""
        self.budget.take(len(branch.heads))
        for head, following in branch.heads.items():
            form = self.rules.grammar.forms[head]
            if kind is None or form.typecode == kind:
                yield following, before([ANY_PART] * len(form.typecodes), rest)

    def proved(self, left: Sequence[Premise], essential: Sequence[int]) -> Iterator[None]:
        """The ways in which the premises that are left become free formulas. There are at most
        as many, one within the other, as `MOST_PREMISES` of `conventions.py` says."""
        if not left:
            yield
            return
        premise, *others = left
        length = len(self.nodes.trail)
        for tree in self.like(premise, essential[premise.index]):
            self.tries -= 1
            if self.tries < 0:
                return
            if self.nodes.unify(essential[premise.index], self.nodes.of(tree), self.budget):
                yield from self.proved(others, essential)
            self.nodes.undo(length)

    def like(self, premise: Premise, node: int) -> Sequence[int]:
        """The free formulas that a premise may be."""
        free = self.search.free
        self.budget.take(1 + len(premise.code))
        tree = self.nodes.tree(node, {})
        if tree is not None:
            return (tree,) if tree in free.steps else ()
        return free.order if premise.key is None else free.by_key.get(premise.key, [])


def before(parts: Sequence[int], rest: Left | None) -> Left | None:
    """These parts, and then the others."""
    for part in reversed(parts):
        rest = (part, rest)
    return rest
