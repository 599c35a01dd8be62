"""What the steps of a proof prove at most, once it is asked what each of their formulas has to be.

Some formulas stay: what is to be proved, and what is known. Of each other one it is asked only what
the statements say that are cited for it and with it. So it may have parts that are unknown.
"""

from __future__ import annotations

from collections.abc import Mapping, Sequence
from dataclasses import dataclass

from query.spare.index import Budget, GivenUp
from query.spare.proofs import Step
from query.spare.rules import Rule, Rules
from query.spare.search import Steps, distinct, step_of
from query.spare.unknowns import Nodes, NodesOfVariables
from query.spare.variables import Variables

STEPS = 300_000
"""So many steps are taken for one shape, about one for each node that is made or compared; with
more it is given up. They take 0.3 seconds of the processor, where formulas of 1,000 forms are made
and compared. Another number finds other proofs: whoever changes it counts `FORM` of kept.py up."""


@dataclass(slots=True)
class Cited:
    """A statement that is cited, the nodes for its variables, and which formulas of the proof its
    premises were, as far as they aren't known."""

    rule: Rule
    node_of_variable: NodesOfVariables
    below: list[int]


class Shape:
    """The shape of steps that prove a formula. `goal` is what they shall prove in its place, and
    `known` has what needs no step of theirs, with the tree that stands there."""

    def __init__(self, rules: Rules, formula: int, goal: int, known: Mapping[int, int]) -> None:
        self.rules = rules
        self.formula = formula
        self.known = known
        self.nodes = Nodes(rules.trees, rules.grammar)
        self.budget = Budget(STEPS)
        self.node_of = {formula: self.nodes.of(goal)}
        """For formulas that aren't known what has to be proved in their place."""
        self.cited: dict[int, Cited] = {}
        """By which statement each formula is that isn't known."""
        self.original: list[tuple[int, int]] = []
        """For variables of statements the node, and the tree that stood there."""
        self.instead: dict[int, int] = {}
        """For each formula that is proved so the one in whose place it stands."""

    def instance(self, pattern: int, node_of_variable: NodesOfVariables) -> int:
        """The node of a pattern, with these nodes for its variables. Variables that have none get
        unknowns."""
        if pattern < 0:
            raise GivenUp
        code = self.rules.trees.open_code(pattern)
        self.budget.take(len(code))
        return self.nodes.instance(code, node_of_variable)

    def equal(self, one: int, other: int) -> None:
        """Makes two nodes equal. GivenUp where they can't be."""
        if not self.nodes.unify(one, other, self.budget):
            raise GivenUp

    def add(self, tree: int, step: Step) -> list[int]:
        """Adds a step by which a formula is proved. Returns those of its premises that aren't known
        and are met for the first time. GivenUp where the goal can't be proved so."""
        rule = self.rules[step.rule]
        cited = self.cited[tree] = Cited(rule, {}, [])
        self.equal(self.instance(rule.tree, cited.node_of_variable), self.node_of[tree])
        met: list[int] = []
        for one, entry in zip(rule.hypotheses, step.trees):
            if one.is_floating:
                continue
            premise = self.instance(one.number, cited.node_of_variable)
            if entry in self.known:
                self.equal(premise, self.nodes.of(self.known[entry]))
                continue
            cited.below.append(entry)
            if entry in self.node_of:
                self.equal(premise, self.node_of[entry])
            else:
                self.node_of[entry] = premise
                met.append(entry)
        for one, entry in zip(rule.hypotheses, step.trees):
            if one.is_floating:
                self.original.append((cited.node_of_variable[one.number], entry))
        return met

    def with_variables(self, begun: Steps, variables: Variables) -> Steps | None:
        """The proof with variables in place of all that is unknown, after the steps with which it
        has begun; None where it isn't one."""
        order = self.in_order()
        if order is None:
            return None
        unknown: dict[int, None] = {}
        for tree in order:
            for node in self.cited[tree].node_of_variable.values():
                found = self.nodes.left(node)
                self.budget.take(1 + len(found))
                unknown.update(dict.fromkeys(found))
        tree_of_unknown: dict[int, int] = {}
        for node, tree in self.original:
            if self.nodes.find(node) in unknown:
                tree_of_unknown.setdefault(self.nodes.find(node), tree)
        left = [each for each in unknown if each not in tree_of_unknown]
        kinds = {each: self.nodes.kinds[each] or "" for each in left}
        for chosen in variables.choices(kinds):
            steps = self.steps_with({**tree_of_unknown, **chosen}, order, begun, variables)
            if steps is not None:
                return steps
        return None

    def in_order(self) -> list[int] | None:
        """The formulas that aren't known, premises first; None where one needs itself."""
        done: dict[int, None] = {}
        begun: set[int] = set()
        left = [self.formula]
        while left:
            tree = left[-1]
            cited = self.cited.get(tree)
            if tree in done or cited is None:
                left.pop()
            elif tree in begun:
                done[tree] = None
            else:
                begun.add(tree)
                if any(each in begun and each not in done for each in cited.below):
                    return None
                left += cited.below
        return list(done)

    def steps_with(
        self,
        tree_of_unknown: Mapping[int, int],
        order: Sequence[int],
        begun: Steps,
        variables: Variables,
    ) -> Steps | None:
        """The steps of the proof, with these trees for what is unknown: those with which it has
        begun, and for the formulas in this order what is cited for them. None where a part isn't
        known, or variables aren't distinct."""
        steps = dict(begun)
        self.instead = {}
        instance, code = self.rules.trees.instance, self.rules.trees.open_code
        for old in order:
            cited = self.cited[old]
            binding: dict[int, int] = {}
            for variable, node in cited.node_of_variable.items():
                tree = self.nodes.tree(node, tree_of_unknown)
                if tree is None:
                    return None
                binding[variable] = tree
            self.budget.take(1 + len(binding))
            pairs = self.rules.pairs(cited.rule)
            if not distinct(self.rules.trees, pairs, binding, variables.apart):
                return None
            premises = [instance(code(one.number), binding) for one in cited.rule.essential()]
            tree = instance(code(cited.rule.tree), binding)
            if tree not in steps:
                steps[tree] = step_of(cited.rule, binding, premises)
                self.instead[tree] = old
        return steps
