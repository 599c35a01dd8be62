"""Compressed proofs: of what was found, and laid out as the other proofs of the database are."""

from __future__ import annotations

from collections.abc import Iterable, Mapping, Sequence
from dataclasses import dataclass, field

from query.proofs.layout import Item, Made, letters_in
from query.proofs.letters import numbers_of
from query.spare.labels import saved_order
from query.spare.proofs import Proof, Step
from query.spare.rules import Rule, Rules
from query.spare.search import Steps

MOST_ALIKE = 50
"""So many theorems of the syntax with one form are tried for a tree."""


class Writer:
    """Writes proofs."""

    def __init__(self, rules: Rules, is_usable: Iterable[int]) -> None:
        self.rules = rules
        self.abbreviations: dict[int, list[Rule]] = {}
        for number in is_usable:
            rule = rules[number]
            if rule.form is None and not rule.is_logical and rule.tree >= 0:
                head = rules.trees.heads[rule.tree]
                several = self.abbreviations.setdefault(head, [])
                if head >= 0 and len(several) < MOST_ALIKE:
                    several.append(rule)

    def words(self, theorem: Rule, proof: Proof, steps: Steps, room: int) -> tuple[list[str], str]:
        """The labels in brackets and the letters of a proof, of which a line has room for so many
        characters."""
        return Writing(self, theorem, proof, steps, room).words()


@dataclass(slots=True)
class Writing:
    """One proof while it is written."""

    writer: Writer
    theorem: Rule
    proof: Proof
    steps: Steps
    room: int
    nodes: dict[Item, Made] = field(default_factory=dict)

    def words(self) -> tuple[list[str], str]:
        """The labels and the letters."""
        root = ~self.proof.root
        given = [each.label for each in self.theorem.hypotheses]
        uses = dict.fromkeys(given, 0)
        for item in self.ordered(root):
            node = self.nodes[item]
            uses[node.label] = uses.get(node.label, 0) + (1 if node.parts else node.uses)
        labels = self.in_order(list(uses)[len(given) :], uses)
        numbers = {label: place for place, label in enumerate([*given, *labels])}
        return labels, letters_in(self.nodes, root, numbers)

    def in_order(self, labels: list[str], uses: Mapping[str, int]) -> list[str]:
        """The labels, given in the order of their first use, as metamath.exe orders them; but where
        it would have ordered those of the old proof otherwise, these as they were, and then the
        others."""
        old, old_uses = named(self.proof.words, len(self.theorem.hypotheses))
        if not old or self.saved(list(old_uses), old_uses) == old:
            return self.saved(labels, uses)
        kept = [label for label in old if label in uses]
        return list(dict.fromkeys([*kept, *labels]))

    def saved(self, labels: list[str], uses: Mapping[str, int]) -> list[str]:
        """The labels as metamath.exe orders them."""
        floating = self.writer.rules.floating
        labels = sorted(labels, key=lambda label: label not in floating)
        return saved_order(labels, uses, len(self.theorem.hypotheses), self.room)

    def ordered(self, root: Item) -> list[Item]:
        """All items, parts before what is made of them, and how often each is used."""
        order: list[Item] = []
        left = [(root, False)]
        while left:
            item, is_done = left.pop()
            if is_done:
                order.append(item)
                continue
            node = self.nodes.get(item)
            if node is None:
                node = self.nodes[item] = self.node(item)
                left.append((item, True))
                left += [(part, False) for part in reversed(node.parts)]
            node.uses += 1
        return order

    def node(self, item: Item) -> Made:
        """How an item is made."""
        rules = self.writer.rules
        if item < 0:
            step = self.steps[~item]
            if step is None:
                return Made(self.proof.given[~item], [])
            return self.citation(step)
        head = rules.trees.heads[item]
        if head < 0:
            return Made(self.proof.scope.labels[~head], [])
        own = self.proof.built.get(item)
        ways = self.writer.abbreviations.get(head, ()) if own is None else (rules[own],)
        for rule in ways:
            binding: dict[int, int] = {}
            if rule.form is None and rule.number < self.theorem.number:
                if rules.trees.match(rule.tree, item, binding) is not None:
                    return Made(rule.label, [binding[each] for each in rule.mandatory_variables])
        label = rules.grammar.forms[head].label
        assert label is not None
        return Made(label, list(rules.trees.parts[item]))

    def citation(self, step: Step) -> Made:
        """How a citation is made."""
        rule = self.writer.rules[step.rule]
        pairs = zip(rule.hypotheses, step.trees)
        return Made(rule.label, [tree if one.is_floating else ~tree for one, tree in pairs])


def named(words: Sequence[str], first: int) -> tuple[list[str], dict[str, int]]:
    """The labels in brackets of a compressed proof, and of those that it uses how often each is, in
    the order of their first use; nothing of one that isn't compressed. `first` is the number of the
    first label."""
    if words[0] != "(":
        return [], {}
    end = words.index(")")
    labels = [*words[1:end]]
    uses: dict[str, int] = {}
    for number in numbers_of("".join(words[end + 1 :])):
        if first <= number < first + len(labels):
            label = labels[number - first]
            uses[label] = uses.get(label, 0) + 1
    return labels, uses
