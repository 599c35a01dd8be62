"""What the proof of a theorem does: its steps whose formulas are proved, each with a tree. What
builds formulas is no step of these, it is a part of the trees.
"""

from __future__ import annotations

from collections.abc import Sequence
from dataclasses import dataclass, field

from query.proofs.letters import numbers_of
from query.spare.rules import Rule, Rules, Scope

STEPS, STEPS_OF_LETTER = 100_000, 20
"""So many steps, and so many for each letter of a proof, are taken to carry it out; a proof that
takes more isn't changed. None of set.mm takes one for two letters. A citation of a long formula
counts as several."""


class Unfit(Exception):
    """A proof isn't of the kind that is changed: it isn't whole, is too long, or does something
    with formulas of the syntax that isn't building trees."""


@dataclass(frozen=True, slots=True)
class Step:
    """A citation of a rule by its number. `trees` are, for each hypothesis of the rule, what stands
    for the variable or what is proved; `premises` are those that are proved."""

    rule: int
    trees: tuple[int, ...]
    premises: tuple[int, ...]


@dataclass(slots=True)
class Proof:
    """A proof. `steps` has for each formula how it is proved, in the order of the proof; `given`
    are the trees of the `$e` hypotheses with their labels; `root` is what is proved. `built` has
    for trees of the syntax the rule that builds them first, and `words` is what the proof says."""

    scope: Scope
    given: dict[int, str]
    root: int = -1
    steps: dict[int, dict[Step, None]] = field(default_factory=dict)
    built: dict[int, int] = field(default_factory=dict)
    words: Sequence[str] = ()


class Machine:
    """The stack while a proof is carried out. What is proved stands there as `~tree`, and what is
    built as its tree."""

    def __init__(self, rules: Rules, numbers: dict[str, int], theorem: Rule) -> None:
        self.rules = rules
        self.numbers = numbers
        scope = rules.scope(theorem)
        essential = theorem.essential()
        if any(each.number < 0 for each in essential):
            raise Unfit
        self.entries = {each.label: ~each.number for each in essential}
        for variable, label in scope.labels.items():
            self.entries[label] = rules.trees.made((~variable,))
        given: dict[int, str] = {}
        for each in essential:
            given.setdefault(each.number, each.label)
        self.proof = Proof(scope, given)
        self.stack: list[int] = []
        self.left = STEPS

    def run(self, theorem: Rule, words: Sequence[str]) -> Proof:
        """Carries out the words of a proof."""
        self.left += STEPS_OF_LETTER * sum(map(len, words))
        self.proof.words = words
        if words[0] == "(":
            end = words.index(")")
            labels = [each.label for each in theorem.hypotheses] + list(words[1:end])
            self.compressed(labels, "".join(words[end + 1 :]))
        else:
            for word in words:
                self.step(self.meant(word))
        self.proof.root = ~self.stack[-1] if theorem.is_logical else self.stack[-1]
        if self.proof.root < 0:
            raise Unfit
        return self.proof

    def compressed(self, labels: list[str], letters: str) -> None:
        """Carries out a compressed proof."""
        meant = [self.meant(label) for label in labels]
        marked: list[int] = []
        for number in numbers_of(letters):
            if number < 0:
                marked.append(self.stack[-1])
            elif number < len(meant):
                self.step(meant[number])
            else:
                self.stack.append(marked[number - len(meant)])

    def meant(self, label: str) -> int | Rule:
        """What a label stands for: a hypothesis by its entry, or a rule."""
        number = self.numbers.get(label)
        if number is not None:
            return self.rules[number]
        if label not in self.entries:
            name = self.rules.floating.get(label)
            if name is None:
                raise Unfit
            tree = self.rules.grammar.variable(*name)
            self.entries[label] = tree
            self.proof.scope.add_dummy(~self.rules.trees.heads[tree], name[1], label)
        return self.entries[label]

    def step(self, meant: int | Rule) -> None:
        """Carries out a step."""
        if isinstance(meant, int):
            self.stack.append(meant)
            return
        self.left -= 1
        if self.left < 0 or meant.tree < 0:
            raise Unfit
        stack, count = self.stack, len(meant.hypotheses)
        entries = stack[len(stack) - count :]
        del stack[len(stack) - count :]
        if meant.is_logical:
            stack.append(~self.cited(meant, entries))
            return
        if entries and min(entries) < 0:
            raise Unfit
        trees, form = self.rules.trees, meant.form
        if form is not None:
            tree = trees.made((form, *entries))
        else:
            tree = trees.instance(self.rules.code(meant), entries)
        self.proof.built.setdefault(tree, meant.number)
        stack.append(tree)

    def cited(self, rule: Rule, entries: list[int]) -> int:
        """The formula that a citation proves."""
        filled: list[int] = []
        premises: list[int] = []
        for one, entry in zip(rule.hypotheses, entries):
            if (entry < 0) == one.is_floating:
                raise Unfit
            (filled if one.is_floating else premises).append(entry)
        code = self.rules.code(rule)
        self.left -= len(code) // 8
        tree = self.rules.trees.instance(code, filled)
        if tree not in self.proof.given and ~tree not in premises:
            trees = tuple(entry if entry >= 0 else ~entry for entry in entries)
            step = Step(rule.number, trees, tuple(~entry for entry in premises))
            self.proof.steps.setdefault(tree, {})[step] = None
        return tree


def run(rules: Rules, numbers: dict[str, int], theorem: Rule, words: Sequence[str]) -> Proof:
    """Carries out a proof that is valid. Unfit where it isn't of the kind that is changed."""
    return Machine(rules, numbers, theorem).run(theorem, words)
