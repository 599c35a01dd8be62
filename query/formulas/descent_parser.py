"""Trees of formulas, by a grammar in which no formula of a typecode begins a longer one of it.

By such a grammar a part of a typecode that begins at a place of a formula can end in one way only.
So parts are read from left to right, each once, where `query/formulas/grammar.py` follows several
ways side by side. `query/formulas/ambiguity.py` proves of a grammar that it is of this kind, and
that each formula has one tree at the most: so a tree that is found here is the one. By an example:

    descent = Descent.of(grammar)          # None where the grammar isn't known to be of this kind
    descent.parts("wff", ["(", "$wff", "->", "$wff", ")"])          # [("wff", 0, 5)]

A token `$wff` stands for a variable or a part of typecode wff; no symbol has a `$`.
"""

from __future__ import annotations

from collections.abc import Sequence

from query.formulas.ambiguity import Comparison, GivenUp
from query.formulas.grammar import MOST_STEPS, STEPS, STEPS_OF_SYMBOL, Grammar, Node

Spot = tuple[str, int]
"""A typecode, and a place where a part of it may begin."""
Span = tuple[str, int, int]
"""The typecode of a part, where it begins, and the place behind it."""
Way = tuple[Node, int, tuple[Spot, ...]]
"""How an axiom may go on: what may follow, at which place, and the parts before it."""
OF_TYPECODE = "$"
AT_END = "$"
"""The token behind the last one."""


class Descent:
    """A grammar whose formulas are read from left to right."""

    def __init__(self, grammar: Grammar) -> None:
        self.roots = grammar.roots
        self.firsts: dict[str, frozenset[str]] = {}
        """For each typecode the tokens with which a part of it can begin."""
        for typecode in grammar.roots:
            self.find_firsts(typecode)

    @classmethod
    def of(cls, grammar: Grammar) -> Descent | None:
        """That of a grammar; None where this isn't known to be of the kind that it needs."""
        if grammar.has_empty or grammar.equal:
            return None
        try:
            found = Comparison(grammar, turned=False).answer()
        except GivenUp:
            return None
        return cls(grammar) if found.is_unambiguous else None

    def find_firsts(self, typecode: str) -> None:
        """Finds the tokens with which a part of a typecode can begin. None begins with a part of
        its own typecode, so this comes to an end."""
        left = [typecode]
        while left:
            one = left[-1]
            root = self.roots.get(one)
            below = [] if root is None else [each for each in root.parts if each not in self.firsts]
            if below:
                left += below
                continue
            tokens = {OF_TYPECODE + one}
            if root is not None:
                tokens.update(root.symbols, *map(self.firsts.__getitem__, root.parts))
            self.firsts[one] = frozenset(tokens)
            left.pop()

    def parts(self, typecode: str, tokens: Sequence[str]) -> list[Span] | None:
        """The parts of a formula that axioms build, the formula itself first; None where it has no
        tree, or it takes too long to read."""
        reading = Reading(self, tokens)
        return reading.spans((typecode, 0)) if reading.read(typecode) else None


class Reading:
    """One formula."""

    def __init__(self, descent: Descent, tokens: Sequence[str]) -> None:
        self.roots, self.firsts = descent.roots, descent.firsts
        self.tokens = (*tokens, AT_END)
        self.ends: dict[Spot, int | None] = {}
        """Where the part ends that begins at a spot; None where none does."""
        self.below: dict[Spot, tuple[Spot, ...]] = {}
        """The parts of a part that an axiom builds."""
        self.begun: list[tuple[Spot, list[Way]]] = []
        """The parts that are being read, each in the one before it, with the ways to go on, of
        which the last is the next."""

    def read(self, typecode: str) -> bool:
        """Whether the formula has a tree of this typecode."""
        whole, last = (typecode, 0), len(self.tokens) - 1
        if not self.knows(whole):
            self.begun.append((whole, [(self.roots[typecode], 0, ())]))
        for _ in range(min(MOST_STEPS, STEPS + STEPS_OF_SYMBOL * last)):
            if not self.begun:
                break
            self.go_on(*self.begun[-1])
        return not self.begun and self.ends[whole] == last

    def knows(self, spot: Spot) -> bool:
        """Whether it is known where the part at a spot ends. The token there may say so."""
        typecode, place = spot
        token = self.tokens[place]
        if token not in self.firsts.get(typecode, ()):
            self.ends[spot] = None
        elif token == OF_TYPECODE + typecode:
            self.ends[spot] = place + 1
        return spot in self.ends

    def go_on(self, spot: Spot, left: list[Way]) -> None:
        """Goes on with the part that was begun last, by one token or part."""
        if not left:
            self.ends[spot] = None
            self.begun.pop()
            return
        node, place, below = left[-1]
        if node.rule is not None:
            self.ends[spot], self.below[spot] = place, below
            self.begun.pop()
            return
        ends = self.ends
        for typecode in node.parts:
            under = (typecode, place)
            if under not in ends and not self.knows(under):
                self.begun.append((under, [(self.roots[typecode], place, ())]))
                return
        left.pop()
        for typecode, after in node.parts.items():
            end = ends[typecode, place]
            if end is not None:
                left.append((after, end, (*below, (typecode, place))))
        behind = node.symbols.get(self.tokens[place])
        if behind is not None:
            left.append((behind, place + 1, below))

    def spans(self, root: Spot) -> list[Span]:
        """The parts within a part that axioms build, itself first."""
        found: list[Span] = []
        left = [root]
        while left:
            spot = left.pop()
            if spot in self.below:
                end = self.ends[spot]
                assert end is not None
                found.append((*spot, end))
                left += self.below[spot]
        return found
