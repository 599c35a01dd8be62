"""Formulas with parts that aren't known yet, and what these have to be where two of them are equal.

A node is a tree, or a form with nodes as its parts, or an unknown of a typecode. Nodes that turn
out to be equal are linked, which can be undone. By an example:

    nodes = Nodes(trees, grammar)
    one = nodes.instance(trees.open_code(pattern), {})     # its variables are unknowns
    if nodes.unify(one, nodes.of(tree), budget):
        found = nodes.tree(one, {})                        # the tree that it is, if it is known
"""

from __future__ import annotations

from collections.abc import Mapping

from query.spare.grammar import Forms
from query.spare.index import Budget
from query.spare.trees import Code, Trees

UNKNOWN = -(1 << 62)
"""The head of an unknown."""
WHOLE = -1
"""Stands for the tree of a node that isn't known to be one."""

NodesOfVariables = dict[int, int]
"""For variables of a statement the nodes that stand for them."""


class Nodes:
    """All nodes of one search."""

    def __init__(self, trees: Trees, grammar: Forms) -> None:
        self.trees = trees
        self.grammar = grammar
        self.heads: list[int] = []
        self.kinds: list[str | None] = []
        self.parts: list[tuple[int, ...] | None] = []  # None for those of a tree, until asked for
        self.whole: list[int] = []  # the tree that a node is, or WHOLE
        self.links: list[int] = []  # the node that stands for a node, or itself
        self.trail: list[int] = []  # the nodes that were linked, in order
        self._node_of: dict[int, int] = {}

    def add(self, head: int, kind: str | None, parts: tuple[int, ...] | None, whole: int) -> int:
        """Adds a node."""
        self.heads.append(head)
        self.kinds.append(kind)
        self.parts.append(parts)
        self.whole.append(whole)
        self.links.append(len(self.links))
        return len(self.links) - 1

    def of(self, tree: int) -> int:
        """The node of a tree."""
        found = self._node_of.get(tree)
        if found is None:
            head, kind = self.trees.heads[tree], self.grammar.typecode(tree)
            found = self._node_of[tree] = self.add(head, kind, None, tree)
        return found

    def unknown(self, kind: str | None) -> int:
        """A new unknown."""
        return self.add(UNKNOWN, kind, (), WHOLE)

    def instance(self, code: Code, node_of_variable: NodesOfVariables) -> int:
        """A pattern, as `open_code` has it, with these nodes for its variables. Variables that have
        none get unknowns."""
        stack: list[int] = []
        for head, count in code:
            if count < 0:
                if ~head not in node_of_variable:
                    node_of_variable[~head] = self.unknown(self.grammar.variables[~head][0])
                stack.append(node_of_variable[~head])
                continue
            parts = tuple(stack[len(stack) - count :])
            del stack[len(stack) - count :]
            stack.append(self.add(head, self.grammar.forms[head].typecode, parts, WHOLE))
        return stack[0]

    def find(self, node: int) -> int:
        """The node to which a node is linked at last."""
        links = self.links
        while links[node] != node:
            node = links[node]
        return node

    def parts_of(self, node: int) -> tuple[int, ...]:
        """The parts of a node."""
        parts = self.parts[node]
        if parts is None:
            parts = self.parts[node] = tuple(map(self.of, self.trees.parts[self.whole[node]]))
        return parts

    def unify(self, one: int, other: int, budget: Budget) -> bool:
        """Makes two nodes equal, if that can be. What was linked stays so where it can't. Whether a
        node would be a part of itself isn't asked here. GivenUp where it takes too long."""
        left = [(one, other)]
        while left:
            one, other = sorted(map(self.find, left.pop()), key=self.rank)
            budget.take(1)
            if one == other:
                continue
            if self.heads[one] == UNKNOWN:
                if self.kinds[one] != self.kinds[other]:
                    return False
            elif self.heads[one] != self.heads[other] or self.whole[one] >= 0:
                return False
            else:
                left += zip(self.parts_of(one), self.parts_of(other), strict=True)
            self.links[one] = other
            self.trail.append(one)
        return True

    def rank(self, node: int) -> int:
        """How much is known of a node: 0 for an unknown, 2 for a tree."""
        return 0 if self.heads[node] == UNKNOWN else 1 if self.whole[node] < 0 else 2

    def undo(self, length: int) -> None:
        """Undoes what was linked since the trail had this length."""
        for node in self.trail[length:]:
            self.links[node] = node
        del self.trail[length:]

    def left(self, node: int) -> list[int]:
        """The unknowns in a node, in the order in which they stand there."""
        found: dict[int, None] = {}
        seen: set[int] = set()
        stack = [node]
        while stack:
            one = self.find(stack.pop())
            if one in seen:
                continue
            seen.add(one)
            if self.heads[one] == UNKNOWN:
                found[one] = None
            elif self.whole[one] < 0:
                stack += reversed(self.parts_of(one))
        return list(found)

    def tree(self, node: int, tree_of_unknown: Mapping[int, int]) -> int | None:
        """The tree that a node is, with these trees for unknowns. None where one isn't among them,
        or the node is a part of itself."""
        done: dict[int, int] = {}
        begun: set[int] = set()
        stack = [node]
        while stack:
            one = self.find(stack[-1])
            if one in done:
                stack.pop()
                continue
            if self.whole[one] >= 0:
                done[one] = self.whole[one]
            elif self.heads[one] == UNKNOWN:
                if one not in tree_of_unknown:
                    return None
                done[one] = tree_of_unknown[one]
            elif one in begun:
                parts = (done[self.find(part)] for part in self.parts_of(one))
                done[one] = self.trees.made((self.heads[one], *parts))
            else:
                begun.add(one)
                parts_left = [self.find(part) for part in self.parts_of(one)]
                if any(part in begun and part not in done for part in parts_left):
                    return None
                stack += parts_left
        return done[self.find(node)]
