"""Formulas as trees. Equal trees are one number, so a formula in which a part stands a million
times takes no more room than its parts.

The head of a tree is a form (0 or more), whose places its parts fill; or it is a variable, as
`~number`. The parts of a tree have lesser numbers than the tree itself. By an example:

    trees = Trees()
    p = trees.made((~0,))              # variable 0
    trees.made((4, p, p))              # form 4 with p in both places
"""

from __future__ import annotations

from collections.abc import Callable, Mapping, Sequence

Key = tuple[int, ...]
"""The head of a tree and its parts."""
Code = tuple[tuple[int, int], ...]
"""A pattern, part before whole: a head and the number of its parts; or `~slot` and `SLOT`."""
Binding = dict[int, int]
"""For variables of a pattern the trees that stand for them."""

SLOT = -1
"""Stands in a pattern in place of the number of parts."""


class Trees:
    """All trees."""

    def __init__(self) -> None:
        self.heads: list[int] = []
        self.parts: list[tuple[int, ...]] = []
        self.table: dict[Key, int] = {}
        self._variables: dict[int, int] = {}

    def __len__(self) -> int:
        return len(self.heads)

    def made(self, key: Key) -> int:
        """The tree of this head and these parts."""
        found = self.table.get(key)
        if found is None:
            found = self.table[key] = len(self.heads)
            self.heads.append(key[0])
            self.parts.append(key[1:])
        return found

    def forget(self, first: int) -> None:
        """Forgets this tree and all that were made since."""
        for tree in range(first, len(self.heads)):
            del self.table[(self.heads[tree], *self.parts[tree])]
            self._variables.pop(tree, None)
        del self.heads[first:]
        del self.parts[first:]

    def variables(self, tree: int) -> int:
        """The variables of a tree, as the bits of a number."""
        known, left = self._variables, [tree]
        while left:
            one = left[-1]
            if one in known:
                left.pop()
                continue
            if self.heads[one] < 0:
                known[one] = 1 << ~self.heads[one]
                continue
            unknown = [part for part in self.parts[one] if part not in known]
            if unknown:
                left += unknown
                continue
            known[one] = 0
            for part in self.parts[one]:
                known[one] |= known[part]
        return known[tree]

    def code(self, tree: int, variables: Sequence[int]) -> Code:
        """The pattern that a tree is, with a slot for each of these variables, in their order."""
        slot_of = {variable: slot for slot, variable in enumerate(variables)}
        return tuple(
            (~slot_of[~head], SLOT) if head < 0 else (head, count)
            for head, count in self.open_code(tree)
        )

    def open_code(self, tree: int) -> Code:
        """The pattern that a tree is, in which each variable is a slot of its own number."""
        found: list[tuple[int, int]] = []
        left = [tree]
        while left:
            one = left.pop()
            head, parts = self.heads[one], self.parts[one]
            found.append((head, SLOT) if head < 0 else (head, len(parts)))
            left += parts
        return tuple(reversed(found))

    def instance(self, code: Code, filled: Sequence[int] | Mapping[int, int]) -> int:
        """The tree of a pattern whose slots are all filled."""
        tree = self._built(code, filled, self.made)
        assert tree is not None
        return tree

    def known_instance(self, code: Code, filled: Sequence[int] | Mapping[int, int]) -> int | None:
        """The same; None where there is no such tree yet."""
        return self._built(code, filled, self.table.get)

    def _built(
        self,
        code: Code,
        filled: Sequence[int] | Mapping[int, int],
        made: Callable[[Key], int | None],
    ) -> int | None:
        """The tree of a pattern, each of its parts made in this way."""
        stack: list[int] = []
        for head, count in code:
            if count < 0:
                stack.append(filled[~head])
                continue
            tree = made((head, *stack[len(stack) - count :]))
            if tree is None:
                return None
            del stack[len(stack) - count :]
            stack.append(tree)
        return stack[0]

    def match(self, pattern: int, tree: int, binding: Binding) -> list[int] | None:
        """Binds what of a pattern's variables isn't bound yet, so that it becomes a tree. Returns
        which these are; None, and binds nothing, where it can't become that."""
        heads, parts = self.heads, self.parts
        new: list[int] = []
        left = [(pattern, tree)]
        while left:
            one, other = left.pop()
            head = heads[one]
            if head < 0:
                known = binding.get(~head)
                if known is None:
                    binding[~head] = other
                    new.append(~head)
                    continue
                if known == other:
                    continue
            elif heads[other] == head:
                left += zip(parts[one], parts[other])
                continue
            for variable in new:
                del binding[variable]
            return None
        return new
