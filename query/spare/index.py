"""An index over trees: which statements have a formula that becomes a given one."""

from __future__ import annotations

from collections.abc import Iterator
from dataclasses import dataclass, field

from query.citations.bits import bits_of, joined
from query.spare.grammar import Forms
from query.spare.trees import Trees

MOST_SINGLY_CHOSEN = 100
"""Up to so many statements with one formula are looked at one by one; of more, the wanted ones are
found by bits."""

Left = tuple[int, "Left | None"]
"""Trees that are still to be matched: the first one, and the others."""
Key = tuple[int, int, int]
"""A head, and those of its first and its last part; -1 where any will do."""
ANY = -1


class GivenUp(Exception):
    """A search takes too long."""


@dataclass(slots=True)
class Budget:
    """How many steps of a search are left."""

    left: int

    def take(self, steps: int) -> None:
        """Takes steps. GivenUp where there are too few left."""
        self.left -= steps
        if self.left < 0:
            raise GivenUp


@dataclass(slots=True)
class Prefix:
    """A place in formulas that begin alike. `slots` are variables by the number of their first
    occurrence, each with its typecode."""

    heads: dict[int, Prefix] = field(default_factory=dict)
    slots: dict[tuple[int, str], Prefix] = field(default_factory=dict)
    statements: list[int] = field(default_factory=list)
    bits: int = 0


class Index:
    """Statements by their formulas. A statement is found with the trees that stand for the
    variables of its formula, in the order of their first occurrence."""

    def __init__(self, trees: Trees, grammar: Forms) -> None:
        self.trees = trees
        self.grammar = grammar
        self.first = Prefix()

    def add(self, statement: int, pattern: int) -> list[int]:
        """Adds a statement. Returns its variables in this order."""
        branch = self.first
        slots: dict[int, int] = {}
        for sign in self.signs(pattern, slots):
            if isinstance(sign, int):
                branch = branch.heads.setdefault(sign, Prefix())
            else:
                branch = branch.slots.setdefault(sign, Prefix())
        branch.statements.append(statement)
        branch.bits = 0
        return list(slots)

    def signs(self, pattern: int, slots: dict[int, int]) -> Iterator[int | tuple[int, str]]:
        """What a pattern has, whole before part: heads, and its variables as slots."""
        left = [pattern]
        while left:
            tree = left.pop()
            head = self.trees.heads[tree]
            if head < 0:
                yield slots.setdefault(~head, len(slots)), self.grammar.variables[~head][0]
            else:
                yield head
                left += reversed(self.trees.parts[tree])

    def alike(self, pattern: int) -> list[int]:
        """The statements whose formula is this one but for the names of variables, in order."""
        branch: Prefix | None = self.first
        for sign in self.signs(pattern, {}):
            if branch is None:
                return []
            branch = branch.heads.get(sign) if isinstance(sign, int) else branch.slots.get(sign)
        return [] if branch is None else branch.statements

    def find(
        self, tree: int, wanted: int, flags: str, budget: Budget
    ) -> list[tuple[int, tuple[int, ...]]]:
        """The statements whose formula becomes a tree, of those wanted: `wanted` has their bits,
        and `flags` a `1` for each of them. GivenUp where that takes too many steps."""
        heads, parts, typecode = self.trees.heads, self.trees.parts, self.grammar.typecode
        found: list[tuple[int, tuple[int, ...]]] = []
        work: list[tuple[Prefix, Left | None, tuple[int, ...]]] = [(self.first, (tree, None), ())]
        while work:
            branch, left, bound = work.pop()
            if left is None:
                found += [(statement, bound) for statement in chosen(branch, wanted, flags)]
                budget.take(min(MOST_SINGLY_CHOSEN, len(branch.statements)))
                continue
            budget.left -= 1 + len(branch.slots)
            one, rest = left
            head = heads[one]
            following = branch.heads.get(head)
            if following is not None:
                more = rest
                for part in reversed(parts[one]):
                    more = (part, more)
                work.append((following, more, bound))
            for (slot, kind), following in branch.slots.items():
                if slot < len(bound):
                    if bound[slot] == one:
                        work.append((following, rest, bound))
                elif typecode(one) == kind:
                    work.append((following, rest, (*bound, one)))
            if budget.left < 0:
                raise GivenUp
        budget.take(len(found))
        return found


def chosen(branch: Prefix, wanted: int, flags: str) -> list[int]:
    """The statements of a branch that are wanted."""
    if len(branch.statements) > MOST_SINGLY_CHOSEN:
        branch.bits = branch.bits or joined(branch.statements)
        return list(bits_of(branch.bits & wanted))
    count = len(flags)
    return [each for each in branch.statements if each < count and flags[each] == "1"]


def pattern_key(trees: Trees, tree: int) -> Key | None:
    """The key of a pattern, None where that is a variable."""
    head = trees.heads[tree]
    if head < 0:
        return None
    parts = trees.parts[tree]
    if not parts:
        return head, ANY, ANY
    return head, max(ANY, trees.heads[parts[0]]), max(ANY, trees.heads[parts[-1]])


def keys_for(trees: Trees, tree: int) -> set[Key]:
    """The keys of all patterns that could become a tree."""
    key = pattern_key(trees, tree)
    if key is None:
        return set()
    head, first, last = key
    return {key, (head, ANY, last), (head, first, ANY), (head, ANY, ANY)}
