"""What follows from rules of the form: this holds if all of those hold."""

from __future__ import annotations

from collections.abc import Hashable, Iterable
from typing import Generic, TypeVar

Fact = TypeVar("Fact", bound=Hashable)


class Clauses(Generic[Fact]):
    """Such rules. A fact may have several, of which one is enough; what has none doesn't hold."""

    def __init__(self) -> None:
        self.heads: list[Fact] = []
        self.lacking: list[int] = []
        """For each rule how many of its conditions aren't known to hold."""
        self.waiting: dict[Fact, list[int]] = {}

    def add(self, head: Fact, conditions: Iterable[Fact]) -> None:
        """Adds a rule."""
        distinct = dict.fromkeys(conditions)
        for each in distinct:
            self.waiting.setdefault(each, []).append(len(self.heads))
        self.heads.append(head)
        self.lacking.append(len(distinct))

    def implied(self) -> set[Fact]:
        """All that holds: the least that the rules allow, so nothing rests on itself."""
        lacking = [*self.lacking]
        left = [head for head, count in zip(self.heads, lacking) if not count]
        found: set[Fact] = set()
        while left:
            fact = left.pop()
            if fact in found:
                continue
            found.add(fact)
            for number in self.waiting.get(fact, ()):
                lacking[number] -= 1
                if not lacking[number]:
                    left.append(self.heads[number])
        return found
