"""Which variables a proof needs to be distinct that aren't: at the step for which it is refused,
and at those behind it."""

from __future__ import annotations

from collections.abc import Iterable, Iterator, Mapping
from contextlib import suppress
from functools import cached_property

from query.proofs.explanation import Clash, Missing, Variables
from query.proofs.mismatches import mismatch_of
from query.proofs.replay import (
    COST_OF_STEP,
    MARK,
    Budget,
    Formula,
    Replay,
    Rest,
    Rule,
    TooLong,
)

MOST_MISSING = 1000
"""So many pairs of variables are found of a proof."""


class Apart:
    """Which variables are distinct at a theorem, by the words of the `$d` that are active there. To
    look at a pair counts for as many symbols as a step."""

    def __init__(
        self, distinct: Iterable[bytes], variables: frozenset[str], budget: Budget
    ) -> None:
        self.distinct = distinct
        self.variables = variables
        self.budget = budget

    @cached_property
    def sets(self) -> dict[str, list[frozenset[str]]]:
        """For each variable the `$d` that have it."""
        found: dict[str, list[frozenset[str]]] = {}
        for words in self.distinct:
            names = frozenset(words.decode("latin-1").split())
            self.budget.take(len(names))
            for name in names:
                found.setdefault(name, []).append(names)
        return found

    def of(self, formula: Formula) -> list[str]:
        """The variables of a formula, each once, in its order."""
        self.budget.take(len(formula))
        return [symbol for symbol in dict.fromkeys(formula) if symbol in self.variables]

    def lacking(self, one: Formula, other: Formula) -> Iterator[Variables]:
        """Each variable that both have, and the pairs of others of which no `$d` has both."""
        self.budget.take(COST_OF_STEP)
        left, right = self.of(one), self.of(other)
        common = {*left} & {*right}
        yield from ((name,) for name in left if name in common)
        for name in left:
            self.budget.take(len(right))
            others = {*right} - {name}
            for each in self.sets.get(name, ()):
                self.budget.take(len(others) + 1)
                others -= each
            yield from ((name, each) for each in right if each in others)


def clashes(rule: Rule, values: Mapping[str, Formula], apart: Apart) -> Iterator[Clash]:
    """The pairs of variables that must be distinct, and for which something stands that isn't."""
    for one, other in rule.frame.pairs():
        both = values[one], values[other]
        variables = next(apart.lacking(*both), None)
        if variables is not None:
            yield Clash((one, other), both, variables)


def missing_from(replay: Replay, rest: Rest, apart: Apart, first: Variables) -> Missing:
    """What is lacking from the faulty step on, each once, the first that is known first; as far as
    the steps behind it have no other fault, and the budget lets it be found."""
    found = {frozenset(first): first}
    is_all = False
    with suppress(TooLong, LookupError):
        for number in rest.numbers:
            if MARK < number < len(rest.labels):
                see_step(replay, rest.labels[number], apart, found)
            replay.carry_out(rest.labels, [number])
        is_all = rest.is_whole
    return Missing(tuple(found.values()), None if is_all else replay.count + 1)


def see_step(
    replay: Replay, label: str, apart: Apart, found: dict[frozenset[str], Variables]
) -> None:
    """Adds what is lacking at the next step, which has this label. LookupError where it has another
    fault, and TooLong where too much is lacking."""
    rule = replay.rule(label)
    if rule is None:
        return
    entries = replay.entries(rule)
    values = rule.values(entries)
    if mismatch_of(replay, rule, entries, values) is not None:
        raise LookupError
    for one, other in rule.frame.pairs():
        for variables in apart.lacking(values[one], values[other]):
            found.setdefault(frozenset(variables), variables)
            if len(found) == MOST_MISSING:
                raise TooLong
