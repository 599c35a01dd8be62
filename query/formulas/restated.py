"""Which axioms an assertion states that doesn't rest on them, so that they could be left out."""

from __future__ import annotations

from collections.abc import Callable, Container, Iterator, Sequence
from typing import NamedTuple

from query.formulas.syntax import read_as
from query.platform import progress
from query.texts.assertions import Assertion

VARIABLE = "\0"
"""Stands before the typecode and the number of a variable; no symbol has it."""
MOST_STATING = 1000
"""So many assertions that say the same are looked at, since each two of them are compared."""


class Said(NamedTuple):
    """What an assertion says: its hypotheses and its formula, in which each variable is the number
    of its first occurrence, and the pairs of these that have to be distinct."""

    words: str
    pairs: frozenset[frozenset[int]]


def said_by(one: Assertion) -> Said:
    """What an assertion says. Hypotheses count in their order."""
    _, kinds = read_as(one)
    frame = one.frame()
    numbers: dict[str, int] = {}
    words = []
    for formula in (*(each.formula for each in frame.essential()), one.formula):
        for word in formula.split(" "):
            kind = kinds.get(word)
            number = 0 if kind is None else numbers.setdefault(word, len(numbers))
            words.append(word if kind is None else f"{VARIABLE}{kind} {number}")
        words.append(VARIABLE)
    pairs = (frozenset((numbers[name], numbers[other])) for name, other in frame.pairs())
    return Said(" ".join(words), frozenset(pairs))


def restated(
    assertions: Sequence[Assertion], chosen: Container[str], rests: Callable[[str, str], bool]
) -> Iterator[tuple[Assertion, Assertion]]:
    """The axioms that are chosen, in file order, each with the first assertion that states it, asks
    for no more distinct variables, and doesn't rest on it. `rests` says whether one of the first
    label rests on the second."""
    axioms = [one for one in assertions if one.letter == "a" and one.label in chosen]
    said = {one.label: said_by(one) for one in axioms}
    stating: dict[str, list[tuple[Assertion, Said]]] = {each.words: [] for each in said.values()}
    lengths = {one.formula.count(" ") for one in axioms}
    for one in progress.counted(assertions, "comparing statements"):
        if not one.is_open and one.formula.count(" ") in lengths:
            each = said.get(one.label) or said_by(one)
            others = stating.get(each.words)
            if others is not None and len(others) < MOST_STATING:
                others.append((one, each))
    for axiom in axioms:
        own = said[axiom.label]
        for one, each in stating[own.words]:
            if one is not axiom and each.pairs <= own.pairs and not rests(one.label, axiom.label):
                yield axiom, one
                break
