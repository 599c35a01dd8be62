"""Hypotheses that a proof uses only to fill hypotheses that are themselves unneeded.

Theorems are looked at in file order, so of what a proof cites it is known already which `$e` it can
do without. A step needs the steps that fill the others, and the `$f` of the variables that are left
then. What isn't needed from the last step on falls away with all that only it used.
"""

from __future__ import annotations

from collections.abc import Iterable, Iterator, Mapping, Sequence
from dataclasses import dataclass, field

from query.platform import progress
from query.proofs.lengths import PROOF
from query.proofs.replay import MARK
from query.proofs.unneeded import Proofs, read, used_of
from query.texts.assertions import Assertion, Hypothesis

EACH = 1000
"""After so many theorems the line of progress is written anew."""


@dataclass
class Without:
    """The theorems that can do without a `$e`, and what steps that cite them still take."""

    hypotheses: dict[str, dict[str, bool]] = field(default_factory=dict)
    """For each such theorem its `$e`, each with whether the proof uses it at all."""
    left: dict[str, tuple[bool, ...]] = field(default_factory=dict)
    """For each of them which mandatory hypotheses are left."""

    def add(self, one: Assertion, given: Sequence[Hypothesis], gone: Mapping[str, bool]) -> None:
        """Adds a theorem with the `$e` that it can do without."""
        self.hypotheses[one.label] = dict(gone)
        formulas = [each.formula for each in given if each.kind == "e" and each.label not in gone]
        symbols = {symbol for each in (one.formula, *formulas) for symbol in each.split(" ")}
        self.left[one.label] = tuple(
            each.label not in gone if each.kind == "e" else each.formula.split(" ")[1] in symbols
            for each in given
        )


@dataclass
class Step:
    """A step of a proof: the number of what it applies, and the steps that it still needs."""

    number: int
    needed: list[Step]
    is_seen: bool = False


def unneeded_through(
    proofs: Proofs, theorems: Iterable[Assertion]
) -> Iterator[tuple[str, dict[str, bool]]]:
    """The theorems that can do without a `$e`, of all in file order, and for each such `$e` whether
    the proof uses it."""
    known = Without()
    sizes: dict[str, int] = {}
    for count, one in enumerate(theorems):
        if count % EACH == 0:
            progress.now(f"reading proofs, {count} theorems are done")
        given = one.frame().hypotheses()
        if not any(each.kind == "e" for each in given):
            continue
        match = PROOF.search(proofs.bare_text, one.place, one.end)
        assert match is not None  # the program has read it
        words = match[1].decode("latin-1").split()
        gone = without(proofs, known, sizes, given, words)
        if gone:
            known.add(one, given, gone)
            yield one.label, known.hypotheses[one.label]


def without(
    proofs: Proofs,
    known: Without,
    sizes: dict[str, int],
    given: Sequence[Hypothesis],
    words: list[str],
) -> dict[str, bool]:
    """The `$e` that a proof doesn't need, each with whether it uses it."""
    essential = [each.label for each in given if each.kind == "e"]
    used = used_of(given, words)
    needed = used
    if not known.left.keys().isdisjoint(words) and not used.isdisjoint(essential):
        labels, numbers = read([*given], words)
        for label in labels:
            if label not in sizes:
                sizes[label] = size_of(proofs, label)
        own = {each.label for each in given}
        needed = {labels[number] for number in needed_of(labels, own, numbers, sizes, known)}
    return {label: label in used for label in essential if label not in needed}


def size_of(proofs: Proofs, label: str) -> int:
    """How many entries a step takes that has a label: none where it is that of a hypothesis."""
    one = proofs.text.find(label)
    return 0 if one is None else len(one.frame().hypotheses())


def needed_of(
    labels: Sequence[str],
    own: set[str],
    numbers: Iterable[int],
    sizes: Mapping[str, int],
    known: Without,
) -> set[int]:
    """The numbers of what is applied by the steps that the last step needs, itself included."""
    stack: list[Step] = []
    marked: list[Step] = []
    for number in numbers:
        if number == MARK:
            marked.append(stack[-1])
        elif number >= len(labels):
            stack.append(marked[number - len(labels)])
        else:
            label = labels[number]
            start = len(stack) - (0 if label in own else sizes[label])
            taken, left = stack[start:], known.left.get(label)
            if left is not None and label not in own:
                taken = [each for each, is_left in zip(taken, left, strict=True) if is_left]
            stack[start:] = [Step(number, taken)]
    found, waiting = set(), stack[-1:]
    while waiting:
        step = waiting.pop()
        if not step.is_seen:
            step.is_seen = True
            found.add(step.number)
            waiting += step.needed
    return found
