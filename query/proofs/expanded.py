"""How many steps proofs would have if the theorems that they cite were expanded, and those that
these cite, down to axioms.

It is counted as metamath.exe's `show trace_back T /count_steps` does. A hypothesis and an axiom are
a step, with what builds formulas. A theorem is as many as its own proof, less one for each of its
mandatory hypotheses: the steps for these stand before it already. What repeats a marked step of a
compressed proof is none. So a part that a proof has once counts once, also where it is used again.
"""

from __future__ import annotations

import re
from collections import Counter
from collections.abc import Mapping, Sequence
from dataclasses import dataclass
from functools import cached_property

from query.platform import progress
from query.proofs.lengths import proof_in
from query.proofs.letters import number_of
from query.texts.assertions import Assertion
from query.texts.text import Text
from query.texts.uncommented import without_comments

NUMBER = re.compile(rb"[U-Y]*[A-T]")
MOST_DIGITS = 1000
"""A count that has more isn't carried on: by theorems that cite the one before twice, its digits
grow with the file, and what they cost with the square of it."""
LIMIT: int = 10**MOST_DIGITS
TOO_LONG = f"more than {MOST_DIGITS} digits"
"""What is told in place of such a count."""


@dataclass(frozen=True)
class Uses:
    """What a proof has: how often each theorem, and how many steps that aren't of theorems. `given`
    is how many mandatory hypotheses the theorem itself has."""

    given: int
    others: int
    theorems: dict[str, int]


class Expanded:
    """Counts the expanded steps of theorems."""

    def __init__(self, text: Text) -> None:
        self.text = text
        self.uses: dict[str, Uses] = {}
        self.known: dict[str, int | None] = {}

    @cached_property
    def most(self) -> int:
        """How many theorems have a proof."""
        return sum(one.letter == "p" for one in self.text.assertions)

    @cached_property
    def bare_text(self) -> bytes:
        """The text without comments."""
        return without_comments(self.text.data)

    def count(self, label: str) -> int | None:
        """How many steps the proof of a theorem would have; None where that has too many digits, or
        what a theorem has that it rests on."""
        new = self.new_below(label)
        for each in sorted(new, key=lambda each: self.text.by_label[each].number):
            self.known[each] = self.sum(self.uses[each])
        return self.known[label]

    def sum(self, uses: Uses) -> int | None:
        """The same of one proof, where it is known of all that it cites."""
        total = uses.others
        for label, times in uses.theorems.items():
            steps = self.known[label]
            if steps is None:
                return None
            total += times * (steps - self.uses[label].given)
        return total if -LIMIT < total < LIMIT else None

    def new_below(self, label: str) -> set[str]:
        """A theorem, and all that it rests on through citations, as far as it isn't known of them.
        Reads their proofs."""
        found = set() if label in self.known else {label}
        left = list(found)
        while left:
            one = left.pop()
            if len(self.uses) % progress.STEP == 0:
                progress.now(f"reading proofs, {len(self.uses)} of at most {self.most} are done")
            self.uses[one] = self.uses_of(self.text.by_label[one])
            cited = self.uses[one].theorems
            new = {each for each in cited if each not in self.known and each not in found}
            found |= new
            left += new
        return found

    def uses_of(self, one: Assertion) -> Uses:
        """What the proof of a theorem has."""
        given = [each.label for each in one.frame().hypotheses()]
        proof = proof_in(self.bare_text, one)
        words, is_compressed, letters = proof.partition(b")")
        labels = words.decode("latin-1").split()
        if is_compressed:
            names = [*given, *labels[1:]]
            times = numbered(names, Counter(NUMBER.findall(b"".join(letters.split()))))
        else:
            times = Counter(labels)
        theorems = {label: count for label, count in times.items() if self.is_theorem(label)}
        return Uses(len(given), sum(times.values()) - sum(theorems.values()), theorems)

    def is_theorem(self, label: str) -> bool:
        """Whether a label is that of a theorem which has a proof; otherwise it is an axiom's, an
        open theorem's, or a hypothesis's."""
        one = self.text.find(label)
        return one is not None and one.letter == "p"


def numbered(names: Sequence[str], numbers: Mapping[bytes, int]) -> dict[str, int]:
    """How often each label is used that has a number, and not a marked step."""
    found: dict[str, int] = {}
    for letters, times in numbers.items():
        number = number_of(letters.decode("latin-1"))
        if number < len(names):
            found[names[number]] = found.get(names[number], 0) + times
    return found
