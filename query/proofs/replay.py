"""A proof that was refused, carried out up to the step that is faulty, or to its end.

The steps are carried out without being judged: the program did that, and refused one of them, or
the end. They are counted as metamath.exe's `show proof T /all` does: each label of a normal proof
is a step, and each number of a compressed one, also a number that repeats an earlier step.
"""

from __future__ import annotations

import re
from collections import deque
from collections.abc import Callable, Iterable, Mapping, Sequence
from dataclasses import dataclass
from typing import NamedTuple

from query.platform import limits
from query.proofs.letters import numbers_of
from query.texts.assertions import Assertion, Frame

Formula = list[str]
"""Symbols, the typecode first."""
LAST_STEPS = 5
"""So many steps are shown."""
COST_OF_STEP = 10
"""How many symbols a step counts for, besides those that it writes."""
MARK = -1
"""Stands for a `Z`."""
WORD = re.compile(rb"\S+")
LETTERS = re.compile(rb"[A-Z\s]*+")
OTHERS = re.compile(rb"[?$]")
"""What isn't of a step in a normal proof."""
MOST_LETTERS = 100
"""Of a number that is shown; those that stand for something have far less."""
SPREAD = re.compile(rb"(?:[U-Y]\s*)*[A-T]")
"""A number with white space between its letters."""


class TooLong(Exception):
    """The formulas of proofs have too many symbols."""


class Budget:
    """How many symbols may still be read and written."""

    def __init__(self, left: int) -> None:
        self.left = left

    def take(self, count: int) -> None:
        """Counts symbols. TooLong where they are too many."""
        self.left -= count
        if self.left < 0:
            raise TooLong


class Entry(NamedTuple):
    """An entry of the stack, with the number of the step that pushed it, from 1, and its label."""

    formula: Formula
    step: int
    label: str


class Step(NamedTuple):
    """A step that was carried out. `label` is `@N` where it repeats the step N."""

    number: int
    label: str
    formula: Formula


@dataclass(frozen=True)
class Proof:
    """The words of a proof before a place. A number is that of a label from 0: first of those of
    the theorem's hypotheses, where it is compressed, and then of `labels`. Greater ones are of
    marked steps. `faulty` is the number of the step at that place; None at the end of the proof."""

    is_compressed: bool
    labels: list[str]
    numbers: list[int]
    faulty: int | None

    @property
    def count(self) -> int:
        """How many steps there are before that place."""
        return len(self.numbers) - self.numbers.count(MARK)

    def labels_of(self, theorem: Rule, labels: Sequence[str] | None = None) -> list[str]:
        """The labels by their numbers, of the proof of this theorem; of those that stand in it
        other ones, where they are given."""
        given = [each.label for each in theorem.given] if self.is_compressed else []
        return [*given, *(self.labels if labels is None else labels)]


def proof_before(bare_text: bytes, place: int) -> Proof | None:
    """The proof that has a step at this place, or its `$.`, in a text without comments; None where
    it is too long. ValueError where there is none."""
    start = bare_text.rindex(b"$=", 0, place) + len(b"$=")
    if place - start > limits.EXPLAINED_PROOF:
        return None
    words = bare_text[start:place].split()
    if words[:1] != [b"("]:
        return normal(words, WORD.match(bare_text, place))
    close = words.index(b")")
    labels = [word.decode("latin-1") for word in words[1:close]]
    found = SPREAD.match(bare_text, place, place + limits.EXPLAINED_PROOF)
    faulty = None
    if found is not None:
        letters = b"".join(found[0].split())
        if len(letters) > MOST_LETTERS:
            return None
        (faulty,) = numbers_in([letters])
    return Proof(True, labels, numbers_in(words[close + 1 :]), faulty)


class Rest(NamedTuple):
    """What is behind a place of a proof: the labels that stand in the whole proof, the numbers of
    the steps from that place on, and whether these are all."""

    labels: list[str]
    numbers: list[int]
    is_whole: bool


def rest_behind(bare_text: bytes, place: int, before: Proof) -> Rest:
    """What is behind a place of a proof of which it is known what is before. ValueError where the
    proof isn't whole, or too long."""
    end = bare_text.index(b"$.", place)
    whole = proof_before(bare_text, end)
    rest = bare_text[place:end]
    is_whole = LETTERS.fullmatch(rest) if before.is_compressed else OTHERS.search(rest) is None
    if whole is None or not is_whole or before.numbers != whole.numbers[: len(before.numbers)]:
        raise ValueError
    return Rest(whole.labels, whole.numbers[len(before.numbers) :], True)


def normal(words: list[bytes], there: re.Match[bytes] | None) -> Proof:
    """A normal proof of these words, with what stands behind them: a label, or `$.`."""
    labels = [word.decode("latin-1") for word in words]
    numbers = list(range(len(labels)))
    if there is None or there[0] == b"$.":
        return Proof(False, labels, numbers, None)
    return Proof(False, [*labels, there[0].decode("latin-1")], numbers, len(labels))


def numbers_in(words: list[bytes]) -> list[int]:
    """The numbers whose letters these words are, which may be apart anywhere."""
    return numbers_of(b"".join(words).decode("latin-1"))


class Rule:
    """An assertion as a step applies it: its mandatory hypotheses, and its formula."""

    def __init__(self, assertion: Assertion) -> None:
        self.label = assertion.label
        self.frame: Frame = assertion.frame()
        self.given = self.frame.hypotheses()
        self.formula: Formula = assertion.formula.split(" ")

    def values(self, entries: list[Entry]) -> dict[str, Formula]:
        """What the entries of its `$f` give for the variables, without the typecodes."""
        return {
            each.formula.partition(" ")[2]: entry.formula[1:]
            for each, entry in zip(self.given, entries)
            if each.kind == "f"
        }


class Replay:
    """The stack of a proof while its steps are carried out. `rule` gives the assertion of a label,
    None where it is that of a hypothesis, and `floating` what a `$f` says that isn't mandatory."""

    def __init__(
        self,
        theorem: Rule,
        rule: Callable[[str], Rule | None],
        floating: Mapping[str, Formula],
        budget: Budget,
    ) -> None:
        self.rule = rule
        self.floating = floating
        self.budget = budget
        self.given = {each.label: each.formula.split(" ") for each in theorem.given}
        self.stack: list[Entry] = []
        self.marked: list[Entry] = []
        self.count = 0
        self.last: deque[Step] = deque(maxlen=LAST_STEPS)

    def carry_out(self, labels: Sequence[str], numbers: Iterable[int]) -> None:
        """Carries out the steps of these numbers. LookupError where there is nothing for one of
        them, TooLong where their formulas are."""
        for number in numbers:
            if number == MARK:
                self.marked.append(self.stack[-1])
            elif number < len(labels):
                self._push(labels[number], self.formula_of(labels[number]))
            else:
                entry = self.marked[number - len(labels)]
                self._push(f"@{entry.step}", entry.formula)

    def _push(self, label: str, formula: Formula) -> None:
        self.budget.take(COST_OF_STEP)
        self.count += 1
        self.stack.append(Entry(formula, self.count, label))
        self.last.append(Step(self.count, label, formula))

    def formula_of(self, label: str) -> Formula:
        """The formula that a step pushes; its entries are taken from the stack."""
        rule = self.rule(label)
        if rule is None:
            return self.given[label] if label in self.given else self.floating[label]
        entries = self.entries(rule)
        del self.stack[len(self.stack) - len(entries) :]
        return self.replaced(rule.formula, rule.values(entries))

    def entries(self, rule: Rule) -> list[Entry]:
        """The last entries, one for each hypothesis of a rule. LookupError where they are too
        few."""
        if len(self.stack) < len(rule.given):
            raise LookupError
        return self.stack[len(self.stack) - len(rule.given) :]

    def replaced(self, formula: Formula, values: Mapping[str, Formula]) -> Formula:
        """A formula in which variables have their values."""
        self.budget.take(len(formula) + size_of(formula, values))
        found: Formula = []
        for symbol in formula:
            found += values.get(symbol, (symbol,))
        return found


def size_of(formula: Formula, values: Mapping[str, Formula]) -> int:
    """How many symbols a formula has once its variables have their values."""
    return sum(len(values[symbol]) if symbol in values else 1 for symbol in formula)
