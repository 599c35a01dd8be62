"""What is told of a proof that was refused: what a person needs to mend it, in words and as fields
of a table.

A formula is a list of symbols until it is told. A person gets it cut where it is long. A program
gets it whole, or not at all where it is very long.
"""

from __future__ import annotations

from collections.abc import Iterable, Iterator, Sequence
from dataclasses import dataclass
from itertools import islice
from typing import NamedTuple

from query.answers.excerpts import cut, cut_both
from query.answers.output import Value
from query.platform import limits
from query.proofs.letters import letters_of
from query.proofs.replay import Entry, Formula, Step
from query.texts.assertions import Hypothesis, Pair

SHOWN_FORMULA = 300
"""How many characters of a formula are shown."""
SHOWN_NAME = 100
"""How many characters of a label or of a variable are shown."""
SHOWN_PAIRS = 20
"""How many pairs of variables are shown that lack a `$d`, and how many other faulty steps."""
MOST_TAKEN = 100
"""Of so many hypotheses of a step it is told what stands there."""
WIDEST = 20
"""The formulas of steps are aligned behind labels of so many characters at the most."""
SYMBOLS_BEFORE = 10
"""So many symbols of very long formulas are shown before the one in which they differ."""

Variables = tuple[str, ...]
"""One that two formulas have, or two that aren't distinct."""
Line = tuple[str, str]
"""Of what something is told, and what; together they read as a sentence."""


@dataclass(frozen=True)
class Mismatch:
    """A hypothesis that an entry doesn't fit. `wanted` is the hypothesis under the substitution; a
    `$f` is as it stands in the text."""

    hypothesis: Hypothesis
    wanted: Formula
    entry: Entry

    def lines(self, most: int) -> Iterator[Line]:
        """In words."""
        wanted, found = both_in_words(self.wanted, self.entry.formula, most)
        formula = cut(self.hypothesis.formula, most)
        yield "its hypothesis", f"{name(self.hypothesis.label)}, {formula}"
        yield "it wants", wanted
        yield f"step {self.entry.step} has", found


@dataclass(frozen=True)
class Missing:
    """What is lacking at a faulty step and at those behind it, each once. `unseen` is the step from
    which on it isn't known; None where it is of all steps."""

    found: tuple[Variables, ...] = ()
    unseen: int | None = None

    def advice(self) -> str:
        """What to do about it. A `$d` of one variable twice can't be."""
        pairs = [f"$d {' '.join(sorted(map(name, each)))} $." for each in self.found if each[1:]]
        common = [name(each[0]) for each in self.found if not each[1:]]
        said = []
        if pairs:
            said.append(f"add `{several(pairs, ' ', '`')} to the theorem, or use other variables")
        if common:
            said.append(
                f"use another variable in place of {several(common, ' and ')} on one side: no `$d`"
                " helps there"
            )
        if self.unseen is not None:
            said.append(f"what the steps from {self.unseen} on lack isn't known")
        return "; ".join(said)


class Wrong(NamedTuple):
    """A step whose hypothesis what stands there doesn't fit: its number, what it cites, and the
    labels of that hypothesis."""

    step: int
    cited: str
    hypothesis: str


@dataclass(frozen=True)
class Others:
    """The other steps of a proof that are faulty in this way, as far as it is known what the steps
    before them say. `unseen` is the step from which on it isn't; None where it is of all steps."""

    found: tuple[Wrong, ...] = ()
    unseen: int | None = None

    def lines(self) -> Iterator[Line]:
        """In words; nothing where there are none."""
        said = [
            f"{each.step}, {name(each.cited)} at {name(each.hypothesis)}" for each in self.found
        ]
        if said:
            more = f"; the steps from {self.unseen} on aren't judged" if self.unseen else ""
            yield "also wrong are", several(said, "; ") + more


def several(words: Sequence[str], between: str, behind: str = "") -> str:
    """Some of the words, and how many more there are."""
    more = f" and {len(words) - SHOWN_PAIRS} more" if len(words) > SHOWN_PAIRS else ""
    return between.join(words[:SHOWN_PAIRS]) + behind + more


def name(word: str) -> str:
    """A label or a variable for a person."""
    return cut(word, SHOWN_NAME)


@dataclass(frozen=True)
class Clash:
    """Two variables that must be distinct, and what stands for them, without typecodes. `variables`
    is one that both of these have, or a pair that no active `$d` has. `missing` has all that the
    step and those behind it lack."""

    pair: Pair
    values: tuple[Formula, Formula]
    variables: Variables
    missing: Missing = Missing()

    def lines(self, most: int) -> Iterator[Line]:
        """In words."""
        names = [name(each) for each in self.pair]
        lacking = [name(each) for each in self.variables]
        yield "its $d has", " and ".join(names)
        for variable, value in zip(names, self.values):
            yield f"in place of {variable}", in_words(value, most)
        yield "no active $d has" if len(lacking) > 1 else "both have", " and ".join(lacking)


@dataclass(frozen=True)
class Number:
    """A number of a compressed proof that is too large, from 0, and how many hypotheses, labels in
    brackets and marks there are for which a number may stand."""

    number: int
    hypotheses: int
    labels: int
    marks: int

    @property
    def count(self) -> int:
        """How many numbers may stand there."""
        return self.hypotheses + self.labels + self.marks

    def line(self, step: int | None) -> Line:
        """In words."""
        largest = "there are none"
        if self.count:
            largest = f"the largest is {letters_of(self.count - 1)}, {self.count}"
        parts = (
            counted(self.hypotheses, "hypothesis", "hypotheses"),
            counted(self.labels, "label", "labels"),
            counted(self.marks, "Z", "Z"),
        )
        said = f"{letters_of(self.number)} at step {step} is {self.number + 1}; {largest}"
        return "the number", f"{said}: {', '.join(parts)}"


def counted(count: int, one: str, several: str) -> str:
    """How many things there are, in words."""
    return f"{count} {one if count == 1 else several}"


@dataclass(frozen=True)
class Explanation:
    """Why a proof is refused. `step` is the number of the faulty step and `cited` its label; None
    where the end is faulty. `last` are the steps before that, and those of the last entries where
    the stack has too many at the end. `entries` is how many entries the stack has, `pushed` which
    steps pushed the last ones, `taken` how many the step takes. `proved` and `says` are what the
    proof proves and what its theorem says. `takes` has what stands for the hypotheses of the step,
    and `others` the other faulty steps. `size` is how many symbols the formula of the step has.
    `number` is that of a step that is too large. Where `is_too_long`, the steps weren't carried
    out."""

    step: int | None = None
    cited: str | None = None
    last: tuple[Step, ...] = ()
    entries: int | None = None
    pushed: tuple[int, ...] = ()
    taken: int | None = None
    mismatch: Mismatch | None = None
    clash: Clash | None = None
    proved: Formula | None = None
    says: Formula | None = None
    size: int | None = None
    number: Number | None = None
    takes: tuple[tuple[Hypothesis, Entry], ...] = ()
    others: Others = Others()
    is_too_long: bool = False

    def lines(self, most: int = SHOWN_FORMULA) -> Iterator[Line]:
        """In words, but for the steps."""
        if self.cited is not None:
            yield "the step", f"{self.step}, {name(self.cited)}"
        if self.entries is not None:
            yield "the stack", self._stack_in_words(self.entries)
        for fault in (self.mismatch, self.clash):
            if fault is not None:
                yield from fault.lines(most)
        yield from self.others.lines()
        if self.proved is not None and self.says is not None:
            one, other = both_in_words(self.proved, self.says, most)
            yield "the proof proves", one
            yield "the theorem says", other
        elif self.says is not None:
            yield "the theorem says", in_words(self.says, most)
        if self.size is not None:
            yield "its formula", f"has {self.size} symbols"
        if self.number is not None:
            yield self.number.line(self.step)
        if self.is_too_long:
            yield "the formulas", "are too long to show"

    def _stack_in_words(self, entries: int) -> str:
        if self.taken is not None:
            return f"has {entries} of the {self.taken} entries that it takes"
        last = "the last " if len(self.pushed) < entries else ""
        return f"has {entries} entries, {last}of the steps {', '.join(map(str, self.pushed))}"

    def advice(self) -> str | None:
        """What to do; None where nothing better is known than of all faults of this code."""
        return None if self.clash is None else self.clash.missing.advice()

    def clause(self, most: int) -> str:
        """The same in a line; "" where there is nothing to tell."""
        return "; ".join(" ".join(line) for line in self.lines(most))

    def step_lines(self) -> list[str]:
        """The steps before, aligned."""
        return aligned((each.number, each.label, each.formula) for each in self.last)

    def taken_lines(self) -> list[str]:
        """For each hypothesis of the step the number of the step that stands for it, its label, and
        what stands there; aligned."""
        taken = self.takes[:MOST_TAKEN]
        return aligned((entry.step, given.label, entry.formula) for given, entry in taken)

    def formulas(self) -> tuple[str | None, str | None]:
        """What stands there, and what is wanted, for a program."""
        if self.mismatch is not None:
            return text_of(self.mismatch.entry.formula), text_of(self.mismatch.wanted)
        return text_of(self.proved), text_of(self.says)

    def fields(self) -> list[Value]:
        """The step, what it cites, the label of the hypothesis, the two variables, what stands for
        each, the variables that are lacking, the steps before, all that is lacking, what stands for
        each hypothesis, and the other faulty steps, for a program."""
        label = None if self.mismatch is None else self.mismatch.hypothesis.label
        steps = [
            f"{each.number} {each.label} {in_words(each.formula, SHOWN_FORMULA)}"
            for each in self.last
        ]
        clash: list[Value] = [None] * 4
        if self.clash is not None:
            values = map(text_of, self.clash.values)
            clash = [list(self.clash.pair), *values, list(self.clash.variables)]
        missing = () if self.clash is None else self.clash.missing.found
        lacking = [" ".join(each) for each in missing]
        takes = [
            f"{entry.step} {given.label} {in_words(entry.formula, SHOWN_FORMULA)}"
            for given, entry in self.takes[:MOST_TAKEN]
        ]
        others = [f"{each.step} {each.cited} {each.hypothesis}" for each in self.others.found]
        lists = (steps, lacking, takes, others)
        return [self.step, self.cited, label, *clash, *(each or None for each in lists)]


def aligned(rows: Iterable[tuple[int, str, Formula]]) -> list[str]:
    """Lines with a number, a label and a formula each."""
    told = [(str(number), name(label), formula) for number, label, formula in rows]
    wide = max((len(number) for number, _, _ in told), default=0)
    width = min(max((len(label) for _, label, _ in told), default=0), WIDEST)
    return [
        f"{number:>{wide}}  {label:<{width}}  {in_words(formula, SHOWN_FORMULA)}"
        for number, label, formula in told
    ]


def text_of(formula: Formula | None) -> str | None:
    """The symbols of a formula apart by one space; None where it is very long, or there is none."""
    if formula is None or sum(map(len, formula)) + len(formula) > limits.EXPLAINED_FORMULA:
        return None
    return " ".join(formula)


def in_words(formula: Formula, most: int, begin: int = 0) -> str:
    """A formula for a person, from a symbol on."""
    symbols: list[str] = []
    left = most
    for symbol in islice(formula, begin, None):
        symbols.append(symbol)
        left -= len(symbol) + 1
        if left < 0:
            break
    text = cut(" ".join(symbols), most)
    has_more = begin + len(symbols) < len(formula) and not text.endswith(" ..")
    dots = ".. " if begin else "", " .." if has_more else ""
    return f"{dots[0]}{text}{dots[1]}" or "nothing"


def both_in_words(one: Formula, other: Formula, most: int) -> tuple[str, str]:
    """Two formulas that differ, for a person; where they are long, from a little before the place
    where they differ on."""
    texts = text_of(one), text_of(other)
    if texts[0] is not None and texts[1] is not None:
        return cut_both(texts[0], texts[1], most)
    pairs = enumerate(zip(one, other))
    differ = next((place for place, (a, b) in pairs if a != b), min(len(one), len(other)))
    begin = max(0, differ - SYMBOLS_BEFORE)
    return in_words(one, most, begin), in_words(other, most, begin)
