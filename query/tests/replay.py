"""A verifier written apart, with which tests compare what is said of refused proofs. It takes a
database whose statements are lawful, and finds for each theorem the first fault of its steps or of
its end. A formula is a text here, in which symbols are apart by one space."""

import re
from collections.abc import Iterator
from contextlib import suppress
from dataclasses import dataclass, field
from functools import cached_property
from itertools import combinations, product
from typing import NamedTuple


@dataclass
class Frame:
    """What is active at an assertion, and what it says."""

    label: str
    formula: str
    floats: list[tuple[str, str, str]]
    """Label, typecode and variable of each active `$f`."""
    essentials: list[tuple[str, str]]
    order: list[str]
    """The labels of all active hypotheses."""
    apart: set[frozenset[str]]
    words: list[str] = field(default_factory=list)

    @cached_property
    def variables(self) -> set[str]:
        """Those of the formula and of the `$e`."""
        said = [self.formula, *(formula for _, formula in self.essentials)]
        names = {name for _, _, name in self.floats}
        return {symbol for formula in said for symbol in formula.split()} & names

    @cached_property
    def mandatory(self) -> list[tuple[str, str, str, str]]:
        """Of each mandatory hypothesis its label, what it says, and for a `$f` its variable and its
        typecode."""
        found = {
            label: (label, f"{typecode} {name}", name, typecode)
            for label, typecode, name in self.floats
            if name in self.variables
        }
        found.update({label: (label, formula, "", "") for label, formula in self.essentials})
        return [found[label] for label in self.order if label in found]


class Clash(NamedTuple):
    """What stands for two variables, and the variables that both have, or the pairs that aren't
    distinct; any may be told."""

    first: str
    second: str
    lacking: list[list[str]]


@dataclass
class Fault:
    """A fault of a proof. What a fault of its code hasn't is as it is here."""

    code: str
    step: int | None = None
    cited: str | None = None
    hypothesis: str | None = None
    proved: str | None = None
    wanted: str | None = None
    clashes: dict[tuple[str, str], "Clash"] = field(default_factory=dict)
    """By the pairs that must be distinct; any may be told."""
    missing: set[frozenset[str]] = field(default_factory=set)
    """What is lacking at this step and at those behind it."""
    unseen: int | None = None
    """The step behind it that has another fault."""
    entries: int = 0
    steps: list[str] = field(default_factory=list)


def frames(text: str) -> Iterator[Frame]:
    """The assertions of a database, in file order; theorems with the words of their proofs."""
    words = iter(re.sub(r"\$\(.*?\$\)", " ", text, flags=re.DOTALL).split())
    blocks: list[list[tuple[str, str, list[str]]]] = [[]]
    label = ""
    for word in words:
        if word == "${":
            blocks.append([])
        elif word == "$}":
            blocks.pop()
        elif not word.startswith("$"):
            label = word
        else:
            said = [*iter(lambda: next(words), "$.")]
            if word in ("$a", "$p"):
                yield frame_of(label, said, [each for block in blocks for each in block])
            else:
                blocks[-1].append((word, label, said))


def frame_of(label: str, said: list[str], active: list[tuple[str, str, list[str]]]) -> Frame:
    """An assertion among what is active there."""
    end = said.index("$=") if "$=" in said else len(said)
    floats = [(name, *words) for kind, name, words in active if kind == "$f"]
    essentials = [(name, " ".join(words)) for kind, name, words in active if kind == "$e"]
    order = [name for kind, name, _ in active if kind in ("$f", "$e")]
    apart = {
        frozenset(pair)
        for kind, _, words in active
        if kind == "$d"
        for pair in combinations(words, 2)
    }
    formula, proof = " ".join(said[:end]), said[end + 1 :]
    return Frame(label, formula, [(a, b, c) for a, b, c in floats], essentials, order, apart, proof)


def faults_of(text: str) -> dict[str, Fault]:
    """The theorems whose proofs have a fault of a step or at the end, and which."""
    known: dict[str, Frame] = {}
    found: dict[str, Fault] = {}
    for frame in frames(text):
        with suppress(LookupError):  # of a proof that can't be read
            fault = Check(frame, known).fault() if frame.words else None
            if fault is not None:
                found[frame.label] = fault
        known[frame.label] = frame
    return found


def wrong_steps(text: str) -> dict[str, list[str]]:
    """For each theorem the steps with a hypothesis that isn't met; none where its proof can't be
    read."""
    known: dict[str, Frame] = {}
    found: dict[str, list[str]] = {}
    for frame in frames(text):
        with suppress(LookupError):
            found[frame.label] = Check(frame, known).wrong_steps() if frame.words else []
        known[frame.label] = frame
    return found


def replaced(formula: str, values: dict[str, str]) -> str:
    """A formula under a substitution."""
    return " ".join(" ".join(values.get(symbol, symbol) for symbol in formula.split()).split())


class Check:
    """A proof, step by step."""

    def __init__(self, frame: Frame, known: dict[str, Frame]) -> None:
        self.frame = frame
        self.known = known
        self.hypotheses = dict(frame.essentials)
        self.hypotheses |= {label: f"{kind} {name}" for label, kind, name in frame.floats}
        self.stack: list[str] = []
        self.told: list[str] = []

    def steps(self) -> Iterator[str]:
        """The labels of the steps; `@N` for one that repeats the step N."""
        if self.frame.words[0] != "(":
            yield from self.frame.words
            return
        close = self.frame.words.index(")")
        labels = [each[0] for each in self.frame.mandatory] + self.frame.words[1:close]
        marks: list[int] = []
        number = count = 0
        for letter in "".join(self.frame.words[close + 1 :]):
            if letter == "Z":
                marks.append(count)
            elif letter > "T":
                number = 5 * number + "TUVWXY".index(letter)
            else:
                number = 20 * number + ord(letter) - ord("A")
                count += 1
                yield (labels + [f"@{mark}" for mark in marks])[number]
                number = 0

    def fault(self) -> Fault | None:
        """The first fault."""
        made: list[str] = []
        pushed: list[int] = []
        first: Fault | None = None
        for count, label in enumerate(self.steps(), 1):
            if label.startswith("@"):
                self.stack.append(made[int(label[1:]) - 1])
            elif label in self.hypotheses:
                self.stack.append(self.hypotheses[label])
            else:
                fault = self.applied(self.known[label])
                if fault is not None and first is None:
                    fault.step, fault.cited, fault.steps = count, label, self.told[-5:]
                    first = fault
                if first is not None and fault is not None:
                    first.missing |= fault.missing
                    first.unseen = count
                if fault is not None and fault.code != "E36":
                    return first
            made.append(self.stack[-1])
            pushed[len(self.stack) - 1 :] = [count]
            self.told.append(f"{count} {label} {self.stack[-1]}")
        if first is not None:
            first.unseen = None
            return first
        if len(self.stack) > 1:
            return self.left_over(pushed)
        proved, wanted = self.stack[0], self.frame.formula
        same = proved == wanted
        return None if same else Fault("E38", proved=proved, wanted=wanted, steps=self.told[-5:])

    def left_over(self, pushed: list[int]) -> Fault:
        """The fault of a stack with several entries, which these steps pushed."""
        last = {*pushed[-5:], *range(len(self.told), max(0, len(self.told) - 5), -1)}
        steps = [self.told[number - 1] for number in sorted(last)]
        return Fault("E37", entries=len(pushed), wanted=self.frame.formula, steps=steps)

    def wrong_steps(self) -> list[str]:
        """Each step with a hypothesis that what stands there doesn't fit, with its label and that
        of the first such hypothesis; up to the first step of which it isn't known what it says."""
        made: list[str] = []
        found: list[str] = []
        for count, label in enumerate(self.steps(), 1):
            if label.startswith("@"):
                self.stack.append(made[int(label[1:]) - 1])
            elif label in self.hypotheses:
                self.stack.append(self.hypotheses[label])
            else:
                given = self.known[label].mandatory
                if len(self.stack) < len(given):
                    return found
                entries = self.stack[len(self.stack) - len(given) :]
                found += self.wrong_at(count, label, entries)
                if any(not self.is_of_kind(*pair) for pair in zip(given, entries)):
                    return found
                del self.stack[len(self.stack) - len(given) :]
                names = (name for _, _, name, _ in given)
                values = {name: e.partition(" ")[2] for name, e in zip(names, entries) if name}
                self.stack.append(replaced(self.known[label].formula, values))
            made.append(self.stack[-1])
        return found

    def is_of_kind(self, given: tuple[str, str, str, str], entry: str) -> bool:
        """Whether something of its typecode stands for the variable of a hypothesis, if it has
        one."""
        return not given[2] or entry.split(" ")[0] == given[3]

    def wrong_at(self, count: int, label: str, entries: list[str]) -> list[str]:
        """The step with its first hypothesis that its entry doesn't fit; none where there is
        none."""
        pairs = list(zip(self.known[label].mandatory, entries))
        values = {name: entry.partition(" ")[2] for (_, _, name, _), entry in pairs if name}
        for given, entry in pairs:
            fits = given[2] or replaced(given[1], values) == entry
            if not fits or not self.is_of_kind(given, entry):
                return [f"{count} {label} {given[0]}"]
        return []

    def applied(self, rule: Frame) -> Fault | None:
        """Applies an assertion. Returns the fault of that."""
        given = rule.mandatory
        if len(self.stack) < len(given):
            return Fault("E34", entries=len(self.stack))
        entries = self.stack[len(self.stack) - len(given) :]
        pairs = list(zip(given, entries))
        values = {name: entry.partition(" ")[2] for (_, _, name, _), entry in pairs if name}
        for (label, says, name, typecode), entry in pairs:
            if name and entry.split(" ")[0] != typecode:
                return Fault("E35", hypothesis=label, proved=entry, wanted=says)
            if not name and replaced(says, values) != entry:
                wanted = replaced(says, values)
                return Fault("E35", hypothesis=label, proved=entry, wanted=wanted)
        clashes, missing = {}, set[frozenset[str]]()
        for one, other in (sorted(pair) for pair in rule.apart if pair <= set(values)):
            lacking = self.lacking(values[one], values[other])
            if lacking:
                clashes[one, other] = Clash(values[one], values[other], lacking)
                missing |= self.missing(values[one], values[other])
        del self.stack[len(self.stack) - len(given) :]
        self.stack.append(replaced(rule.formula, values))
        return Fault("E36", clashes=clashes, missing=missing) if clashes else None

    def missing(self, one: str, other: str) -> set[frozenset[str]]:
        """The variables that both have, and the pairs that aren't distinct at the theorem."""
        names = {name for _, _, name in self.frame.floats}
        left, right = ({*formula.split()} & names for formula in (one, other))
        return {frozenset(pair) for pair in product(left, right)} - self.frame.apart

    def lacking(self, one: str, other: str) -> list[list[str]]:
        """The variables that both have; else the pairs that aren't distinct at the theorem."""
        names = {name for _, _, name in self.frame.floats}
        left, right = ({*formula.split()} & names for formula in (one, other))
        if left & right:
            return [[name] for name in left & right]
        pairs = [*product(left, right), *product(right, left)]
        return [[*pair] for pair in pairs if frozenset(pair) not in self.frame.apart]
