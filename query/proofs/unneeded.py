"""What a database asks for although nothing needs it: hypotheses, `$d` conditions, and symbols.

A proof is carried out with nothing but the variables of each formula, as the bits of a number. They
decide which variables the steps want to be distinct, and no formula gets long by that. Bits are
given to those variables alone that a `$d` of the theorem has.
"""

from __future__ import annotations

import json
from collections import deque
from collections.abc import Collection, Iterable, Iterator, Mapping, Sequence
from dataclasses import dataclass, field
from functools import partial
from typing import NamedTuple

from query.platform import progress
from query.platform.parallel import Task, begun, number_at_once
from query.proofs.lengths import PROOF
from query.proofs.letters import numbers_of
from query.proofs.replay import MARK, Budget, TooLong
from query.proofs.text_before import STATEMENT
from query.texts.assertions import Assertion, Hypothesis, Pair
from query.texts.text import Text
from query.texts.uncommented import without_comments

PIECE = 1 << 20
"""The theorems in so many bytes of a text are the work of a process."""
LOOKS, LOOKS_FOR_BYTE = 1000, 100
"""So many looks at entries and at variables, and so many for each byte of a theorem, are taken to
carry out its proof; one that takes more is given up."""


class Symbol(NamedTuple):
    """A symbol that nothing needs, and the labels of its `$f`, where it is a variable."""

    name: str
    is_constant: bool
    floating: list[str]


@dataclass
class Declared:
    """What the statements declare, and which symbols their formulas have."""

    constants: dict[str, None] = field(default_factory=dict)
    variables: dict[str, list[str]] = field(default_factory=dict)
    """The labels of the `$f` of each variable."""
    floating: dict[str, str] = field(default_factory=dict)
    """The variable of each `$f`, by its label."""
    typecodes: set[str] = field(default_factory=set)
    """Those of the `$f`."""
    used: set[str] = field(default_factory=set)
    """The symbols of all formulas; of a `$f` only the typecode."""

    def see(self, kind: str, label: str, words: list[str]) -> None:
        """Reads a statement."""
        if kind == "c":
            self.constants.update(dict.fromkeys(words))
        elif kind == "v":
            for word in words:
                self.variables.setdefault(word, [])
        elif kind == "f":
            self.typecodes.add(words[0])
            self.used.add(words[0])
            self.floating[label] = words[1]
            self.variables[words[1]].append(label)
        elif kind != "d":
            self.used.update(words)

    def unneeded(self, bare_text: bytes) -> Iterator[Symbol]:
        """The symbols that nothing needs, constants first, in the order of their declarations."""
        unused = {name for name in self.variables if name not in self.used}
        labels = {label for name in unused for label in self.variables[name]}
        cited = {self.floating[label] for label in cited_of(bare_text, labels)}
        yield from (Symbol(name, True, []) for name in self.constants if name not in self.used)
        for name, floating in self.variables.items():
            if name in unused and name not in cited:
                yield Symbol(name, False, floating)


def declared_in(bare_text: bytes) -> Declared:
    """What the statements of a text without comments declare."""
    found, end = Declared(), 0
    for match in STATEMENT.finditer(bare_text):
        if match["kind"] is not None:
            label = bare_text[end : match.start()].strip().decode("latin-1")
            words = match["words"].decode("latin-1").split()
            found.see(match["kind"].decode(), label, words)
        end = match.end()
    return found


def cited_of(bare_text: bytes, labels: Collection[str]) -> Iterator[str]:
    """Those of some labels of `$f` that proofs name. A compressed proof names none by a number
    alone whose variable is in no formula."""
    if not labels:
        return
    for match in PROOF.finditer(bare_text):
        names = match[1].partition(b")")[0].decode("latin-1").split()
        yield from (name for name in names if name in labels)


class Rule:
    """An assertion as a step applies it. `size` is how many entries it takes, `said` which of these
    stand for variables of its formula, and `apart` which must be distinct from which others."""

    def __init__(self, one: Assertion, floating_typecodes: Collection[str]) -> None:
        frame = one.frame()
        given = frame.hypotheses()
        self.size = len(given)
        place_of = {
            each.formula.partition(" ")[2]: place
            for place, each in enumerate(given)
            if each.kind == "f"
        }
        # What no `$f` can take is never put for a variable.
        formula = one.formula.split(" ") if one.typecode in floating_typecodes else []
        self.said = [place_of[symbol] for symbol in dict.fromkeys(formula) if symbol in place_of]
        apart: dict[int, list[int]] = {}
        for name, other in frame.pairs():
            apart.setdefault(place_of[name], []).append(place_of[other])
        self.apart = [*apart.items()]
        self.pairs = sum(map(len, apart.values()))


class Left:
    """The pairs of a theorem that no step has asked for yet."""

    def __init__(self, pairs: Iterable[Pair]) -> None:
        self.pairs = [*pairs]
        self.bits: dict[str, int] = {}
        self.others: list[int] = []
        for one, other in self.pairs:
            first, second = self._number(one), self._number(other)
            self.others[first] |= 1 << second
            self.others[second] |= 1 << first
        self.open = (1 << len(self.others)) - 1
        """The variables that are in such a pair."""

    def _number(self, name: str) -> int:
        """The number of a variable."""
        number = self.bits.setdefault(name, len(self.bits))
        if number == len(self.others):
            self.others.append(0)
        return number

    def ask(self, one: int, other: int) -> int:
        """A step asks that each of some variables be distinct from each of some others. Returns at
        how many was looked for that."""
        if one.bit_count() > other.bit_count():
            one, other = other, one
        looked = one.bit_count()
        while one:
            number = one.bit_length() - 1
            one ^= 1 << number
            common = self.others[number] & other
            looked += common.bit_count()
            while common:
                second = common.bit_length() - 1
                common ^= 1 << second
                self._take(number, second)
                self._take(second, number)
        return looked

    def _take(self, number: int, other: int) -> None:
        """Takes a variable from those of another one."""
        self.others[number] ^= 1 << other
        if not self.others[number]:
            self.open ^= 1 << number

    def told(self) -> list[Pair]:
        """Those that are left."""
        bits = self.bits
        return [pair for pair in self.pairs if self.others[bits[pair[0]]] >> bits[pair[1]] & 1]


class Stack:
    """The stack while a proof is carried out: the variables of each entry that are in a pair."""

    def __init__(self, left: Left, budget: Budget) -> None:
        self.left = left
        self.budget = budget
        self.entries: list[int] = []
        self.marked: list[int] = []
        width = len(left.others)
        self.cost_of_step, self.cost_of_look = 1 + width // 8, 1 + width // 512

    def carry_out(self, meant: Sequence[int | Rule], numbers: Iterable[int]) -> None:
        """Carries out steps, while a pair is left. TooLong where that is too long."""
        entries, left, count = self.entries, self.left, len(meant)
        for number in numbers:
            self.budget.take(1)
            if number == MARK:
                self.marked.append(entries[-1])
            elif number >= count:
                entries.append(self.marked[number - count])
            else:
                one = meant[number]
                if isinstance(one, int):
                    entries.append(one)
                    continue
                self.apply(one)
                if not left.open:
                    return

    def apply(self, rule: Rule) -> None:
        """Applies an assertion."""
        start = len(self.entries) - rule.size
        taken = self.entries[start:]
        looked = rule.size + rule.pairs
        for place, others in rule.apart:
            one = taken[place] & self.left.open
            for other in others if one else ():
                if taken[other]:
                    looked += self.left.ask(one, taken[other])
        self.budget.take(self.cost_of_step + self.cost_of_look * looked)
        variables = 0
        for place in rule.said:
            variables |= taken[place]
        self.entries[start:] = [variables]


@dataclass
class Unneeded:
    """What a theorem's proof doesn't need: labels of `$e`, and pairs of variables. Of a proof that
    is too long to be carried out the pairs aren't known."""

    hypotheses: list[str]
    pairs: list[Pair]
    is_too_long: bool = False


class Proofs:
    """The proofs of a text, read for what they don't need."""

    def __init__(self, text: Text, bare_text: bytes, declared: Declared) -> None:
        self.text = text
        self.bare_text = bare_text
        self.floating = declared.floating
        self.typecodes = declared.typecodes
        self.rules: dict[str, Rule] = {}

    def unneeded(self, one: Assertion, hypotheses: bool, pairs: bool) -> Unneeded:
        """What a theorem's proof doesn't need: `hypotheses`, `pairs`, or both."""
        frame = one.frame()
        given = frame.hypotheses()
        found = Unneeded([], [])
        essential = [each.label for each in given if each.kind == "e"] if hypotheses else []
        left = Left(frame.pairs() if pairs else ())
        if not essential and not left.pairs:
            return found
        match = PROOF.search(self.bare_text, one.place, one.end)
        assert match is not None  # the program has read it
        words = match[1].decode("latin-1").split()
        used = used_of(given, words)
        found.hypotheses = [label for label in essential if label not in used]
        if left.pairs:
            budget = Budget(LOOKS + LOOKS_FOR_BYTE * (one.end - one.place))
            try:
                self._carry_out(Stack(left, budget), given, words)
                found.pairs = left.told()
            except TooLong:
                found.is_too_long = True
        return found

    def _carry_out(self, stack: Stack, given: list[Hypothesis], words: list[str]) -> None:
        """Carries out the words of a proof."""
        bits = stack.left.bits
        own = {each.label: bits_of(each.formula, bits) for each in given}
        labels, numbers = read(given, words)
        meant: list[int | Rule] = []
        for label in labels:
            known = own.get(label)
            meant.append(self._meant(label, bits) if known is None else known)
        stack.carry_out(meant, numbers)

    def _meant(self, label: str, bits: Mapping[str, int]) -> int | Rule:
        """What a label stands for that isn't that of a mandatory hypothesis."""
        found = self.rules.get(label)
        if found is None:
            one = self.text.find(label)
            if one is None:
                return bits_of(self.floating[label], bits)
            found = self.rules[label] = Rule(one, self.typecodes)
        return found


def bits_of(formula: str, bits: Mapping[str, int]) -> int:
    """The variables of a formula that have a bit."""
    found = 0
    for symbol in formula.split(" "):
        if symbol in bits:
            found |= 1 << bits[symbol]
    return found


def read(given: Sequence[Hypothesis], words: list[str]) -> tuple[list[str], Iterable[int]]:
    """The labels of a proof, and the numbers of its steps; a greater one is of a mark."""
    if words[0] != "(":
        number_of_label = {label: number for number, label in enumerate(dict.fromkeys(words))}
        return [*number_of_label], map(number_of_label.__getitem__, words)
    close = words.index(")")
    labels = [*(each.label for each in given), *words[1:close]]
    return labels, numbers_of("".join(words[close + 1 :]))


def used_of(given: Sequence[Hypothesis], words: list[str]) -> set[str]:
    """The mandatory hypotheses that a proof uses, by labels."""
    if words[0] != "(":
        return {*words}
    used = {*numbers_of("".join(words[words.index(")") + 1 :]))}
    return {each.label for number, each in enumerate(given) if number in used}


def pieces(theorems: Sequence[Assertion]) -> Iterator[Sequence[Assertion]]:
    """The theorems in order, so that each piece takes about as many bytes."""
    start = size = 0
    for index, one in enumerate(theorems):
        size += one.end - one.place
        if size >= PIECE:
            yield theorems[start : index + 1]
            start, size = index + 1, 0
    if start < len(theorems):
        yield theorems[start:]


def unneeded_of(
    proofs: Proofs, theorems: Sequence[Assertion], hypotheses: bool, pairs: bool
) -> Iterator[tuple[str, Unneeded]]:
    """What the proofs of theorems don't need, of those that don't need something, in order."""
    waiting = deque(pieces(theorems))
    tasks: deque[tuple[int, Task]] = deque()
    at_once, done = number_at_once(), 0
    try:
        while waiting or tasks:
            while waiting and len(tasks) < at_once:
                piece = waiting.popleft()
                work = partial(to_json, proofs, piece, hypotheses, pairs)
                size = piece[-1].end - piece[0].place
                tasks.append((len(piece), begun(work, size)))
            progress.now(f"reading proofs, {done} of {len(theorems)} theorems are done")
            yield from from_json(tasks[0][1].result())
            done += tasks.popleft()[0]
    finally:
        for _, task in tasks:
            task.stop()


def to_json(proofs: Proofs, piece: Sequence[Assertion], hypotheses: bool, pairs: bool) -> bytes:
    """What the proofs of some theorems don't need, as JSON."""
    found = []
    for one in piece:
        each = proofs.unneeded(one, hypotheses, pairs)
        if each.hypotheses or each.pairs or each.is_too_long:
            found.append([one.label, each.hypotheses, each.pairs, each.is_too_long])
    return json.dumps(found).encode()


def from_json(data: bytes) -> Iterator[tuple[str, Unneeded]]:
    """The same as it was found."""
    for label, hypotheses, pairs, is_too_long in json.loads(data):
        yield label, Unneeded(hypotheses, [(one, other) for one, other in pairs], is_too_long)


def read_text(text: Text) -> tuple[Declared, bytes, Proofs]:
    """What a text declares, the text without its comments, and its proofs."""
    bare_text = without_comments(text.data)
    declared = declared_in(bare_text)
    return declared, bare_text, Proofs(text, bare_text, declared)
