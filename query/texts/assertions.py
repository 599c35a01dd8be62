"""The lines of the section `statements`, in which the program tells each assertion.

    LABEL:KIND:START:END: $f LABEL TYPECODE VARIABLE .. $e LABEL SYMBOLS .. $d X Y .. $v Z ..
    $d X Z .. $a SYMBOLS

docs/REPORT.md says what each part is. No symbol has a `$`, so a line has one reading. What hasn't
this form is `Damaged`: of the front of all lines at once, of the rest where a line is asked for.
"""

from __future__ import annotations

import re
from collections.abc import Iterator
from dataclasses import dataclass
from string import ascii_letters, digits
from typing import NamedTuple

from query.answers.errors import NoAnswer

LABEL, SYMBOL, NUMBER = r"[A-Za-z0-9._-]++", r"[!-#%-~]++", r"(?:0|[1-9][0-9]{0,9})"
LABEL_SIGNS = frozenset(f"{ascii_letters}{digits}._-")
NUMBER_LIMIT = 10**10
"""No place is that large: a `NUMBER` has at most ten digits."""
# Possessive is only what has no choice within: Python before 3.11.5 takes other patterns wrongly.
SAID = re.compile(
    rf"(?P<given>(?: \$f {LABEL} {SYMBOL} {SYMBOL}| \$e {LABEL}(?: {SYMBOL})+)*)"
    rf"(?P<pairs>(?: \$d {SYMBOL} {SYMBOL})*)"
    rf"(?: \$v(?: {SYMBOL})+(?: \$d {SYMBOL} {SYMBOL})*)?"
    rf" \$[ap](?P<formula>(?: {SYMBOL})+)"
)
PAIR = re.compile(rf" \$d ({SYMBOL}) ({SYMBOL})")
LINE = re.compile(rf"(?P<label>{LABEL}):(?P<letter>[apo]):{NUMBER}:{NUMBER}:{SAID.pattern}")

Pair = tuple[str, str]


class Damaged(NoAnswer):
    """What the program said hasn't the form that it should have."""

    def __init__(self) -> None:
        super().__init__("the program said something that isn't understood")


class Hypothesis(NamedTuple):
    """A mandatory hypothesis: `kind` is "f" or "e", `formula` its symbols apart by one space."""

    kind: str
    label: str
    formula: str


@dataclass(frozen=True, slots=True)
class Frame:
    """What binds who cites an assertion, as its line tells it. It may be long, so that pairs are
    made one by one."""

    given: str
    disjoint: str

    def hypotheses(self) -> list[Hypothesis]:
        """The mandatory hypotheses, in file order."""
        parts = (part.split(" ", 2) for part in self.given.split(" $")[1:])
        return [Hypothesis(*part) for part in parts]

    def essential(self) -> list[Hypothesis]:
        """Those of them that are `$e`."""
        return [each for each in self.hypotheses() if each.kind == "e"]

    def pairs(self) -> Iterator[Pair]:
        """The pairs of its variables that must be distinct, each once and its lesser name first; in
        the order in which the variables are declared."""
        for match in PAIR.finditer(self.disjoint):
            one, other = match.groups()
            yield (one, other) if one < other else (other, one)


@dataclass(slots=True)
class Assertion:
    """An assertion, as its line tells it. `letter` is the line's: `a` for an axiom, `p` for a
    theorem, `o` for a theorem that is left open; `place` is the byte of its label, from 0, and
    `end` the one after its `$.`; `said` is what stands behind that. `number` counts from 0."""

    label: str
    letter: str
    place: int
    end: int
    said: str
    number: int

    @property
    def kind(self) -> str:
        """`a` for a `$a`, and `p` for a `$p`."""
        return "a" if self.letter == "a" else "p"

    @property
    def is_open(self) -> bool:
        """Whether it is a theorem that is left open."""
        return self.letter == "o"

    @property
    def formula(self) -> str:
        """Its symbols, the typecode first, apart by one space."""
        return formula_of(self.letter, self.said)

    @property
    def typecode(self) -> str:
        """The first symbol."""
        return typecode_of(self.letter, self.said)

    def frame(self) -> Frame:
        """Its hypotheses and pairs."""
        match = SAID.fullmatch(self.said)
        if match is None:
            raise Damaged
        return Frame(match["given"], match["pairs"])


def formula_of(letter: str, said: str) -> str:
    """The formula at the end of a line."""
    _, _, formula = said.rpartition(" $a " if letter == "a" else " $p ")
    if not formula or "$" in formula:
        raise Damaged
    return formula


def typecode_of(letter: str, said: str) -> str:
    """The first symbol of the formula at the end of a line."""
    return formula_of(letter, said).partition(" ")[0]


def has_symbol(section: bytes, word: str) -> bool:
    """Whether a formula or a pair of the section has a symbol. Labels of hypotheses, which stand
    behind `$f` and `$e`, are none."""
    if not re.fullmatch(SYMBOL, word):
        return False
    for between in (f" {word} ".encode(), f" {word}\n".encode()):
        place = section.find(between)
        while place >= 0:
            if section[max(place - 2, 0) : place] not in (b"$f", b"$e"):
                return True
            place = section.find(between, place + 1)
    return False


class Fields(NamedTuple):
    """The fields of the lines, a list for each."""

    labels: list[str]
    letters: list[str]
    places: list[int]
    ends: list[int]
    said: list[str]


def fields_of(section: str) -> Fields:
    """The fields of all lines of the section."""
    if not section:
        return Fields([], [], [], [], [])
    if not section.endswith("\n"):
        raise Damaged
    lines = [line.split(":", 4) for line in section[:-1].split("\n")]
    if {*map(len, lines)} != {5}:
        raise Damaged
    labels, letters, places, ends, said = ([*each] for each in zip(*lines))
    if not all(labels) or not {*"".join(labels)} <= LABEL_SIGNS or not {*letters} <= {*"apo"}:
        raise Damaged
    return Fields(labels, letters, numbers_of(places), numbers_of(ends), said)


def numbers_of(words: list[str]) -> list[int]:
    """The numbers that words are. Damaged where one is written otherwise."""
    try:
        numbers = [*map(int, words)]
    except ValueError:
        raise Damaged from None
    # Python reads more as a number than what stands in a report.
    if [*map(str, numbers)] != words or not 0 <= min(numbers) <= max(numbers) < NUMBER_LIMIT:
        raise Damaged
    return numbers


def assertions_of(section: bytes, data: bytes) -> list[Assertion]:
    """The assertions of a text, which the section tells."""
    try:
        labels, letters, places, ends, said = fields_of(section.decode("ascii"))
    except UnicodeDecodeError:
        raise Damaged from None
    before = 0
    for label, place, end in zip(labels, places, ends):
        if place < before or end <= place or not data.startswith(label.encode(), place):
            raise Damaged
        before = end
    if before > len(data):
        raise Damaged
    return list(map(Assertion, labels, letters, places, ends, said, range(len(labels))))
