"""The beginning of a text, read once, up to the last of some theorems whose proofs were refused.

No line of the program tells which `$d` are active at a theorem, and what a `$f` says that isn't
mandatory. And of the assertions those alone are wanted that these proofs cite: of them a shorter
text is made, for the program to tell. What is read is lawful, since the program refused a proof
and judges statements in file order. It is a text without its comments, as
`query/texts/uncommented.py` has it.
"""

from __future__ import annotations

import re
from collections.abc import Collection, Iterator, Sequence
from dataclasses import dataclass
from functools import cached_property
from typing import NamedTuple

STATEMENT = re.compile(
    rb"\$(?:(?P<block>[{}])|(?P<kind>[cvdfeap])(?P<words>[^$]*+)(?P<proof>\$=[^$]*+)?\$\.)"
)
OPEN = b"$= ? $."


class Distinct(NamedTuple):
    """The words of a `$d`, and the one before it that is active where it is; None where there is
    none. Theorems share what is before both."""

    words: bytes
    before: Distinct | None


@dataclass(frozen=True)
class Theorem:
    """A theorem whose proof has a place: its label, and the last `$d` that is active there."""

    label: str
    last: Distinct | None

    def distinct(self) -> Iterator[bytes]:
        """The words of each `$d` that is active there, the last one first."""
        one = self.last
        while one is not None:
            yield one.words
            one = one.before


class TextBefore:
    """What is found. The places are those of the refused proofs, in file order, and `cited` has the
    labels that these proofs cite. IndexError and ValueError where the text isn't lawful."""

    def __init__(self, bare_text: bytes, places: Sequence[int], cited: Collection[bytes]) -> None:
        self.bare_text = bare_text
        self.places = places
        self.cited = cited
        self.theorems: list[Theorem] = []
        """For each place the theorem."""
        self.floating: dict[str, list[str]] = {}
        """The typecode and the variable of each `$f`, by its label."""
        self._blocks: list[Distinct | None] = []
        self._last: Distinct | None = None
        self._pieces: list[bytes] = []
        self._copied = self._read = 0
        for match in STATEMENT.finditer(bare_text):
            self._see(match)
            self._read = match.end()
            if len(self.theorems) == len(places):
                break
        self._pieces.append(bare_text[self._copied : self._read])

    @cached_property
    def variables(self) -> frozenset[str]:
        """The variables that a `$f` has."""
        return frozenset(words[1] for words in self.floating.values())

    def _see(self, match: re.Match[bytes]) -> None:
        """Reads a statement, which follows the one before."""
        if match["block"] == b"{":
            self._blocks.append(self._last)
        elif match["block"] == b"}":
            self._last = self._blocks.pop()
        elif match["kind"] == b"d":
            self._last = Distinct(match["words"], self._last)
        elif match["kind"] == b"f":
            words = match["words"].decode("latin-1").split()
            self.floating[self._label(match).decode("latin-1")] = words
        elif match["kind"] in b"ap":
            self._see_assertion(match)

    def _label(self, match: re.Match[bytes]) -> bytes:
        """The label of a statement: the word between the statement before and its keyword."""
        (label,) = self.bare_text[self._read : match.start()].split()
        return label

    def _see_assertion(self, match: re.Match[bytes]) -> None:
        """Copies an assertion that is cited or refused without its proof, and no other one."""
        label = self._label(match)
        is_refused = False
        while len(self.theorems) < len(self.places):
            place = self.places[len(self.theorems)]
            if place >= match.end():
                break
            if place < match.start():
                raise ValueError
            is_refused = True
            self.theorems.append(Theorem(label.decode("latin-1"), self._last))
        if is_refused or label in self.cited:
            end = match.start("proof") if match["proof"] else match.end()
            self._pieces.append(self.bare_text[self._copied : end])
            self._pieces.append(OPEN if match["proof"] else b"")
        else:
            self._pieces.append(self.bare_text[self._copied : self._read])
        self._copied = match.end()

    def text(self) -> bytes:
        """The text of the assertions that are cited or refused, in which proofs are left open and
        blocks are closed."""
        return b"".join(self._pieces) + b" $}" * len(self._blocks)
