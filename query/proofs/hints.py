"""What is told of a refusal without looking at steps of proofs: the word that a proof can't cite,
with what it names, and the earlier statement of a label that is used twice.

What stands before the fault is lawful, and anything may come behind it.
"""

from __future__ import annotations

import re
from dataclasses import dataclass
from functools import cached_property
from typing import NamedTuple

from query.program.refusals import Refused
from query.program.source import Source
from query.proofs.explanation import Line, name
from query.texts.uncommented import declared_at, without_comments

SHOWN_WORD = 1000
"""Bytes of a word that are shown."""
KIND = re.compile(rb"\S++\s++\$(.)")
BRACE = re.compile(rb"\$([{}])")
ASSERTION = re.compile(rb"(?<!\S)(\S++)\s++\$[ap]\s")


@dataclass(frozen=True)
class Hint:
    """What is told: `line` for a person, `word` and the line on which it is `declared` for a
    program. `advice` is None where nothing better is known than of all faults of this code."""

    line: Line
    word: str
    declared: int | None = None
    advice: str | None = None


class Declared(NamedTuple):
    """The statement of a label: its place, the letter of its keyword, and where its block ends;
    None where it is in no block, or in one that isn't closed."""

    place: int
    kind: str
    end: int | None


class Hints:
    """What is told of refusals of one database."""

    def __init__(self, source: Source) -> None:
        self.source = source
        self.known: dict[str, Declared | None] = {}

    @cached_property
    def text(self) -> bytes:
        """The text without its comments, which is made once for all refusals."""
        return without_comments(self.source.data)

    def of(self, refusal: Refused) -> Hint | None:
        """What is told of a refusal; None where nothing is."""
        if refusal.code not in ("E15", "E33") or self.source.is_report():
            return None
        place = refusal.at()
        word = self.source.data[place : place + SHOWN_WORD].split(None, 1)[0].decode("latin-1")
        if word not in self.known:
            self.known[word] = self.declared(word)
        found = self.known[word]
        if refusal.code == "E33":
            return self.of_word(refusal, word, found)
        if found is None or found.place >= place:
            return None
        line = self.line_of(found.place)
        advice = f"rename this statement or the one on line {line}"
        return Hint(
            ("the label", f"{name(word)}, which is used on line {line}"), word, line, advice
        )

    def of_word(self, refusal: Refused, word: str, found: Declared | None) -> Hint:
        """What is told of a word that a proof can't cite."""
        advice: str | None = "correct the label, or declare what it names in front of the theorem"
        if found is None:
            return Hint(("the word", f"{word}, which is declared nowhere"), word, None, advice)
        line = self.line_of(found.place)
        where = f"is declared on line {line}"
        advice = None
        if word == refusal.statement():
            where = f"is the label of this theorem, on line {line}"
            advice = "correct the label; no proof can cite its own theorem"
        elif found.kind in "ef" and found.end is not None and found.end < refusal.at():
            where += f" as a `${found.kind}`{self.used_by(found.place, found.end)}"
            where += f"; its block ends on line {self.line_of(found.end)}"
            advice = "correct the label, or put the theorem into that block"
        return Hint(("the word", f"{word}, which {where}"), word, line, advice)

    def declared(self, word: str) -> Declared | None:
        """The statement of a label; None where there is none."""
        place = declared_at(self.text, word)
        match = None if place is None else KIND.match(self.text, place)
        if place is None or match is None:
            return None
        depth = 0
        for brace in BRACE.finditer(self.text, place):
            depth += 1 if brace[1] == b"{" else -1
            if depth < 0:
                return Declared(place, match[1].decode("latin-1"), brace.start())
        return Declared(place, match[1].decode("latin-1"), None)

    def used_by(self, place: int, end: int) -> str:
        """Of which assertion a hypothesis is, the first one behind it in its block."""
        match = ASSERTION.search(self.text, place, end)
        return "" if match is None else f" of {name(match[1].decode('latin-1'))}"

    def line_of(self, place: int) -> int:
        """The line of a place, from 1."""
        return self.source.data.count(b"\n", 0, place) + 1
