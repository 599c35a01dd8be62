"""On which watched axioms theorems may rest, as `allow.newly` or `allow.new` of `mmdepend.toml`
says it: for words that mean axioms, words that mean theorems."""

from __future__ import annotations

from collections.abc import Callable, Iterable, Mapping, Sequence

from query.gate.labels import NONE, Beginnings, Labels, meant

MOST_KEPT = 1 << 26
"""Bytes of the sets of axioms that are kept at the most, besides those of one theorem."""

Bits = int
"""A set of axioms, a bit for each."""


class Kept:
    """Sets of axioms that were worked out, as long as there is room for them."""

    def __init__(self) -> None:
        self.known: dict[str, Bits] = {}
        self.size = 0  # in bytes

    def put(self, word: str, bits: Bits) -> Bits:
        """Keeps a set under a word."""
        if self.size > MOST_KEPT:
            self.known.clear()
            self.size = 0
        self.size += bits.bit_length() // 8
        self.known[word] = bits
        return bits


class Resting:
    """What a rule allows of some axioms. `bits` makes a set of them by their labels. What a word
    means is worked out once, and only where a theorem asks for it."""

    def __init__(
        self,
        lists: Mapping[str, Labels],
        axioms: Iterable[str],
        bits: Callable[[Sequence[str]], Bits],
    ) -> None:
        self.axioms = sorted(axioms)
        self.bits = bits
        self.words: dict[str, list[str]] = {}
        """For words that mean theorems those that mean the axioms."""
        for axiom, theorems in lists.items():
            for word in theorems.words:
                self.words.setdefault(word, []).append(axiom)
        self.beginnings = Beginnings(word[:-1] for word in self.words if word.endswith("*"))
        self.of_axioms, self.of_beginnings = Kept(), Kept()

    def allowed(self, theorem: str) -> Bits:
        """The axioms on which a theorem may rest."""
        return self._by_word(theorem) | self._by_beginning(self.beginnings.longest(theorem))

    def _by_word(self, word: str) -> Bits:
        """The axioms on which what a word means may rest by this word alone."""
        found = 0
        for axiom in self.words.get(word, ()):
            known = self.of_axioms.known.get(axiom)
            if known is None:
                known = self.of_axioms.put(axiom, self.bits(meant(axiom, self.axioms)))
            found |= known
        return found

    def _by_beginning(self, place: int) -> Bits:
        """The axioms on which may rest what has a beginning, which is given by its place among the
        beginnings: by this one, and by each with which it begins itself."""
        words, known = self.beginnings.words, self.of_beginnings.known
        passed = []
        while place != NONE and words[place] not in known:
            passed.append(words[place])
            place = self.beginnings.shorter[place]
        found = 0 if place == NONE else known[words[place]]
        for word in reversed(passed):
            found = self.of_beginnings.put(word, found | self._by_word(f"{word}*"))
        return found
