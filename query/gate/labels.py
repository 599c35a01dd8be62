"""Words of `mmdepend.toml` that mean labels: each is one, or the beginning of some and `*`.

A file has room for a hundred thousand words, and a database for as many labels. So no label is
compared with each word.
"""

from __future__ import annotations

from bisect import bisect_left, bisect_right
from collections.abc import Iterable, Sequence
from dataclasses import dataclass
from functools import cached_property

NONE = -1
"""Stands for no place in a list."""


def is_meant(word: str, label: str) -> bool:
    """Whether a word of the file means a label: it is that, or its beginning with `*` after it."""
    return label.startswith(word[:-1]) if word.endswith("*") else label == word


def meant(word: str, labels: Sequence[str]) -> Sequence[str]:
    """Those of some labels, which are sorted, that a word means."""
    start = bisect_left(labels, word.removesuffix("*"))
    end = start
    while end < len(labels) and is_meant(word, labels[end]):
        end += 1
    return labels[start:end]


class Beginnings:
    """Beginnings of labels. Whatever is sorted between a label and its beginning begins so too. So
    those with which a label begins are found from the last one that isn't sorted behind it: by the
    beginnings of that one, of which each is remembered with the next shorter one, and with one that
    is much shorter, so that few are looked at."""

    def __init__(self, words: Iterable[str]) -> None:
        self.words = sorted({*words})
        self.shorter: list[int] = []
        self.jumps: list[int] = []
        depths: list[int] = []
        place = NONE
        for number, word in enumerate(self.words):
            while place != NONE and not word.startswith(self.words[place]):
                place = self.shorter[place]
            self.shorter.append(place)
            depths.append(0 if place == NONE else depths[place] + 1)
            self.jumps.append(self._jump(place, depths))
            place = number

    def _jump(self, place: int, depths: Sequence[int]) -> int:
        """How far may be jumped from one whose next shorter one has a place: twice as far as from
        that where the two jumps before it are as long as each other."""
        first = NONE if place == NONE else self.jumps[place]
        second = NONE if first == NONE else self.jumps[first]
        is_even = second != NONE and depths[place] - depths[first] == depths[first] - depths[second]
        return second if is_even else place

    def longest(self, label: str) -> int:
        """The place of the longest one with which a label begins; NONE where there is none."""
        place = bisect_right(self.words, label) - 1
        while place != NONE and not label.startswith(self.words[place]):
            far = self.jumps[place]
            is_far = far != NONE and not label.startswith(self.words[far])
            place = far if is_far else self.shorter[place]
        return place


@dataclass(frozen=True)
class Labels:
    """Labels, some of them given by their beginning and a `*`."""

    words: tuple[str, ...] = ()

    @cached_property
    def whole(self) -> frozenset[str]:
        """The words as they are."""
        return frozenset(self.words)

    @cached_property
    def _beginnings(self) -> Beginnings:
        return Beginnings(word[:-1] for word in self.words if word.endswith("*"))

    def __contains__(self, label: str) -> bool:
        return label in self.whole or self._beginnings.longest(label) != NONE

    def covers(self, word: str) -> bool:
        """Whether all that a word means is meant: by the same one, or by a beginning of it."""
        return word in self.whole or self._beginnings.longest(word.removesuffix("*")) != NONE
