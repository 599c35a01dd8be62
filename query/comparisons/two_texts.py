"""Where the assertions of OLD stand, and what of it and of NEW isn't alike. The program accepted
both texts, and tells where the assertions of NEW stand.

No report on OLD is asked for that. Where the texts begin alike, its assertions stand as those of
NEW do. So they do where the texts end alike: if a comment were open in one of them alone, the next
`$(` or `$)` would be a fault of the one or the other, and so would be the next keyword if a
statement were. Only what isn't alike is searched for assertions. No symbol has a `$`, so each `$a`
and `$p` that isn't in a comment is the keyword of one, whose label is before it. What it says is
told by the program, of OLD or of NEW.
"""

from __future__ import annotations

import re
from bisect import bisect_left
from collections.abc import Iterator

from query.comparisons.differences import Differences
from query.texts.assertions import Assertion, Damaged
from query.texts.text import Text
from query.texts.uncommented import without_comments

WHOLE = rb"(?<!\S)([A-Za-z0-9._-]++)\s++\$([ap])(?=\s)[^$]*+(?:\$=[^$]*+)?\$\.(?!\S)"
ASSERTION = re.compile(WHOLE)
NEXT = re.compile(rb"\$\(|" + WHOLE + rb"|\$[ap](?=\s)")
SIGN = re.compile(rb"\$[(.]")


def places(data: bytes) -> Iterator[tuple[str, str, int, int]]:
    """Of each assertion the label, the letter of the keyword, and where it begins and ends."""
    since = place = 0
    while match := NEXT.search(data, place):
        place, start = match.end(), 0
        if match[0] == b"$(":
            place = data.index(b"$)", place) + 2
            continue
        if not match.lastindex:  # a comment stands within the statement
            place, start = end_of_statement(data, place), since
            match = ASSERTION.search(without_comments(data[since:place]))
            if match is None:
                raise Damaged
        label, letter = match[1].decode("ascii"), match[2].decode("ascii")
        yield label, letter, start + match.start(), start + match.end()
        since = place


def end_of_statement(data: bytes, place: int) -> int:
    """Where a statement ends, behind its keyword."""
    while (match := SIGN.search(data, place)) and match[0] == b"$(":
        place = data.index(b"$)", match.end()) + 2
    if match is None:
        raise Damaged
    return match.end()


class OldText(Text):
    """The text of OLD beside that of NEW. Of both, `between` is what isn't alike, from the end of
    one assertion to the label of another, and `touched` are the assertions whose statement is
    another one there, or what stands before it, such as a comment."""

    def __init__(self, data: bytes, new: Text, differences: Differences) -> None:
        super().__init__(data, b"")
        self.new, self.gone = new, differences.gone
        first, after = alike(data, new)
        start = new.assertions[first - 1].end if first else 0
        stop = new.assertions[after].place if after < len(new.assertions) else len(new.data)
        shift = len(data) - len(new.data)
        self.between = (data[start : stop + shift], new.data[start:stop])
        self.assertions = new.assertions[:first]
        for label, letter, place, end in places(self.between[0]):
            self.add(label, letter, start + place, start + end)
        last = len(self.assertions)
        for one in new.assertions[after:]:
            self.add(one.label, one.kind, one.place + shift, one.end + shift)
        inside = (self.assertions[first : last + 1], new.assertions[first : after + 1])
        self.touched = (lacking_in(new, self, inside[0]), lacking_in(self, new, inside[1]))
        count = len(new.assertions) - len(differences.new) + len(differences.gone)
        if not len(self.assertions) == len(self.by_label) == count:
            raise Damaged
        lacking = differences.new.keys() - differences.gone.keys()
        is_wrong = any(new.by_label[label].number < first for label in differences.new)
        if is_wrong or not lacking.isdisjoint(self.by_label) or self.gone.keys() - self.by_label:
            raise Damaged

    def add(self, label: str, letter: str, place: int, end: int) -> None:
        """Adds an assertion that stands there: one that the program tells, or else one that NEW has
        too. Damaged where the program tells another one."""
        told = self.gone.get(label)
        known = self.new.find(label) if told is None else told
        if known is None or known.kind != letter:
            raise Damaged
        if told is not None and (told.place, told.end) != (place, end):
            raise Damaged
        number = len(self.assertions)
        self.assertions.append(Assertion(label, known.letter, place, end, known.said, number))


def stretch(text: Text, one: Assertion) -> bytes:
    """A text from the end of the assertion before one to the end of this."""
    return text.data[text.assertions[one.number - 1].end if one.number else 0 : one.end]


def lacking_in(other: Text, text: Text, some: list[Assertion]) -> list[Assertion]:
    """Those of some assertions of a text that don't stand in another one under their label with the
    same bytes, and with the same ones before them."""
    return [
        one
        for one in some
        if (same := other.find(one.label)) is None or stretch(other, same) != stretch(text, one)
    ]


def alike(old: bytes, new: Text) -> tuple[int, int]:
    """The number of the first assertion of NEW that isn't, with all before it, at the beginning of
    OLD too, and that of the first after it that is, with all behind it, at the end."""
    beginning = common_start(old, new.data)
    ending = common_end(old, new.data, min(len(old), len(new.data)) - beginning)
    # The sign behind the one, and that before the other, are alike too.
    first = bisect_left(new.assertions, beginning, key=lambda one: one.end)
    after = bisect_left(new.assertions, len(new.data) - ending + 1, key=lambda one: one.place)
    return first, after


def common_start(one: bytes, other: bytes) -> int:
    """With how many bytes two texts begin alike."""
    low, high = 0, min(len(one), len(other))
    while low < high:
        middle = (low + high + 1) // 2
        if one[low:middle] == other[low:middle]:
            low = middle
        else:
            high = middle - 1
    return low


def common_end(one: bytes, other: bytes, most: int) -> int:
    """With how many bytes, at most so many, two texts end alike."""
    low, high = 0, most
    while low < high:
        middle = (low + high + 1) // 2
        if one[len(one) - middle : len(one) - low] == other[len(other) - middle : len(other) - low]:
            low = middle
        else:
            high = middle - 1
    return low


def words_of_proof(text: Text, one: Assertion) -> list[str]:
    """Words of a proof, among which are all labels that it cites. In a compressed proof the letters
    aren't among them."""
    body = text.data[one.place : one.end]
    if b"$(" in body:
        return text.proof(one)
    return body.partition(b"$=")[2].partition(b")")[0].decode("ascii").split()
