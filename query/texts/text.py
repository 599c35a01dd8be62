"""What a text says beside what the program tells of it: comments and headers. They stand between
the assertions, whose lines of the section `statements` say where these are.

The program has accepted the text, so each byte is white space or printable ASCII, and each comment
is closed. Places are byte offsets from 0, lines and columns are counted from 1. By an example:

    text = Text(data, section)             # the bytes, and the lines of the section `statements`
    for assertion in text.assertions:      # each `$a` and `$p`, in file order
        text.comment(assertion)            # the whole comment before it, or ""
        text.proof(assertion)              # the words between `$=` and `$.`; [] for a `$a`
        text.line(assertion.place)         # the line of its label
        text.header(assertion)             # the number of the Header under which it stands, or None
        text.mathbox(assertion)            # the name of the mathbox in which it stands, or None
    text.find("zorn")                      # the Assertion of a label, or None
    text.headers                           # each Header: .level 0 to 3, .number "2.6.1", .title,
                                           # and its assertions: from .first to before .end
"""

from __future__ import annotations

import re
from bisect import bisect_right
from collections.abc import Iterator
from dataclasses import dataclass
from functools import cached_property

from query.texts.assertions import Assertion, assertions_of
from query.texts.uncommented import without_comments

# The lines that enclose the title of a part, a chapter, a section and a subsection.
DECORATIONS = ("####", "#*#*", "=-=-", "-.-.")

HEADING = re.compile(
    r"\s*(?P<line>####|#\*#\*|=-=-|-\.-\.)[#*=.\-]*[ \t\r]*\n"
    r"(?P<title>(?:.*\n){1,4}?)"
    r"[ \t]*(?P=line)[#*=.\-]*[ \t\r]*(?:\n|$)"
)
HEADING_START = re.compile(rb"\$\(\s*+(?:####|#\*#\*|=-=-|-\.-\.)")
OPENING = re.compile(rb"\s*\$\(")
SPECIAL = re.compile(rb"\s*\$[jt]\s")
CONSTANTS = re.compile(rb"\$c\s([^$]*+)\$\.")
MATHBOX = re.compile(r"Mathbox for (.*)")
ENDS = (b"$.", b"${", b"$}")
"""What stands before a comment that is in no statement, but for other comments."""

BLOCK = 1 << 10  # bytes, of which the lines are counted at once
FIRST_LOOK = 64  # bytes that are looked at first

Place = int  # the number of a byte of the text, from 0


@dataclass(slots=True)
class Header:
    """A heading: `first` is the number of the first assertion after it."""

    level: int
    number: str
    title: str
    first: int
    end: int
    """The number of the first assertion after the chapter, its subchapters included."""


class Text:
    """The assertions, comments and headers of a database, in file order."""

    def __init__(self, data: bytes, section: bytes) -> None:
        self.data = data
        self.assertions = assertions_of(section, data)

    def comment(self, assertion: Assertion) -> str:
        """The whole comment before an assertion, as it stands there; "" if there is none. That is
        the last one since the statement before, where no heading comes after it."""
        body = next((each for each in self._comments(assertion) if not SPECIAL.match(each)), b"")
        said = body.decode("latin-1")
        return "" if HEADING.match(said) else said

    def description(self, assertion: Assertion) -> str:
        """What metamath.exe takes for the description of an assertion: the last comment before its
        keyword, be it one of `$j` or one behind the label. "" if there is none."""
        place = assertion.place + len(assertion.label)
        inside = b""
        while opening := OPENING.match(self.data, place):
            place = self.data.index(b"$)", opening.end()) + 2
            inside = self.data[opening.end() : place - 2]
        return (inside or next(self._comments(assertion), b"")).decode("latin-1")

    def _comments(self, assertion: Assertion) -> Iterator[bytes]:
        """The comments between the statement before and an assertion, the last one first."""
        before = self.assertions[assertion.number - 1].end if assertion.number else 0
        place = assertion.place
        while True:
            place = self._end_before(before, place)
            if not self.data.endswith(b"$)", before, place):
                return
            start = self.data.rindex(b"$(", before, place) + 2
            yield self.data[start : place - 2]
            place = start - 2

    def _end_before(self, before: Place, place: Place) -> Place:
        """The end of the last word between two places; the first of them where there is none."""
        size = FIRST_LOOK
        while True:
            start = max(before, place - size)
            length = len(self.data[start:place].rstrip())
            if length or start == before:
                return start + length
            size *= 2

    def constants_before(self, assertion: Assertion) -> set[str]:
        """The constants that are declared before an assertion. No label and no symbol has a `$`, so
        outside of comments each `$c` is the keyword."""
        before = without_comments(self.data[: assertion.place])
        return {word for match in CONSTANTS.finditer(before) for word in match[1].decode().split()}

    def proof(self, assertion: Assertion) -> list[str]:
        """The words of the proof; none for a `$a`."""
        if assertion.kind == "a":
            return []
        words = (
            without_comments(self.data[assertion.place : assertion.end]).decode("latin-1").split()
        )
        return words[words.index("$=") + 1 : -1]

    def find(self, label: str) -> Assertion | None:
        """The assertion of a label."""
        return self.by_label.get(label)

    @cached_property
    def by_label(self) -> dict[str, Assertion]:
        """The assertions by their labels."""
        return {assertion.label: assertion for assertion in self.assertions}

    @cached_property
    def places(self) -> list[Place]:
        """The places of the assertions."""
        return [assertion.place for assertion in self.assertions]

    @cached_property
    def _lines_before(self) -> list[int]:
        """How many lines end before each block of the text."""
        counts = [0]
        for start in range(0, len(self.data), BLOCK):
            counts.append(counts[-1] + self.data.count(b"\n", start, start + BLOCK))
        return counts

    def line(self, place: Place) -> int:
        """The line of a place, from 1."""
        block = place // BLOCK
        return self._lines_before[block] + self.data.count(b"\n", block * BLOCK, place) + 1

    @cached_property
    def headers(self) -> list[Header]:
        """The headers, each where its chapter ends."""
        found: list[Header] = []
        counters = [0, 0, 0, 0]
        for first, body in self._headings():
            heading = HEADING.match(body)
            if heading is None:
                continue
            level = DECORATIONS.index(heading["line"])
            counters[level] += 1
            counters[level + 1 :] = [0] * (3 - level)
            number = ".".join(map(str, counters[: level + 1]))
            found.append(Header(level, number, " ".join(heading["title"].split()), first, 0))
        ends = [len(self.assertions)] * 4
        for header in reversed(found):
            header.end = ends[header.level]
            ends[header.level :] = [header.first] * (4 - header.level)
        return found

    def _headings(self) -> Iterator[tuple[int, str]]:
        """The comments that begin as a heading and are in no statement, each with the number of the
        first assertion after it."""
        for match, first, is_within in self.comments(HEADING_START):
            if not is_within:
                start = match.start() + 2
                end = self.data.index(b"$)", start)
                yield first, self.data[start:end].decode("latin-1")

    def comments(self, opening: re.Pattern[bytes]) -> Iterator[tuple[re.Match[bytes], int, bool]]:
        """The comments that begin so, each with the number of the first assertion after its
        beginning, and whether it stands within a statement, be it an assertion or another one."""
        since, is_within = 0, False
        for match in opening.finditer(self.data):
            place = match.start()
            first = bisect_right(self.places, place)
            end = self.assertions[first - 1].end if first else 0
            if place < end:
                yield match, first, True
                continue
            if end > since:
                since, is_within = end, False
            last = without_comments(self.data[since:place]).rstrip()
            if last:
                is_within = not last.endswith(ENDS)
            since = self.data.index(b"$)", place) + 2
            yield match, first, is_within

    @cached_property
    def _firsts(self) -> list[int]:
        """The first assertion of each header."""
        return [header.first for header in self.headers]

    def header(self, assertion: Assertion) -> int | None:
        """The number of the header under which an assertion stands, from 0."""
        number = bisect_right(self._firsts, assertion.number) - 1
        return number if number >= 0 else None

    def chapter_number(self, assertion: Assertion) -> str | None:
        """The number of the header under which an assertion stands, such as "2.6.1"; None before
        the first one."""
        header = self.header(assertion)
        return None if header is None else self.headers[header].number

    @cached_property
    def _mathboxes(self) -> list[tuple[int, int, str]]:
        """For each mathbox its first assertion, the one after its last, and the name. A header
        within a mathbox makes no other one of a part of it."""
        found: list[tuple[int, int, str]] = []
        level = -1
        for header in self.headers:
            if 0 <= level < header.level:
                continue
            match = MATHBOX.match(header.title)
            level = header.level if match else -1
            if match:
                found.append((header.first, header.end, match[1]))
        return found

    def box(self, assertion: Assertion) -> int | None:
        """The number of the mathbox in which an assertion stands, from 0; several may have one
        name."""
        place = bisect_right(self._mathboxes, (assertion.number, len(self.assertions) + 1, "")) - 1
        return place if place >= 0 and assertion.number < self._mathboxes[place][1] else None

    def places_of_boxes(self) -> list[tuple[int, int]]:
        """For each mathbox the number of its first assertion and that of the one after its last;
        where it has none, the same number."""
        return [(first, end) for first, end, _ in self._mathboxes]

    def boxed(self) -> list[tuple[Assertion, int, str]]:
        """Each assertion that stands in a mathbox, with the number and the name of that."""
        return [
            (assertion, number, name)
            for number, (first, end, name) in enumerate(self._mathboxes)
            for assertion in self.assertions[first:end]
        ]

    def mathbox(self, assertion: Assertion) -> str | None:
        """The name of the mathbox in which an assertion stands."""
        box = self.box(assertion)
        return None if box is None else self._mathboxes[box][2]
