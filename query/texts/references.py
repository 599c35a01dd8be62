"""Labels that comments name by `~ LABEL`, with the place of each, and in what kind of comment it
stands.

metamath.exe reads two kinds, and so do the pages that it makes: the description of an assertion,
which is the last comment before its keyword, and headers. There whatever stands behind a `~` is a
label, up to the next white space. Other comments may have anything, such as old statements in which
`~` is a symbol; there a label is a word that could be one, with a space before it.
"""

from __future__ import annotations

import re
from bisect import bisect_right
from collections.abc import Iterator
from typing import NamedTuple

from query.texts.assertions import Assertion
from query.texts.named import SPECIAL, comments_of
from query.texts.text import HEADING_START, Text

STATEMENT, HEADER, OTHER = "statement", "header", "other"
"""The kinds of comments."""
READ = re.compile(rb"``|`[^`]*+`?|~~|~\s*+(\S++)")
"""What metamath.exe reads: formulas between backticks, and labels behind a `~`."""
PLAIN = re.compile(rb"``|`[^`]*+`?|~~|~\s++([A-Za-z0-9._-]++)(?=\s|\Z)")
ADDRESS = re.compile(rb"https?://|mm")
"""How a word begins that is the address of a page, as metamath.exe takes it."""
SPACE = re.compile(rb"\s*+")
HYPOTHESIS = re.compile(rb"\$[ef]\s")
LOOKED_BACK = 1000
"""So many bytes in front of a `$e` or `$f` are looked at for its label."""


class Reference(NamedTuple):
    """A `~` in a comment with the word behind it. `place` is that of the `~`, and `assertion` the
    one that the comment describes, or else in which it stands, or before which it does; the last
    one where none follows."""

    place: int
    word: str
    kind: str
    assertion: Assertion


def references(text: Text) -> Iterator[Reference]:
    """Those of all comments but `$t` and `$j`, in file order, of a text that has an assertion.
    Addresses of pages are none."""
    for start, body in comments_of(text.data):
        if b"~" not in body or SPECIAL.match(body):
            continue
        kind, assertion = kind_of(text, start, start + len(body) + 2)
        for match in (PLAIN if kind == OTHER else READ).finditer(body):
            word = match[1]
            if word is not None and not ADDRESS.match(word):
                place = start + match.start()
                yield Reference(place, word.decode("latin-1"), kind, assertion)


def kind_of(text: Text, start: int, end: int) -> tuple[str, Assertion]:
    """The kind of a comment from its place to the one behind its `$)`, and of which assertion it
    is."""
    number = bisect_right(text.places, start)
    if number and start < text.assertions[number - 1].end:
        inside = text.assertions[number - 1]
        is_last = text.data.startswith((b"$a", b"$p"), behind_spaces(text, end))
        return STATEMENT if is_last else OTHER, inside
    following = text.assertions[min(number, len(text.assertions) - 1)]
    is_before = behind_spaces(text, end) == following.place
    if is_before and not has_comment_behind(text, following):
        return STATEMENT, following
    return HEADER if HEADING_START.match(text.data, start - 2) else OTHER, following


def behind_spaces(text: Text, place: int) -> int:
    """The place of what comes next that is no white space."""
    match = SPACE.match(text.data, place)
    return place if match is None else match.end()


def has_comment_behind(text: Text, assertion: Assertion) -> bool:
    """Whether a comment stands between the label of an assertion and its keyword."""
    place = behind_spaces(text, assertion.place + len(assertion.label))
    return text.data.startswith(b"$(", place)


def labels_of_hypotheses(bare_text: bytes) -> set[str]:
    """The labels of the `$e` and `$f` of a text without comments that was verified."""
    found: set[str] = set()
    for match in HYPOTHESIS.finditer(bare_text):
        before = bare_text[max(0, match.start() - LOOKED_BACK) : match.start()]
        found.update(word.decode("latin-1") for word in before.rsplit(None, 1)[-1:])
    return found
