"""What a comment says of a statement that is to be removed: `Obsolete version of ~ xorass as of
20-Jun-2020.`

By the conventions of set.mm the label of such a statement ends in OLD, and it is kept for a year.
"""

from __future__ import annotations

import re
from datetime import date
from typing import NamedTuple

from query.texts.contributed import day_of

LAST = "OLD"
"""How the label of a statement ends that is to be removed."""
SENTENCE = re.compile(
    r"\b[Oo]bsolete\b(?:(?!\.\s).){0,300}?\bas\s+(?:of\s+)?(\d{1,2})-(\w{3})-(\d{4})"
)
"""What says since when it is obsolete, in one sentence, where all white space is one space. The
sentence is looked at so far that it takes no time by which a text could hurt."""
VERSION = re.compile(r"\b(?:version|proof|form)\s+of\s+~\s+([A-Za-z0-9._-]+)")
INSTEAD = re.compile(r"\b[Uu]se\s+~\s+([A-Za-z0-9._-]+)")


class Obsolete(NamedTuple):
    """In favour of what a statement is obsolete, and since which day, as ISO 8601 writes it. Each
    is None where the comment doesn't say it, or names a day that there is not."""

    by: str | None
    since: str | None

    @property
    def until(self) -> str | None:
        """The day a year later, from which on it may be removed."""
        if self.since is None:
            return None
        day = date.fromisoformat(self.since)
        is_leap_day = (day.month, day.day) == (2, 29)
        if day.year == date.max.year:
            return None
        later = date(day.year + 1, 3, 1) if is_leap_day else day.replace(year=day.year + 1)
        return later.isoformat()


def obsolete(comment: str) -> Obsolete:
    """What a comment says first."""
    if "bsolete" not in comment:
        return Obsolete(None, None)
    said = " ".join(comment.split())
    match = SENTENCE.search(said)
    by = VERSION.search(said) or INSTEAD.search(said)
    since = None if match is None else day_of(*match.groups())
    return Obsolete(None if by is None else by[1], since)
