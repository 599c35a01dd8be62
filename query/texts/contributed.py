"""Who contributed a statement, and when, as its comment says it: `(Contributed by NM,
5-Aug-1993.)`."""

from __future__ import annotations

import re
from datetime import date
from typing import NamedTuple

CONTRIBUTED = re.compile(r"\(Contributed\s+by\s+([^()]+)")
DAY = re.compile(r",\s*(\d{1,2})-([A-Z][a-z]{2})-(\d{4})")
MONTHS = "Jan Feb Mar Apr May Jun Jul Aug Sep Oct Nov Dec".split()


class Contributed(NamedTuple):
    """A name, and the day as ISO 8601 writes it. Each is None where the comment doesn't say it, or
    names a day that there is not."""

    name: str | None
    day: str | None


def contributed(comment: str) -> Contributed:
    """What a comment says first."""
    match = CONTRIBUTED.search(comment)
    if match is None:
        return Contributed(None, None)
    said = DAY.search(match[1])
    name = " ".join(match[1][: said.start() if said else None].split()).rstrip(".") or None
    return Contributed(name, None if said is None else day_of(*said.groups()))


def is_day(word: str) -> bool:
    """Whether a word is a day as ISO 8601 writes it, with dashes."""
    try:
        return date.fromisoformat(word).isoformat() == word
    except ValueError:
        return False


def day_of(day: str, month: str, year: str) -> str | None:
    """A day as ISO 8601 writes it; None where there is no such day."""
    try:
        return date(int(year), MONTHS.index(month) + 1, int(day)).isoformat()
    except ValueError:
        return None
