"""Comments that metamath.exe reads as more than comments: they begin with `Begin`, `Skip` or `End`
and have a `$[`. By `Skip` it reads a file, and with it whatever that has; a `Begin` without its
`End` makes a database one that it can't read. For the language, and for us, all are comments.
"""

from __future__ import annotations

import re
from collections import Counter
from collections.abc import Iterator
from dataclasses import dataclass

OPENING = re.compile(rb"\$\(\s+(Begin|Skip|End)\s")


@dataclass(frozen=True)
class Include:
    """Such a comment: its place, its first word, and all its words with one space between."""

    place: int
    kind: str
    words: str


def includes(data: bytes) -> Iterator[Include]:
    """Those of a database that was accepted."""
    for opening in OPENING.finditer(data):
        body = data[opening.start() + 2 : data.index(b"$)", opening.end() - 1)]
        if b"$[" in body:
            words = b" ".join(body.split()).decode("latin-1")
            yield Include(opening.start(), opening[1].decode("ascii"), words)


def new_includes(old: bytes, new: bytes) -> Iterator[Include]:
    """Those of NEW that OLD hasn't, or has less often; and those that mislead, and in OLD don't: a
    `Skip` whose file is gone from before it, say."""
    told = set()
    for find in (includes, misleading):
        known = Counter(each.words for each in find(old))
        for each in find(new):
            known[each.words] -= 1
            if known[each.words] < 0 and each.place not in told:
                told.add(each.place)
                yield each


def misleading(data: bytes) -> list[Include]:
    """Those by which metamath.exe reads another text, or none: each `Skip` of a file that isn't
    there yet, each `Begin` without its `End`, and each of a file that is there already, whose part
    is passed over. A database has the others where parts of it are marked as files."""
    found: dict[int, Include] = {}
    begun: list[Include] = []
    known: set[str] = set()
    repeated: set[int] = set()
    for each in includes(data):
        name = name_of(each)
        if each.kind == "End" and begun and name_of(begun[-1]) == name:
            opening = begun.pop()
            if opening.place not in repeated:
                del found[opening.place]
        elif each.kind == "Begin":
            found[each.place] = each
            begun.append(each)
            if name in known:
                repeated.add(each.place)
        elif each.kind == "Skip" and name not in known:
            found[each.place] = each
        known.add(name)
    return list(found.values())


def name_of(include: Include) -> str:
    """What it says after its first word."""
    return include.words.partition(" ")[2]
