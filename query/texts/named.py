"""Where comments name assertions: `~ LABEL` in what a person reads, and labels in quotes in the
comments `$j`, by which other programs are told of them. By an example:

    named = names_in(data, {"idi"})        # the bytes of a database that was verified
    named["idi"].remarks                   # the places of each `~ idi`
    named["idi"].marks                     # the places of the comments `$j` that have 'idi'
"""

from __future__ import annotations

import re
from collections.abc import Collection, Iterator
from dataclasses import dataclass, field

from query.texts.comment_tokens import tokens

NAME = re.compile(rb"``|`[^`]*+`|~~|~\s++([A-Za-z0-9._-]++)")
"""What stands between backticks is a formula, in which `~` may be a symbol."""
SPECIAL = re.compile(rb"\s*+\$([jt])\s")
TOKEN = re.compile(r"'([^']*)'|\"([^\"]*)\"|[^\s'\"]+|['\"]")


@dataclass
class Named:
    """The places where comments name an assertion, rising: of each `~ LABEL`, and of each comment
    `$j` that has the label."""

    remarks: list[int] = field(default_factory=list)
    marks: list[int] = field(default_factory=list)


def names_in(data: bytes, labels: Collection[str]) -> dict[str, Named]:
    """Where the comments of a text name these labels."""
    found = {label: Named() for label in labels}
    for start, body in comments_of(data):
        special = SPECIAL.match(body)
        if special is None:
            for match in NAME.finditer(body) if b"~" in body else ():
                named = found.get((match[1] or b"").decode("latin-1"))
                if named is not None:
                    named.remarks.append(start + match.start())
        elif special[1] == b"j":
            for label in quoted_in(body.decode("latin-1")):
                if label in found:
                    found[label].marks.append(start)
    return found


def comments_of(data: bytes) -> Iterator[tuple[int, bytes]]:
    """The comments of a text that was verified, each with the place of its first byte behind the
    `$(`."""
    place = data.find(b"$(")
    while place >= 0:
        end = data.index(b"$)", place)
        yield place + 2, data[place + 2 : end]
        place = data.find(b"$(", end)


def quoted_in(body: str) -> set[str]:
    """The words in quotes of a comment `$j`, without the white space around them."""
    found = (each[1] or each[2] or "" for each in tokens(TOKEN, body))
    return {word.strip() for word in found} - {""}
