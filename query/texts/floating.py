"""The `$f` of a text: those that no line of the program tells, too."""

import re
from collections.abc import Iterator
from typing import NamedTuple

from query.texts.uncommented import without_comments

FLOATING = re.compile(rb"\$f\s++([^\s$]++)\s++([^\s$]++)\s++\$\.")


class Floating(NamedTuple):
    """A `$f` statement. Its place is that of `$f`."""

    place: int
    label: str
    typecode: str
    variable: str


def floating_in(bare_text: bytes) -> Iterator[Floating]:
    """The `$f` of a text without comments that the program has accepted, in their order."""
    end = 0
    for match in FLOATING.finditer(bare_text):
        label = bare_text[end : match.start()].rsplit(None, 1)[-1]
        yield Floating(match.start(), label.decode(), match[1].decode(), match[2].decode())
        end = match.end()


def floating_of(data: bytes) -> dict[str, tuple[str, str]]:
    """For the label of each `$f` its typecode and its variable."""
    return {
        each.label: (each.typecode, each.variable) for each in floating_in(without_comments(data))
    }
