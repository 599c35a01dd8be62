"""Which `$f` and `$d` are active at a place of a text that the program has accepted.

What the program tells of a theorem are the variables that its proof has, and no others. Another
proof may have another dummy variable, and the theorem stands among the `$d` for it, or it doesn't.
"""

from __future__ import annotations

import re
from bisect import bisect_right
from collections.abc import Iterator
from dataclasses import dataclass, field
from functools import cached_property
from operator import attrgetter
from typing import NamedTuple

from query.texts.floating import Floating, floating_in
from query.texts.uncommented import without_comments

SIGN = re.compile(rb"\$(?:[{}]|d\s([^$]*+)\$\.)")


class Sign(NamedTuple):
    """Where a block begins or ends, or a `$d`, which alone has variables."""

    place: int
    word: bytes
    variables: bytes | None


def signs_in(bare_text: bytes) -> Iterator[Sign]:
    """Those of a text without comments, in their order."""
    for match in SIGN.finditer(bare_text):
        yield Sign(match.start(), match[0], match[1])


@dataclass(slots=True)
class Block:
    """A block of the text: the one around it, its own `$f`, and its own `$d` with their places."""

    outer: Block | None
    floating: list[Floating] = field(default_factory=list)
    disjoint: list[tuple[int, list[str]]] = field(default_factory=list)


class Active:
    """What is active where. The text is looked through when it is asked for the first time."""

    def __init__(self, data: bytes) -> None:
        self.data = data

    @cached_property
    def blocks(self) -> tuple[list[int], list[Block]]:
        """The places where a block begins or ends, and the block that goes on from there; first the
        beginning of the text."""
        bare_text = without_comments(self.data)
        block = Block(None)
        places, found = [0], [block]
        signs: list[Sign | Floating] = [*signs_in(bare_text), *floating_in(bare_text)]
        for each in sorted(signs, key=attrgetter("place")):
            if isinstance(each, Floating):
                block.floating.append(each)
            elif each.variables is not None:
                block.disjoint.append((each.place, each.variables.decode("ascii").split()))
            else:
                block = Block(block) if each.word == b"${" else block.outer or block
                places.append(each.place)
                found.append(block)
        return places, found

    def at(self, place: int) -> tuple[list[Floating], list[list[str]]]:
        """The `$f` that are active at a place, in the order of the text, and the variables of each
        `$d` that is."""
        places, blocks = self.blocks
        block: Block | None = blocks[bisect_right(places, place) - 1]
        floating: list[Floating] = []
        disjoint: list[list[str]] = []
        while block is not None:
            floating += [each for each in block.floating if each.place < place]
            disjoint += [names for start, names in block.disjoint if start < place]
            block = block.outer
        return sorted(floating), disjoint
