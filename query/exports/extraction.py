"""A part of a database that is a database: some theorems, and all that their proofs name.

Blocks stay as far as something in them is needed, and with them each `$e` and `$d` before the last
statement that is. Of symbols only those stay that formulas have, and the variables of each `$f`
that a proof names. The text is one that the program has accepted.
"""

from __future__ import annotations

import re
from collections.abc import Iterable, Iterator
from dataclasses import dataclass
from textwrap import fill

from query.platform import progress
from query.texts.assertions import Assertion
from query.texts.text import Place, Text
from query.texts.uncommented import without_comments

OTHER = re.compile(rb"\$[{}]|(?:\$[cvd]|[^\s$]++\s++\$[fe])\s[^$]*+\$\.")
INDENTATION, DEEPEST, WIDTH = "  ", 20, 79
"""What stands before a line for each block around it, so many times at the most; and how many
columns a line has, as in set.mm."""


@dataclass(frozen=True, slots=True)
class Item:
    """A statement that isn't an assertion, or the beginning or the end of a block, by its words; or
    an assertion, by its words up to its proof."""

    words: list[str]
    assertion: Assertion | None = None

    @property
    def keyword(self) -> str:
        """What it begins with behind its label, as `$d`."""
        return self.words[0] if self.words[0][0] == "$" else self.words[1]

    @property
    def symbols(self) -> list[str]:
        """The words behind the keyword, without the one that ends it."""
        return self.words[self.words.index(self.keyword) + 1 : -1]


def needed_by(text: Text, wanted: Iterable[Assertion]) -> tuple[set[int], set[str]]:
    """The numbers of some assertions and of all that their proofs name, all the way down; and the
    labels of the hypotheses that these proofs name."""
    left = [*wanted]
    numbers = {one.number for one in left}
    hypotheses: set[str] = set()
    done = 0
    while left:
        if done % progress.STEP == 0:
            progress.now(f"reading proofs, {done} of {done + len(left)} are done")
        done += 1
        for label in labels_in(text.proof(left.pop())):
            one = text.find(label)
            if one is None:
                hypotheses.add(label)
            elif one.number not in numbers:
                numbers.add(one.number)
                left.append(one)
    return numbers, hypotheses


def labels_in(words: list[str]) -> set[str]:
    """The labels that a proof names, also where no letter stands for one."""
    if words[:1] == ["("]:
        return {*words[1 : words.index(")")]}
    return {*words} - {"?"}


def items_of(text: Text, numbers: set[int]) -> Iterator[Item]:
    """All statements of a text that aren't assertions, and the assertions of these numbers."""
    bare_text = without_comments(text.data)
    since: Place = 0
    for one in text.assertions:
        yield from others_in(bare_text, since, one.place)
        since = one.end
        if one.number in numbers:
            statement = bare_text[one.place : one.end].partition(b"$=")[0].removesuffix(b"$.")
            yield Item([*statement.decode().split(), "$."], one)
    yield from others_in(bare_text, since, len(bare_text))


def others_in(bare_text: bytes, start: Place, end: Place) -> Iterator[Item]:
    """The statements between two assertions."""
    for match in OTHER.finditer(bare_text, start, end):
        yield Item(match[0].decode().split())


def without_idle_blocks(items: Iterable[Item]) -> list[Item]:
    """The items without blocks that have no assertion, and in each block without what stands behind
    the last assertion in it."""
    kept: list[Item] = []
    # For each block that is open, where its items begin, and where those end that are needed.
    starts, ends = [0], [0]
    for item in items:
        if item.keyword == "$}":
            start, end = starts.pop(), ends.pop()
            del kept[end:]
            if end > start:
                kept.append(item)
                ends[-1] = len(kept)
            else:
                del kept[start - 1 :]
            continue
        kept.append(item)
        if item.keyword == "${":
            starts.append(len(kept))
            ends.append(len(kept))
        elif item.assertion is not None:
            ends[-1] = len(kept)
    return kept[: ends[0]]


def with_needed_symbols(items: list[Item], labels: set[str]) -> Iterator[Item]:
    """The items, of which declarations and `$d` have the needed symbols alone. These are the ones
    in formulas, and the variables of each `$f` that has one of the labels."""
    needed: set[str] = set()
    for item in items:
        if item.keyword in ("$a", "$p", "$e") or (item.keyword == "$f" and item.words[0] in labels):
            needed.update(item.symbols)
    # The typecode of a variable is needed too, which is a constant.
    floating = [item.symbols for item in items if item.keyword == "$f"]
    needed |= {typecode for typecode, variable in floating if variable in needed}
    least = {"$c": 1, "$v": 1, "$d": 2, "$f": 2}
    for item in items:
        if item.keyword not in least:
            yield item
            continue
        left = [symbol for symbol in item.symbols if symbol in needed]
        if len(left) >= least[item.keyword]:
            at = item.words.index(item.keyword) + 1
            yield Item([*item.words[:at], *left, "$."])


def extract(text: Text, numbers: set[int], labels: set[str]) -> Iterator[str]:
    """The lines of a database with the assertions of these numbers and the hypotheses of these
    labels, as `needed_by` has them. Each assertion stands as it is written in the text, behind the
    comment that describes it."""
    items = without_idle_blocks(items_of(text, numbers))
    depth = 0
    left = [*with_needed_symbols(items, labels)]
    for item in progress.counted(left, "writing statements"):
        depth -= item.keyword == "$}"
        space = INDENTATION * min(depth, DEEPEST)
        if item.assertion is None:
            yield f"{laid_out(item.words, space)}\n"
        else:
            comment = text.comment(item.assertion)
            if comment:
                yield f"{space}$({comment}$)\n"
            yield f"{space}{written(text, item.assertion)}\n"
        depth += item.keyword == "${"


def laid_out(words: list[str], space: str) -> str:
    """A statement on lines of at most WIDTH columns, if its words aren't longer."""
    return fill(
        " ".join(words),
        WIDTH,
        initial_indent=space,
        subsequent_indent=space + INDENTATION,
        break_long_words=False,
        break_on_hyphens=False,
    )


def written(text: Text, one: Assertion) -> str:
    """An assertion as it is written in the text, without its label's own indentation."""
    return text.data[one.place : one.end].decode("latin-1")
