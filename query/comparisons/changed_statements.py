"""What a label says in OLD and in NEW that says something else now, and what a new one says.

A statement is written as a database has it, without labels: `$e |- p $. $d x y $. |- ( p -> q )`.
The formula is always there; of the rest what differs, and of a new one all. It is cut where it is
long.
"""

from __future__ import annotations

from collections.abc import Iterable, Iterator, Mapping
from types import MappingProxyType
from typing import NamedTuple

from query.answers.excerpts import cut, cut_both
from query.comparisons.changes import Comparison
from query.comparisons.pairing import (
    DISTINCT,
    FORMULA,
    HYPOTHESES,
    OTHER_NAMES,
    SAME_THEOREM,
)
from query.texts.assertions import Assertion, Frame, Pair

BOTH = ("differ", "old", "new")
COLUMNS = (*BOTH, "how")
HOW = {
    "same": "each of both says what the other says",
    "weaker": "the new one is weaker",
    "instance": "the new one is an instance of the old one",
    "stronger": "the new one is stronger",
    "general": "the old one is an instance of the new one",
    "": "whether it is weaker or stronger isn't seen",
}
"""What a statement is beside the one that its label had before, in words."""
MOST_PAIRS = 10_000
"""So many pairs of distinct variables of an assertion are told one by one at the most."""
SHOWN_STATEMENT, TOLD_STATEMENT = 300, 1000
"""How many characters of a statement a person is shown, and a program."""


class Change(NamedTuple):
    """An assertion that was changed: in what its statements differ, in words, both of them, and how
    the new one is related to the old one, one of HOW, None where that isn't looked at. One that is
    new has no old statement, and nothing in which it differs from that."""

    label: str
    differ: str | None
    old: str | None
    new: str
    how: str | None = None

    def values(self) -> tuple[str | None, ...]:
        """What stands in the columns. A program isn't told that nothing was seen, since that isn't
        how they are related."""
        return (self.differ, self.old, self.new, self.how or None)


def most_of(form: str) -> int:
    """How many characters of a statement an answer has in a form."""
    return TOLD_STATEMENT if form in ("tsv", "csv", "json") else SHOWN_STATEMENT


def changes(
    comparison: Comparison,
    kind: str,
    most: int,
    hows: Mapping[str, str] = MappingProxyType({}),
) -> Iterator[Change]:
    """The theorems that were changed, or the axioms, in the order of NEW. `hows` has for their
    labels how both statements are related, where that is looked at."""
    pairing = comparison.theorems if kind == "theorem" else comparison.axioms
    told = comparison.differences
    for label, differ in pairing.changed.items():
        change = change_of(told.gone[label], told.new[label], differ, most)
        yield change._replace(how=hows.get(label))


def change_of(before: Assertion, after: Assertion, differ: str, most: int) -> Change:
    """An assertion that was changed, with so many characters of its statements at the most."""
    frames = before.frame(), after.frame()
    parts = [hypotheses(*frames)] if HYPOTHESES in differ or differ == OTHER_NAMES else []
    if DISTINCT in differ:
        parts.append(distinct(*frames))
    elif not parts and FORMULA not in differ:
        parts.append((in_order(frames[0]), in_order(frames[1])))
    old, new = (
        "".join(part[side] for part in parts) + one.formula
        for side, one in enumerate((before, after))
    )
    return Change(after.label, differ, *cut_both(old, new, most))


def arrival_of(one: Assertion, most: int) -> Change:
    """An assertion that is new, with so many characters of its statement at the most. Where it is
    longer with all pairs of distinct variables, it has only their number."""
    frame = one.frame()
    given, count = essentials(frame), frame.disjoint.count(" $d ")
    apart = f"$d {count} pairs $. " if count else ""
    if len(given) + len(frame.disjoint) + len(one.formula) <= most:
        pairs = pairs_lacking(dict.fromkeys(frame.pairs()), {})
        apart = pairs if len(given + pairs + one.formula) <= most else apart
    return Change(one.label, None, None, cut(given + apart + one.formula, most))


def essentials(frame: Frame) -> str:
    """The `$e`."""
    return "".join(f"$e {each.formula} $. " for each in frame.essential())


def hypotheses(old: Frame, new: Frame) -> tuple[str, str]:
    """The `$e` of both."""
    return essentials(old), essentials(new)


def in_order(frame: Frame) -> str:
    """All hypotheses, in order."""
    return "".join(f"${each.kind} {each.formula} $. " for each in frame.hypotheses())


def distinct(old: Frame, new: Frame) -> tuple[str, str]:
    """The pairs of distinct variables that only one of both has; where they are very many, how many
    each has."""
    counts = [frame.disjoint.count(" $d ") for frame in (old, new)]
    if max(counts) > MOST_PAIRS:
        return f"$d {counts[0]} pairs $. ", f"$d {counts[1]} pairs $. "
    one, other = dict.fromkeys(old.pairs()), dict.fromkeys(new.pairs())
    return pairs_lacking(one, other), pairs_lacking(other, one)


def pairs_lacking(some: dict[Pair, None], other: dict[Pair, None]) -> str:
    """The pairs that the other ones lack."""
    return "".join(f"$d {one} {two} $. " for one, two in some if (one, two) not in other)


def in_words(change: Change) -> str:
    """In what both statements differ, and how the new one is related to the old one; or that the
    assertion is new."""
    if change.differ is None:
        return "new"
    if change.how is None or change.differ in SAME_THEOREM:
        return change.differ
    return f"{change.differ}; {HOW[change.how]}"


def lines_of(changes: Iterable[Change]) -> Iterator[str]:
    """What a person is told of these, behind a table."""
    for each in changes:
        yield ""
        yield f"{cut(each.label)}: {in_words(each)}"
        if each.old is not None:
            yield f"  was  {each.old}"
        yield f"  is   {each.new}"
