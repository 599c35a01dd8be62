"""What a change of headers does to mathboxes and to the main part.

Statements that were in a mathbox and no longer are, though they stayed where they stood, or the
other way round: the header was moved, or another one stands before them. Who moves a statement out
of a mathbox, or into one, moves it past others.
"""

from __future__ import annotations

from bisect import bisect_left, bisect_right
from collections import Counter
from collections.abc import Mapping, Sequence
from dataclasses import dataclass

from query.comparisons.kept_order import longest_rising
from query.texts.assertions import Assertion
from query.texts.text import Text


@dataclass(frozen=True)
class Exposed:
    """Statements of NEW, in file order, that a mathbox of OLD lost, or one of NEW took in."""

    mathbox: str
    labels: list[str]


@dataclass(frozen=True)
class Stand:
    """Where a statement of both databases stands: the number of its mathbox in each, None where it
    is in none; and its own number in OLD."""

    label: str
    old: int | None
    new: int | None
    number: int


def exposed(
    old: Text, new: Text, to_old: Mapping[str, str], to_new: Mapping[str, str]
) -> list[Exposed]:
    """The statements that are no longer kept by a mathbox of OLD, for each of these mathboxes."""
    if not has_moved(old, new, to_new):
        return []
    stayed = rising(stands(old, new, to_old))
    owners = owners_of(stayed)
    found: dict[int, list[str]] = {}
    for each in stayed:
        if each.old is not None and (each.new is None or owners[each.new] != each.old):
            found.setdefault(each.old, []).append(each.label)
    names = {number: name for _, number, name in old.boxed()}
    return [Exposed(names[box], labels) for box, labels in sorted(found.items())]


def has_moved(old: Text, new: Text, to_new: Mapping[str, str]) -> bool:
    """Whether a statement of a mathbox isn't in that of NEW in which the others are."""
    now: dict[int, int] = {}  # for each mathbox of OLD that of NEW
    was: dict[int, int] = {}
    for one, box, _ in old.boxed():
        after = new.find(to_new.get(one.label, ""))
        if after is None:
            continue
        there = new.box(after)
        if there is None or now.setdefault(box, there) != there:
            return True
        if was.setdefault(there, box) != box:
            return True
    return False


def stands(old: Text, new: Text, to_old: Mapping[str, str]) -> list[Stand]:
    """The statements of both databases, in the order of NEW."""
    in_old = {one.label: box for one, box, _ in old.boxed()}
    in_new = {one.label: box for one, box, _ in new.boxed()}
    found = []
    for one in new.assertions:
        before = old.find(to_old.get(one.label, ""))
        if before is not None:
            boxes = (in_old.get(before.label), in_new.get(one.label))
            found.append(Stand(one.label, *boxes, before.number))
    return found


def rising(common: Sequence[Stand]) -> list[Stand]:
    """As many of them as possible that stand in the same order in both databases."""
    return [common[index] for index in longest_rising([each.number for each in common])]


def owners_of(stayed: Sequence[Stand]) -> dict[int, int]:
    """For each mathbox of NEW that one of OLD from which it has the most statements: it is that
    one, whatever name it has now. None of OLD is two."""
    counts = Counter((each.new, each.old) for each in stayed)
    found: dict[int, int] = {}
    for (new, old), _ in counts.most_common():
        if new is not None and old is not None:
            found.setdefault(new, old)
    return found


@dataclass(frozen=True)
class MainPart:
    """The main part of NEW, for rules that judge it alone. A pull request can't make it smaller by
    headers that it brings. What OLD has in its main part is in it, wherever NEW has it. All else is
    too, but for what NEW has in a mathbox where OLD has one."""

    boxed_before: frozenset[str]
    """What is in a mathbox of OLD."""
    left: frozenset[str]
    """The assertions of NEW that aren't in it."""
    entered: frozenset[str]
    """Those that are, and in OLD were in a mathbox."""
    believed: Mapping[str, str]
    """Those that are, though NEW has them in a mathbox, with the reason."""
    taken: Sequence[Exposed]
    """Those that stayed where they were in the main part, and NEW has them in these mathboxes."""


def main_part(old: Text, new: Text, to_old: Mapping[str, str]) -> MainPart:
    """The main part of NEW."""
    boxed = frozenset(one.label for one, _, _ in old.boxed())
    stayed = rising(stands(old, new, to_old))
    ground = Ground(old, new, stayed)
    left, believed = set(), {}
    for one, _, _ in new.boxed():
        if any(old.find(label) and label not in boxed for label in (one.label, was(one, to_old))):
            believed[one.label] = "the base has it in the main part"
        elif not ground.has_box(one.number):
            believed[one.label] = "the base has no mathbox there"
        else:
            left.add(one.label)
    entered = (label for label, before in to_old.items() if before in boxed and label not in left)
    taken = taken_in(new, stayed)
    return MainPart(boxed, frozenset(left), frozenset(entered), believed, taken)


def was(one: Assertion, to_old: Mapping[str, str]) -> str:
    """The label that an assertion of NEW has in OLD; "" if it isn't there."""
    return to_old.get(one.label, "")


def taken_in(new: Text, stayed: Sequence[Stand]) -> list[Exposed]:
    """The statements that stayed in the main part of OLD, for each mathbox of NEW that has them."""
    found: dict[int, list[str]] = {}
    for each in stayed:
        if each.old is None and each.new is not None:
            found.setdefault(each.new, []).append(each.label)
    names = {number: name for _, number, name in new.boxed()}
    return [Exposed(names[box], labels) for box, labels in sorted(found.items())]


class Ground:
    """Where OLD has mathboxes, for places of NEW. A place is known by what stayed before and behind
    it, so neither a header tells it nor a statement that was moved."""

    def __init__(self, old: Text, new: Text, stayed: Sequence[Stand]) -> None:
        self.boxes = old.places_of_boxes()
        self.ends = [end for _, end in self.boxes]
        self.now = [new.by_label[each.label].number for each in stayed]
        self.before = [each.number for each in stayed]
        self.count = len(old.assertions)

    def has_box(self, number: int) -> bool:
        """Whether OLD has a mathbox at the place of the assertion of NEW with a number: between the
        last statement before it that stayed, or itself, and the next one."""
        place = bisect_right(self.now, number)
        first = self.before[place - 1] + 1 if place else 0
        last = self.before[place] if place < len(self.before) else self.count
        box = bisect_left(self.ends, first)
        return box < len(self.boxes) and self.boxes[box][0] <= last
