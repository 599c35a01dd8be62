"""The search shared by several processes.

Each takes a stretch of theorems, and searches as if no other one found anything. What it says of a
theorem is taken where that makes no difference, and otherwise the theorem is searched once more.
So the answer doesn't depend on how many processes there are.
"""

from __future__ import annotations

import json
from collections import deque
from collections.abc import Iterable, Iterator, Sequence
from dataclasses import dataclass
from functools import partial
from typing import Protocol

from query.platform import system
from query.platform.parallel import Task, begun, ended
from query.spare.kept import Change, from_fields, to_fields
from query.spare.search import State

STRETCH = 50
"""So many theorems that are searched are one piece of work."""
AHEAD = 4
"""So many times as many stretches as there are processes are searched, or wait to be taken. The
others don't wait while one takes long."""


@dataclass(frozen=True, slots=True)
class Found:
    """What a process found of a theorem: on which axioms it rests then, and its change."""

    rests: int
    change: Change | None


class Searching(Protocol):
    """What is shared. `old_rests` are the axioms on which each assertion rests at first, and
    `state` has those on which it rests now."""

    old_rests: list[int]
    state: State

    def is_sought(self, number: int) -> bool:
        """Whether a theorem may be searched."""

    def change(self, number: int) -> Change | None:
        """What becomes of a theorem."""

    def may_differ(self, number: int, others: set[int]) -> bool:
        """Whether what becomes of a theorem may depend on what these rest on."""


@dataclass(slots=True)
class Stretch:
    """Theorems, and the work of a process on them, where there is one. `before` is how many
    assertions had changed when that began, and `is_ended` whether no process works on them."""

    numbers: Sequence[int]
    task: Task | None = None
    before: int = 0
    is_ended: bool = False


def stretches(search: Searching, numbers: Sequence[int]) -> Iterator[Stretch]:
    """The theorems in order, so that each stretch has as many that are searched as another one."""
    start = count = 0
    for index, number in enumerate(numbers):
        count += search.is_sought(number)
        if count == STRETCH:
            yield Stretch(numbers[start : index + 1])
            start, count = index + 1, 0
    if start < len(numbers):
        yield Stretch(numbers[start:])


def searched(search: Searching, numbers: Sequence[int], at_once: int) -> Iterator[Change | None]:
    """What becomes of theorems, in order, by so many processes."""
    waiting = deque(stretches(search, numbers))
    if at_once == 1 or len(waiting) == 1 or not system.can_fork():
        yield from map(search.change, numbers)
        return
    running: deque[Stretch] = deque()
    try:
        while waiting or running:
            fill(search, waiting, running, at_once)
            if not running[0].is_ended:
                note_ended(running)
                continue
            for change in taken(search, running[0]):
                yield change
                fill(search, waiting, running, at_once)
            running.popleft()
    finally:
        for stretch in running:
            if stretch.task is not None:
                stretch.task.stop()


def fill(search: Searching, waiting: deque[Stretch], running: deque[Stretch], at_once: int) -> None:
    """Lets processes search, as many as there may be."""
    note_ended(running, waits=False)
    busy = sum(not stretch.is_ended for stretch in running)
    while waiting and busy < at_once and len(running) < AHEAD * at_once:
        running.append(waiting.popleft())
        start(search, running[-1])
        busy += 1


def note_ended(running: Iterable[Stretch], waits: bool = True) -> None:
    """Notes which stretches aren't searched any more; unless it isn't to wait, at least one."""
    left = [stretch for stretch in running if not stretch.is_ended]
    for place in ended([stretch.task for stretch in left if stretch.task is not None], waits):
        left[place].is_ended = True


def start(search: Searching, stretch: Stretch) -> None:
    """Lets a process search a stretch. Where there can't be another one, this one will."""
    stretch.before = len(search.state.changed)
    try:
        stretch.task = begun(partial(to_json, search, stretch.numbers))
    except OSError:
        stretch.is_ended = True


def to_json(search: Searching, numbers: Sequence[int]) -> bytes:
    """What is found of theorems, as JSON, for those of which it is something."""
    found = {}
    for number in numbers:
        change = search.change(number)
        rests = search.state.rests[number]
        if change is not None or rests != search.old_rests[number]:
            fields = None if change is None else to_fields(change)
            found[number] = [hex(rests), fields]
    return json.dumps(found).encode()


def from_json(data: bytes) -> dict[int, Found]:
    """What `to_json` wrote, as it was before."""
    return {
        int(number): Found(int(rests, 16), None if fields is None else from_fields(fields))
        for number, (rests, fields) in json.loads(data).items()
    }


def taken(search: Searching, stretch: Stretch) -> Iterator[Change | None]:
    """What becomes of the theorems of a stretch."""
    if stretch.task is None:
        yield from map(search.change, stretch.numbers)
        return
    found = from_json(stretch.task.result())
    others = set(search.state.changed[stretch.before :])
    for number in stretch.numbers:
        one = found.get(number, Found(search.old_rests[number], None))
        if others and search.may_differ(number, others):
            yield search.change(number)
            if search.state.rests[number] != one.rests:
                others.add(number)
        else:
            search.state.rest(number, one.rests)
            yield one.change
