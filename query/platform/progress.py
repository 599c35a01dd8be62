"""A line on standard error, on a terminal alone, while a command takes longer than a second."""

import os
from collections.abc import Iterator, Sequence
from types import FrameType
from typing import TypeVar

from query.answers.errors import CLEARED, progress_line, put, shown
from query.platform import system


Item = TypeVar("Item")
STEP = 100
"""After so many items the line is written anew."""


class Line:
    """What the line says."""

    doing = "working"


_line = Line()


def now(doing: str) -> None:
    """Says what is being done, such as `verifying set.mm`."""
    _line.doing = shown(doing)
    if progress_line.is_shown:
        _show()


def counted(items: Sequence[Item], doing: str) -> Iterator[Item]:
    """These items one by one, while the line says how many of them are done."""
    for number, item in enumerate(items):
        if number % STEP == 0:
            now(f"{doing}, {number} of {len(items)} are done")
        yield item


def _show(*_: int | FrameType | None) -> None:
    progress_line.is_shown = True
    put(f"{CLEARED}mmquery: {_line.doing} ..")


def begin() -> None:
    """From now on the line is shown after a second, where standard error is a terminal and the
    system has a clock for it."""
    if os.isatty(2):
        system.after(1, _show)


def end() -> None:
    """Takes the line away."""
    if os.isatty(2):
        system.not_after()
    if progress_line.is_shown:
        put(CLEARED)
    progress_line.is_shown = False
