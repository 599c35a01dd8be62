"""Interrupts. A signal ends the command at once, with status 128 and its number and one line.

What is to be done before, such as removing an unfinished file or ending the program, is registered
by `at_stop`. Nothing of an answer was written then, or not all of it.
"""

import os
import signal
from collections.abc import Callable, Iterator, Sequence
from contextlib import contextmanager, suppress
from itertools import count
from types import FrameType

from query.answers.errors import tell
from query.platform import system
from query.platform.system import STOPPING

MOST_AT_ONCE = 1 << 16
"""Bytes that signals have written, as many as are read at once."""

_to_do: dict[int, Callable[[], None]] = {}
_numbers = count(1)


class Waiting:
    """Whether signals are held back, and the one that came meanwhile. `waking` is the end of a pipe
    to which each signal writes; None where there is none."""

    is_held = False
    came: int | None = None
    waking: int | None = None


_waiting = Waiting()


def at_stop(action: Callable[[], None]) -> int:
    """Registers what is to be done when a signal ends the command. Returns its number."""
    number = next(_numbers)
    _to_do[number] = action
    return number


def forget(number: int) -> None:
    """Takes back what `at_stop` registered under this number."""
    _to_do.pop(number, None)


def forget_all() -> None:
    """Takes back all that was registered: in a copy of the process, what the first one does."""
    _to_do.clear()
    if _waiting.waking is not None:
        # What signals wrote to the pipe of the first one isn't for this one.
        _waiting.waking = system.waking()
    _release()


@contextmanager
def held() -> Iterator[None]:
    """Holds signals back while something begins that is to be ended by one, up to `at_stop`."""
    _waiting.is_held = True
    try:
        yield
    finally:
        _release()


def _release() -> None:
    _waiting.is_held = False
    if _waiting.came is not None:
        _stop(_waiting.came, None)


def _stop(number: int, _: FrameType | None) -> None:
    if _waiting.is_held:
        _waiting.came = number
        return
    for other in STOPPING:
        signal.signal(other, signal.SIG_IGN)
    for action in reversed([*_to_do.values()]):
        with suppress(OSError):
            action()
    if number == signal.SIGINT:
        tell("interrupted")
    os._exit(128 + number)


def listen() -> None:
    """Lets signals end the command, but those that were ignored when it began."""
    for number in STOPPING:
        if signal.getsignal(number) is not signal.SIG_IGN:
            signal.signal(number, _stop)
    _waiting.waking = system.waking()
    system.let_in(STOPPING)


def read(pipe: int, size: int) -> bytes:
    """The next bytes of a pipe, at most so many; b"" at its end."""
    if _waiting.waking is not None:
        first_of([pipe])
    return os.read(pipe, size)


def first_of(pipes: Sequence[int], waits: bool = True) -> list[int]:
    """Those of some pipes that have something to read, or have ended; unless it isn't to wait,
    at least one.

    Python looks whether a signal has come, and then begins to wait. One that comes between the two
    is answered at once all the same, since it has written to the other pipe.
    """
    others = [] if _waiting.waking is None else [_waiting.waking]
    while True:
        found = system.first_of(*pipes, *others, waits=waits)
        if _waiting.waking is not None and _waiting.waking in found:
            os.read(_waiting.waking, MOST_AT_ONCE)
            found.remove(_waiting.waking)
        if found or not waits:
            return found
