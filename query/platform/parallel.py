"""Work that another process does while this one goes on, since one of Python uses one processor.

Where a process can't make a copy of itself, this one does the work when its result is wanted.
"""

from __future__ import annotations

import os
import signal
from collections.abc import Callable, Sequence
from typing import NoReturn, Protocol

from query.answers.errors import NoAnswer
from query.platform import signals, system
from query.platform.system import PIPE

DONE, WITHOUT_ANSWER = b"+", b"-"
LARGE = 1 << 20
"""Work on fewer bytes takes less time than to copy this process."""
MOST_AT_ONCE = 4
"""So many processes work where no number is asked for, if there are processors and memory."""
GROWTH = 2
"""A process that works may take so many times the memory that it takes when it begins."""


class Task(Protocol):
    """Work that is to be done: a function that returns bytes. What it does to objects may be seen
    afterwards or not, so nothing may depend on it."""

    def result(self) -> bytes:
        """Waits for what the work returns. NoAnswer where it raised that, or ended otherwise."""

    def stop(self) -> None:
        """Ends the work, where its result isn't wanted any more."""

    def pipe(self) -> int | None:
        """Where the result comes from when it is there; None where this process does the work."""


def begun(work: Callable[[], bytes], size: int = LARGE) -> Task:
    """Begins work in a copy of this process, or leaves it for later where there are no copies, or
    `size` says that it looks at so few bytes that a copy would take longer."""
    if size >= LARGE and system.can_fork():
        return Copy(work)
    return Later(work)


def ended(tasks: Sequence[Task], waits: bool = True) -> list[int]:
    """Which of some tasks have their result, as indices, or need this process for it; unless it
    isn't to wait, at least one."""
    pipes = [task.pipe() for task in tasks]
    copies = [pipe for pipe in pipes if pipe is not None]
    found = {*signals.first_of(copies, waits and None not in pipes)} if copies else set()
    return [place for place, pipe in enumerate(pipes) if pipe is None or pipe in found]


class Later:
    """Work that this process does when its result is wanted."""

    def __init__(self, work: Callable[[], bytes]) -> None:
        self.work = work

    def result(self) -> bytes:
        """Does the work."""
        return self.work()

    def stop(self) -> None:
        """Does nothing: the work was done, or never begun."""

    def pipe(self) -> int | None:
        """None."""
        return None


class Copy:
    """Work in a copy of this process.

    What the work does to objects stays in the copy. Its standard output and error go nowhere.
    OSError where there can't be another process.
    """

    def __init__(self, work: Callable[[], bytes]) -> None:
        self.reading, writing = os.pipe()
        system.widen(writing, PIPE)
        self.is_over = False
        try:
            with signals.held():
                self.process = system.fork()
                if self.process == 0:
                    os.close(self.reading)
                    _do(work, writing)
                self.number = signals.at_stop(self.kill)
        except OSError:
            os.close(self.reading)
            raise
        finally:
            os.close(writing)

    def result(self) -> bytes:
        """Waits for what the work returns. NoAnswer where it raised that, or ended otherwise."""
        data = bytearray()
        while piece := signals.read(self.reading, PIPE):
            data += piece
        os.close(self.reading)
        status = self.end()
        if data[:1] == DONE and status == 0:
            return bytes(memoryview(data)[1:])
        if data[:1] == WITHOUT_ANSWER:
            raise NoAnswer(data[1:].decode("utf-8", "surrogateescape"))
        raise NoAnswer("out of memory" if status else "a process that helps ended too early")

    def pipe(self) -> int | None:
        """The pipe to which the copy writes its result."""
        return self.reading

    def kill(self) -> None:
        """Lets a signal end the work, where it isn't over."""
        if not self.is_over:
            os.kill(self.process, signal.SIGTERM)

    def end(self) -> int:
        """Waits for the end of the process. Returns its status, not 0 where a signal ended it."""
        _, status = os.waitpid(self.process, 0)
        self.is_over = True
        signals.forget(self.number)
        return status

    def stop(self) -> None:
        """Ends the work, where its result isn't wanted any more."""
        if not self.is_over:
            self.kill()
            os.close(self.reading)
            self.end()


def _do(work: Callable[[], bytes], writing: int) -> NoReturn:
    """Does the work, and writes its result or why there is none to a pipe."""
    signals.forget_all()
    nowhere = os.open(os.devnull, os.O_RDWR)
    for number in range(3):
        os.dup2(nowhere, number)
    status = 0
    try:
        try:
            data = DONE + work()
        except NoAnswer as why:
            data = WITHOUT_ANSWER + why.sentence().encode("utf-8", "surrogateescape")
        view = memoryview(data)
        while view:
            view = view[os.write(writing, view) :]
    except BaseException:
        status = 2
    finally:
        os._exit(status)


def number_at_once() -> int:
    """How many processes work where no number is asked for: one for each processor, at most
    `MOST_AT_ONCE`, as far as the memory goes that is free."""
    own, free = system.memory()
    others = MOST_AT_ONCE if own is None or free is None else free // (GROWTH * own)
    return max(1, min(MOST_AT_ONCE, system.processors(), 1 + others))
