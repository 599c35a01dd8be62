"""A call of git that reads object after object.

What is alike git keeps as differences to each other. So one call that reads the same file of many
revisions builds less anew than a call for each of them would.
"""

from __future__ import annotations

import os
import subprocess
from collections.abc import Callable
from functools import partial

from query.answers.errors import NoAnswer
from query.git.repository import MOST_SECONDS, end, short, too_much
from query.platform import signals, system
from query.platform.system import PIPE

WORDS = ("-c", "core.deltaBaseCacheLimit=512m", "cat-file", "--batch")
"""The limit is of what git remembers of objects to which others are differences: those of a file of
some 50 MB, and of the one before it."""
LONGEST_HEAD = 200
"""Bytes of the line that stands before an object."""

Begin = Callable[[int], subprocess.Popen[bytes]]
"""Begins a call with `WORDS`, that reads objects of at most so many bytes."""


class Reader:
    """Reads objects, for `with`. The call begins with the first object, and anew with one that is
    longer than what it may read."""

    def __init__(self, begin: Begin) -> None:
        self.begin = begin
        self.process: subprocess.Popen[bytes] | None = None
        self.number = 0
        self.most = 0
        """So long may an object be that the call reads."""
        self.left = b""
        """What was read, and isn't of the object before."""

    def __enter__(self) -> Reader:
        return self

    def __exit__(self, *_: object) -> None:
        self.stop()

    def stop(self) -> None:
        """Ends the call."""
        if self.process is not None:
            with signals.held():
                signals.forget(self.number)
                self.process.kill()
                self.process.wait()
            for pipe in (self.process.stdin, self.process.stdout, self.process.stderr):
                if pipe is not None:
                    pipe.close()
            self.process, self.most, self.left = None, 0, b""

    def read(self, kind: str, name: str, size: int) -> bytes:
        """The bytes of an object, which has so many. NoAnswer where git doesn't say that."""
        try:
            process = self.started(size)
            assert process.stdin is not None
            os.write(process.stdin.fileno(), f"{name}\n".encode())
            if self.line() != f"{name} {kind} {size}".encode():
                raise NoAnswer(f"git: {short(name)}: isn't read as it was told before")
            return self.exactly(size + 1)[:-1]
        except BrokenPipeError:
            self.stop()
            raise ended_early() from None
        except BaseException:
            self.stop()
            raise

    def started(self, size: int) -> subprocess.Popen[bytes]:
        """The call, which may read an object of this size."""
        if self.process is None or size > self.most:
            self.stop()
            with signals.held():
                self.process = self.begin(size)
                self.number = signals.at_stop(partial(end, self.process))
            self.most = size
            assert self.process.stdout is not None
            system.widen(self.process.stdout.fileno(), PIPE)
        return self.process

    def line(self) -> bytes:
        """The next line, without its end."""
        while b"\n" not in self.left and len(self.left) < LONGEST_HEAD:
            self.left += self.more()
        head, _, self.left = self.left.partition(b"\n")
        return head

    def exactly(self, size: int) -> bytes:
        """So many of the next bytes."""
        pieces, count = [self.left], len(self.left)
        while count < size:
            pieces.append(self.more())
            count += len(pieces[-1])
        data = b"".join(pieces)
        self.left = data[size:]
        return data[:size] if self.left else data

    def more(self) -> bytes:
        """What comes next. Python looks once a second whether a signal came in the instant before
        it began to wait."""
        assert self.process is not None and self.process.stdout is not None
        pipe = self.process.stdout.fileno()
        for _ in range(MOST_SECONDS):
            if system.has_more(pipe, 1):
                piece = os.read(pipe, PIPE)
                if not piece:
                    raise ended_early()
                return piece
        raise too_much(WORDS[2:], f"{MOST_SECONDS} seconds")


def ended_early() -> NoAnswer:
    """What is said where git ends before it has told an object, for `raise`."""
    return NoAnswer("not judged: git ended before it had told an object")
