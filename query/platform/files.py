"""A new file, written whole or not at all."""

from __future__ import annotations

import os
from collections.abc import Iterator
from contextlib import contextmanager, suppress

from query.answers.errors import NoAnswer, reason, shown
from query.platform import signals, system


def see_missing(path: str) -> None:
    """NoAnswer where there is a file of this name already: nothing is replaced."""
    if os.path.lexists(path):
        raise NoAnswer(f"{shown(path)}: is there already; it isn't replaced")


@contextmanager
def replacing(path: str, start: str = ".{}.") -> Iterator[str]:
    """The name of a file beside another, whose place it takes at the end. `start` is how it begins.
    It is removed where something fails, or a signal ends the command."""
    folder, base = os.path.split(path)
    new = os.path.join(folder, f"{start.format(base)}{os.getpid()}-{os.urandom(6).hex()}")
    number = signals.at_stop(lambda: os.unlink(new))
    try:
        yield new
        os.replace(new, path)
    finally:
        signals.forget(number)
        with suppress(FileNotFoundError):
            os.unlink(new)


def fill(path: str, data: bytes, mode: int = 0o666) -> None:
    """Makes a file with these bytes."""
    descriptor = os.open(path, system.MAKING, mode)
    with open(descriptor, "wb", buffering=0) as file:
        view = memoryview(data)
        while view:
            view = view[file.write(view) :]


def write_new(path: str, data: bytes) -> None:
    """Writes a file that isn't there yet. NoAnswer where that can't be done."""
    try:
        with replacing(path) as new:
            fill(new, data)
    except OSError as error:
        raise NoAnswer(f"{shown(path)}: {reason(error)}") from None
