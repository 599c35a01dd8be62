"""A folder for a while, which only the user can open."""

from __future__ import annotations

import os
import shutil
import stat
import tempfile
from collections.abc import Iterator
from contextlib import contextmanager, suppress
from functools import partial
from pathlib import Path
from typing import Any

from query.answers.errors import NoAnswer, shown
from query.platform import signals, system

ROOT = 0
"""The user who may do anything anyway."""


def see_own(place: str) -> None:
    """NoAnswer where somebody else could rename what is made in a folder, and put something else in
    its place."""
    state, user = os.stat(place), system.user()
    if user is None:
        return
    name = f"{shown(place)}, the folder for temporary files (TMPDIR),"
    if state.st_uid not in (user, ROOT):
        raise NoAnswer(f"{name} belongs to somebody else")
    if state.st_mode & stat.S_IWOTH and not state.st_mode & stat.S_ISVTX:
        raise NoAnswer(f"{name} is one in which others may rename what isn't theirs")


@contextmanager
def folder() -> Iterator[Path]:
    """A new folder. It is removed at the end, and where a signal ends the command."""
    see_own(tempfile.gettempdir())
    with signals.held():
        made = Path(tempfile.mkdtemp(prefix="mmquery-"))
        number = signals.at_stop(partial(remove, made))
    try:
        yield made
    finally:
        remove(made)
        signals.forget(number)


def remove(folder: Path) -> None:
    """Removes a folder and all that is in it."""
    shutil.rmtree(folder, onerror=_remove_anyway)


def _remove_anyway(call: Any, path: str, _: Any) -> None:
    """Removes what couldn't be removed. Windows removes no file that is read-only, as git's objects
    are."""
    if call in (os.unlink, os.rmdir):
        with suppress(OSError):
            os.chmod(path, 0o700)
            call(path)
