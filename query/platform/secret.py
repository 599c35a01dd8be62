"""The user's secret: by it mmquery tells what it kept itself from what somebody else put there.

It is a file that only the user may read. Where the place of it, or of what is kept, isn't the
user's own, nothing there is believed: a database often lies in a checkout, and whatever a checkout
brings was written by somebody else.
"""

from __future__ import annotations

import os
import stat
from contextlib import suppress
from pathlib import Path

from query.answers.errors import reason
from query.platform import system

SIZE = 32  # bytes
NAME = "secret"
OTHERS_WRITE, OTHERS_ALL = 0o022, 0o077  # rights of a file that its group and others have


def base_folder(variable: str, within_home: str) -> str | None:
    """The folder that a variable of the environment names, else one in HOME; None where neither is
    given by its whole path."""
    base = os.environ.get(variable, "")
    if os.path.isabs(base):
        return base
    home = os.environ.get("HOME", "")
    return os.path.join(home, within_home) if os.path.isabs(home) else None


def location() -> str | None:
    """Where the secret is; None where the user has no such place."""
    base = base_folder("XDG_CONFIG_HOME", ".config")
    return None if base is None else os.path.join(base, "mmquery", NAME)


def wrong_folder(path: str) -> str | None:
    """Why a folder isn't the user's own; None where it is, or isn't there yet."""
    if system.user() is None:
        return "this system doesn't tell whose it is"
    if any(is_in_checkout(each) for each in {os.path.abspath(path), os.path.realpath(path)}):
        return "it lies in a git checkout"
    try:
        state = os.lstat(path)
    except FileNotFoundError:
        return None
    except OSError as error:
        return reason(error)
    if stat.S_ISLNK(state.st_mode):
        return "it is a link"
    if not stat.S_ISDIR(state.st_mode):
        return "it isn't a folder"
    return wrong_owner(state, OTHERS_WRITE)


def wrong_owner(state: os.stat_result, mode: int) -> str | None:
    """Why a file isn't the user's own; `mode` are the rights that nobody else may have."""
    if state.st_uid != system.user():
        return "it belongs to somebody else"
    if state.st_mode & mode:
        return "others may change it" if mode == OTHERS_WRITE else "others may read it"
    return None


def is_in_checkout(path: str) -> bool:
    """Whether a path lies in a working folder of git, or in a repository."""
    for each in (Path(path), *Path(path).parents):
        if os.path.lexists(each / ".git"):
            return True
        if os.path.lexists(each / "HEAD") and os.path.lexists(each / "objects"):
            return True
    return False


def opened_file(path: str) -> int:
    """A file to be read, if it is one and no link. OSError where it isn't."""
    descriptor = system.opened(path)
    if not stat.S_ISREG(os.fstat(descriptor).st_mode):
        os.close(descriptor)
        raise OSError("isn't a file")
    return descriptor


def wrong_secret(path: str) -> str | None:
    """Why the secret can't be used; None where it can, or isn't there yet."""
    return looked_at(path)[0]


def looked_at(path: str) -> tuple[str | None, bytes | None]:
    """The same, and the secret where there is one that can be used. What is read is what was looked
    at: the file is opened once."""
    wrong = wrong_folder(os.path.dirname(path))
    if wrong is not None:
        return f"{os.path.dirname(path)}: {wrong}", None
    try:
        descriptor = opened_file(path)
    except FileNotFoundError:
        return None, None
    except OSError as error:
        return f"{path}: {reason(error)}", None
    try:
        state = os.fstat(descriptor)
        wrong = wrong_owner(state, OTHERS_ALL)
        found = os.read(descriptor, SIZE + 1) if wrong is None else b""
    finally:
        os.close(descriptor)
    if wrong is None and len(found) != SIZE:
        wrong = f"it has {state.st_size} bytes, where {SIZE} are wanted"
    return (None, found) if wrong is None else (f"{path}: {wrong}", None)


def read() -> bytes | None:
    """The secret; None where there is none that can be used."""
    path = location()
    return None if path is None else looked_at(path)[1]


def remove() -> None:
    """Removes the secret, and its folder where nothing else is in it, if the folder is the user's
    own. OSError where that fails."""
    path = location()
    if path is None or wrong_folder(os.path.dirname(path)) is not None:
        return
    with suppress(FileNotFoundError):
        os.unlink(path)
    with suppress(OSError):
        os.rmdir(os.path.dirname(path))


def read_or_make() -> bytes | None:
    """The secret, a new one where there is none yet; None where that can't be."""
    path = location()
    if path is None or wrong_secret(path) is not None:
        return None
    if not os.path.lexists(path):
        try:
            make(path)
        except OSError:
            return None
    return read()


def make(path: str) -> None:
    """Makes the secret, whole or not at all. Of several processes the first one does. OSError where
    that can't be done."""
    os.makedirs(os.path.dirname(path), mode=0o700, exist_ok=True)
    new = f"{path}.{os.getpid()}-{os.urandom(6).hex()}"
    descriptor = os.open(new, system.MAKING, 0o600)
    try:
        os.write(descriptor, os.urandom(SIZE))
        os.fsync(descriptor)
        system.link(new, path)
    except FileExistsError:
        pass  # another process was first, and its secret holds
    finally:
        os.close(descriptor)
        os.unlink(new)
