"""Results that are kept in the user's cache folder, so that a second question is answered at once.

A result is a file with named parts. Its name is made of the sums of database and program and of
the options, so an old one is never taken for a new one. It is written beside and renamed when it
is whole. It has a code that only who knows the user's secret can make
(`query/platform/secret.py`), for its name and all of its bytes: what somebody else put there, or
is damaged, counts as missing. Where nothing can be written or read, or the folder isn't the user's
own, results are made anew. All together take at most 1 GB; the ones used longest ago go first.
"""

from __future__ import annotations

import hashlib
import hmac
import json
import os
import re
import time
from contextlib import suppress

from query.platform import secret, system
from query.platform.files import fill, replacing

MOST_CACHE_BYTES = 1_000_000_000
"""Of all results together; one alone may have half of them."""
FORM = b"mmquery result 3\n"
CODE = 32  # bytes
NEW = ".new-"
UNFINISHED_SECONDS = 3600  # after which a file that isn't finished is one that was left behind
OWN = re.compile(r"[0-9a-f]{40}|\.new-[0-9]+-[0-9a-f]+")
"""The names of files that are made here."""


def results_folder() -> str | None:
    """The folder of kept results; None where the user has none."""
    base = secret.base_folder("XDG_CACHE_HOME", ".cache")
    return None if base is None else os.path.join(base, "mmquery")


def why_unusable() -> str | None:
    """Why nothing is kept or taken; None where it may be."""
    folder, path = results_folder(), secret.location()
    if folder is None or path is None:
        return "HOME isn't set"
    wrong_folder = secret.wrong_folder(folder)
    return secret.wrong_secret(path) if wrong_folder is None else f"{folder}: {wrong_folder}"


def own_folder() -> str | None:
    """The folder, where it is the user's own."""
    folder = results_folder()
    return None if folder is None or secret.wrong_folder(folder) is not None else folder


def packed(parts: dict[str, bytes]) -> bytes:
    """The bytes of a result: a line with names and sizes of the parts, and the parts."""
    head = json.dumps([(name, len(data)) for name, data in parts.items()]).encode()
    return b"".join([head, b"\n", *parts.values()])


def unpacked(data: bytes, start: int = 0) -> dict[str, bytes]:
    """The parts of a result, which begins at a place of the data. It is one that was made here."""
    end = data.index(b"\n", start) + 1
    parts: dict[str, bytes] = {}
    for name, size in json.loads(data[start:end]):
        parts[name] = data[end : end + size]
        end += size
    return parts


def code_of(key: str, sealed_by: bytes, data: bytes | memoryview) -> bytes:
    """The code of a result under a key."""
    code = hashlib.blake2b(key=sealed_by, digest_size=CODE)
    code.update(key.encode() + b"\n")
    code.update(data)
    return code.digest()


def read_whole(path: str) -> bytes:
    """The bytes of a file that is the user's own, and notes that it was used. OSError where it
    isn't, or can't be read."""
    descriptor = secret.opened_file(path)
    with open(descriptor, "rb", buffering=0) as file:
        state = os.fstat(descriptor)
        if secret.wrong_owner(state, secret.OTHERS_WRITE) or state.st_size > MOST_CACHE_BYTES:
            raise OSError("isn't the user's own")
        system.note_use(descriptor)
        return file.readall()


def load(key: str) -> dict[str, bytes] | None:
    """The parts of the result that is kept under a key; None where there is none that was kept by
    the user."""
    folder, sealed_by = own_folder(), secret.read()
    if folder is None or sealed_by is None:
        return None
    try:
        data = read_whole(os.path.join(folder, key))
    except OSError:
        return None
    start = len(FORM) + CODE
    code = code_of(key, sealed_by, memoryview(data)[start:])
    if not data.startswith(FORM) or not hmac.compare_digest(code, data[len(FORM) : start]):
        return None
    return unpacked(data, start)


def store(key: str, parts: dict[str, bytes]) -> None:
    """Keeps a result under a key, if it can be."""
    folder = own_folder()
    data = packed(parts)
    if folder is None or len(data) > MOST_CACHE_BYTES // 2:
        return
    sealed_by = secret.read_or_make()
    if sealed_by is None:
        return
    with suppress(OSError):
        os.makedirs(folder, mode=0o700, exist_ok=True)
        make_room(folder, len(data))
        with replacing(os.path.join(folder, key), NEW) as new:
            fill(new, FORM + code_of(key, sealed_by, data) + data, 0o600)


def entries(folder: str) -> list[tuple[float, int, str]]:
    """The results in the folder: when each was last used, its size and its path; the oldest first.
    Files of other names aren't touched."""
    found = []
    with os.scandir(folder) as files:
        for file in files:
            if OWN.fullmatch(file.name) and file.is_file(follow_symlinks=False):
                # What another process is about to keep may have got its name since the folder was
                # listed.
                with suppress(FileNotFoundError):
                    state = file.stat(follow_symlinks=False)
                    found.append((state.st_mtime, state.st_size, file.path))
    return sorted(found)


def make_room(folder: str, size: int) -> None:
    """Removes what was used longest ago until so many bytes more are within the limit, and
    unfinished files that were left behind."""
    found = entries(folder)
    total = sum(each[1] for each in found) + size
    before = time.time() - UNFINISHED_SECONDS
    for used, length, path in found:
        is_new = os.path.basename(path).startswith(NEW)
        if (is_new and used < before) or (not is_new and total > MOST_CACHE_BYTES):
            with suppress(FileNotFoundError):
                os.unlink(path)
            total -= length


def clear() -> None:
    """Removes all that is kept, and the secret. OSError where that fails."""
    secret.remove()
    folder = own_folder()
    if folder is None or not os.path.isdir(folder):
        return
    for _, _, path in entries(folder):
        with suppress(FileNotFoundError):
            os.unlink(path)
    with suppress(OSError):
        os.rmdir(folder)
