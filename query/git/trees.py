"""Trees of git: what a folder of a commit has, read from the bytes of its object.

Only a tree of the form that git itself writes is read. In another one git may find something else
than it checks out: of two entries of one name it reads one and checks out the other, and an entry
whose name has a `/` gets into another folder.
"""

from __future__ import annotations

import os
import re
import unicodedata
from collections.abc import Iterable, Mapping
from dataclasses import dataclass

from query.answers.errors import shown

FILES = (b"100644", b"100755")
FOLDER, LINK, SUBMODULE = b"40000", b"120000", b"160000"
MODES = frozenset((*FILES, FOLDER, LINK, SUBMODULE))
HEAD = re.compile(rb"([0-7]+) ([^\0]+)\0")

IGNORED = dict.fromkeys((*range(0x200C, 0x2010), *range(0x202A, 0x202F), *range(0x206A, 0x2070)))
IGNORED[0xFEFF] = None
"""Signs that the file system of macOS passes over in names."""
ENDS_ON_WINDOWS = re.compile(r":.*|[. ]+\Z", re.DOTALL)
"""What Windows doesn't take for a part of a name: a stream, dots and spaces."""
GIT_FOLDERS = (".git", "git~1")
BARE = frozenset(("head", "objects", "refs"))
"""What a folder has that git takes for a bare repository, where case doesn't matter."""


class Malformed(Exception):
    """A tree hasn't the form that git writes; the reason, in words."""


@dataclass(frozen=True)
class Entry:
    """What a folder of a commit has under a name."""

    mode: bytes
    name: str
    """The full id."""

    @property
    def is_folder(self) -> bool:
        """Whether it is a folder."""
        return self.mode == FOLDER


def entries_of(tree: bytes, size: int) -> dict[bytes, Entry]:
    """What a tree has, by names; an id takes `size` bytes. Malformed where git wouldn't write it
    so."""
    found: dict[bytes, Entry] = {}
    place, before = 0, b""
    while place < len(tree):
        head = HEAD.match(tree, place)
        if head is None or head.end() + size > len(tree):
            raise Malformed("it is cut off")
        mode, name = head.groups()
        place = head.end() + size
        see_plain(mode, name)
        # git sorts folders as if their names ended in `/`, so a file and a folder of one name don't
        # stand side by side.
        key = name + b"/" if mode == FOLDER else name
        if name in found:
            raise Malformed(f"it has two entries of the name {told(name)}")
        if key <= before:
            raise Malformed(f"{told(name)} isn't in its place")
        before = key
        found[name] = Entry(mode, tree[head.end() : place].hex())
    return found


def see_plain(mode: bytes, name: bytes) -> None:
    """Malformed where an entry has a mode or a name that git doesn't write."""
    if mode not in MODES:
        raise Malformed(f"{told(name)} has the mode {mode.decode('ascii')}")
    if b"/" in name or name in (b".", b"..") or fold(name) in GIT_FOLDERS:
        raise Malformed(f"it has an entry of the name {told(name)}")


def told(name: bytes) -> str:
    """A name for a message."""
    return shown(os.fsdecode(name))


def fold(name: bytes) -> str:
    """What names have in common that some system takes for one: case, the form of Unicode, signs
    that it passes over, and what Windows cuts off or takes for the way through other folders. To
    these systems names are UTF-8, whatever the user's settings say."""
    text = name.decode("utf-8", "surrogateescape")
    if "\\" in text:
        text = first_of_way(text.split("\\"))
    text = ENDS_ON_WINDOWS.sub("", text).translate(IGNORED)
    return unicodedata.normalize("NFC", unicodedata.normalize("NFD", text).casefold())


def first_of_way(parts: Iterable[str]) -> str:
    """The first name on a way through folders, which may lead back."""
    way: list[str] = []
    for part in parts:
        if part == "..":
            del way[-1:]
        elif part not in ("", "."):
            way.append(part)
    return way[0] if way else ""


def is_bare(beside: Iterable[bytes]) -> bool:
    """Whether some system would find the files of a bare repository in a folder with these
    names."""
    return BARE <= {fold(name) for name in beside}


def twins(name: bytes, beside: Mapping[bytes, Entry]) -> list[bytes]:
    """The names of a folder that some system takes for this one."""
    wanted = fold(name)
    return [other for other in beside if other != name and fold(other) == wanted]
