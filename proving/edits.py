"""Edits: files that each make a body wrong.

An edit stands in `crates/NAME/must-fail`, where `rt ci` finds it too, or in
`crates/NAME/wrong-bodies`. `rt` says what such a file has in it.
"""

import os
import re
from dataclasses import dataclass, field
from pathlib import Path

from proving import toolchain
from proving.tree import Crate

FOLDERS = ("must-fail", "wrong-bodies")
NAME = re.compile(r"[A-Za-z0-9_-][A-Za-z0-9_.-]*\.edit")


@dataclass
class Change:
    """What an edit does to one file, if it changes one alone: the bytes from `start` to `end` of
    the file as it is are replaced, and `text` is the whole file afterwards."""

    file: str
    start: int
    end: int
    text: bytes
    # How many bytes longer the file has become.
    longer: int


@dataclass
class Edit:
    """An edit of a crate, and what became of it."""

    crate: Crate
    path: Path
    # None if the edit can't be applied, or changes more than one file.
    change: Change | None = None
    # Why the prover refuses it, once that is known.
    refused: str | None = None
    # Why a joined check couldn't tell, or why no joined check could have it.
    unclear: str = ""
    # How it was tried, in one word: kept, joined, in place, alone.
    way: str = ""
    # Why it counts as failed in the end.
    failed: str = ""
    texts: dict[str, str] = field(default_factory=dict)

    @property
    def name(self) -> str:
        """The crate and the mistake."""
        return f"{self.crate.name}/{self.path.parent.name}/{self.path.stem}"


def read(crate: Crate, path: Path) -> Edit:
    """Reads an edit."""
    edit = Edit(crate, path)
    texts, why = toolchain.rt().read_edit(str(path), crate.folder)
    if why:
        edit.unclear = why
        return edit
    edit.texts = texts
    changed = [change_of(crate, file, text) for file, text in sorted(texts.items())]
    changed = [change for change in changed if change.start < change.end or change.longer]
    if len(changed) == 1:
        edit.change = changed[0]
    else:
        edit.unclear = "it changes more than one file"
    return edit


def change_of(crate: Crate, file: str, text: str) -> Change:
    """Where a file of the crate and its new text differ: from the first byte to the last."""
    with open(f"{crate.folder}/{file}", "rb") as source:
        old = source.read()
    new = text.encode()
    start = len(os.path.commonprefix([old, new]))
    most = min(len(old), len(new)) - start
    same = 0
    while same < most and old[-1 - same] == new[-1 - same]:
        same += 1
    return Change(file, start, len(old) - same, new, len(new) - len(old))


def edits_of(crate: Crate) -> tuple[list[Edit], list[str]]:
    """The edits of a crate in the order of their names, and what is wrong with its folders: a
    file that is no edit, an edit anywhere else in the crate, a name that two edits have."""
    top = Path(crate.folder)
    paths, wrong = [], []
    for folder in FOLDERS:
        for path in sorted((top / folder).iterdir()) if (top / folder).is_dir() else []:
            if NAME.fullmatch(path.name) and path.is_file():
                paths.append(path)
            elif path.suffix != ".md":
                wrong.append(f"{path.relative_to(top.parent)}: no edit has such a name")
    for path in sorted(top.rglob("*.edit")):
        if path.parent.parent != top or path.parent.name not in FOLDERS:
            wrong.append(f"{path.relative_to(top.parent)}: no edit is looked for here")
    names = [path.name for path in paths]
    wrong += [f"{top.name}: two edits are called {it}" for it in {*names} if names.count(it) > 1]
    paths.sort(key=lambda path: path.name)
    return [read(crate, path) for path in paths], wrong
