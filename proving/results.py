"""What earlier runs came to, so that nothing is tried twice.

A result is kept beside what `rt ci` keeps, outside of every checkout, by the checksum of all that
it stands on: the crate with the libraries below as they were built, the edit, the toolchain, and
the modules here that judge. Only refusals are kept.
"""

import functools
import hashlib
from pathlib import Path
from typing import Any

from proving import toolchain
from proving.edits import Edit
from proving.tree import Tree


# The modules that judge an edit.
JUDGES = (
    "alone",
    "copies",
    "edits",
    "functions",
    "keeping",
    "laws",
    "seeds",
    "toolchain",
    "tree",
    "trial",
    "verdicts",
)


@functools.cache
def own_sum() -> str:
    """The checksum of the modules that judge."""
    found = hashlib.sha256()
    for name in JUDGES:
        found.update((Path(__file__).parent / f"{name}.py").read_bytes())
    return found.hexdigest()


class Results:
    """The results of the crates of a tree, for those that are proved."""

    def __init__(self, tree: Tree, is_anew: bool = False) -> None:
        self.kept: Any = tree.kept
        self.is_anew = is_anew

    def name(self, edit: Edit) -> str:
        """The name of an edit's result. No result of `rt ci` has it."""
        by_rt = self.kept.of_edit(str(edit.path), self.kept.key(edit.crate))
        parts = ("proving", own_sum(), edit.path.parent.name, by_rt)
        return hashlib.sha256(repr(parts).encode()).hexdigest()

    def take(self, edit: Edit) -> None:
        """Notes in an edit that an earlier run refused it, if one did."""
        found = None if self.is_anew else self.kept.tried(self.name(edit))
        if found and found[0] == toolchain.refused():
            edit.refused, edit.unclear, edit.way = found[1], "", "kept"

    def keep(self, edit: Edit) -> None:
        """Keeps the refusal of an edit."""
        if edit.refused and edit.way != "kept":
            self.kept.keep_tried(self.name(edit), toolchain.refused(), edit.refused)
