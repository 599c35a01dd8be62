"""A copy of the crates over the libraries that `rt ci` proved of the same files.

What `rt ci` proved is kept outside of every checkout, each crate under the sum of all that it was
made from: its own files, the toolchain, and the libraries below as they were built. From there they
are taken here, and from nowhere else. What lies in a folder `out/` of the repository may be of
other sources: after a run, `rt ci` puts the libraries back that were there before it.
"""

import os
import sys
import tempfile
from collections.abc import Iterable
from pathlib import Path
from typing import Any

from proving import toolchain

# A crate as the toolchain has it: a `Crate` of `rt`.
Crate = Any

# Variables that would change what `rt` does. `rt ci` forgets them too.
FORGOTTEN = ("ALLOW_C", "BACKEND")


class NotProved(Exception):
    """A crate isn't proved. It says what the prover said."""


class Tree:
    """The crates of a repository, in a copy of their files as they stand now."""

    def __init__(self, top: Path, folder: Path) -> None:
        rt = toolchain.rt()
        for name in FORGOTTEN:
            os.environ.pop(getattr(rt.rtlib, name), None)
        os.environ.pop("RT_SECONDS", None)
        # The first call sets the handler of a signal, which the main thread alone may do.
        rt.rtlib.guarded()
        self.top = folder / "repo"
        # Libraries are built as they are kept: by a toolchain that keeps nothing, whole.
        rt.Crate.cuts_libraries = toolchain.keeps()
        crates = toolchain.copied_crates(str(top), str(self.top))
        self.crates: dict[str, Crate] = {crate.name: crate for crate in crates}
        self.kept = toolchain.kept(crates)
        # The crates that were taken or proved.
        self.proved: set[str] = set()

    def named(self, names: Iterable[str]) -> list[Crate]:
        """The crates of these names, or all if there is none, lowest first."""
        wanted = set(names)
        unknown = sorted(wanted - {*self.crates})
        if unknown:
            sys.exit(f"proving: crates.txt names no {' '.join(unknown)}")
        return [crate for crate in self.crates.values() if not wanted or crate.name in wanted]

    def prove(self, crates: Iterable[Crate]) -> None:
        """Takes what `rt ci` proved of these crates and of those below them, or else proves it.

        Raises `NotProved` for the first that the prover refuses.
        """
        for crate in crates:
            for each in (*crate.below(), crate):
                if not self.take(each):
                    print(f"{each.name}: `rt ci` keeps no proof of it, so it is proved", flush=True)
                    proved_here(each)
                    self.note(each)

    def take(self, crate: Crate) -> bool:
        """Takes what `rt ci` proved of a crate, if it did. Those below have to be taken before."""
        if crate.name in self.proved:
            return True
        os.makedirs(f"{crate.folder}/out", exist_ok=True)
        if not self.kept.give(crate, False, self.kept.key(crate)):
            return False
        self.note(crate)
        return True

    def note(self, crate: Crate) -> None:
        """Notes that a crate is proved, and what was built of it."""
        self.kept.is_built(crate)
        self.proved.add(crate.name)


def proved_here(crate: Crate) -> None:
    """Proves a crate from nothing, and builds it if it is a library. Raises `NotProved`."""
    flags = ["--jobs", "1"]
    with tempfile.TemporaryFile("w+", errors="replace") as said:
        crate.out = said
        try:
            if crate.makes_rlib():
                status = crate.build_rlib(flags, anew=True)
            else:
                status = crate.prove(["check", *crate.words(flags, keeps=False)])
        finally:
            crate.out = sys.stdout
        said.seek(0)
        if status:
            raise NotProved(f"{said.read()}{crate.name} is not proved")
