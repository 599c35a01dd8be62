"""The program that `rt ci` proved, put where `./mmdepend` looks for it."""

import os
import shutil
import tempfile
import time
from pathlib import Path

from proving.tree import Tree

NAME = "mmdepend"


def take(top: Path) -> int:
    """Puts the program into its crate's folder `out`, if `rt ci` keeps one of these sources.

    A run of `rt ci` for some crates proves a copy of the repository, and leaves nothing in it. The
    file gets the time before its sources were read: one that changes meanwhile is newer. Returns
    the status, which is 1 where none is kept.
    """
    begun = time.time()
    with tempfile.TemporaryDirectory(prefix=f"rt-copy-{os.getpid()}-") as folder:
        tree = Tree(top, Path(folder))
        crate = tree.crates[NAME]
        if not all(tree.take(each) for each in (*crate.below(), crate)):
            print(f"proving: `rt ci` keeps no proof of {NAME} as it stands")
            return 1
        out = top / "crates" / NAME / "out"
        out.mkdir(exist_ok=True)
        made = out / f"{NAME}.new"
        shutil.copy2(Path(crate.folder) / "out" / NAME, made)
        os.utime(made, (begun, begun))
        made.replace(out / NAME)
    return 0
