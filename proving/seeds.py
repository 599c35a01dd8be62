"""What the proof of a crate proved, for the checks of its edits to begin with.

A library that is built whole has all modules that were checked for it in an archive, those of its
proofs too, beside a table of what is where. A check takes a module from a folder of such ones if it
has there what it would check: the same text, over the same modules. So a check of edits proves the
copies, and not once more what they call.

A module tells which build of the prover checked it, and the folder of a build is named so. It has
sums of its own content too, by which the prover sees damage, and then it checks the module itself.
What isn't as expected here is no reason to stop: the check begins with nothing then.
"""

import json
import os
import re
import tempfile
from collections.abc import Iterator
from contextlib import contextmanager
from pathlib import Path

from proving import toolchain
from proving.tree import Crate

# In a library: the modules, and for each its name, its place among them and its size, a line each.
ARCHIVE = "toolchain/checked.a"
TABLE = "toolchain/checked.json"
# How a checked module begins: by what it was checked, and its name.
HEAD = re.compile(rb"--@ antt-checked \d+\n--@ kernel (antt-checked-[\w./-]+)\n--@ module (.+)\n")


@contextmanager
def seed_of(crate: Crate) -> Iterator[str]:
    """A folder with what the crate's proof proved, for one check. It is removed afterwards. Without
    a whole library there is none, and its name is empty."""
    with tempfile.TemporaryDirectory(prefix=f"rt-edit-{os.getpid()}-") as folder:
        # (what a toolchain keeps itself was never tried here, and its libraries aren't whole)
        has_library = crate.makes_rlib() and not toolchain.keeps()
        yield folder if has_library and unpacked(Path(crate.rlib), Path(folder)) else ""


def unpacked(library: Path, folder: Path) -> int:
    """Writes the modules of a library into a folder, as a check wants them. Returns how many there
    were: none if the library isn't whole, or not as expected."""
    count = 0
    try:
        for build, name, module in modules_of(library):
            # (a name of a file has no place for a slash)
            of_build = folder / build.replace("/", "_")
            of_build.mkdir(exist_ok=True)
            (of_build / f"{name}.oantt").write_bytes(module)
            count += 1
    except (OSError, TypeError, ValueError):
        return 0
    return count


def modules_of(library: Path) -> Iterator[tuple[str, str, bytes]]:
    """The modules of a library: by what build each was checked, its name, and all of it.

    Raises an error if the table or the archive isn't as expected.
    """
    with open(library / TABLE, "rb") as table, open(library / ARCHIVE, "rb") as archive:
        for line in table:
            name, at, size, *_ = json.loads(line)
            # What is in a folder there is a part or a sum of a module.
            if "/" in name:
                continue
            archive.seek(at)
            module = archive.read(size)
            head = HEAD.match(module)
            if head is None or head[2] != name.encode() or len(module) != size:
                raise ValueError(f"{name} isn't at its place in {library}")
            yield head[1].decode(), name, module
