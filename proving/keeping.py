"""What was proved and tried, kept for a toolchain that keeps nothing itself.

The toolchain differs from machine to machine. With some, `rt ci` keeps what it proved, outside of
every checkout, and `toolchain.py` has that used. With others it keeps nothing, and leaves the
libraries that it built without a note of what they were made from. For these, what was proved is
kept here in the same way: under the sum of all that it was made from, which are the crate's own
files, the toolchain, and the libraries below as they were built.
"""

import functools
import hashlib
import json
import os
import shutil
import tempfile
import time
from collections.abc import Iterator
from pathlib import Path
from typing import Any

# A crate as the toolchain has it: a `Crate` of `rt`.
Crate = Any

# The kind of a result that is kept: an edit was refused.
REFUSED = "refused"
# How a library is kept. One that was kept as its statements alone has another key.
HOW = "whole"
# What was neither kept nor used for so long is removed.
DAYS = 14
SECONDS_A_DAY = 86_400
# The folders of a crate from which it is proved.
PARTS = ("src", "specs", "proofs")
# What a check of a crate leaves in its folder `out`: the library, and programs. Those of the tests
# have this ending, and stand by themselves.
LIBRARY = "rlib"
# In the folder of the library, beside it: what it was made from. `rt ci` leaves none.
STAMP = "stamp"
OF_TESTS = "_tests"


def folder() -> Path:
    """Where results are kept, for all checkouts of this user."""
    caches = os.environ.get("XDG_CACHE_HOME", "")
    above = Path(caches) if caches.startswith("/") else Path.home() / ".cache"
    return above / "mmdepend" / "proved"


@functools.cache
def sum_of_toolchain(kit: str) -> str:
    """The sum of the toolchain: of the prover, its scripts, and what the kit calls itself."""
    found = hashlib.sha256()
    for name in ("KIT-ID", "WHAT", "bin/rattle", "bin/rt", "bin/rtlib.py"):
        with open(f"{kit}/{name}", "rb") as file:
            found.update(hashlib.file_digest(file, "sha256").digest())
    return found.hexdigest()


def files_below(top: Path) -> Iterator[Path]:
    """The files below a folder, each folder's in the order of their names."""
    for at, folders, names in os.walk(top):
        folders.sort()
        yield from (Path(at, name) for name in sorted(names))


def sum_of_folder(top: Path) -> str:
    """The sum of all files below a folder, with their places."""
    found = hashlib.sha256()
    for path in files_below(top):
        with open(path, "rb") as file:
            digest = hashlib.file_digest(file, "sha256").digest()
        found.update(repr((str(path.relative_to(top)), digest)).encode())
    return found.hexdigest()


class Kept:
    """What was proved of some crates, and what was found of their edits. It has the calls that the
    toolchain's own store has where there is one."""

    def __init__(self, kit: str) -> None:
        self.kit = kit
        self.folder = folder()
        self.anew = False
        # The sums of the libraries, by the names of their crates.
        self.built: dict[str, str] = {}

    def key(self, crate: Crate) -> str:
        """The sum of all that a crate is made from. The libraries below have to be there."""
        said = (crate.name, sorted(crate.said.items()), crate.allowed)
        found = hashlib.sha256(repr((sum_of_toolchain(self.kit), HOW, said)).encode())
        for part in PARTS:
            found.update(repr((part, sum_of_folder(Path(crate.folder, part)))).encode())
        for each in crate.below():
            if each.name not in self.built:
                self.is_built(each)
            found.update(repr((each.name, self.built[each.name])).encode())
        return found.hexdigest()

    def is_built(self, crate: Crate) -> None:
        """Notes what was built of a crate."""
        if crate.makes_rlib():
            self.built[crate.name] = sum_of_folder(Path(crate.rlib))

    def of_edit(self, path: str, key: str) -> str:
        """The name of an edit's result."""
        return hashlib.sha256(repr((key, Path(path).read_bytes())).encode()).hexdigest()

    def give(self, crate: Crate, of_tests: bool, key: str) -> bool:
        """Puts into a crate's folder `out` what was made of it, or of its tests. Returns whether
        it is kept."""
        kept = self.folder / name_of(of_tests, key)
        if not kept.is_dir():
            return False
        out = Path(crate.folder, "out")
        remove_made(out, of_tests)
        shutil.copytree(kept, out, dirs_exist_ok=True)
        os.utime(kept)
        return True

    def keep(self, crate: Crate, of_tests: bool, key: str) -> None:
        """Keeps what was made of a crate, or of its tests."""
        kept = self.folder / name_of(of_tests, key)
        if kept.exists():
            return
        with self.unfinished() as folder:
            made = Path(folder, "made")
            made.mkdir()
            for path in made_in(Path(crate.folder, "out"), of_tests):
                if path.is_dir():
                    shutil.copytree(path, made / path.name)
                else:
                    shutil.copy2(path, made / path.name)
            # Whole or not at all. Another run may have kept the same meanwhile.
            if not kept.exists():
                made.rename(kept)

    def tried(self, name: str) -> tuple[str, str] | None:
        """What an earlier run found of an edit: of what kind, and why."""
        try:
            kind, text = json.loads((self.folder / f"{name}.json").read_text("utf-8"))
        except (OSError, ValueError):
            return None
        return str(kind), str(text)

    def keep_tried(self, name: str, kind: str, text: str) -> None:
        """Keeps what was found of an edit."""
        with self.unfinished() as folder:
            made = Path(folder, "made")
            made.write_text(json.dumps([kind, text]), "utf-8")
            made.replace(self.folder / f"{name}.json")

    def unfinished(self) -> "tempfile.TemporaryDirectory[str]":
        """A folder beside what is kept, for what isn't whole yet."""
        self.folder.mkdir(parents=True, exist_ok=True)
        return tempfile.TemporaryDirectory(prefix="new-", dir=self.folder)

    def sweep(self) -> None:
        """Removes what wasn't used for long."""
        oldest = time.time() - DAYS * SECONDS_A_DAY
        for path in self.folder.iterdir() if self.folder.is_dir() else ():
            if path.lstat().st_mtime < oldest:
                if path.is_dir():
                    shutil.rmtree(path, ignore_errors=True)
                else:
                    path.unlink(missing_ok=True)


def name_of(of_tests: bool, key: str) -> str:
    """The name under which something is kept."""
    return f"{key}{OF_TESTS if of_tests else ''}"


def made_in(out: Path, of_tests: bool) -> list[Path]:
    """What a check of a crate or of its tests left in a folder `out`."""
    if not out.is_dir():
        return []
    made = [path for path in out.iterdir() if path.is_file() or path.name == LIBRARY]
    return [path for path in made if (OF_TESTS in path.name) == of_tests]


def remove_made(out: Path, of_tests: bool) -> None:
    """Removes what an earlier check left there."""
    for path in made_in(out, of_tests):
        if path.is_dir():
            shutil.rmtree(path)
        else:
            path.unlink()


def mark_as_made(out: Path, of_tests: bool, at: float) -> None:
    """Gives what was put there the time before its sources were read. A program is built anew where
    it is older than its sources, and one that was kept is older than those of a fresh clone."""
    for path in made_in(out, of_tests):
        os.utime(path, (at, at))


def copy_crates(top: str, to: str) -> None:
    """Copies the crates of a repository, without what was made of them."""
    os.makedirs(to)
    for name in ("crates.txt", "HANDLES"):
        if os.path.isfile(f"{top}/{name}"):
            shutil.copy2(f"{top}/{name}", to)
    without = shutil.ignore_patterns("out", "__pycache__")
    shutil.copytree(f"{top}/crates", f"{to}/crates", ignore=without, symlinks=True)


def keep_what_is_proved(rt: Any) -> None:
    """Has `rt ci` take what is kept, and keep what it proves."""
    prove = rt.Crate.ci
    kept = Kept(rt.KIT)
    kept.sweep()

    def take_or_prove(crate: Crate, flags: list[str], tests: bool) -> int:
        """Proves a crate, or its tests, as `rt ci` does, if this isn't kept. A library is built
        whole, with its proofs, since the checks of its edits begin with them."""
        begun = time.time()
        key = kept.key(crate)
        if kept.give(crate, tests, key):
            mark_as_made(Path(crate.folder, "out"), tests, begun)
            rt.say("an earlier run proved the same files", crate.out)
            return 0
        crate.cuts_libraries = False
        status = int(prove(crate, flags, tests))
        Path(crate.folder, "out", LIBRARY, STAMP).unlink(missing_ok=True)
        if not status and kept.key(crate) == key:
            kept.keep(crate, tests, key)
        return status

    setattr(rt.Crate, "ci", take_or_prove)
