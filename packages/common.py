"""What the makers of packages share: what is packed, and how a file of it is put into a package."""

import gzip
import os
import shutil
from collections.abc import Iterable
from dataclasses import dataclass
from pathlib import Path

HERE = Path(__file__).resolve().parent
FILES = HERE / "files"

SUMMARY = "Which axioms each theorem of a Metamath database rests on, verified by proved code"
LICENCE = "MIT OR Apache-2.0"
LICENCES = ("LICENSE-MIT", "LICENSE-APACHE")


@dataclass(frozen=True)
class Packed:
    """The unpacked folder of the packed file. `time` is that of the last commit, in seconds since
    1970: each file of a package gets it."""

    folder: Path
    version: str
    time: int

    def copy(self, names: Iterable[str], into: Path) -> None:
        """Copies files and folders of it into a folder, under their own names."""
        into.mkdir(parents=True, exist_ok=True)
        for name in names:
            source = self.folder / name
            if source.is_dir():
                shutil.copytree(source, into / name, symlinks=True)
            else:
                shutil.copy2(source, into / name)

    def library(self) -> Path:
        """The shared library."""
        return self.folder / "lib" / f"libmmdepend.so.{self.version}"


def put(path: Path, text: str, mode: int = 0o644) -> None:
    """Writes a text into a file, whose folder is made."""
    path.parent.mkdir(parents=True, exist_ok=True)
    path.write_text(text, "utf-8")
    path.chmod(mode)


def put_copy(source: Path, path: Path, mode: int = 0o644) -> None:
    """Copies a file to a path, whose folder is made."""
    path.parent.mkdir(parents=True, exist_ok=True)
    shutil.copy(source, path)
    path.chmod(mode)


def put_compressed(content: bytes, path: Path) -> None:
    """Writes bytes into a file, compressed; the same bytes each time."""
    path.parent.mkdir(parents=True, exist_ok=True)
    path.write_bytes(gzip.compress(content, 9, mtime=0))
    path.chmod(0o644)


def settle(folder: Path, time: int) -> None:
    """Gives all that is in a folder, and the folder itself, this time and the usual rights: others
    may read what its owner may, and run what its owner may."""
    for path in [*sorted(folder.rglob("*"), reverse=True), folder]:
        if not path.is_symlink():
            path.chmod(0o755 if path.is_dir() or path.stat().st_mode & 0o100 else 0o644)
        os.utime(path, (time, time), follow_symlinks=False)
