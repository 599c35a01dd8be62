"""What commits have, and what they become when they are merged.

The objects of a repository are read through an empty repository of our own, which borrows them. So
no settings, attributes of merges, hooks, grafts, replaced objects or promises of a partial clone
have a say in what is read; and what a merge writes goes there, and not into the repository.
"""

from __future__ import annotations

import hashlib
import os
import subprocess
from collections.abc import Iterator, Mapping
from contextlib import ExitStack
from pathlib import Path
from types import TracebackType

from query.answers.errors import NoAnswer, shown
from query.git.reader import WORDS, Reader
from query.git.repository import NOWHERE, Repository, begin, call, memory_for, said, short
from query.git.trees import (
    FOLDER,
    LINK,
    SUBMODULE,
    Entry,
    Malformed,
    entries_of,
    is_bare,
    told,
    twins,
)
from query.platform import system, temporary
from query.platform.limits import MOST_DATABASE_BYTES

ATTRIBUTES = "* merge -text -ident !filter !eol !working-tree-encoding\n"
"""These go before all that `.gitattributes` of a commit say: texts are merged as texts."""

NOT_JUDGED = {LINK: "a link, and what it names", SUBMODULE: "a submodule, which"}
"""Modes of what isn't followed, in words."""
MOST_TREE_BYTES = 1 << 24
"""How long a folder may be: some 300,000 files."""
POINTER = b"version https://git-lfs.github.com/spec/"
"""How a file begins that stands for one kept elsewhere, by Git LFS."""

NOBODY = {
    f"GIT_{who}_{what}": "mmquery@localhost"
    for who in ("AUTHOR", "COMMITTER")
    for what in ("NAME", "EMAIL")
}


def apart(own: Path) -> dict[str, str]:
    """The variables by which git reads no file of settings but that of a repository of ours."""
    return {
        "HOME": str(own),
        "XDG_CONFIG_HOME": str(own),
        "GIT_CONFIG_GLOBAL": NOWHERE,
        "GIT_CONFIG_NOSYSTEM": "1",
    }


def call_apart(
    own: Path,
    *words: str,
    folder: Path | None = None,
    given: bytes = b"",
    more: Mapping[str, str] | None = None,
    size: int = 0,
) -> subprocess.CompletedProcess[bytes]:
    """Runs git on a repository that we made, in another folder where that is given."""
    variables = {**apart(own), **(more or {})}
    where = folder or own
    return call(f"--git-dir={own}", *words, folder=where, given=given, more=variables, size=size)


def make_empty(folder: Path) -> None:
    """Makes a folder an empty repository, without settings."""
    for name in ("refs", "objects/info", "info"):
        (folder / name).mkdir(parents=True)
    (folder / "HEAD").write_text("ref: refs/heads/none\n")


class Objects:
    """The objects of a repository, for `with`."""

    def __init__(self, repository: Repository) -> None:
        self.repository = repository
        self.folder = Path()
        self.opened = ExitStack()
        self.tops: dict[str, str] = {}
        """For each commit and tree that was asked for the id of its tree."""
        self.listed: dict[str, dict[bytes, Entry]] = {}
        """For each tree that was read what it has."""

    def __enter__(self) -> Objects:
        with ExitStack() as opened:
            self.folder = opened.enter_context(temporary.folder())
            self.make()
            self.opened = opened.pop_all()
        return self

    def __exit__(
        self,
        kind: type[BaseException] | None,
        error: BaseException | None,
        trace: TracebackType | None,
    ) -> None:
        self.opened.close()

    def make(self) -> None:
        """Makes the repository of our own."""
        make_empty(self.folder)
        (self.folder / "info/attributes").write_text(ATTRIBUTES)
        borrowed = git_path(os.fsencode(self.repository.path("objects")))
        (self.folder / "objects/info/alternates").write_bytes(borrowed + b"\n")
        shallow = self.repository.path("shallow")
        if shallow.is_file():
            (self.folder / "shallow").write_bytes(shallow.read_bytes())
        form = self.repository.ask("rev-parse", "--show-object-format").stdout.strip().decode()
        version = "1\n[extensions]\n\tobjectFormat = sha256" if form == "sha256" else "0"
        settings = (
            f"[core]\n\tbare = true\n\tcompression = 0\n\trepositoryFormatVersion = {version}"
        )
        (self.folder / "config").write_text(settings + "\n")

    def ask(
        self, *words: str, given: bytes = b"", size: int = 0
    ) -> subprocess.CompletedProcess[bytes]:
        """Runs git on the repository of our own. `size` is how long what it reads may be."""
        more = {"GIT_INDEX_FILE": str(self.folder / "index"), **NOBODY}
        return call_apart(self.folder, *words, given=given, more=more, size=size)

    def must(self, *words: str, given: bytes = b"", size: int = 0) -> bytes:
        """What git answers. NoAnswer where it fails."""
        done = self.ask(*words, given=given, size=size)
        if done.returncode != 0:
            raise NoAnswer(said(done))
        return done.stdout

    def is_ancestor(self, first: str, second: str) -> bool:
        """Whether the first commit is the second one or before it."""
        return self.ask("merge-base", "--is-ancestor", first, second).returncode == 0

    def merge_base(self, first: str, second: str) -> str:
        """The best common ancestor of two commits, given by their full ids.

        NoAnswer where there is none, and where a shallow clone hides it: git might
        answer another one there.
        """
        for one, other in ((first, second), (second, first)):
            if self.is_ancestor(one, other):
                return one
        if self.repository.is_shallow():
            raise NoAnswer(
                f"the merge base of {short(first)} and {short(second)} isn't known"
                f"{self.repository.advice()}"
            )
        done = self.ask("merge-base", first, second)
        if done.returncode != 0:
            raise NoAnswer(f"{short(first)} and {short(second)} have no common history")
        return done.stdout.decode("ascii").split()[0]

    def has_several_bases(self, tip: str, head: str) -> bool:
        """Whether two commits have more than one best common ancestor."""
        return len(self.must("merge-base", "--all", tip, head).split()) > 1

    def merged(self, tip: str, head: str, size: int = 0, *, has_renames: bool = False) -> str:
        """The tree that a merge of a commit into another one gives. `size` is how long the database
        is, and `has_renames` whether renamed files are looked for. NoAnswer where they are in
        conflict."""
        given = ("-c", "merge.renames=true") if has_renames else ()
        done = self.ask(*given, "merge-tree", "--write-tree", tip, head, size=size)
        lines = done.stdout.split(b"\n")
        if done.returncode == 0:
            return lines[0].decode("ascii")
        if done.returncode == 1:
            why = next((line for line in lines if line.startswith(b"CONFLICT")), b"CONFLICT")
            raise NoAnswer(f"{short(head)} and {short(tip)} can't be merged: {os.fsdecode(why)}")
        if b"usage: git merge-tree" in done.stderr:
            raise NoAnswer(
                "this git can't merge by itself, as git 2.38 and later can; --merge-base compares"
                " with the merge base"
            )
        raise NoAnswer(said(done))

    def with_files(self, commit: str, files: Mapping[str, bytes | None]) -> str:
        """A commit after another one in which files have other contents; None removes one."""
        self.must("read-tree", commit)
        for path, data in files.items():
            line = b"0 " + b"0" * len(commit)
            if data is not None:
                words = ("hash-object", "-w", "--stdin")
                line = b"100644 " + self.must(*words, given=data, size=len(data)).strip()
            line += b"\t" + os.fsencode(path) + b"\0"
            self.must("update-index", "-z", "--index-info", given=line)
        tree = self.must("write-tree").decode("ascii").strip()
        made = self.must("commit-tree", tree, "-p", commit, "-m", "the working tree")
        return made.decode("ascii").strip()

    def size(self, kind: str, name: str, path: str) -> int:
        """How many bytes an object has, which is at this path. NoAnswer where it is of another
        kind, as a tag may be that names what is wanted."""
        told = self.must("cat-file", "--batch-check", given=name.encode() + b"\n")
        found, what, *sizes = told.decode("ascii", "replace").split()
        if found != name or not sizes:
            raise NoAnswer(f"git: {shown(path)}: this clone lacks the object {short(name)}")
        if what != kind:
            raise NoAnswer(f"not judged: {shown(path)}: {short(name)} is a {what}, and no {kind}")
        return int(sizes[0])

    def read(
        self, kind: str, name: str, most: int, path: str, reader: Reader | None = None
    ) -> bytes:
        """Its bytes. NoAnswer where there are more than `most`: an object of a few bytes can be
        made to unpack to gigabytes."""
        size = self.size(kind, name, path)
        see_length(path, size, most)
        if reader is not None and system.can_wait():
            return reader.read(kind, name, size)
        return self.must("cat-file", kind, name, size=size)

    def reader(self) -> Reader:
        """What reads many of the objects."""
        return Reader(self.begin_reading)

    def begin_reading(self, size: int) -> subprocess.Popen[bytes]:
        """Begins a call that reads objects of at most so many bytes."""
        own, memory = self.folder, memory_for(size)
        words = (f"--git-dir={own}", *WORDS)
        return begin(*words, folder=own, memory=memory, more=apart(own))

    def listing(self, tree: str, path: str) -> dict[bytes, Entry]:
        """What stands in a folder on the way to a path, given by the full id of its tree. NoAnswer
        where the tree isn't as git writes it: git could check out something else than it reads."""
        if tree not in self.listed:
            data = self.read("tree", tree, MOST_TREE_BYTES, path)
            try:
                found = entries_of(data, len(tree) // 2)
            except Malformed as why:
                raise NoAnswer(
                    f"not judged: the tree {short(tree)} on the way to {shown(path)} isn't"
                    f" well-formed: {why}"
                ) from None
            if is_bare(found):
                raise NoAnswer(f"{shown(path)}: lies beside the files of a bare repository")
            self.listed[tree] = found
        return self.listed[tree]

    def way(self, tree: str, path: str) -> Iterator[tuple[bytes, dict[bytes, Entry]]]:
        """The parts of a path from the top, with `/`, and what stands in the folder of each, as far
        as it leads in a commit or a tree."""
        if tree not in self.tops:
            top = self.must("rev-parse", "--verify", "--end-of-options", tree + "^{tree}")
            self.tops[tree] = top.decode("ascii").strip()
        found = Entry(FOLDER, self.tops[tree])
        for part in os.fsencode(path).split(b"/"):
            if not found.is_folder:
                return
            beside = self.listing(found.name, path)
            yield part, beside
            if part not in beside:
                return
            found = beside[part]

    def entry(self, tree: str, path: str) -> Entry | None:
        """The file of a commit or a tree at a path from the top; None where it has none. NoAnswer
        where the path leads through a link or into a submodule."""
        way = list(self.way(tree, path))
        found = None
        for part, beside in way:
            found = beside.get(part)
            what = NOT_JUDGED.get(b"" if found is None else found.mode)
            if what is not None:
                raise NoAnswer(f"{shown(path)}: {told(part)} is {what} isn't judged")
        if found is None or len(way) <= path.count("/"):
            return None
        if found.is_folder:
            raise NoAnswer(f"{shown(path)}: is a folder")
        return found

    def twins(self, tree: str, path: str) -> list[str]:
        """The names that stand beside one on the way to a path, and elsewhere are the same one:
        they differ in case alone, say. By their paths from the top."""
        found: list[bytes] = []
        above = b""
        for part, beside in self.way(tree, path):
            found += [above + name for name in twins(part, beside)]
            above += part + b"/"
        return [os.fsdecode(name) for name in found]

    def content(self, tree: str, path: str, most: int = MOST_DATABASE_BYTES) -> bytes | None:
        """The bytes of that file; None where there is none. NoAnswer where there are too many."""
        entry = self.entry(tree, path)
        return None if entry is None else self.blob(entry.name, path, most)

    def blob(
        self,
        name: str,
        path: str,
        most: int = MOST_DATABASE_BYTES,
        reader: Reader | None = None,
    ) -> bytes:
        """The bytes of a file, given by its full id. NoAnswer where there are too many."""
        data = self.read("blob", name, most, path, reader)
        if data.startswith(POINTER):
            raise NoAnswer(f"{shown(path)}: a pointer of Git LFS, and not what it stands for")
        return data


def see_length(path: str, size: int, most: int) -> None:
    """NoAnswer where a file has more bytes than are taken."""
    if size > most:
        raise NoAnswer(f"not judged: {shown(path)} has {size} bytes, and {most} are taken")


def git_path(path: bytes) -> bytes:
    """A path as git reads it in a list of paths, whatever signs it has."""
    plain = all(32 <= byte < 127 and byte not in b'"\\' for byte in path)
    if plain and not path.startswith(b"#"):
        return path
    return b'"' + b"".join(b"\\%03o" % byte for byte in path) + b'"'


def id_of(data: bytes, like: str) -> str:
    """The id that git gives to a file of this content, of the same kind as another id."""
    make = hashlib.sha1 if len(like) == 40 else hashlib.sha256
    total = make(b"blob %d\0" % len(data), usedforsecurity=False)
    total.update(data)
    return total.hexdigest()
