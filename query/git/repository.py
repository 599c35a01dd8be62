"""Git repositories, read by calling `git`: which one holds for the working folder, and which commit
a revision names. `query.git.objects` reads what the commits have.

A repository may have been made to hurt, so git is called so that it runs nothing and fetches
nothing, whatever a repository's settings say. Words of the user reach git only behind
`--end-of-options` or a full commit id, so none is taken for an option. Nothing is written to a
repository.
"""

from __future__ import annotations

import os
import re
import subprocess
from collections.abc import Mapping, Sequence
from contextlib import suppress
from dataclasses import dataclass
from functools import partial
from pathlib import Path

from query.answers.errors import NoAnswer, shown
from query.platform import signals, system
from query.platform.executables import wanted
from query.platform.limits import MEGABYTE, MEMORY_TIMES

NO_COMMIT = "0" * 40
"""What GitHub gives as the commit before a push that makes a branch."""

FULL_ID = re.compile(r"(?:[0-9a-f]{40}|[0-9a-f]{64})(?![^:^~@])")
HEAD = re.compile(r"HEAD(?![^:^~@])")

MOST_LINKS = 40
"""So many links are followed on the way to a folder, as by the system."""

NOWHERE = "/dev/null"
"""The file that is empty. Git knows it by this name on each system."""

MOST_SECONDS = 100
"""By the clock, for each call of git. A merge can be made to take hours."""
FREE_BYTES = 1 << 30
"""Of memory, for each call of git, besides what the length of a database adds. A few bytes in git
can be gigabytes, and a merge reads each file that both sides changed."""
OUT_OF_MEMORY = re.compile(rb"out of memory", re.IGNORECASE)
"""What git says at a limit of memory."""

SETTINGS = (
    "safe.bareRepository=explicit",
    "protocol.allow=never",
    "core.fsmonitor=false",
    f"core.hooksPath={NOWHERE}",
    f"core.attributesFile={NOWHERE}",
    "core.commitGraph=false",
    "core.warnAmbiguousRefs=true",
    "submodule.recurse=false",
    "gc.auto=0",
    "merge.renames=false",
)
"""What git is told at each call; it goes before what files of settings say. Renames aren't looked
for in merges, since that compares each file with each other one; where one would matter, there is a
conflict instead."""

SURROUNDINGS = {
    "LC_ALL": "C",
    "GIT_ALLOW_PROTOCOL": "none",
    "GIT_ATTR_NOSYSTEM": "1",
    "GIT_GRAFT_FILE": NOWHERE,
    "GIT_NO_LAZY_FETCH": "1",
    "GIT_NO_REPLACE_OBJECTS": "1",
    "GIT_OPTIONAL_LOCKS": "0",
    "GIT_TERMINAL_PROMPT": "0",
}
"""The same as variables. A setting `protocol.ext.allow` of a repository would go before
`protocol.allow`, but not before GIT_ALLOW_PROTOCOL, which also keeps an older git from fetching
what a partial clone lacks."""


class NoRepository(NoAnswer):
    """A folder lies in no repository."""


@dataclass(frozen=True)
class Repository:
    """A repository: `folder` is git's own, and `top` that of the working tree, or `folder` itself
    where it is bare."""

    top: Path
    folder: Path

    @property
    def is_bare(self) -> bool:
        """Whether it has no working tree."""
        return self.top == self.folder

    def ask(self, *words: str) -> subprocess.CompletedProcess[bytes]:
        """Runs git on this repository, whatever lies in the working folder."""
        return call(f"--git-dir={self.folder}", *words, folder=self.top)

    def path(self, name: str) -> Path:
        """Where a file of git's own folder is, such as `objects`."""
        done = self.ask("rev-parse", "--git-path", name)
        if done.returncode != 0:
            raise NoAnswer(said(done))
        return self.top / os.fsdecode(done.stdout.removesuffix(b"\n"))

    def commit(self, revision: str) -> str:
        """The full id of a revision's commit. NoAnswer where there is none, or more than one."""
        if revision == NO_COMMIT:
            raise NoAnswer("there is no commit before a new branch; name another base")
        done = self.ask("rev-parse", "--verify", "--end-of-options", revision + "^{commit}")
        commit = done.stdout.decode("ascii", "replace").strip()
        if done.returncode != 0 or not commit.isalnum():
            raise NoAnswer(f"git has no revision '{revision}'{self.advice()}")
        is_certain = FULL_ID.match(revision) or HEAD.match(revision)
        if b" is ambiguous" in done.stderr and not is_certain:
            raise NoAnswer(
                f"'{revision}' names more than one revision; give the whole name, such as"
                " refs/remotes/origin/main or refs/heads/main, or the commit's full id"
            )
        return commit

    def has(self, revision: str) -> bool:
        """Whether a revision names a commit, or more than one."""
        words = ("rev-parse", "--verify", "--quiet", "--end-of-options", revision + "^{commit}")
        return self.ask(*words).returncode == 0

    def has_reference(self, name: str) -> bool:
        """Whether there is a reference of this whole name, such as `refs/heads/main`."""
        return self.ask("show-ref", "--verify", "--quiet", name).returncode == 0

    def is_shallow(self) -> bool:
        """Whether the clone lacks a part of the history."""
        return self.ask("rev-parse", "--is-shallow-repository").stdout.strip() == b"true"

    def advice(self) -> str:
        """What a message about a missing commit says besides."""
        if not self.is_shallow():
            return ""
        return ": the clone is shallow; fetch the whole history (`fetch-depth: 0`)"

    def path_of(self, word: str) -> str:
        """The path of a file from the top, as it was typed, with `/`.

        NoAnswer where it lies outside, and where a link, another repository or a submodule is on
        the way: what is judged would not be what the path names in a commit.
        """
        whole = whole_path(word)
        see_no_link_to_here()
        above = self.above(whole)
        if above is None:
            raise NoAnswer(
                f"{shown(word)}: not in the repository {shown(str(self.top))} of the working folder"
            )
        path = whole.relative_to(above)
        here = above
        for part in path.parts:
            here /= part
            self.see_plain(here, word)
        return path.as_posix()

    def above(self, whole: Path) -> Path | None:
        """The top as a path names it; None where the path doesn't lead through it."""
        return next((each for each in reversed(whole.parents) if are_one(each, self.top)), None)

    def has_within(self, word: str) -> bool:
        """Whether a path leads through the top, whatever is a link on the way."""
        return self.above(Path(os.path.normpath(os.path.join(os.getcwd(), word)))) is not None

    def see_plain(self, here: Path, word: str) -> None:
        """NoAnswer where a place on the way to a file isn't simply a part of the working tree."""
        relative = shown(os.path.relpath(here, self.top))
        if here.is_symlink():
            raise NoAnswer(f"{shown(word)}: {relative} is a link, and what it names isn't judged")
        if os.path.lexists(here / ".git") or is_git_folder(here):
            raise NoAnswer(
                f"{shown(word)}: {relative} is a repository or a submodule of its own; go there"
            )

    def attributes(self, path: str) -> list[str]:
        """The attributes of a file by which git changes its content where it is checked out."""
        names = ("filter", "ident", "working-tree-encoding")
        words = (f"--work-tree={self.top}", "check-attr", "-z", *names, "--", path)
        fields = self.ask(*words).stdout.split(b"\0")
        values = zip(names, fields[2::3])
        return [name for name, value in values if value not in (b"unspecified", b"unset")]


def short(commit: str) -> str:
    """The beginning of a commit's id, for messages."""
    return commit[:12]


def said(done: subprocess.CompletedProcess[bytes]) -> str:
    """The first line that git wrote to standard error and that is no hint, without `fatal: `."""
    every = done.stderr.decode("utf-8", "replace").splitlines()
    lines = [line for line in every if not line.startswith("hint: ")]
    return "git: " + (lines[0].removeprefix("fatal: ") if lines else f"status {done.returncode}")


def call(
    *words: str,
    folder: Path,
    given: bytes = b"",
    more: Mapping[str, str] | None = None,
    size: int = 0,
) -> subprocess.CompletedProcess[bytes]:
    """Runs git in a folder. No variable of git's reaches it but ours. `size` is how long the
    database is, where git reads or merges it. NoAnswer where git isn't there, or needs more time or
    memory than it gets."""
    memory = memory_for(size)
    with signals.held():
        process = begin(*words, folder=folder, memory=memory, more=more)
        number = signals.at_stop(partial(end, process))
    with process:
        try:
            done = ended(process, given)
        except subprocess.TimeoutExpired:
            end(process)
            raise too_much(words, f"{MOST_SECONDS} seconds") from None
        finally:
            signals.forget(number)
    if done.returncode and OUT_OF_MEMORY.search(done.stderr):
        raise too_much(words, f"{memory // MEGABYTE} MB of memory")
    return done


def memory_for(size: int) -> int:
    """How much memory a call gets that reads a database of so many bytes."""
    return FREE_BYTES + MEMORY_TIMES * size


def begin(
    *words: str, folder: Path, memory: int, more: Mapping[str, str] | None = None
) -> subprocess.Popen[bytes]:
    """Begins a call in a folder, with so much memory. NoAnswer where git isn't there."""
    settings = [word for each in SETTINGS for word in ("-c", each)]
    try:
        return subprocess.Popen(
            [wanted("git", "git isn't installed"), *settings, *words],
            cwd=folder,
            stdin=subprocess.PIPE,
            stdout=subprocess.PIPE,
            stderr=subprocess.PIPE,
            env={**surroundings(), **SURROUNDINGS, **(more or {})},
            preexec_fn=system.limiting_own(memory),
        )
    except OSError as error:
        raise NoAnswer(f"git can't be run: {error.strerror}") from None


def surroundings() -> dict[str, str]:
    """Our own variables, but for those of git."""
    return {
        name: value
        for name, value in os.environ.items()
        if not name.startswith("GIT_") and name != "LANGUAGE"
    }


def too_much(words: Sequence[str], limit: str) -> NoAnswer:
    """What is said where a call of git comes to a limit, for `raise`."""
    asked = next((word for word in words if not word.startswith("-") and "=" not in word), "")
    return NoAnswer(f"not judged: git {asked} needs more than {limit}")


def ended(process: subprocess.Popen[bytes], given: bytes) -> subprocess.CompletedProcess[bytes]:
    """A process that is given these bytes, once it has ended. TimeoutExpired where that takes too
    long. Python looks once a second whether a signal came in the instant before it began to wait.
    """
    for second in range(MOST_SECONDS):
        with suppress(subprocess.TimeoutExpired):
            out, errors = process.communicate(b"" if second else given, timeout=1)
            return subprocess.CompletedProcess(process.args, process.returncode, out, errors)
    raise subprocess.TimeoutExpired(process.args, MOST_SECONDS)


def end(process: subprocess.Popen[bytes]) -> None:
    """Ends a process. It writes nothing any more then, so a folder in which it wrote can be
    removed."""
    process.kill()
    with suppress(ChildProcessError):
        os.waitpid(process.pid, 0)


def are_one(one: Path, other: Path) -> bool:
    """Whether two paths name the same file or folder."""
    try:
        return one.samefile(other)
    except OSError:
        return False


def is_git_folder(folder: Path) -> bool:
    """Whether git would take a folder for a bare repository, whoever put its files there."""
    return (
        os.path.lexists(folder / "HEAD")
        and (folder / "objects").is_dir()
        and (folder / "refs").is_dir()
    )


def whole_path(word: str) -> Path:
    """The whole path of a file as it was typed, without `..`. NoAnswer where a link before a `..`
    leads elsewhere."""
    typed = os.path.join(os.getcwd(), word)
    whole = Path(os.path.normpath(typed))
    if os.path.realpath(os.path.dirname(typed)) != os.path.realpath(whole.parent):
        raise NoAnswer(f"{shown(word)}: there is a link on the way; type the path without it")
    return whole


def see_no_link_to_here() -> None:
    """NoAnswer where the shell came to the working folder by a link within a repository: then the
    path that was meant is another one than that of the working folder."""
    here = os.environ.get("PWD", "")
    if not os.path.isabs(here) or not are_one(Path(here), Path.cwd()):
        return
    link = link_within(Path(here))
    if link is not None:
        raise NoAnswer(f"{shown(str(link))}: the working folder was reached by this link")


def link_within(folder: Path) -> Path | None:
    """The first link that is followed on the way to a folder and lies in a repository, also where
    another link leads to it. Such a link may come from a commit. NoAnswer where it is a loop."""
    left = [*reversed(folder.parts)]
    here, links = Path(left.pop()), 0
    while left:
        part = left.pop()
        here = here.parent if part == ".." else here / part
        if not here.is_symlink():
            continue
        if any(os.path.lexists(each / ".git") for each in here.parents):
            return here
        links += 1
        if links > MOST_LINKS:
            raise NoAnswer(f"{shown(str(folder))}: there are too many links on the way")
        target = here.readlink()
        parts = target.parts
        here = Path(target.anchor) if target.is_absolute() else here.parent
        left += reversed(parts[1:] if target.is_absolute() else parts)
    return None


def repository_of(folder: Path) -> Repository:
    """The repository in which a folder lies; it may be bare. NoRepository where there is none.

    It is found by the name `.git`, which nothing that is committed can have. A folder with the
    files of a bare repository is one only where it lies in no other repository.
    """
    folder = folder.resolve()
    inner = None
    for each in (folder, *folder.parents):
        if os.path.lexists(each / ".git"):
            if inner is not None:
                raise NoAnswer(
                    f"{shown(str(inner))}: has the files of a bare repository, and lies in the"
                    f" repository {shown(str(each))}"
                )
            return discovered(each)
        if is_git_folder(each):
            inner = inner or each
    if inner is None:
        raise NoRepository(f"{shown(str(folder))}: not a git repository")
    return discovered(inner)


def repository_for(word: str) -> Repository:
    """The repository of a file: that of the working folder where the path leads through its top,
    and otherwise that in which the folder of the file lies.

    So what lies in the repository of the working folder is of no other one, whatever is on the way:
    what a commit brings there chooses no repository.
    """
    try:
        here = repository_of(Path.cwd())
    except NoRepository:
        return repository_with(word)
    return here if here.has_within(word) else repository_with(word)


def repository_with(word: str) -> Repository:
    """The repository in which the folder of a file lies, whatever the working folder is.

    NoAnswer where there is none, or where a link that lies in a repository is on the way: it may
    come from a commit, and what a commit brings chooses no repository.
    """
    folder = whole_path(word).parent
    link = link_within(folder)
    if link is not None:
        raise NoAnswer(f"{shown(word)}: {shown(str(link))} is a link, and lies in a repository")
    try:
        found = repository_of(folder)
    except NoRepository:
        where = shown(str(folder))
        raise NoRepository(f"{shown(word)}: its folder {where} lies in no git repository") from None
    if not found.has_within(word):
        where = shown(str(found.top))
        raise NoAnswer(
            f"{shown(word)}: a link leads into the repository {where}; type its own path"
        )
    return found


def discovered(top: Path) -> Repository:
    """The repository of a folder that has `.git`, or is bare. NoAnswer where git sees another one,
    or doesn't trust its owner."""
    is_bare = not os.path.lexists(top / ".git")
    words = ["-c", "safe.bareRepository=all"] if is_bare else []
    done = call(*words, "rev-parse", "--absolute-git-dir", folder=top)
    folder = Path(os.fsdecode(done.stdout.removesuffix(b"\n")))
    if done.returncode != 0 or not folder.is_absolute():
        raise NoAnswer(f"{shown(str(top))}: {said(done)}")
    if is_bare:
        if not are_one(folder, top):
            raise NoAnswer(f"{shown(str(top))}: not the bare repository that git sees")
        return Repository(top, top)
    done = call("rev-parse", "--show-toplevel", folder=top)
    seen = Path(os.fsdecode(done.stdout.removesuffix(b"\n")))
    if done.returncode != 0 or not are_one(seen, top):
        raise NoAnswer(f"{shown(str(top))}: not the top of the working tree that git sees")
    return Repository(top, folder)
