"""The revisions of a repository that changed a file.

They are those of a branch itself: of a merge the first parent is followed, so that what a merge
brought is one change. The file is followed through renames. By an example:

    with Objects(repository) as objects:
        within = range_of("v1..main", repository)
        for revision in revisions(objects, within, "set.mm"):
            revision.commit, revision.path     # the oldest first
"""

from __future__ import annotations

import os
from dataclasses import dataclass
from datetime import datetime, timezone

from query.answers.errors import NoAnswer, shown
from query.git.objects import Objects
from query.git.repository import Repository, short

MOST_NAMES = 50
"""So many names of a file are followed. For each the revisions are walked through once more."""
MOST_SHOWN = 200
"""So many characters of a name and of a subject are shown at the most."""
MOST_COMPARED = 100
"""Of a revision that adds and removes more files than these, a file that was renamed and changed at
once isn't found."""


@dataclass(frozen=True)
class Range:
    """The revisions up to `new` that aren't up to `old`; where that is None all of them. Both are
    full ids. `word` is how messages call it."""

    word: str
    new: str
    old: str | None


@dataclass(frozen=True)
class Revision:
    """A revision that changed the file: its full id, when it was committed in seconds since 1970,
    the id of its tree, its author's name, the first line of its message, and the path of the file
    from the top."""

    commit: str
    seconds: int
    tree: str
    author: str
    subject: str
    path: str

    @property
    def date(self) -> str | None:
        """The day on which it was committed, by universal time; None where that is no date."""
        try:
            return datetime.fromtimestamp(self.seconds, timezone.utc).date().isoformat()
        except (OverflowError, ValueError, OSError):
            return None


def range_of(word: str, repository: Repository) -> Range:
    """The revisions that `REV..REV` names, or `REV` alone. NoAnswer where one isn't there."""
    old, dots, new = word.partition("..")
    if not dots:
        return Range(shown(word), repository.commit(word), None)
    if new.startswith("."):
        raise NoAnswer(f"'{shown(word)}': REV..REV has two dots")
    return Range(shown(word), repository.commit(new or "HEAD"), repository.commit(old or "HEAD"))


def revisions(objects: Objects, within: Range, path: str) -> list[Revision]:
    """The revisions that changed the file, the oldest first. NoAnswer where it had too many
    names."""
    found: list[Revision] = []
    for _ in range(MOST_NAMES):
        before = None
        for revision in walked(objects, within, path):
            found.append(revision)
            before = name_before(objects, revision)
            if before is not None:
                break
        if before is None:
            return found[::-1]
        parent, path = before
        within = Range(within.word, parent, within.old)
    raise NoAnswer(f"{shown(path)}: had more than {MOST_NAMES} names before")


def place_before(objects: Objects, revision: Revision) -> tuple[str, str] | None:
    """Where the file is to be looked for before a revision: in its first parent, at the path that
    it had there. None where it has no parent, or the clone lacks it."""
    renamed = name_before(objects, revision)
    if renamed is not None:
        return renamed
    parent = first_parent(objects, revision.commit)
    return None if parent is None else (parent, revision.path)


def walked(objects: Objects, within: Range, path: str) -> list[Revision]:
    """The revisions that changed what has this path, the newest first."""
    limits = [within.new] if within.old is None else [within.new, f"^{within.old}"]
    form = "--format=%H%x00%ct%x00%T%x00%an%x00%s"
    words = ("log", "--first-parent", "-z", "--encoding=UTF-8", form, *limits, "--", path)
    fields = objects.must("--literal-pathspecs", *words).split(b"\0")[:-1]
    found = []
    for each in zip(*(fields[number::5] for number in range(5)), strict=True):
        commit, seconds, tree = (part.decode("ascii") for part in each[:3])
        author, subject = (part.decode("utf-8", "replace")[:MOST_SHOWN] for part in each[3:])
        found.append(Revision(commit, int(seconds), tree, author, subject, path))
    return found


def name_before(objects: Objects, revision: Revision) -> tuple[str, str] | None:
    """The first parent of a revision and the path that the file had there, where the revision
    renamed it; None where it did not."""
    parent = first_parent(objects, revision.commit)
    if parent is None or is_there(objects, parent, revision.path):
        return None
    words = ("diff-tree", "-r", "-z", f"-l{MOST_COMPARED}", "--find-renames", "--diff-filter=R")
    plain = ("--no-ext-diff", "--no-textconv", parent, revision.commit)
    fields = objects.must(*words, *plain).split(b"\0")
    for old, new in zip(fields[1::3], fields[2::3]):
        if new == os.fsencode(revision.path):
            return parent, os.fsdecode(old)
    return None


def first_parent(objects: Objects, commit: str) -> str | None:
    """The first parent of a commit; None where it has none, or the clone lacks it."""
    done = objects.ask("rev-parse", "--verify", "--quiet", f"{commit}^1")
    return done.stdout.decode("ascii").strip() if done.returncode == 0 else None


def is_there(objects: Objects, commit: str, path: str) -> bool:
    """Whether a commit has something at a path, be it what isn't judged."""
    try:
        return objects.entry(commit, path) is not None
    except NoAnswer:
        return True


def nothing_in(objects: Objects, within: Range, path: str) -> str:
    """Why no revision of a range changed the file."""
    old, new = within.old, within.new
    if old == new:
        return f"{within.word} has no revision: both ends are {short(new)}"
    if old is not None and objects.is_ancestor(new, old):
        return f"{within.word} has no revision: {short(new)} is before {short(old)}"
    if is_there(objects, new, path):
        return f"no revision of {within.word} changed {shown(path)}"
    return f"no revision of {within.word} has {shown(path)}"
