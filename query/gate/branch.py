"""What a branch brings to its base: both texts of the database, and what is asked of them.

What is judged is what the base would be after the merge. All that the branch brings is data: what
is asked stands in the file `mmdepend.toml` of the base, and where that of the branch asks less,
that is a finding.
"""

from __future__ import annotations

import os
from collections.abc import Iterator, Mapping
from dataclasses import dataclass, field, replace
from pathlib import Path

from query.answers.errors import NoAnswer, shown
from query.gate.config import FILE_NAME, MOST_CONFIG_BYTES, Config, load_config, read_config
from query.gate.finding import Finding
from query.gate.request import Request, config_in, with_brought
from query.git import attributes
from query.git.objects import Objects, id_of, see_length
from query.git.repository import NoRepository, Repository, repository_for, short
from query.platform.limits import MOST_DATABASE_BYTES
from query.program.source import (
    Source,
    is_of_git,
    path_from_top,
    place_of,
    read_plainly,
    repository_at,
    see_plain,
)

ANCHORS = ("refs/remotes/origin/HEAD", "refs/remotes/origin/main")
"""Whose `mmdepend.toml` says what the base is, where `--base` doesn't: the first that is there."""
MOST_READ = 16 * MOST_CONFIG_BYTES
"""Bytes of an `mmdepend.toml` that are looked at. Of one that is too long that is told."""
FREE_GROWTH = 1 << 26
"""How many bytes longer than twice OLD a database may be. A few bytes in git can be gigabytes."""


@dataclass(frozen=True)
class Branch:
    """A file as a branch has it, and how it is to be compared with its base.

    `commit` is the branch's last one, and `path` is from the top. `files` are those of the working
    tree that count in place of the commit's. The others are options of the command: `base` and
    `config` name a base and a file in place of `mmdepend.toml`; then come whether the file of NEW
    says what is asked, and whether the merge base is OLD.
    """

    repository: Repository
    commit: str
    path: str
    files: Mapping[str, bytes | None] = field(default_factory=dict)
    base: str | None = None
    config: str | None = None
    is_config_of_new: bool = False
    is_merge_base: bool = False

    def head(self, objects: Objects) -> str:
        """The commit that is judged: the last one, or one after it with what isn't committed."""
        changed = {}
        for path, data in self.files.items():
            entry = objects.entry(self.commit, path)
            known = None if entry is None else entry.name
            if known != (None if data is None else id_of(data, self.commit)):
                changed[path] = data
        for path in changed:
            found = self.repository.attributes(path)
            if found:
                raise NoAnswer(
                    f"{shown(path)}: .gitattributes gives it a {found[0]}, so what lies there isn't"
                    f" what is committed; commit it and name HEAD:{shown(path)}"
                )
        return objects.with_files(self.commit, changed) if changed else self.commit


def branch_of(word: str) -> Branch:
    """The branch of the file that a word names: that of HEAD, or that of `REV:PATH`."""
    if word == "-":
        raise NoAnswer("standard input is in no repository; name two files: mmquery gate OLD NEW")
    is_revision = is_of_git(word)
    if not is_revision and not os.path.lexists(word):
        raise NoAnswer(f"{shown(word)}: there is no such file")
    revision, path = place_of(word) if is_revision else ("HEAD", word)
    try:
        repository = repository_at(path) if is_revision else repository_for(word)
    except NoRepository as why:
        raise NoRepository(f"{why}; without git name two files: mmquery gate OLD NEW") from None
    if is_revision:
        commit = repository.commit(revision)
        return Branch(repository, commit, path_from_top(path, repository))
    path = repository.path_of(word)
    if repository.is_bare:
        raise NoAnswer(f"{shown(word)}: the repository has no working tree; name REV:PATH")
    repository.see_plain(repository.top / FILE_NAME, FILE_NAME)
    most = {path: MOST_DATABASE_BYTES, FILE_NAME: MOST_READ}
    files = {name: read_plainly(repository.top / name, size) for name, size in most.items()}
    if files[path] is None:
        raise NoAnswer(f"{shown(word)}: there is no such file")
    return Branch(repository, repository.commit("HEAD"), path, files)


@dataclass(frozen=True)
class Places:
    """The commits and trees from which files are taken: OLD, NEW, the last commit of the base, and
    what NEW is without a merge. `said` is what OLD is, in words."""

    old: str
    new: str
    tip: str
    head: str
    said: str


def request_of(branch: Branch, name: str) -> Request:
    """What is asked of a branch, and what it brings. `name` is how messages call NEW."""
    with Objects(branch.repository) as objects:
        given = outside(branch, objects)
        base = base_of(objects, given) if branch.base is None else branch.base
        places, notes = places_of(branch, objects, base)
        old, new = texts_of(objects, places, branch.path)
        if objects.entry(places.new, branch.path) != objects.entry(places.head, branch.path):
            notes.append(f"lines of {shown(branch.path)} are those of its merge with {places.said}")
        sources = (Source(shown(f"{short(places.old)}:{branch.path}"), old), Source(name, new))
        judged = short(branch.commit)
        if places.head != branch.commit:
            judged += ", with what isn't committed"
        request = Request(*sources, places.said, judged, notes=tuple(notes))
        request = with_configs(request, branch, objects, places, given)
        beside = [
            *of_attributes(objects, places, branch.path, old, new),
            *of_twins(objects, places, branch.path),
        ]
    return replace(
        request,
        findings=(*request.findings, *beside),
        paths={**request.paths, name: branch.path},
    )


def texts_of(objects: Objects, places: Places, path: str) -> tuple[bytes, bytes]:
    """The database in OLD, which is plain, and in NEW. NoAnswer where one has none."""
    old = objects.content(places.old, path)
    if old is None:
        raise NoAnswer(
            f"{shown(path)}: not in {places.said}; `mmquery verify` checks a new database"
        )
    see_plain(f"{shown(path)} in {places.said}", old)
    new = objects.content(places.new, path, most_after(len(old)))
    if new is None:
        raise NoAnswer(f"{shown(path)}: {short(places.head)} has no such file")
    return old, new


def most_after(size: int) -> int:
    """How many bytes a database may have that had so many in OLD."""
    return min(MOST_DATABASE_BYTES, 2 * size + FREE_GROWTH)


def seen_size(branch: Branch, objects: Objects, old: str) -> int:
    """How long the database is in OLD; 0 where it has none. NoAnswer where the file of the working
    tree is too long beside that, before git looks at it."""
    data, entry = branch.files.get(branch.path), objects.entry(old, branch.path)
    size = 0 if entry is None else objects.size("blob", entry.name, branch.path)
    if data is not None and entry is not None:
        see_length(branch.path, len(data), most_after(size))
    return size


def of_attributes(
    objects: Objects, places: Places, path: str, old: bytes, new: bytes
) -> Iterator[Finding]:
    """What breaks the rule `plain` by attributes of git."""
    try:
        before = attributes.text_of(objects, places.old, path, old)
    except NoAnswer:  # nobody knows what these say; who mends them has to pass
        before = [attributes.Text(old, {})]
    after = attributes.text_of(objects, places.new, path, new)
    for reason in attributes.given_newly(before, after):
        yield Finding("plain", path, 0, "", "", reason)


def of_twins(objects: Objects, places: Places, path: str) -> Iterator[Finding]:
    """What breaks the rule `plain` by names that elsewhere are one name. NoAnswer where OLD has
    such names and NEW still has them: nobody knows which file is meant."""
    for each in dict.fromkeys((path, FILE_NAME, *attributes.places(path))):
        before = objects.twins(places.old, each)
        for name in objects.twins(places.new, each):
            told = f"{shown(name)} stands beside it, which some systems take for the same name"
            if name in before:
                raise NoAnswer(f"not judged: {shown(each)}: {told}")
            yield Finding("plain", each, 0, "", "", told)


def places_of(branch: Branch, objects: Objects, base: str) -> tuple[Places, list[str]]:
    """From where files are taken, and notes on that."""
    tip = branch.repository.commit(base)
    common = objects.merge_base(tip, branch.commit)
    size = seen_size(branch, objects, common if branch.is_merge_base else tip)
    head = branch.head(objects)
    notes = []
    if common == branch.commit:
        notes.append(
            "the base has this commit already, so only what isn't committed is compared;"
            " on a push, name the commit before by --base"
        )
    if branch.is_merge_base:
        said = f"the merge base with {base}, {short(common)}"
        return Places(common, head, tip, head, said), notes
    new = objects.merged(tip, head, size) if common != tip else head
    if common != tip and objects.has_several_bases(tip, head):
        see_one_merge(objects, branch.path, (tip, head), new, size)
    return Places(tip, new, tip, head, f"{base}, {short(tip)}"), notes


def see_one_merge(
    objects: Objects, path: str, commits: tuple[str, str], tree: str, size: int
) -> None:
    """NoAnswer where a merge that looks for renamed files has other files than one that doesn't.
    With one merge base that is a conflict; several are merged first, whatever conflicts they have,
    and where that looks for renamed files, what comes of it is another base."""
    other = objects.merged(*commits, size, has_renames=True)
    for each in dict.fromkeys((path, FILE_NAME, *attributes.places(path))):
        if objects.entry(tree, each) != objects.entry(other, each):
            raise NoAnswer(
                f"not judged: there are several merge bases of {short(commits[1])} and"
                f" {short(commits[0])}, and {shown(each)} differs by how these are merged; merge"
                " the base into the branch first"
            )


def outside(branch: Branch, objects: Objects) -> Config | None:
    """The file that `--config` names, where no commit has it."""
    if branch.config is None:
        return None
    path = tracked(objects, branch.repository, branch.config, branch.commit)
    return load_config(Path(branch.config)) if path is None else None


def tracked(objects: Objects, repository: Repository, word: str, *trees: str) -> str | None:
    """The path of a file from the top, where a commit has it; None where none does."""
    if not repository.has_within(word):
        return None
    path = repository.path_of(word)
    return path if any(objects.entry(tree, path) for tree in trees) else None


def base_of(objects: Objects, given: Config | None) -> str:
    """The base that the file named by `--config` names, or that of a commit which no branch
    brings."""
    if given is not None and ("base",) in given.lines:
        return given.base
    repository = objects.repository
    for name in ANCHORS:
        if repository.has_reference(name):
            data = objects.content(repository.commit(name), FILE_NAME, MOST_READ)
            return Config.base if data is None else read_config(data, f"{name}:{FILE_NAME}").base
    raise NoAnswer(
        f"git has no revision '{Config.base}', whose {FILE_NAME} would say what the base is;"
        " name it by --base"
    )


def with_configs(
    request: Request, branch: Branch, objects: Objects, places: Places, given: Config | None
) -> Request:
    """A request with what is asked: by the file of the base, or by that which the options name."""
    if given is not None:
        return replace(request, config=given)
    path = FILE_NAME
    if branch.config is not None:
        trees = (places.head, places.tip)
        path = tracked(objects, branch.repository, branch.config, *trees) or FILE_NAME
    here, after = (objects.content(tree, path, MOST_READ) for tree in (places.tip, places.new))
    if branch.is_config_of_new:
        note = f"what is asked stands in {shown(path)} of the branch itself"
        notes = (*request.notes, note) if here != after else request.notes
        return replace(request, config=config_in(after, path), notes=notes, paths={path: path})
    if here is None and path != FILE_NAME:
        raise NoAnswer(
            f"{shown(path)}: the branch brings it, and the base has none; --config-of-new takes it"
        )
    name = path if here == after else f"{short(places.tip)}:{path}"
    config = config_in(here, name)
    request = replace(request, config=config, before=config, paths={name: path, path: path})
    before = here
    if places.old != places.tip:
        before = objects.content(places.old, path, MOST_READ)
        request = replace(request, before=config_in(before, path))
    return request if before == after else with_brought(request, after, path)
