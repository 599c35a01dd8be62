"""Attributes of git, by which a checkout, an archive or a merge gives out another text than the one
that a commit has. The files `.gitattributes` of a tree say them, and git reads these by itself."""

from __future__ import annotations

import re
from collections import Counter
from collections.abc import Iterator, Mapping, Sequence
from dataclasses import dataclass
from pathlib import Path

from query.answers.errors import NoAnswer, shown
from query.git.objects import Objects, call_apart, make_empty
from query.git.repository import said
from query.platform import temporary

FILE = ".gitattributes"
IGNORED = "export-ignore"
"""What a folder may have too."""
NAMES = (
    *("export-subst", IGNORED, "filter", "ident", "working-tree-encoding"),
    *("merge", "eol", "text", "crlf"),
)
MOST_BYTES, MOST_LINE = 1 << 20, 2000
"""How long such a file may be, and a line of it. Some versions of git pass over what is longer."""
SUBSTITUTED = re.compile(rb"\$Format:[^$]*\$")
"""What is replaced in archives, where the file has `export-subst`."""

Values = Mapping[str, str]
"""For names of attributes their values, in git's words."""


@dataclass(frozen=True)
class Text:
    """A file of a tree, with the attributes that the tree gives it."""

    data: bytes
    values: Values

    def changing(self) -> dict[str, str]:
        """The attributes by which something else is given out than these bytes."""
        found = {name: self.values.get(name, "unspecified") for name in NAMES}
        return {name: value for name, value in found.items() if self.changes(name, value)}

    def changes(self, name: str, value: str) -> bool:
        """Whether an attribute does so with this value."""
        if value == "unspecified" or (value == "unset" and name != "merge"):
            return False
        if name == "merge":
            return value != "set"
        if name == "eol":
            return value != "lf" or b"\r" in self.data
        if name in ("text", "crlf"):
            is_plain = "lf" in (self.values.get("eol"), value.replace("input", "lf"))
            return not is_plain or b"\r" in self.data
        return True


def text_of(objects: Objects, tree: str, path: str, data: bytes) -> list[Text]:
    """A file of a tree with its attributes: as git reads patterns where case matters in names of
    files, and where it doesn't."""
    files = {}
    for place in places(path):
        content = objects.content(tree, place, MOST_BYTES)
        if content is not None:
            if max(map(len, content.split(b"\n"))) > MOST_LINE:
                raise NoAnswer(
                    f"not judged: {shown(place)} has a line of more than {MOST_LINE} bytes"
                )
            files[place] = content
    if not files:
        return [Text(data, {})]
    with temporary.folder() as folder:
        make_empty(folder / ".git")
        for place, content in files.items():
            (folder / place).parent.mkdir(parents=True, exist_ok=True)
            (folder / place).write_bytes(content)
        return [Text(data, values_of(folder, path, word)) for word in ("false", "true")]


def places(path: str) -> list[str]:
    """Where files stand that give a path attributes."""
    return [str(folder / FILE) for folder in Path(path).parents]


def values_of(folder: Path, path: str, ignores_case: str) -> Values:
    """What the files in a folder say of a path. An archive that leaves out a folder on the way
    leaves out the file too."""
    found = {name: value for _, name, value in said_of(folder, ignores_case, NAMES, path)}
    above = [f"{each}/" for each in Path(path).parents if each != Path()]
    for _, name, value in said_of(folder, ignores_case, (IGNORED,), *above):
        if value not in ("unspecified", "unset"):
            found[name] = value
    return found


def said_of(
    folder: Path, ignores_case: str, names: Sequence[str], *paths: str
) -> list[tuple[str, str, str]]:
    """Paths, names of attributes and their values, by the files in a folder."""
    words = ("-c", f"core.ignoreCase={ignores_case}", f"--work-tree={folder}")
    asked = (*words, "check-attr", "-z", *names, "--", *paths)
    if not paths:
        return []
    done = call_apart(folder / ".git", *asked, folder=folder)
    if done.returncode != 0:
        raise NoAnswer(said(done))
    fields = done.stdout.decode("utf-8", "surrogateescape").split("\0")
    return list(zip(fields[::3], fields[1::3], fields[2::3]))


def given_newly(old: list[Text], new: list[Text]) -> Iterator[str]:
    """Why NEW, and not yet OLD, is given out as something else."""
    before = {pair for text in old for pair in text.changing().items()}
    for name, value in dict.fromkeys(pair for text in new for pair in text.changing().items()):
        told = f"`{FILE}` gives it `{name if value == 'set' else f'{name}={value}'}`"
        if (name, value) not in before:
            yield f"{told}, so others may get another text than this one"
        elif name == "export-subst":
            found = [Counter(SUBSTITUTED.findall(texts[0].data)) for texts in (old, new)]
            if not found[1] <= found[0]:
                yield f"{told}, and a new `$Format:` makes another text of archives"
