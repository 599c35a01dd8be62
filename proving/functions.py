"""The functions of a crate: where they stand, and by which names the prover tells of them."""

import os
import re
from collections.abc import Iterator
from pathlib import Path
from typing import Any

from proving import toolchain
from proving.edits import Change
from proving.tree import Crate

# What rattle makes of a function. A proof that speaks of one of these speaks of that function
# alone, and a copy has others.
MADE = "Goals|Code|Statement|Proof|Invariants|Answers"


class Function:
    """A function of a crate. Places are byte offsets from 0 into its file."""

    def __init__(self, source: Any, read: Any) -> None:
        self.file: str = read.file
        self.name: str = read.name
        # From its first attribute to the brace that closes its body; its name; its body's brace.
        self.start, self.end = int(read.first), int(read.end)
        self.name_start, self.name_end = (int(place) for place in read.named)
        self.opens = int(read.opens)
        self.in_trait: bool = read.in_trait
        self.fits = read.block.fits if read.block else None
        self.trait: str = toolchain.sources().named(read.block.trait)[0] if read.in_trait else ""
        self.owner: str = read.owner if read.block else ""
        self.module: tuple[str, ...] = tuple(read.module)
        # A method is named by the module of its type, wherever the `impl` stands.
        homes = {tuple(module) for module, *_ in source.declared.get(self.owner, ())}
        is_at_home = self.owner and not self.in_trait and len(homes) == 1
        self.home: tuple[str, ...] = homes.pop() if is_at_home else self.module
        self.is_in_cycle: bool = read.in_cycle or calls_itself(read)

    @property
    def path(self) -> tuple[str, ...]:
        """Its path below the crate; of a trait's method only the prover knows it."""
        return (*self.home, *([self.owner] if self.owner else []), self.name)

    def has(self, change: Change) -> bool:
        """Whether the change is one of its body alone."""
        inside = self.opens < change.start and change.end < self.end
        return self.file == change.file and inside


def calls_itself(read: Any) -> bool:
    """Whether a function that was read calls itself: a method by `Self::`, by the name of its type
    or on `self`, and any other by its plain name."""
    body: list[str] = ["", "", "", *read.body, ""]
    for at, word in enumerate(body):
        if word != read.name or body[at + 1] not in ("(", ":"):
            continue
        if read.block and read.takes_self and body[at - 1] == ".":
            found = body[at - 2] == "self" and body[at - 3] != "."
        elif read.block:
            found = body[at - 1] == ":" and body[at - 3] in ("Self", read.owner, ">")
        else:
            found = body[at - 1] not in (".", ":")
        if found:
            return True
    return False


def functions_of(crate: Crate) -> list[Function]:
    """The functions of a crate that have a body, but for tests."""
    source = toolchain.sources().Source(crate.folder)
    source.read(f"src/{'main' if crate.is_program else 'lib'}.rt")
    return [Function(source, read) for read in source.functions if read.has_body]


def owner_of(functions: list[Function], change: Change) -> Function | None:
    """The function whose body the change is in, if it is in that alone."""
    found = [function for function in functions if function.has(change)]
    # (a function within a function has both around it, and the inner one is the shorter)
    return min(found, key=lambda it: it.end - it.start) if len(found) == 1 else None


def proof_files(crate: Crate) -> Iterator[tuple[Path, str]]:
    """The files of definitions and proofs of a crate, by their path in it, and their texts."""
    for part in ("specs", "proofs"):
        for path in sorted(Path(crate.folder, part).rglob("*.antt")):
            yield path.relative_to(crate.folder), path.read_text("utf-8")


def proof_folders(function: Function, name: str) -> list[tuple[str, ...]]:
    """Where below `proofs` the proof files of a function with that name stand, and those of its
    closures."""
    own = (*function.path[:-1], name)
    return [own, (*function.home, "fn", *own[len(function.home) :])]


def can_be_copied(crate: Crate, function: Function) -> bool:
    """Whether a copy of a function is as good as the function itself: it doesn't call itself, is
    no method of a trait, and no proof but its own speaks of what rattle makes of it."""
    if function.in_trait or function.is_in_cycle:
        return False
    own = re.compile(rf"\b{re.escape('.'.join(function.path))}\.(?:{MADE})\b")
    folders = {Path("proofs", *path) for path in proof_folders(function, function.name)}
    return not any(
        own.search(text)
        for path, text in proof_files(crate)
        if not folders.intersection(path.parents)
    )


def copied_proofs(crate: Crate, function: Function, name: str) -> dict[str, str]:
    """The proof files of a function and of its closures, for a copy of it that has this name."""
    copies = proof_folders(function, name)
    pairs = list(zip(proof_folders(function, function.name), copies, strict=True))
    found = {}
    for own, other in pairs:
        folder = Path(crate.folder, "proofs", *own)
        for path in sorted(folder.rglob("*.antt")):
            text = path.read_text("utf-8")
            for old, new in pairs:
                text = re.sub(rf"\b{re.escape('.'.join(old))}(?![\w-])", ".".join(new), text)
            found[os.path.join("proofs", *other, path.relative_to(folder))] = text
    return found
