"""The texts of a crate in which each wrong body is a copy of its function.

Whoever calls a function relies on its contract, and not on its body. So a wrong body can stand in
a function of its own beside the right one, under another name, with copies of the proof files, and
one check tells of many of them.
"""

from collections import defaultdict
from collections.abc import Iterable, Iterator
from dataclasses import dataclass

from proving.edits import Edit
from proving.functions import Function, copied_proofs
from proving.tree import Crate
from proving.verdicts import Message, Span


@dataclass
class Copy:
    """A copy of a function: with the body of an edit, or with its own, which has to be proved."""

    function: Function
    edit: Edit | None
    name: str
    span: Span = Span("", 0, 0)

    @property
    def symbol(self) -> str:
        """Its name below the crate, as a check prints it."""
        return "::".join((*self.function.path[:-1], self.name))

    @property
    def is_itself(self) -> bool:
        """Whether it isn't a copy, but the function itself."""
        return self.name == self.function.name

    def has(self, message: Message) -> bool:
        """Whether a message of a check is about its text."""
        return self.span.has(message.file, message.line)


def named_copies(crate: Crate, owners: Iterable[tuple[Edit, Function]]) -> list[Copy]:
    """A copy for each edit, and one as it stands for each function that an edit changes.

    Of a function without proof files that is the function itself. A copy would differ from it by
    its name alone, and mostly the check needs it in any case, since another function calls it.
    """
    copies: list[Copy] = []
    right: dict[tuple[str, int], Copy] = {}
    for number, (edit, function) in enumerate(owners):
        copies.append(Copy(function, edit, f"{function.name}_wrong_{number}"))
        name = f"{function.name}_right_{number}"
        if not copied_proofs(crate, function, name):
            name = function.name
        right.setdefault((function.file, function.start), Copy(function, None, name))
    return [*copies, *right.values()]


def text_of(copy: Copy, source: bytes) -> bytes:
    """The copy of a function, of the text of its file."""
    function = copy.function
    end = function.end
    if copy.edit is not None:
        assert copy.edit.change is not None
        source = copy.edit.change.text
        end += copy.edit.change.longer
    # (the name stands before the body, in which the change is)
    start, name = source[function.start : function.name_start], copy.name.encode()
    return b"".join((start, name, source[function.name_end : end]))


def texts_with(crate: Crate, copies: list[Copy]) -> dict[str, bytes]:
    """The files of the crate that change, with the copies beside their functions, and the proof
    files of the copies. Notes in each copy where it stands."""
    texts: dict[str, bytes] = {}
    by_file: dict[str, list[Copy]] = defaultdict(list)
    for copy in copies:
        if copy.is_itself:
            continue
        by_file[copy.function.file].append(copy)
        for path, proof in copied_proofs(crate, copy.function, copy.name).items():
            texts[path] = proof.encode()
    for file, those in by_file.items():
        with open(f"{crate.folder}/{file}", "rb") as it:
            texts[file] = b"".join(pieces(file, it.read(), those))
    return texts


def pieces(file: str, source: bytes, copies: list[Copy]) -> Iterator[bytes]:
    """The text of a file in pieces, each copy behind its function."""
    done, line = 0, 1
    for copy in sorted(copies, key=lambda it: it.function.end):
        before = source[done : copy.function.end] + b"\n\n"
        body = text_of(copy, source)
        line += before.count(b"\n")
        copy.span = Span(file, line, line + body.count(b"\n"))
        line += body.count(b"\n")
        yield before
        yield body
        done = copy.function.end
    yield source[done:]
