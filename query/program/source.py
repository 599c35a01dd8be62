"""What DATABASE names: a file, `-`, a revision in git, compressed or not; a database or a
report."""

import errno
import os
import stat
from contextlib import suppress
from dataclasses import dataclass
from typing import TYPE_CHECKING

from query.answers.errors import NoAnswer, reason, shown
from query.platform import signals, system
from query.platform.limits import MOST_DATABASE_BYTES
from query.program.unpacking import packer_of, unpacked

if TYPE_CHECKING:
    from pathlib import Path

    from query.git.repository import Repository

NO_TEXT = "a report, where the database is wanted"
"""Why a report isn't enough for a question on the text."""
PIECE = 1 << 22  # bytes that are read at once of what may have no end


@dataclass(frozen=True)
class Source:
    """The bytes that DATABASE names, not compressed. They were read once: the program and Node get
    them from here, since a file may be changed meanwhile. `name` is how messages call them."""

    name: str
    data: bytes

    def opened(self) -> int:
        """A descriptor from which the bytes can be read, for another program: that of a file, or
        where files may not become so large of a pipe. OSError where none can be made."""
        with signals.held():
            descriptor = system.unnamed()
        try:
            write_whole(descriptor, self.data)
        except OSError as error:
            os.close(descriptor)
            if error.errno != errno.EFBIG:
                raise
            return piped(self.data)
        os.lseek(descriptor, 0, os.SEEK_SET)
        return descriptor

    def is_report(self) -> bool:
        """Whether it is a report or a refusal. Neither is ever the beginning of a database that is
        accepted."""
        words = self.data[:100].split(b"\n", 1)[0].split(b" ")
        if words[0] == b"mmdepend" and len(words) == 2:
            return words[1].isdigit()
        return words[0] == b"refused" and len(words) == 3 and words[2].startswith(b"E")

    def see_text(self) -> None:
        """NoAnswer where it is a report."""
        if self.is_report():
            raise NoAnswer(f"{self.name}: {NO_TEXT}")


def write_whole(descriptor: int, data: bytes) -> None:
    """Writes all of these bytes. OSError where that can't be done."""
    view = memoryview(data)
    while view:
        view = view[os.write(descriptor, view) :]


def piped(data: bytes) -> int:
    """The end of a pipe from which the bytes can be read. A thread writes them, as long as somebody
    reads."""
    # It takes 2 milliseconds, and files may be large enough nearly everywhere.
    import threading

    reading, writing = os.pipe()

    def write() -> None:
        with suppress(OSError):
            write_whole(writing, data)
        os.close(writing)

    threading.Thread(target=write, daemon=True).start()
    return reading


def source_of(word: str) -> Source:
    """The bytes that a word DATABASE names. NoAnswer where they can't be read."""
    name = shown(word)
    if word == "-":
        return of_bytes("standard input", read_all(0, "standard input"))
    if is_of_git(word):
        return Source(name, of_git(word))
    try:
        descriptor = os.open(word, system.READING)
    except FileNotFoundError:
        raise NoAnswer(f"{name}: there is no such file") from None
    except OSError as error:
        raise NoAnswer(f"{name}: {reason(error)}") from None
    try:
        if stat.S_ISDIR(os.fstat(descriptor).st_mode):
            raise NoAnswer(f"{name}: is a folder")
        return of_bytes(name, read_all(descriptor, name))
    finally:
        os.close(descriptor)


def of_bytes(name: str, data: bytes) -> Source:
    """The bytes of a file, which may be compressed."""
    return Source(name, unpacked(name, data, MOST_DATABASE_BYTES))


def is_same_file(word: str, other: str) -> bool:
    """Whether two words DATABASE are the same one, or name the same file."""
    is_there = os.path.exists(word) and os.path.exists(other)
    return word == other or (is_there and os.path.samefile(word, other))


def read_plainly(path: "Path", most: int) -> bytes | None:
    """The bytes of a file that is no link; None where there is none. NoAnswer where it is a folder,
    can't be read, or has more than `most`."""
    name = shown(str(path))
    try:
        descriptor = system.opened(path)
    except FileNotFoundError:
        return None
    except OSError as error:
        raise NoAnswer(f"{name}: {reason(error)}") from None
    try:
        state = os.fstat(descriptor)
        if not stat.S_ISREG(state.st_mode):
            raise NoAnswer(f"{name}: is no plain file")
        if state.st_size > most:
            raise NoAnswer(f"not judged: {name} has {state.st_size} bytes, and {most} are taken")
        return read_all(descriptor, name)
    finally:
        os.close(descriptor)


def read_all(descriptor: int, name: str) -> bytes:
    """All that can be read, up to some more than a database may have."""
    state = os.fstat(descriptor)
    try:
        if stat.S_ISREG(state.st_mode) and state.st_size <= MOST_DATABASE_BYTES:
            with open(descriptor, "rb", buffering=0, closefd=False) as file:
                return file.readall()
        data = bytearray()
        while len(data) <= MOST_DATABASE_BYTES and (piece := signals.read(descriptor, PIECE)):
            data += piece
        return bytes(data)
    except OSError as error:
        raise NoAnswer(f"{name}: {reason(error)}") from None


def is_of_git(word: str) -> bool:
    """Whether a word is `REV:PATH`, and no file. NoAnswer where it could be both.

    A word that begins with `/`, `./` or `../` is always a file, as is one that begins with a drive
    of Windows, and one that begins with the full id of a commit never.
    """
    is_plain = word.startswith(("/", "./", "../")) or os.path.splitdrive(word)[0]
    if ":" not in word or is_plain:
        return False
    # These take 50 milliseconds, and most databases are files.
    from pathlib import Path

    from query.git.repository import FULL_ID, repository_of

    if FULL_ID.match(word) or not os.path.lexists(word):
        return True
    try:
        is_revision = repository_of(Path.cwd()).has(word.partition(":")[0] or "HEAD")
    except NoAnswer:
        return False
    if is_revision:
        raise NoAnswer(
            f"'{shown(word)}' is a file, and of a revision too: write ./{shown(word)} for the file,"
            " and the full id of the commit (`git rev-parse REV`) for the revision"
        )
    return False


def of_git(word: str) -> bytes:
    """The bytes of a file in a revision. NoAnswer where there is none, or it is compressed."""
    # See is_of_git.
    from query.git.objects import Objects
    from query.git.repository import short

    revision, path = place_of(word)
    repository = repository_at(path)
    commit = repository.commit(revision)
    with Objects(repository) as objects:
        content = objects.content(commit, path_from_top(path, repository))
    if content is None:
        raise NoAnswer(f"{shown(path)}: revision {short(commit)} has no such file")
    see_plain(shown(path), content)
    return content


def see_plain(name: str, data: bytes) -> None:
    """NoAnswer where a file of git is compressed: there a database is plain text, which everybody
    unpacks alike."""
    packer = packer_of(data)
    if packer is not None:
        raise NoAnswer(f"{name}: compressed by {packer}; in git a database is plain text")


def place_of(word: str) -> tuple[str, str]:
    """The revision and the path that `REV:PATH` names."""
    revision, _, path = word.partition(":")
    return revision or "HEAD", path


def is_typed(path: str) -> bool:
    """Whether the path of `REV:PATH` is typed as that of a file: a whole one, or with `./` or `../`
    first from the working folder. Any other one is from the top of a repository."""
    return path.startswith(("/", "./", "../")) or bool(os.path.splitdrive(path)[0])


def repository_at(path: str) -> "Repository":
    """The repository of `REV:PATH`: that of the file where the path is typed as that of one, and
    otherwise that of the working folder."""
    # See is_of_git.
    from pathlib import Path

    from query.git.repository import NoRepository, repository_for, repository_of

    if is_typed(path):
        return repository_for(path)
    try:
        return repository_of(Path.cwd())
    except NoRepository as why:
        advice = "with a whole path, or one that begins with ./ or ../, REV:PATH is of any"
        raise NoRepository(f"{why}; {advice}") from None


def path_from_top(path: str, repository: "Repository") -> str:
    """The path of `REV:PATH` from the top."""
    return repository.path_of(path) if is_typed(path) else path
