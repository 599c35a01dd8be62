"""Why there is no answer. A command raises `NoAnswer`, the command line makes it one line and
status 2."""

import errno
import os
import re
from collections.abc import Iterable
from contextlib import suppress

ALL_COMPARED_WORDS, MOST_COMPARED_WORDS = 500, 20_000
"""So many words are all compared. Of more only those are that begin alike and are about as long, at
most so many."""
NEAR_WORD, NEAR_LABEL = 0.5, 0.8  # by difflib's ratio, at least; labels are alike by themselves

SHORTEST_SWAPPED, LONGEST_SWAPPED = 3, 200
"""Of words of so many signs those are near in which two are swapped."""


class NoAnswer(Exception):
    """There is no answer, status 2."""

    def sentence(self) -> str:
        """The one line on standard error, without a prefix."""
        return str(self)


def shown(text: str, kept: str = "") -> str:
    """A text from outside, such as a file's name, in which every sign that a terminal obeys, that
    isn't seen, or that turns the direction of others is written as `\\x1b` or `\\u202e`. So it is
    on one line, unless `kept` has the sign that ends one.

    Whatever reaches a terminal or standard error goes through here.
    """
    if text.isprintable():
        return text
    return "".join(
        sign if sign.isprintable() or sign in kept else escaped(ord(sign)) for sign in text
    )


COMMANDS_OF_SERVERS = re.compile(r"(?<=#)#|(?<=:):|#(?=\[)")


def quiet(text: str) -> str:
    """A text for the log of a server, in which nothing is a command: those of Azure and TeamCity
    begin with `##`, and those of GitHub with `::` or `##[`. The second sign is written as
    `\\x23` or `\\x3a`."""
    return COMMANDS_OF_SERVERS.sub(lambda sign: escaped(ord(sign[0])), text)


def nearest(word: str, known: Iterable[str], cutoff: float = NEAR_WORD) -> str:
    """Which of the known words is meant, as the end of a sentence; empty where none is near. One
    that differs in capital letters alone is nearest, and next one in which two signs beside each
    other are swapped. Of many words only those are compared that begin alike."""
    # It takes a millisecond, and is for words that aren't known.
    import difflib

    words = list(known)
    alike = next((each for each in words if each.lower() == word.lower()), None)
    swapped = with_two_swapped(word)
    alike = alike or next((each for each in words if each in swapped), None)
    if alike is not None:
        words = [alike]
        cutoff = 0
    elif len(words) > ALL_COMPARED_WORDS:
        words = [each for each in words if each[:1] == word[:1] and abs(len(each) - len(word)) < 4]
    near = difflib.get_close_matches(word, words[:MOST_COMPARED_WORDS], n=1, cutoff=cutoff)
    return f"; did you mean {shown(near[0])}?" if near else ""


def with_two_swapped(word: str) -> set[str]:
    """The words that differ from one in two signs beside each other, which are swapped. Of very
    short words none, since these are alike by chance, and of very long ones."""
    if not SHORTEST_SWAPPED <= len(word) <= LONGEST_SWAPPED:
        return set()
    places = range(len(word) - 1)
    return {word[:at] + word[at + 1] + word[at] + word[at + 2 :] for at in places} - {word}


def escaped(number: int) -> str:
    """A sign by its number; what stands for a byte that is no UTF-8 as this byte."""
    if number < 0x100:
        return f"\\x{number:02x}"
    if 0xDC80 <= number <= 0xDCFF:
        return f"\\x{number - 0xDC00:02x}"
    return f"\\u{number:04x}" if number < 0x10000 else f"\\U{number:08x}"


class ProgressLine:
    """Whether a line of progress stands on standard error, behind which nothing may be written."""

    is_shown = False


progress_line = ProgressLine()
CLEARED = "\r\x1b[K"
"""What takes such a line away."""


def tell(text: str) -> None:
    """Writes a line to standard error, which often is the log of a server."""
    cleared = CLEARED if progress_line.is_shown else ""
    put(f"{cleared}mmquery: {quiet(shown(text))}\n")


def put(text: str) -> None:
    """Writes a text to standard error, if that can be done."""
    with suppress(OSError):
        os.write(2, text.encode("utf-8", "backslashreplace"))


def reason(error: OSError) -> str:
    """Why a call of the operating system failed, in words."""
    if error.errno == errno.ENOSPC:
        return "the disk is full"
    if error.errno == errno.EDQUOT:
        return "the disk quota is used up"
    if error.errno == errno.EFBIG:
        return "files may not become so large here"
    if error.errno == errno.EBADF:
        return "standard output is closed"
    return (error.strerror or str(error)).lower()
