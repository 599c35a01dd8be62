"""How what is made gets into a file: as all of it, as a part between two marks, as single words."""

import re
from collections.abc import Callable, Iterable

from tables.sources import Unreadable

MADE = "Made by `python3 -m tables`"
Edit = Callable[[str], str]
"""What makes of the text of a file the text that it is to have."""


def whole(lines: Iterable[str]) -> Edit:
    """Gives a file these lines."""
    text = "".join(f"{line}\n" for line in lines)
    return lambda _: text


def part(name: str, lines: Iterable[str]) -> Edit:
    """Gives a part of a file these lines. It stands between a line `begin NAME: made by ..` and a
    line `end NAME`, in whatever comments the file has."""
    made = "".join(f"{line}\n" for line in lines)
    start = rf"^[^\n]*\bbegin {name}: m{MADE[1:]}[^\n]*\n"
    mark = re.compile(rf"{start}(.*?)^[^\n]*\bend {name}\b", re.M | re.S)

    def edited(text: str) -> str:
        found = list(mark.finditer(text))
        if len(found) != 1:
            raise Unreadable(f"has {len(found)} parts, and not one, from `begin {name}` to its end")
        return text[: found[0].start(1)] + made + text[found[0].end(1) :]

    return edited


def words(form: str, value: str) -> Edit:
    """Puts a value in place of the group with which this pattern ends, wherever a text has it."""

    def edited(text: str) -> str:
        if not re.search(form, text):
            raise Unreadable(f"has nothing of the form {form}")
        return re.sub(form, lambda match: match[0].removesuffix(match[1]) + value, text)

    return edited


def in_shell(text: str) -> str:
    """A text as a word of a shell."""
    return "'" + text.replace("'", "'\\''") + "'"
