"""The tokens of `$t` and `$j` comments, in which a remark stands between `/*` and `*/`."""

import re
from collections.abc import Iterator


class Remarks:
    """Where remarks of a text end. That there is no `*/` any more is found once: a text may begin a
    remark as often as it wants."""

    def __init__(self, text: str) -> None:
        self.text = text
        self.may_end = True

    def end(self, place: int) -> int:
        """The place after the remark that begins at a place; 0 where none does that is closed."""
        if not self.may_end or not self.text.startswith("/*", place):
            return 0
        end = self.text.find("*/", place + 2)
        self.may_end = end >= 0
        return end + 2 if self.may_end else 0


def tokens(token: re.Pattern[str], text: str) -> Iterator[re.Match[str]]:
    """The tokens of a text without remarks. A `/*` that no `*/` follows begins a word."""
    remarks = Remarks(text)
    place = 0
    while match := token.search(text, place):
        end = remarks.end(match.start())
        place = end or match.end()
        if not end:
            yield match
