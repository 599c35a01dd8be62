"""A text without its comments: what no line of the program tells is found in it.

Spaces stand in place of the comments, so each place of the text is the same here. Nothing is
judged. A text that was refused for a proof is whole up to that proof, and may be anything after it.
"""

from __future__ import annotations

import re

COMMENT = re.compile(rb"\$\(.*?(?:\$\)|\Z)", re.DOTALL)

Stretch = tuple[int, int]


def without_comments(data: bytes) -> bytes:
    """The text with spaces in place of its comments."""
    return COMMENT.sub(lambda match: b" " * len(match[0]), data)


def match_behind(bare_text: bytes, label: str, after: bytes) -> re.Match[bytes] | None:
    """Where a label stands, and after it what a pattern says; None where it doesn't."""
    name = re.escape(label.encode("latin-1", "replace"))
    for match in re.finditer(name + rb"\s++" + after, bare_text):
        if match.start() == 0 or bare_text[match.start() - 1 : match.start()].isspace():
            return match
    return None


def declared_at(bare_text: bytes, label: str) -> int | None:
    """The place of the label of a statement; None where there is none of this label."""
    match = match_behind(bare_text, label, rb"\$[aefp]\s")
    return None if match is None else match.start()


def proof_of(bare_text: bytes, label: str) -> Stretch | None:
    """Where the proof of a theorem stands, between `$=` and `$.`; None where there is none."""
    match = match_behind(bare_text, label, rb"\$p\s[^$]*+\$=([^$]*+)\$\.")
    return None if match is None else match.span(1)


def leave_open(bare_text: bytes, data: bytearray, place: int) -> None:
    """Makes an axiom of the theorem whose proof has a place. No place changes by that."""
    start = bare_text.rindex(b"$=", 0, place + 2)
    end = bare_text.index(b"$.", start)
    keyword = bare_text.rindex(b"$p", 0, start)
    data[keyword : keyword + 2] = b"$a"
    data[start:end] = re.sub(rb"[^\n]", b" ", data[start:end])
