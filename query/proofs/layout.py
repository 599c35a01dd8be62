"""Compressed proofs as they stand in a text: their letters, and how their lines are laid out."""

from __future__ import annotations

import re
from collections import Counter
from collections.abc import Iterable, Mapping
from dataclasses import dataclass

from query.proofs.letters import letters_of

WIDTH = 79
"""That of metamath.exe, where no proof of the database shows another one."""
INDENT = b"      "
SAMPLE = 4000
"""Of so many proofs the lines are measured."""
START = re.compile(rb"[ \t]*(?P<end>\r?\n)(?P<indent>[ \t]*)\S")
SECOND = re.compile(rb"[^\n]*?(?P<end>\r?\n)(?P<indent>[ \t]*)\S")

Item = int
"""A tree that has to be built, or a formula that has to be proved, as `~tree`."""


@dataclass(slots=True)
class Made:
    """An item of a proof: the label that makes it of others, and how often it is used."""

    label: str
    parts: list[Item]
    uses: int = 0
    mark: int = -1


def letters_in(nodes: Mapping[Item, Made], root: Item, numbers: Mapping[str, int]) -> str:
    """The letters of a proof whose last step is `root`. `numbers` are those of its labels."""
    letters: list[str] = []
    marks = len(numbers)
    left = [(root, False)]
    while left:
        item, is_built = left.pop()
        node = nodes[item]
        if node.mark >= 0:
            letters.append(letters_of(node.mark))
        elif not is_built:
            left.append((item, True))
            left += [(part, False) for part in reversed(node.parts)]
        else:
            letters.append(letters_of(numbers[node.label]))
            if node.parts and node.uses > 1:
                letters.append("Z")
                node.mark = marks
                marks += 1
    return "".join(letters)


def line_width(proofs: Iterable[bytes]) -> int:
    """How wide the lines of compressed proofs are: the commonest width of those that aren't the
    last of their proof."""
    counts: Counter[int] = Counter()
    for number, proof in enumerate(proofs):
        if number == SAMPLE:
            break
        counts.update(len(line.rstrip(b"\r")) for line in proof.split(b"\n")[1:-1])
    common = counts.most_common(1)
    return common[0][0] if common else WIDTH


def beginning(old: bytes) -> tuple[bytes, bytes]:
    """The end of line with which a proof begins, and its indent."""
    match = START.match(old) or SECOND.match(old)
    return (match["end"], match["indent"]) if match else (b"\n", INDENT)


def laid_out(labels: list[str], letters: str, old: bytes, width: int) -> bytes:
    """A proof as it stands between `$=` and `$.`, begun as the old one is."""
    end, indent = beginning(old)
    lines = [bytearray(indent)]
    for word in ["(", *(labels or [""]), ")"]:
        line = lines[-1]
        if len(line) > len(indent):
            if len(line) + 1 + len(word) > width:
                lines.append(bytearray(indent))
            else:
                line += b" "
        lines[-1] += word.encode()
    wide = max(1, width - len(indent))
    done = 0  # so many letters are laid out
    if len(lines[-1]) + 1 < width:
        lines[-1] += b" "
        done = width - len(lines[-1])
        lines[-1] += letters[:done].encode()
    while done < len(letters):
        lines.append(bytearray(indent + letters[done : done + wide].encode()))
        done += wide
    lines.append(bytearray(indent))
    if len(lines[-2]) + len(" $.") <= width:
        lines.pop()
        lines[-1] += b" "
    return end + end.join(lines)
