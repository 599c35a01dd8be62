"""How long proofs are, and how deep the theorems stand.

A proof is as long as it stands in the text: a step is what one number of a compressed proof stands
for, or a label of another one, so a part that is used again is one step each time.
"""

from __future__ import annotations

import re
from dataclasses import dataclass

from query.citations.graph import Graph
from query.texts.assertions import Assertion
from query.texts.text import Text
from query.texts.uncommented import without_comments

OTHERS = bytes({*range(256)} - {*b"ABCDEFGHIJKLMNOPQRST"})
"""All but the letters with which a number ends. Each of these ends one."""
PROOF = re.compile(rb"\$=([^$]*+)\$\.")


@dataclass(frozen=True)
class Length:
    """A proof: how many steps it has, and how many bytes stand between its `$=` and `$.`. `depth`
    is how many citations the longest chain from its theorem has, with one more for what a proof
    without citations takes."""

    steps: int
    depth: int
    size: int


def lengths(text: Text, graph: Graph) -> dict[str, Length]:
    """The proofs of all theorems but open ones, by labels in file order."""
    bare_text = without_comments(text.data)
    depths = depths_of(graph)
    found = {}
    for one in text.assertions:
        if one.letter == "p":
            steps, size = length_of(bare_text, one)
            found[one.label] = Length(steps, depths[graph.index[one.label]], size)
    return found


def length_of(bare_text: bytes, one: Assertion) -> tuple[int, int]:
    """The steps and the bytes of a proof."""
    proof = proof_in(bare_text, one)
    if not proof.lstrip().startswith(b"("):
        return len(proof.split()), len(proof)
    letters = proof[proof.index(b")") + 1 :]
    return len(letters.translate(None, OTHERS)), len(proof)


def proof_in(bare_text: bytes, one: Assertion) -> bytes:
    """What stands between the `$=` and the `$.` of a theorem."""
    match = PROOF.search(bare_text, one.place, one.end)
    assert match is not None  # the program has read it
    return match[1]


def written_steps(text: Text, assertion: Assertion) -> int:
    """How many steps one proof has, which may be open. One that is repeated by a mark counts once
    more, without those that it rests on."""
    words = text.proof(assertion)
    if words[:1] != ["("]:
        return len(words)
    letters = "".join(words[words.index(")") + 1 :])
    return sum(1 for letter in letters if "A" <= letter <= "T" or letter == "?")


def depths_of(graph: Graph) -> list[int]:
    """For each node how many citations the longest chain from it has, and for a theorem one more
    where it cites nothing; for an axiom 0."""
    depths = [0] * len(graph.labels)
    for theorem in range(graph.theorems):
        depths[theorem] = 1 + max((depths[each] for each in graph.cites[theorem]), default=0)
    return depths
