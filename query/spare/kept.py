"""What a search has found so far, which is kept, so that one that was interrupted goes on."""

from __future__ import annotations

import json
from collections.abc import Sequence
from dataclasses import asdict, dataclass, field
from typing import Any

from query.platform import cache

FORM = 6
"""Counts the forms in which changes are kept, and the ways in which they are sought."""


@dataclass(frozen=True, slots=True)
class Replaced:
    """A step of a proof that cites another statement now. `old` are the labels that it cited."""

    old: tuple[str, ...]
    new: str
    formula: str


@dataclass(slots=True)
class Change:
    """What became of a theorem: which axioms it loses and gains, and where its own proof is another
    one what stands in its place between `$=` and `$.`, and which steps were replaced; or that the
    search in its proof was given up."""

    theorem: str
    loses: tuple[str, ...]
    proof: bytes | None = None
    old_length: int = 0
    replaced: list[Replaced] = field(default_factory=list)
    is_given_up: bool = False
    gains: tuple[str, ...] = ()
    hides: tuple[str, ...] = ()
    """The definitions that aren't known to be sound on which a formula rests by new steps, and
    didn't by the old ones."""
    sources: tuple[str, ...] = ()
    """Of one that keeps its proof the first theorems by whose new proofs it loses axioms."""
    faults: tuple[str, ...] = ()
    """The theorems that a new proof proves once more, since their own proofs are at fault."""

    def labels(self) -> list[str]:
        """The labels in brackets of the new proof."""
        words = (self.proof or b"( )").decode("latin-1").split()
        return words[1 : words.index(")")]


def to_fields(change: Change) -> dict[str, Any]:
    """A change in a form that JSON has."""
    fields = asdict(change)
    if change.proof is not None:
        fields["proof"] = change.proof.decode("latin-1")
    return fields


def from_fields(fields: dict[str, Any]) -> Change:
    """The same change as it was."""
    proof = None if fields["proof"] is None else fields["proof"].encode("latin-1")
    replaced = [
        Replaced(tuple(one["old"]), one["new"], one["formula"]) for one in fields["replaced"]
    ]
    return Change(
        fields["theorem"],
        tuple(fields["loses"]),
        proof,
        fields["old_length"],
        replaced,
        fields["is_given_up"],
        tuple(fields["gains"]),
        tuple(fields["hides"]),
    )


def store(key: str, done: int, changes: Sequence[Change]) -> None:
    """Keeps what was found in so many theorems."""
    fields = json.dumps([to_fields(change) for change in changes])
    cache.store(key, {"done": str(done).encode(), "changes": fields.encode()})


def load(key: str) -> tuple[int, dict[str, Change]]:
    """In how many theorems what was found."""
    parts = cache.load(key)
    if parts is None:
        return 0, {}
    found = [from_fields(each) for each in json.loads(parts["changes"])]
    return int(parts["done"]), {change.theorem: change for change in found}
