"""Marks in comments by which a database discourages: the new usage of a statement, or another proof
of a theorem."""

from __future__ import annotations

import re
from bisect import bisect_right

from query.texts.assertions import Assertion
from query.texts.text import Text

DISCOURAGED = re.compile(r"\(New\s+usage\s+is\s+discouraged\.\)")
DISCOURAGED_PROOF = re.compile(r"\(Proof\s+modification\s+is\s+discouraged\.\)")
LEFT_OUT, SPACES = re.compile(r"[\r\n\f]+"), re.compile(r"[ \t]+")
"""What metamath.exe leaves out of a description before it looks for marks, and then takes for one
space."""


def labels_marked(text: Text, mark: re.Pattern[str]) -> list[str]:
    """The assertions whose comment has a mark, in file order. Where the text says it, the assertion
    comes next."""
    places = (match.start() for match in re.finditer(mark.pattern.encode(), text.data))
    numbers = sorted({bisect_right(text.places, place) for place in places})
    found = [text.assertions[number] for number in numbers if number < len(text.assertions)]
    return [one.label for one in found if mark.search(text.comment(one))]


def discouraged_labels(text: Text) -> list[str]:
    """The assertions whose comment says that new usage is discouraged, in file order."""
    return labels_marked(text, DISCOURAGED)


def is_discouraged(text: Text, assertion: Assertion) -> bool:
    """Whether the comment before an assertion says `(New usage is discouraged.)`."""
    return bool(DISCOURAGED.search(text.comment(assertion)))


def is_proof_discouraged(text: Text, assertion: Assertion) -> bool:
    """Whether the comment of a theorem says `(Proof modification is discouraged.)`."""
    return assertion.kind == "p" and bool(DISCOURAGED_PROOF.search(text.comment(assertion)))


def hidden_marks(text: Text, one: Assertion) -> dict[str, str]:
    """The marks that stand in the comment of an assertion and that metamath.exe misses, each with
    the reason."""
    comment, description = text.comment(one), text.description(one)
    read = SPACES.sub(" ", LEFT_OUT.sub("", description))
    found = {}
    for mark in (DISCOURAGED, DISCOURAGED_PROOF):
        match = mark.search(comment)
        words = " ".join(match[0].split()) if match else ""
        if words not in read:
            is_broken = mark.search(description)
            why = f"a line ends within `{words}`, with no space before or after"
            why = why if is_broken else f"another comment stands behind that with `{words}`"
            found[words] = f"{why}, so metamath.exe misses it"
    return found
