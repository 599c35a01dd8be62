"""Whether a theorem has another proof in NEW than in OLD, or the same one by new labels.

Where a statement was renamed, each proof that cites it has another word. It cites the same, though,
and a reader who looks for what was proved anew shouldn't find a thousand of these. So the labels of
OLD are compared as those that the same statements have in NEW, as `Comparison` found them. A proof
that kept all its words is the same one, also where one of its labels is another statement's now:
that this says something else is told of the statement itself.

Labels of hypotheses are compared as they are, since no comparison says which was renamed.
"""

from __future__ import annotations

from collections.abc import Sequence
from typing import NamedTuple

from query.comparisons.changes import Comparison
from query.texts.assertions import Assertion

SAME, BY_NEW_LABELS, ANOTHER = "same", "by new labels", "another"
"""What a proof of NEW is beside that of OLD."""
NOWHERE = ""
"""Stands for the label in NEW of what isn't there. No word of a proof is like that."""


class Proof(NamedTuple):
    """A proof: the labels in the order in which they stand, and the letters of a compressed one,
    None of a normal one. Where lines end among the letters doesn't matter."""

    labels: Sequence[str]
    letters: str | None


def proof_of(words: Sequence[str]) -> Proof:
    """The proof of these words. No label has a bracket, so a compressed one begins with it."""
    if words[:1] != ["("]:
        return Proof(words, None)
    end = words.index(")")
    return Proof(words[1:end], "".join(words[end + 1 :]))


class Proofs:
    """Compares proofs of OLD with those of NEW. `now` has each label by which something else is
    cited in NEW, with the label that stands there for what it was: of an assertion that is renamed
    or gone; and of a hypothesis, if it is an assertion's in NEW."""

    def __init__(self, comparison: Comparison) -> None:
        self.old, self.new = comparison.old_text, comparison.text
        fresh = self.new.by_label.keys() - self.old.by_label.keys()
        self.now = dict.fromkeys(fresh, NOWHERE)
        for one in self.old.assertions:
            label = comparison.to_new.get(one.label, NOWHERE)
            if label != one.label:
                self.now[one.label] = label

    def change(self, before: Assertion, after: Assertion) -> str:
        """What the proof of an assertion of NEW is beside that of one of OLD."""
        words, words_now = self.old.proof(before), self.new.proof(after)
        if words == words_now:
            return SAME
        old = proof_of(words)
        if self.now.keys().isdisjoint(old.labels):
            return ANOTHER
        labels = [self.now.get(label, label) for label in old.labels]
        return BY_NEW_LABELS if old._replace(labels=labels) == proof_of(words_now) else ANOTHER
