"""The steps of one proof, each with the steps that are its hypotheses, numbered as metamath.exe
numbers them: all of them as `show proof T /lemmon /all`, the logical ones from 1 as `show proof T
/lemmon /renumber`.

The proof was judged already, so it is carried out as `query/proofs/replay.py` does it.
"""

from __future__ import annotations

from collections.abc import Iterable, Iterator, Sequence
from typing import NamedTuple

from query.answers.errors import NoAnswer
from query.platform import limits, progress
from query.proofs.replay import MARK, Budget, Formula, Proof, Replay, Rule, TooLong, proof_before
from query.texts.assertions import Assertion
from query.texts.floating import floating_of
from query.texts.text import Text
from query.texts.uncommented import without_comments

TOLD_EACH = 1000
"""After so many steps the line of progress is written anew."""


class Shown(NamedTuple):
    """A step. `hypotheses` are the numbers of the steps to which it applies its label, in the order
    of the hypotheses; none where it is a hypothesis, or repeats the step that its label `@N`
    names."""

    number: int
    hypotheses: list[int]
    label: str
    formula: Formula


class Carried(NamedTuple):
    """A step that was carried out: the steps that it takes for all hypotheses, and those that it
    takes for a `$e`. `repeated` is the step that it repeats."""

    label: str
    formula: Formula
    hypotheses: list[int]
    essential: list[int]
    repeated: int | None


def steps_of(text: Text, theorem: Assertion, is_all: bool) -> list[Shown]:
    """The steps of a theorem's proof: all of them, or those that aren't there to build formulas.
    NoAnswer where the proof is left open, or is too long."""
    carried = carried_out(text, theorem)
    shown = range(1, len(carried) + 1) if is_all else logical(carried)
    return [*renumbered(carried, shown)]


def carried_out(text: Text, theorem: Assertion) -> list[Carried]:
    """What each step of a proof has, from the first one, which has the number 1."""
    if theorem.is_open:
        raise NoAnswer(f"{theorem.label}: is left open, so there are no steps")
    bare_text = without_comments(text.data[theorem.place : theorem.end])
    proof = proof_before(bare_text, bare_text.rindex(b"$."))
    if proof is None:
        raise NoAnswer(f"{theorem.label}: its proof is longer than {limits.EXPLAINED_PROOF} bytes")
    rules: dict[str, Rule | None] = {}
    for label in proof.labels:
        one = text.find(label)
        rules[label] = None if one is None else Rule(one)
    own = Rule(theorem)
    given = {each.label for each in own.given}
    floating: dict[str, Formula] = {}
    if not all(rule is not None or label in given for label, rule in rules.items()):
        floating = {label: [*said] for label, said in floating_of(text.data[: theorem.end]).items()}
    replay = Replay(own, rules.get, floating, Budget(limits.EXPLAINED_SYMBOLS))
    try:
        return carried_by(replay, proof, proof.labels_of(own))
    except TooLong:
        most = limits.EXPLAINED_SYMBOLS
        raise NoAnswer(f"{theorem.label}: its steps have more than {most} symbols") from None


def carried_by(replay: Replay, proof: Proof, labels: Sequence[str]) -> list[Carried]:
    """The same, of a proof with these labels by its numbers."""
    found: list[Carried] = []
    for number in proof.numbers:
        repeated = None
        hypotheses: list[int] = []
        essential: list[int] = []
        if number >= len(labels):
            repeated = replay.marked[number - len(labels)].step
        elif number != MARK and (rule := replay.rule(labels[number])) is not None:
            hypotheses = [entry.step for entry in replay.entries(rule)]
            pairs = zip(rule.given, hypotheses)
            essential = [step for hypothesis, step in pairs if hypothesis.kind == "e"]
        replay.carry_out(labels, [number])
        if number != MARK:
            step = replay.last[-1]
            found.append(Carried(step.label, step.formula, hypotheses, essential, repeated))
            if step.number % TOLD_EACH == 0:
                progress.now(f"carrying out step {step.number} of {proof.count}")
    return found


def logical(carried: Sequence[Carried]) -> list[int]:
    """The steps of which the last one is made by `$e` alone, rising; what one of them repeats is
    one, too."""
    wanted = {len(carried)}
    for number in range(len(carried), 0, -1):
        if number in wanted:
            one = carried[number - 1]
            wanted.update(one.essential if one.repeated is None else [one.repeated])
    return sorted(wanted)


def renumbered(carried: Sequence[Carried], shown: Iterable[int]) -> Iterator[Shown]:
    """These steps, numbered from 1, with those of their hypotheses that are among them."""
    numbers = {old: new for new, old in enumerate(shown, 1)}
    for old, new in numbers.items():
        one = carried[old - 1]
        hypotheses = [numbers[each] for each in one.hypotheses if each in numbers]
        label = one.label if one.repeated is None else f"@{numbers[one.repeated]}"
        yield Shown(new, hypotheses, label, one.formula)
