"""Why a proof is refused, as far as a person needs it to mend the proof: which step is faulty, what
it cites, which hypothesis what stands there doesn't fit, or which variables aren't distinct.

The core says where the faulty step is, and the code of its fault. The rest is found by carrying out
the steps before it. What is found is told only if it is a fault of that code. If it isn't, or if
something is in the way, there is no explanation, and the refusal stands as it is.
"""

from __future__ import annotations

from collections.abc import Iterator, Mapping, Sequence
from contextlib import suppress
from dataclasses import replace

from query.answers.errors import NoAnswer
from query.platform import limits
from query.program import mmdepend
from query.program.refusals import Refused
from query.program.source import Source
from query.proofs.apart import Apart, clashes, missing_from
from query.proofs.explanation import Explanation, Number
from query.proofs.mismatches import mismatch_of, wrong_behind
from query.proofs.replay import (
    MARK,
    Budget,
    Proof,
    Replay,
    Rest,
    Rule,
    Step,
    TooLong,
    proof_before,
    rest_behind,
    size_of,
)
from query.proofs.text_before import TextBefore
from query.reports.of_program import statements_of
from query.texts.assertions import Assertion, assertions_of
from query.texts.uncommented import without_comments

CODES = ("E34", "E35", "E36", "E37", "E38", "E39")
"""The faults of steps, and of the ends of proofs."""
OF_NUMBERS = "E45"
"""The fault of a number in a compressed proof that is too large."""
MOST_SYMBOLS = 1_048_576
"""A formula of a proof that has more is the fault E39."""
LAST_ENTRIES = 5
"""Of so many entries of the stack it is told which step pushed them."""
IN_THE_WAY = (LookupError, ValueError, NoAnswer, MemoryError, OSError)


def explanations(refusals: Sequence[Refused]) -> Iterator[Explanation | None]:
    """Why the proofs of a text are refused, for each of these refusals, which are in file order;
    None where that can't be told."""
    codes = (*CODES, OF_NUMBERS)
    of_steps = [each for each in refusals if each.code in codes and not each.source.is_report()]
    known = known_of(of_steps) if of_steps else None
    numbers = iter(range(len(of_steps)))
    for refusal in refusals:
        is_one = known is not None and refusal.code in codes
        yield known.explained(next(numbers)) if known is not None and is_one else None


def known_of(refusals: Sequence[Refused]) -> Known | None:
    """What is known of the text for which there are these refusals; None where something is in the
    way of that."""
    source = refusals[0].source
    try:
        bare_text = without_comments(source.data)
        places = [refusal.at() for refusal in refusals]
        proofs = [proof_before(bare_text, place) for place in places]
        rests = [rest_of(bare_text, *each) for each in zip(refusals, proofs)]
        lists = [*(proof.labels for proof in proofs if proof), *(rest.labels for rest in rests)]
        cited = {label.encode() for labels in lists for label in labels}
        outline = TextBefore(bare_text, places, cited)
        shorter = Source(source.name, outline.text())
        words = ["--open", "--report=statements"]
        said = mmdepend.report(mmdepend.ready(), shorter, words, limits.EXPLAINED_BYTES)
        assertions = assertions_of(statements_of(said), shorter.data)
    except IN_THE_WAY:
        return None
    return Known(refusals, proofs, rests, outline, {one.label: one for one in assertions})


def rest_of(bare_text: bytes, refusal: Refused, proof: Proof | None) -> Rest:
    """The rest of a proof in which variables aren't distinct, or a hypothesis isn't met, since
    others may not be either. It is the faulty step alone where the proof isn't whole; empty for
    other faults."""
    if refusal.code not in ("E35", "E36") or proof is None or proof.faulty is None:
        return Rest([], [], False)
    with suppress(ValueError):
        return rest_behind(bare_text, refusal.at(), proof)
    return Rest(proof.labels, [proof.faulty], False)


class Known:
    """What is known of a text, and of the proofs for which it is refused. A proof that is too long
    is None. `rests` has what is behind their faulty steps. `told` has the theorems, and what their
    proofs cite, by labels."""

    def __init__(
        self,
        refusals: Sequence[Refused],
        proofs: Sequence[Proof | None],
        rests: Sequence[Rest],
        outline: TextBefore,
        told: Mapping[str, Assertion],
    ) -> None:
        self.codes = [refusal.code for refusal in refusals]
        self.proofs = proofs
        self.rests = rests
        self.outline = outline
        self.told = told
        self.budget = Budget(limits.EXPLAINED_SYMBOLS)
        self.rules: dict[str, Rule | None] = {}

    def explained(self, number: int) -> Explanation | None:
        """Why a proof is refused; None where that can't be told."""
        proof = self.proofs[number]
        if proof is None:
            is_of_number = self.codes[number] == OF_NUMBERS
            return None if is_of_number else Explanation(is_too_long=True)
        try:
            return self._explained(number, proof)
        except IN_THE_WAY:
            return None

    def _explained(self, number: int, proof: Proof) -> Explanation | None:
        theorem = self.outline.theorems[number]
        apart = Apart(theorem.distinct(), self.outline.variables, self.budget)
        rule = Rule(self.told[theorem.label])
        labels = proof.labels_of(rule)
        if self.codes[number] == OF_NUMBERS:
            return of_number(proof, rule)
        replay = Replay(rule, self.rule, self.outline.floating, self.budget)
        begun = Explanation()
        if proof.faulty is not None:
            begun = Explanation(proof.count + 1, labels[proof.faulty])
        try:
            replay.carry_out(labels, proof.numbers)
            if begun.cited is None:
                code, found = at_end(replay, rule)
            else:
                code, found = at_step(replay, begun, begun.cited, apart)
        except TooLong:
            return replace(begun, is_too_long=True)
        steps = {each.number: each for each in (*found.last, *replay.last)}
        found = replace(found, last=tuple(steps[number] for number in sorted(steps)))
        rest = self.rests[number]
        rest = rest._replace(labels=proof.labels_of(rule, rest.labels))
        if found.clash is not None:
            missing = missing_from(replay, rest, apart, found.clash.variables)
            found = replace(found, clash=replace(found.clash, missing=missing))
        if found.mismatch is not None:
            found = replace(found, others=wrong_behind(replay, rest))
        return found if code == self.codes[number] else None

    def rule(self, label: str) -> Rule | None:
        """The assertion of a label; None where there is none, since it is that of a hypothesis."""
        if label not in self.rules:
            one = self.told.get(label)
            self.rules[label] = None if one is None else Rule(one)
        return self.rules[label]


def of_number(proof: Proof, theorem: Rule) -> Explanation | None:
    """What is wrong with a number that is too large; None where it isn't."""
    marks = proof.numbers.count(MARK)
    found = Number(proof.faulty or 0, len(theorem.given), len(proof.labels), marks)
    is_too_large = found.number >= found.count
    return Explanation(proof.count + 1, number=found) if is_too_large else None


def at_end(replay: Replay, theorem: Rule) -> tuple[str, Explanation]:
    """What is wrong at the end of a proof, with its code; "" where nothing is."""
    if len(replay.stack) != 1:
        last = replay.stack[-LAST_ENTRIES:]
        steps = tuple(Step(each.step, each.label, each.formula) for each in last)
        return "E37", of_stack(Explanation(last=steps, says=theorem.formula), replay)
    proved = replay.stack[0].formula
    code = "E38" if proved != theorem.formula else ""
    return code, Explanation(proved=proved, says=theorem.formula)


def of_stack(begun: Explanation, replay: Replay) -> Explanation:
    """How many entries the stack has."""
    pushed = tuple(entry.step for entry in replay.stack[-LAST_ENTRIES:])
    return replace(begun, entries=len(replay.stack), pushed=pushed)


def at_step(
    replay: Replay, begun: Explanation, label: str, apart: Apart
) -> tuple[str, Explanation]:
    """The first fault of a step that has this label, with its code; "" where it has none."""
    rule = replay.rule(label)
    if rule is None:
        return of_size(begun, len(replay.formula_of(label)))
    if len(replay.stack) < len(rule.given):
        return "E34", replace(of_stack(begun, replay), taken=len(rule.given))
    entries = replay.entries(rule)
    begun = replace(begun, takes=tuple(zip(rule.given, entries)))
    values = rule.values(entries)
    mismatch = mismatch_of(replay, rule, entries, values)
    if mismatch is not None:
        return "E35", replace(begun, mismatch=mismatch)
    clash = next(clashes(rule, values, apart), None)
    if clash is not None:
        return "E36", replace(begun, clash=clash)
    return of_size(begun, size_of(rule.formula, values))


def of_size(begun: Explanation, size: int) -> tuple[str, Explanation]:
    """The last fault of a step whose formula has so many symbols."""
    return "E39" if size > MOST_SYMBOLS else "", replace(begun, size=size)
