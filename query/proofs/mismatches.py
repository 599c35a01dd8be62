"""Which steps of a proof have a hypothesis that what stands there doesn't fit: the one for which it
is refused, and those behind it.

What a step says depends on what stands for its variables alone, so behind a step whose `$e` isn't
met it is known what the others say. Where something of another typecode stands for a variable, or
nothing, it isn't known.
"""

from __future__ import annotations

from collections.abc import Mapping, Sequence
from contextlib import suppress

from query.proofs.explanation import Mismatch, Others, Wrong
from query.proofs.replay import MARK, Entry, Formula, Replay, Rest, Rule, TooLong


def mismatch_of(
    replay: Replay, rule: Rule, entries: Sequence[Entry], values: Mapping[str, Formula]
) -> Mismatch | None:
    """The first hypothesis that its entry doesn't fit."""
    for hypothesis, entry in zip(rule.given, entries):
        symbols = hypothesis.formula.split(" ")
        if hypothesis.kind == "f":
            if symbols[0] != entry.formula[0]:
                return Mismatch(hypothesis, symbols, entry)
            continue
        wanted = replay.replaced(symbols, values)
        if wanted != entry.formula:
            return Mismatch(hypothesis, wanted, entry)
    return None


def wrong_behind(replay: Replay, rest: Rest) -> Others:
    """The steps behind the faulty one, which comes first, that are faulty too; as far as it is
    known what the steps before them say, and the budget lets it be found."""
    found: list[Wrong] = []
    first = replay.count + 1
    is_all = False
    with suppress(TooLong, LookupError):
        for number in rest.numbers:
            if MARK < number < len(rest.labels):
                see_step(replay, rest.labels[number], found)
            replay.carry_out(rest.labels, [number])
        is_all = rest.is_whole
    others = tuple(each for each in found if each.step != first)
    return Others(others, None if is_all else replay.count + 1)


def see_step(replay: Replay, label: str, found: list[Wrong]) -> None:
    """Adds the next step, which has this label, if it is faulty. LookupError where it isn't known
    what it says."""
    rule = replay.rule(label)
    if rule is None:
        return
    entries = replay.entries(rule)
    mismatch = mismatch_of(replay, rule, entries, rule.values(entries))
    if mismatch is not None:
        found.append(Wrong(replay.count + 1, label, mismatch.hypothesis.label))
    if not are_of_their_typecodes(rule, entries):
        raise LookupError


def are_of_their_typecodes(rule: Rule, entries: Sequence[Entry]) -> bool:
    """Whether for each variable of a rule something of its typecode stands."""
    return all(
        entry.formula[0] == hypothesis.formula.partition(" ")[0]
        for hypothesis, entry in zip(rule.given, entries)
        if hypothesis.kind == "f"
    )
