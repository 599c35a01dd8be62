"""The judge of changed proofs. Whatever the search says, it is answered only where the program
verifies the new database, and where this has the same statements, has nothing else changed than the
proofs that are said to be, and is marked as is said: no theorem rests on an axiom on which it
didn't rest before, but for what it may gain.
"""

from __future__ import annotations

from collections.abc import Collection, Sequence
from typing import NoReturn

from query.answers.errors import NoAnswer
from query.citations.marks import bit
from query.platform import progress
from query.program.refusals import Refused
from query.program.source import Source
from query.reports.content import ReportContent
from query.reports.database import Database
from query.spare.kept import Change
from query.texts.assertions import Assertion
from query.texts.text import Text
from query.texts.uncommented import without_comments


def fail(what: str) -> NoReturn:
    """Raises NoAnswer: the search found something that isn't so."""
    raise NoAnswer(f"what was found isn't so: {what}")


def judge_changes(
    database: Database, data: bytes, changes: Sequence[Change], may_gain: Collection[str] = ()
) -> None:
    """Judges a new database, in which theorems may gain some axioms. NoAnswer where something isn't
    so."""
    progress.now("judging what was found")
    new = Database(Source("the new database", data), database.options, False)
    try:
        content = new.content
    except Refused as why:
        fail(why.sentence())
    by_label = {change.theorem: change for change in changes}
    if len(by_label) != len(changes):
        fail("a theorem is changed twice")
    compare_texts(database.text, new.text, by_label)
    compare_marks(database.content, content, by_label, may_gain)
    compare_citations(database, new, changes)
    compare_reasons(database, content, by_label)


def compare_texts(old: Text, new: Text, changes: dict[str, Change]) -> None:
    """Compares all bytes but those of the proofs that are changed, and what assertions say."""
    if len(old.assertions) != len(new.assertions):
        fail("there are other assertions")
    before, after = 0, 0
    for one, other in zip(old.assertions, new.assertions):
        if (one.label, one.letter) != (other.label, other.letter):
            fail(f"{other.label} stands where {one.label} did")
        if old.data[before : one.place] != new.data[after : other.place]:
            fail(f"the text before {one.label} is changed")
        if (one.frame(), one.formula) != (other.frame(), other.formula):
            fail(f"{one.label} says something else")
        change = changes.get(one.label)
        if change is None or change.proof is None:
            if old.data[one.place : one.end] != new.data[other.place : other.end]:
                fail(f"{one.label} is changed")
        elif before_proof(old, one) + change.proof + b"$." != new.data[other.place : other.end]:
            fail(f"{one.label} isn't as is said")
        before, after = one.end, other.end
    if old.data[before:] != new.data[after:]:
        fail("the text behind the last assertion is changed")


def before_proof(text: Text, theorem: Assertion) -> bytes:
    """A theorem up to its `$=`."""
    data = text.data[theorem.place : theorem.end]
    return data[: without_comments(data).index(b"$=") + 2]


def compare_marks(
    old: ReportContent, new: ReportContent, changes: dict[str, Change], may_gain: Collection[str]
) -> None:
    """Compares on which axioms the theorems rest."""
    if old.theorems != new.theorems or old.columns != new.columns:
        fail("there are other theorems or axioms")
    assert old.marks is not None and new.marks is not None
    bits = {label: bit(len(old.columns), column) for column, label in enumerate(old.columns)}
    allowed = sum(bits[label] for label in {*may_gain})
    for row, label in enumerate(old.theorems):
        before, after = old.marks.row(row), new.marks.row(row)
        change = changes.get(label)
        loses, gains = ((), ()) if change is None else (change.loses, change.gains)
        gained = after & ~before
        if gained & ~allowed or gained != sum(bits[axiom] for axiom in {*gains}):
            fail(f"{label} rests on an axiom on which it didn't")
        if before & ~after != sum(bits[axiom] for axiom in {*loses}):
            fail(f"{label} doesn't lose just the axioms that are said")


def compare_citations(old: Database, new: Database, changes: Sequence[Change]) -> None:
    """Compares what changed proofs cite."""
    before, after = old.graph(), new.graph()
    for change in changes:
        node = after.index[change.theorem]
        cited = {after.labels[each] for each in after.cites[node]}
        was = {before.labels[each] for each in before.cites[before.index[change.theorem]]}
        if change.proof is None and cited != was:
            fail(f"{change.theorem} cites something else")
        for replaced in change.replaced:
            if replaced.new not in cited or not was.issuperset(replaced.old):
                fail(f"{change.theorem} doesn't cite what is said")


def compare_reasons(old: Database, new: ReportContent, changes: dict[str, Change]) -> None:
    """Compares what is said of the theorems by which others lose axioms, and of those at which
    faults lie."""
    assert new.marks is not None
    rows = {label: row for row, label in enumerate(new.theorems)}
    bits = {label: bit(len(new.columns), column) for column, label in enumerate(new.columns)}
    graph, by_label = old.graph(), old.text.by_label
    for change in changes.values():
        one = by_label[change.theorem]
        for label in change.sources:
            other = changes.get(label)
            if change.proof is not None or other is None or other.proof is None:
                fail(f"{change.theorem} doesn't lose by the proof of {label}")
            if by_label[label].number > one.number:
                fail(f"{change.theorem} stands before {label}")
        cited = {graph.labels[each] for each in graph.cites[graph.index[change.theorem]]}
        lost = sum(bits[axiom] for axiom in {*change.loses})
        resting = new.marks.row(rows[change.theorem])
        for label in change.hides:
            if not bits.get(label, 0) & resting:
                fail(f"{change.theorem} doesn't rest on {label}")
        for label in change.faults:
            if label not in cited or not new.marks.row(rows[label]) & lost:
                fail(f"{label} isn't at fault for {change.theorem}")


def rewritten(text: Text, changes: Sequence[Change]) -> bytes:
    """The database with the new proofs."""
    parts: list[bytes] = []
    place = 0
    for change in changes:
        if change.proof is None:
            continue
        one = text.by_label[change.theorem]
        start = one.place + len(before_proof(text, one))
        parts += [text.data[place:start], change.proof]
        place = one.end - 2
    return b"".join([*parts, text.data[place:]])
