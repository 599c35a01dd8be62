"""What the program says of two databases: the four sections that `mmdepend --against OLD NEW`
writes, and with `--and-report` the report on NEW behind them.

docs/REPORT.md says what each line means. These bytes are proved, so nothing of them is computed
again. Still a line that hasn't its form is never taken for an answer.
"""

from __future__ import annotations

import re
from dataclasses import dataclass, field

from query.answers.errors import NoAnswer
from query.platform import cache
from query.program import mmdepend
from query.program.handover import handed
from query.reports.database import REPORTED, Database, result_key
from query.reports.of_program import ascii_text, statements_of
from query.texts.assertions import LABEL, Assertion, Damaged, assertions_of

FORM = "differences 4"
"""Counts the forms in which they are kept."""
HEADINGS = (b"mmdepend-differences 1\n", b"new\n", b"gone\n", b"gained\n", b"lost\n", b"end\n")
LAST = b"\nend\n"
"""With what they end: no line within a section has no colon."""
HEADING = re.compile(rb"^[^:\n]*+\n", re.MULTILINE)
"""A line without a colon, which each line of a section has."""
LABELS = re.compile(rf"{LABEL}(?: {LABEL})*")
PART, TAKEN, TOLD = "differences", "taken", "statements"
"""Under which names they are kept, what the program took for them, and the lines that tell the
assertions of NEW."""

Taken = tuple[float, int]
"""Seconds of the processor, and bytes of memory."""


@dataclass(frozen=True)
class Differences:
    """The sections. `new` and `gone` have the assertions of one database that the other hasn't, by
    their labels and in file order; their numbers count them alone. `gained` and `lost` have for
    theorems the labels of axioms, apart by one space. `taken` are the seconds of the processor and
    the bytes of memory that the program took for both texts, where the system tells them."""

    new: dict[str, Assertion] = field(default_factory=dict)
    gone: dict[str, Assertion] = field(default_factory=dict)
    gained: dict[str, str] = field(default_factory=dict)
    lost: dict[str, str] = field(default_factory=dict)
    taken: Taken | None = None


def differences_of(said: bytes, old: bytes, new: bytes, taken: Taken | None = None) -> Differences:
    """What the program said of two texts. Damaged where that hasn't its form."""
    came, went, gained, lost = sections_of(said)
    return Differences(
        {one.label: one for one in assertions_of(came, new)},
        {one.label: one for one in assertions_of(went, old)},
        shifts_of(gained),
        shifts_of(lost),
        taken,
    )


def taken_of(said: bytes) -> Taken | None:
    """What the program took, as it was kept."""
    seconds, _, memory = said.decode("ascii").partition(" ")
    return (float(seconds), int(memory)) if memory else None


def sections_of(said: bytes) -> list[bytes]:
    """The lines of the four sections, with their line feeds."""
    found = list(HEADING.finditer(said))
    between = [said[one.end() : other.start()] for one, other in zip(found, found[1:])]
    is_whole = bool(found) and found[0].start() == 0 and found[-1].end() == len(said)
    if not is_whole or tuple(each[0] for each in found) != HEADINGS or between[0]:
        raise Damaged
    return between[1:]


def shifts_of(section: bytes) -> dict[str, str]:
    """For each theorem of `gained` or `lost` the labels of the axioms."""
    lines = ascii_text(section).split("\n")[:-1]
    try:
        fields = [(label, count, axioms) for label, count, axioms in (e.split(":") for e in lines)]
    except ValueError:
        raise Damaged from None
    for label, count, axioms in fields:
        is_right = LABELS.fullmatch(label) and " " not in label and LABELS.fullmatch(axioms)
        if not is_right or count != str(axioms.count(" ") + 1):
            raise Damaged
    found = {label: axioms for label, _, axioms in fields}
    if len(found) < len(lines):
        raise Damaged
    return found


def compared(old: Database, new: Database) -> Differences:
    """What the program says of two databases, which were asked for with the same options, unless
    that was kept. Where NEW's report isn't known, the same run writes it. Refused where a database
    is refused: if both are, OLD."""
    options, texts = new.options, (old.source.data, new.source.data)
    key = result_key(FORM, old.sum, new.sum, new.program.sum, options.essential, options.open)
    kept = cache.load(key) if new.uses_cache else None
    if kept is not None:
        new.told = kept[TOLD]
        return differences_of(kept[PART], *texts, taken_of(kept[TAKEN]))
    new.known = new.known or new.kept
    said, report, taken = said_of(old, new)
    try:
        found = differences_of(said, *texts, taken)
        if new.known is None:
            new.given, new.told = report, statements_of(report)
    except Damaged as why:
        raise NoAnswer(f"{old.name} and {new.name}: {why}") from None
    if new.uses_cache:
        told = new.told or new.content.statements
        parts = {PART: said, TAKEN: " ".join(map(str, taken or ())).encode(), TOLD: told}
        cache.store(key, parts)
    return found


def said_of(old: Database, new: Database) -> tuple[bytes, bytes, Taken | None]:
    """What the program writes of two databases, and behind that of NEW, unless its report is known;
    and what it took."""
    with handed([old.source, new.source]) as (names, passed):
        words = ["--essential"] * new.options.essential + ["--open"] * new.options.open
        words += [] if new.known else ["--and-report", *REPORTED]
        words += [f"--against={names[0]}", names[1]]
        size = len(old.source.data) + len(new.source.data)
        running = new.program.running(words, None, True, size, passed)
        try:
            said = mmdepend.judged_differences(old.source, new.source, running)
        finally:
            running.stop()
    end = said.find(LAST) + len(LAST)
    return said[:end], said[end:], running.taken
