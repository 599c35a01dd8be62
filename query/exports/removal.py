"""A database without some of its assertions, all else byte for byte as it stands; and its judge.

An assertion goes with the comment that describes it, from its `$(` to its `$.`. What is declared
stays, and each block, also where nothing is left in it. The text is one that the program accepted.
"""

from __future__ import annotations

import re
from collections.abc import Set
from typing import NoReturn

from query.answers.errors import NoAnswer
from query.platform import progress
from query.program.refusals import Refused
from query.program.source import Source
from query.reports.database import Database
from query.texts.discouraged import DISCOURAGED, DISCOURAGED_PROOF, labels_marked
from query.texts.includes import includes, new_includes
from query.texts.text import HEADING_START, SPECIAL, Place, Text

GONE = b"\0"
"""What stands for something that is removed. No text has this byte that the program accepted."""
EMPTY_LINE = re.compile(rb"^[ \t]*+\0[\0 \t]*+\r?\n", re.MULTILINE)
"""A line of which nothing is left."""


def without(text: Text, gone: Set[str]) -> bytes:
    """The text without these assertions, their descriptions, and the lines of which nothing is left
    by that."""
    parts: list[bytes] = []
    since = before = 0
    for one in progress.counted(text.assertions, "removing statements"):
        if one.label in gone:
            parts.append(text.data[since : start_of(text.data, before, one.place)])
            since = one.end
        before = one.end
    parts.append(text.data[since:])
    return EMPTY_LINE.sub(b"", GONE.join(parts)).replace(GONE, b"")


def start_of(data: bytes, before: Place, place: Place) -> Place:
    """Where an assertion begins with its description, by the places where the one before ends and
    where its label stands. That is the comment directly before the label, if it is one that goes
    with the assertion."""
    between = data[before:place].rstrip()
    if not between.endswith(b"$)"):
        return place
    start = between.rindex(b"$(")
    return before + start if is_description(between[start:]) else place


def is_description(comment: bytes) -> bool:
    """Whether a comment speaks of the assertion behind it alone: it is no heading, none of `$j` or
    `$t`, and none by which metamath.exe reads a part of the database as a file."""
    is_heading = HEADING_START.match(comment) is not None
    is_special = SPECIAL.match(comment, len(b"$(")) is not None
    return not is_heading and not is_special and not any(includes(comment))


def fail(why: str) -> NoReturn:
    """Raises NoAnswer: the new database isn't what it should be."""
    raise NoAnswer(f"nothing is written: {why}")


def judged(database: Database, data: bytes, gone: Set[str]) -> Text:
    """The text of a new database, which should be the old one without these assertions. NoAnswer
    where the program refuses it, where it doesn't have just the others, each as it was and by the
    same marks, or where metamath.exe would read something else."""
    progress.now("judging the new database")
    new = Database(Source("the new database", data), database.options, False)
    try:
        text = new.text
    except Refused as why:
        fail(why.sentence())
    compare_assertions(database.text, text, gone)
    for mark in (DISCOURAGED, DISCOURAGED_PROOF):
        before = {*labels_marked(database.text, mark)} - gone
        for label in before.symmetric_difference(labels_marked(text, mark)):
            fail(f"the comment of '{label}' would be another one, which says what is discouraged")
    for each in new_includes(database.data(), data):
        fail(f"line {text.line(each.place)} of it would have metamath.exe read something else")
    return text


def compare_assertions(old: Text, new: Text, gone: Set[str]) -> None:
    """NoAnswer where a database hasn't just the assertions of another one that aren't gone, in the
    same order, each with the same bytes, hypotheses, pairs and formula."""
    left = [one for one in old.assertions if one.label not in gone]
    if [one.label for one in left] != [one.label for one in new.assertions]:
        fail("the new database would have other assertions than those that are left")
    for one, other in zip(left, new.assertions):
        is_same = (one.letter, one.said) == (other.letter, other.said)
        if not is_same or old.data[one.place : one.end] != new.data[other.place : other.end]:
            fail(f"'{one.label}' would be another one")
