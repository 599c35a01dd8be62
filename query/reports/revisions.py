"""How many theorems of each revision of a file rest on axioms, or what one assertion says there and
on which axioms it rests.

Several revisions are judged at once. What is found is kept in a small result for each of them: the
whole one of the program would fill the cache after some twenty revisions of set.mm.
"""

from __future__ import annotations

import hashlib
import json
import re
from array import array
from collections import deque
from collections.abc import Iterator, Sequence
from dataclasses import asdict, dataclass, replace
from functools import cached_property, partial

from query.answers.errors import NoAnswer, shown
from query.citations.marks import columns_of
from query.git.history import Range, Revision, place_before
from query.git.objects import Objects
from query.git.reader import Reader
from query.git.repository import short
from query.platform import cache, progress, system
from query.platform.parallel import Task, begun
from query.program.refusals import Refused
from query.program.source import NO_TEXT, Source, see_plain
from query.reports.choice import Options
from query.reports.content import ReportContent
from query.reports.database import Database, result_key, unpacked_numbers
from query.reports.of_program import MARKS, marks_alone
from query.texts.assertions import LABEL as LABEL_PATTERN, Assertion, Damaged
from query.texts.uncommented import without_comments

LABEL = re.compile(LABEL_PATTERN)
AT_ONCE = 4
"""So many revisions are judged at once, where there are as many processors."""
FORM = 4
"""Counts the forms in which figures are kept. A change of what they hold has to change it."""


@dataclass(frozen=True)
class Question:
    """What is asked of each revision: `axioms` are labels, and `label` that of the assertion of
    which it is asked what it says and whether it rests on them, None where theorems are counted."""

    options: Options
    uses_cache: bool
    axioms: tuple[str, ...]
    label: str | None


@dataclass(frozen=True)
class Figures:
    """What a revision says. `rest` has for each label that is an axiom how many theorems rest on
    it, or with a label 1 where the theorem of this label does and otherwise 0. `line` is that of
    the assertion of this `label` in the section `statements`, None where there is none, and `proof`
    a sum of its proof. `axioms` are those of the typecode asked for on which the assertion rests,
    None where others are asked for. `other` is the line of another assertion, which had this label
    in the revision before, where this one had another one. With a `fault` there is nothing else to
    say."""

    theorems: int | None = None
    rest: dict[str, int] | None = None
    label: str | None = None
    line: str | None = None
    proof: str | None = None
    fault: str | None = None
    axioms: Sequence[str] | None = None
    other: str | None = None

    def count(self, axiom: str) -> int | None:
        """How many theorems rest on an axiom; None where it isn't one."""
        return None if self.rest is None else self.rest.get(axiom)

    def rests(self, axiom: str) -> bool | None:
        """Whether the theorem rests on an axiom; None where it isn't there."""
        return bool(self.count(axiom)) if self.has_theorem else None

    def says_other(self, before: Figures) -> bool:
        """Whether a sound revision has no assertion of the label, or another one than a revision
        that has one."""
        if self.fault is not None:
            return False
        one, other = self.assertion, before.assertion
        return one is None or other is None or (one.letter, one.said) != (other.letter, other.said)

    def without_assertion(self) -> Figures:
        """The same of a revision that has no assertion of the label."""
        return replace(self, line=None, proof=None)

    @property
    def has_theorem(self) -> bool:
        """Whether the assertion is there and is a theorem."""
        said = self.assertion
        return said is not None and said.letter == "p"

    @cached_property
    def assertion(self) -> Assertion | None:
        """The assertion of the label; None where it isn't there."""
        return None if self.line is None else assertion_of(self.line)

    @property
    def replaced(self) -> Assertion | None:
        """The other assertion that had this label before; None where none had."""
        return None if self.other is None else assertion_of(self.other)


def assertion_of(line: str) -> Assertion:
    """The assertion of a line of `statements`."""
    label, letter, place, end, said = line.split(":", 4)
    return Assertion(label, letter, int(place), int(end), said, 0)


@dataclass(frozen=True)
class Content:
    """What a revision has as the file: the full id of the bytes, and how messages call them."""

    blob: str
    path: str
    name: str


def contents_of(objects: Objects, found: Sequence[Revision]) -> list[Content | Figures]:
    """What each revision has as the file; or that it isn't judged."""
    contents: list[Content | Figures] = []
    for revision in found:
        if len(contents) % 100 == 0:
            progress.now(f"looking at revision {len(contents) + 1} of {len(found)}")
        contents.append(content_of(objects, revision))
    return contents


def figures_of(
    objects: Objects, contents: Sequence[Content | Figures], question: Question
) -> Iterator[Figures]:
    """What each of several contents says, in their order. Equal files are judged once."""
    first: dict[str, Content] = {}
    for each in contents:
        if isinstance(each, Content):
            first.setdefault(each.blob, each)
    told = judged(objects, list(first.values()), question)
    known: dict[str, Figures] = {}
    for each in contents:
        if isinstance(each, Content):
            if each.blob not in known:
                known[each.blob] = next(told)
            yield known[each.blob]
        else:
            yield each


def content_of(objects: Objects, revision: Revision) -> Content | Figures:
    """What a revision has as the file; or that it isn't judged."""
    objects.tops.setdefault(revision.commit, revision.tree)
    return content_at(objects, revision.commit, revision.path)


def contents_before(
    objects: Objects, within: Range, found: Sequence[Revision]
) -> list[Content | Figures]:
    """What the file was before the first of these revisions of a range, or that it isn't judged.
    Nothing where there is none before. Of all up to a revision, the first one brought the file."""
    first = [] if within.old is None else found[:1]
    places = [place_before(objects, revision) for revision in first]
    return [content_at(objects, *place) for place in places if place is not None]


def content_at(objects: Objects, commit: str, path: str) -> Content | Figures:
    """What a commit has at a path; or that it isn't judged."""
    try:
        entry = objects.entry(commit, path)
    except NoAnswer as why:
        return Figures(fault=str(why))
    if entry is None:
        return Figures(fault=f"there is no {shown(path)}")
    return Content(entry.name, path, f"{short(commit)}:{shown(path)}")


def judged(objects: Objects, contents: Sequence[Content], question: Question) -> Iterator[Figures]:
    """What each of several files says, in their order. This process reads them, one after another,
    which is quickest where they are alike."""
    waiting = deque(contents)
    tasks: deque[Task] = deque()
    at_once = min(AT_ONCE, system.processors())
    with objects.reader() as reader:
        try:
            for number in range(len(contents)):
                while waiting and len(tasks) < at_once:
                    content = waiting.popleft()
                    told = source_of(objects, reader, content)
                    tasks.append(begun(partial(in_json, told, question)))
                progress.now(f"verifying file {number + 1} of {len(contents)}")
                yield Figures(**json.loads(tasks[0].result()))
                tasks.popleft()
        finally:
            for task in tasks:
                task.stop()


def source_of(objects: Objects, reader: Reader, content: Content) -> Source | Figures:
    """The text of a file; or that it isn't judged."""
    try:
        data = objects.blob(content.blob, content.path, reader=reader)
        see_plain(shown(content.path), data)
    except NoAnswer as why:
        return Figures(fault=str(why))
    source = Source(content.name, data)
    return Figures(fault=NO_TEXT) if source.is_report() else source


def in_json(told: Source | Figures, question: Question) -> bytes:
    """What a file says, as JSON."""
    found = told if isinstance(told, Figures) else figures(told, question)
    return json.dumps(asdict(found)).encode()


def figures(source: Source, question: Question) -> Figures:
    """What a text says. NoAnswer where the program fails."""
    label = question.label
    parts = kept(Database(source, question.options, question.uses_cache), label)
    if parts["fault"]:
        return Figures(label=label, fault=parts["fault"].decode())
    columns = parts["axioms"].decode().split("\n") if parts["axioms"] else []
    numbers = dict(zip(columns, unpacked_numbers(parts["numbers"])))
    rest = {axiom: numbers[axiom] for axiom in question.axioms if axiom in numbers}
    line, proof = (parts[name].decode() or None for name in ("line", "proof"))
    found = Figures(int(parts["theorems"]), rest, label, line, proof)
    if label is None or question.axioms:
        return found
    typecodes = parts["typecodes"].decode().split("\n")
    chosen = [
        axiom
        for axiom, typecode in zip(columns, typecodes)
        if numbers[axiom] and question.options.only in (None, typecode)
    ]
    return replace(found, axioms=chosen)


def kept(database: Database, label: str | None) -> dict[str, bytes]:
    """The figures of a database that are kept, or are kept from now on."""
    key = result_key("figures", FORM, database.key, label)
    parts = cache.load(key) if database.uses_cache else None
    if parts is None:
        parts = parts_of(database, label)
        if database.uses_cache:
            cache.store(key, parts)
    return parts


def parts_of(database: Database, label: str | None) -> dict[str, bytes]:
    """The figures of a database, or why it is refused, in the form in which they are kept."""
    try:
        found = database.kept
        if found is None:
            try:
                found = marks_alone(database.said("--form=2", MARKS))
            except Damaged as why:
                raise NoAnswer(f"{database.name}: {why}") from None
    except Refused as refused:
        where = f"refused {refused.line}:{refused.column} {refused.code}"
        return {"fault": where.encode()}
    parts = {"fault": b"", "theorems": b"%d" % len(found.theorems), "line": b"", "proof": b""}
    line = b"" if label is None else line_of(found.statements, label)
    if line:
        parts |= {"line": line, "proof": sum_of_proof(database.data(), line)}
    numbers = numbers_of(found, label)
    axioms = "\n".join(found.columns).encode()
    typecodes = "\n".join(found.typecodes).encode()
    numbers_kept = array("I", numbers).tobytes()
    return parts | {"axioms": axioms, "typecodes": typecodes, "numbers": numbers_kept}


def line_of(statements: bytes, label: str) -> bytes:
    """The line of an assertion in the section `statements`; b"" where there is none."""
    if not LABEL.fullmatch(label):
        return b""
    name = label.encode() + b":"
    place = 0 if statements.startswith(name) else statements.find(b"\n" + name) + 1
    if not statements.startswith(name, place):
        return b""
    return statements[place : statements.index(b"\n", place)]


def sum_of_proof(data: bytes, line: bytes) -> bytes:
    """A sum of the proof of the assertion of a line, the same for the same words and letters,
    wherever lines end; b"" where it has none."""
    _, letter, start, end, _ = line.split(b":", 4)
    if letter == b"a":
        return b""
    statement = without_comments(data[int(start) : int(end)])
    labels, bracket, letters = statement.partition(b"$=")[2].rpartition(b")")
    between = b"" if bracket else b" "
    words = b" ".join(labels.split()) + bracket + between.join(letters.split())
    return hashlib.blake2b(words, digest_size=16).hexdigest().encode()


def numbers_of(found: ReportContent, label: str | None) -> list[int]:
    """The figures for each axiom: how many theorems rest on it, or whether the one of a label
    does."""
    assert found.marks is not None
    if label is None:
        return found.marks.sizes()
    numbers = [0] * len(found.columns)
    if label in found.theorems:
        bits = found.marks.row(found.theorems.index(label))
        for column in columns_of(bits, found.marks.columns):
            numbers[column] = 1
    return numbers
