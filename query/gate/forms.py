"""What the gate found, written for people, for logs, as JSON, as annotations of GitHub and in
Markdown. Each form is made in pieces, so that what is found need not be kept."""

from __future__ import annotations

import json
import os
import re
from collections.abc import Callable, Iterable, Iterator, Sequence
from dataclasses import asdict, dataclass, field, replace
from itertools import chain

from query.answers.annotations import escaped
from query.answers.errors import quiet, shown
from query.gate.config import FILE_NAME
from query.gate.finding import Finding
from query.gate.request import Request

MOST_TOLD = 1000
"""How many findings are told, where not all are asked for, and how many a summary has."""
MOST_SUMMARY_BYTES = 1_000_000
"""How long a summary is at the most, with what the file has already: GitHub takes 1 MB."""
SHOWN_TEXT = 1000
"""How many characters of a label or a reason are told. A label may have as many as the text."""
ENDING = 500
"""Bytes that are kept for the last line of a summary."""
PIPE = re.compile(r"(\\?)\|")


@dataclass
class Verdict:
    """The answer to a request. `found` gives the findings, once."""

    request: Request
    found: Iterable[Finding]
    remarks: Sequence[str] = ()
    """Notes that come to be while findings are taken."""
    count: int = 0
    """How many findings there were, as far as they were taken."""
    first: list[Finding] = field(default_factory=list)
    """The first ones, as many as are told at the most."""
    tells_allowing: bool = False
    """Whether it is told what would let the findings through."""
    allowing: dict[str, dict[str, None]] = field(default_factory=dict)
    """For keys of the file the labels that would let through what was told, where that is asked
    for."""

    @property
    def database(self) -> str:
        """How messages call the database that was judged."""
        return self.request.new.name

    @property
    def base(self) -> str:
        """What it was compared with, in words."""
        return self.request.base

    @property
    def judged(self) -> str:
        """Of which commit it is, as the end of its name; "" for a file beside another one."""
        return f" ({self.request.judged})" if self.request.judged else ""

    @property
    def lacks(self) -> str:
        """That no axiom is watched, as the end of a sentence: who asks might think that one is."""
        return "" if self.request.watched() else "; no axiom is watched"

    @property
    def notes(self) -> list[str]:
        """Remarks that don't change the answer."""
        return [*self.request.all_notes(), *self.remarks]

    def to_allow(self) -> Iterator[str]:
        """What the file would have to have under `allow`, key by key, to let through what was told;
        nothing where that isn't asked for."""
        for key, labels in self.allowing.items():
            yield f"{key} = {json.dumps(list(labels))}"

    def told(self, is_short: bool) -> Iterator[Finding]:
        """The findings, or the first ones."""
        for finding in self.found:
            finding = cut(finding)
            self.count += 1
            if self.count <= MOST_TOLD:
                self.first.append(finding)
            if self.count <= MOST_TOLD or not is_short:
                if self.tells_allowing and finding.allow:
                    self.allowing.setdefault(finding.allow, {})[finding.label] = None
                yield finding

    @property
    def has_passed(self) -> bool:
        """Whether nothing was found."""
        return not self.count

    def path(self, finding: Finding) -> str:
        """The path of a finding's file from the top of the repository."""
        return self.request.paths.get(finding.file, finding.file)

    def more(self, told: int = MOST_TOLD) -> int:
        """How many there were besides so many that were told."""
        return max(0, self.count - told)


def cut(finding: Finding) -> Finding:
    """A finding whose texts are cut where they are long."""
    label, axiom, why, allow = (
        text if len(text) <= SHOWN_TEXT else text[:SHOWN_TEXT] + " .."
        for text in (finding.label, finding.axiom, finding.reason, finding.allow)
    )
    return replace(finding, label=label, axiom=axiom, reason=why, allow=allow)


def answer(verdict: Verdict) -> str:
    """The answer in a word or two."""
    return counted(verdict.count, "finding") if verdict.count else "passed"


def counted(count: int, word: str) -> str:
    """A number of things that have this word."""
    return f"{count} {word}{'s' if count > 1 else ''}"


def summary(verdict: Verdict) -> str:
    """The answer in one line."""
    judged = f"{verdict.database}{verdict.judged}"
    return f"{answer(verdict)}: {judged} compared with {verdict.base}{verdict.lacks}"


def rest(findings: int, notes: int = 0) -> str:
    """How many findings and notes aren't told; "" where all are."""
    numbers = ((findings, "more finding"), (notes, "more note"))
    counts = [counted(count, word) for count, word in numbers if count]
    return f"and {' and '.join(counts)}" if counts else ""


def finding_line(finding: Finding) -> str:
    """A finding as compilers write theirs."""
    numbers = [f":{number}" for number in (finding.line, finding.column) if number]
    where = finding.file + "".join(numbers)
    label = f"{finding.label}: " if finding.label else ""
    return shown(f"{where}: {label}{finding.reason} [{finding.rule}]")


def as_text(verdict: Verdict, is_short: bool) -> Iterator[str]:
    """For people: a line for each finding, then the answer in one."""
    for finding in verdict.told(is_short):
        yield finding_line(finding) + "\n"
    if is_short and verdict.more():
        yield f"{rest(verdict.more())}, which --all tells\n"
    for note in verdict.notes:
        yield shown(f"note: {note}") + "\n"
    for line in verdict.to_allow():
        yield shown(f"to allow: {line}") + "\n"
    yield shown(summary(verdict)) + "\n"


def as_log(verdict: Verdict, is_short: bool) -> Iterator[str]:
    """The same for the log of a server, which takes nothing in it for a command."""
    return map(quiet, as_text(verdict, is_short))


def as_json(verdict: Verdict, is_short: bool) -> Iterator[str]:
    """As a JSON object. Paths are from the top of the repository; what isn't there is null."""
    findings = verdict.told(is_short)
    first = next(findings, None)
    known = {
        "passed": first is None,
        "database": verdict.database,
        "judged": verdict.request.judged or None,
        "base": verdict.base,
        "watched": verdict.request.watched(),
        "rules": list(verdict.request.rules()),
    }
    yield json.dumps(known, indent=1).removesuffix("\n}") + ',\n "findings": ['
    sign = "\n"
    for finding in chain([] if first is None else [first], findings):
        fields = {key: value or None for key, value in asdict(finding).items()}
        yield sign + json.dumps(fields | {"file": verdict.path(finding)})
        sign = ",\n"
    last = {"more": verdict.more() if is_short else 0, "notes": verdict.notes}
    yield "\n ],\n" + json.dumps(last, indent=1).removeprefix("{\n") + "\n"


def as_annotations(verdict: Verdict, is_short: bool) -> Iterator[str]:
    """As GitHub's annotations of files, one for each finding, then the answer in one line."""
    for finding in verdict.told(is_short):
        properties = [f"file={escaped(verdict.path(finding), is_property=True)}"]
        if finding.line:
            properties.append(f"line={finding.line}")
        if finding.column:
            properties.append(f"col={finding.column}")
        properties.append(f"title={escaped(f'mmquery gate ({finding.rule})', is_property=True)}")
        label = f"{finding.label}: " if finding.label else ""
        allow = f"; {finding.allow} of {FILE_NAME} would allow it" if finding.allow else ""
        yield f"::error {','.join(properties)}::{escaped(label + finding.reason + allow)}\n"
    if is_short and verdict.more():
        yield f"mmquery gate: {rest(verdict.more())}, which --all tells\n"
    for note in verdict.notes:
        yield f"::notice::{escaped(note)}\n"
    # A line that began with `::` would be a command, and the name of a file may.
    yield f"mmquery gate: {quiet(shown(summary(verdict)))}\n"


def in_markdown(text: str) -> str:
    """A text in Markdown, as code: in that nothing is a link, a mention or a tag. Within a table
    only `|` means something, unless a `\\` stands before it; behind another one it would again."""
    text = shown(text if len(text) <= SHOWN_TEXT else text[:SHOWN_TEXT] + " ..")
    fence = "`" * (max((len(run) for run in re.findall("`+", text)), default=0) + 1)
    pad = " " if text.startswith("`") or text.endswith("`") or not text.strip() else ""
    text = PIPE.sub(lambda sign: sign[1] + (r"\x7c" if sign[1] else r"\|"), text)
    return f"{fence}{pad}{text}{pad}{fence}" if text else ""


def as_markdown(verdict: Verdict, is_short: bool) -> Iterator[str]:
    """As a summary in Markdown: the answer, a table of the findings, and the notes."""
    for _ in verdict.told(is_short):
        pass
    yield markdown_within(verdict, MOST_SUMMARY_BYTES)


def as_summary(verdict: Verdict, path: str) -> str:
    """The same, of what was told, for the end of a file, which may have something already."""
    try:
        return markdown_within(verdict, MOST_SUMMARY_BYTES - os.stat(path).st_size)
    except OSError:
        return markdown_within(verdict, MOST_SUMMARY_BYTES)


def markdown_within(verdict: Verdict, room: int) -> str:
    """The same of no more bytes than there is room, as far as the answer itself allows."""
    lines = Lines(room - ENDING)
    judged = f"{in_markdown(verdict.database)}{verdict.judged}"
    compared = f"{judged} compared with {in_markdown(verdict.base)}{verdict.lacks}"
    lines.add(f"### mmquery gate: {answer(verdict)}: {compared}", "")
    if verdict.first:
        lines.add("| Rule | Place | Label | Axiom | Reason |", "|---|---|---|---|---|")
    listed = 0
    for finding in verdict.first:
        where = verdict.path(finding) + (f":{finding.line}" if finding.line else "")
        words = (where, finding.label, finding.axiom, finding.reason)
        listed += lines.add(f"| {' | '.join([finding.rule, *map(in_markdown, words)])} |")
    noted = sum(lines.add("", f"Note: {in_markdown(note)}") for note in verdict.notes)
    left = rest(verdict.more(listed), len(verdict.notes) - noted)
    return lines.text() + (f"\n{left}\n" if left else "")


class Lines:
    """Lines, as long as there is room for them."""

    def __init__(self, room: int) -> None:
        self.room = room
        self.lines: list[str] = []

    def add(self, *lines: str) -> bool:
        """Adds lines, all or none; the first ones always. Says whether there was room."""
        size = sum(len(line.encode()) + 1 for line in lines)
        if self.lines and size > self.room:
            return False
        self.room -= size
        self.lines += lines
        return True

    def text(self) -> str:
        """All of them."""
        return "".join(line + "\n" for line in self.lines)


FORMS: dict[str, Callable[[Verdict, bool], Iterator[str]]] = {
    "text": as_text,
    "log": as_log,
    "json": as_json,
    "github": as_annotations,
    "markdown": as_markdown,
}
"""The forms by their names; the first is the default."""
