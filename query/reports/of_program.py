"""What the program says of a database in one run: marks, citations, and a line of each assertion.

These are the sections `matrix`, `citations` and `statements` of a report, in which every axiom has
a column, whatever its typecode. Their bytes are proved, so they aren't compared with one another.
Still a line that hasn't its form is never taken for an answer.
"""

from __future__ import annotations

import re
from array import array
from binascii import unhexlify
from functools import partial

from query.citations.graph import Lists
from query.citations.marks import Marks
from query.platform.parallel import Task, begun
from query.reports.content import ReportContent
from query.texts.assertions import NUMBER, Damaged, typecode_of

SECTIONS = "--report=matrix,citations,statements"
MARKS = "--report=matrix,statements"
"""The report that has all but the citations, which take longest to read."""
COUNTS = "--report=citations"
"""The report whose head counts axioms and theorems, and for which no marks are made."""
HEAD = re.compile(
    rf"mmdepend [12]\naxioms ({NUMBER})\n(?:open {NUMBER}\n)?theorems ({NUMBER})\n".encode()
)


class ProgramReport:
    """A report of these sections, by its bytes."""

    def __init__(self, data: bytes) -> None:
        self.data = data
        self.axioms, self.theorems, self.place = report_head(data)

    def section(self, name: bytes, end: bytes) -> bytes:
        """The lines of the section that comes next, up to this line, with their line feeds."""
        if not self.data.startswith(name + b"\n", self.place):
            raise Damaged
        start = self.place + len(name)
        self.place = self.data.find(b"\n" + end + b"\n", start) + 1
        if not self.place:
            raise Damaged
        return bytes(memoryview(self.data)[start + 1 : self.place])

    def last(self) -> bytes:
        """The lines of the last section, `statements`."""
        lines = self.section(b"statements", b"end")
        if self.data[self.place :] != b"end\n":
            raise Damaged
        return lines

    def labels(self, statements: bytes) -> tuple[list[str], list[str], list[str]]:
        """The labels of theorems and of axioms, and the typecodes of these."""
        theorems, axioms, typecodes = labels_in(ascii_text(statements))
        if (len(axioms), len(theorems)) != (self.axioms, self.theorems):
            raise Damaged
        return theorems, axioms, typecodes

    def without_citations(self) -> ReportContent:
        """What a report of the other sections says."""
        matrix = self.section(b"matrix", b"statements")
        statements = self.last()
        theorems, axioms, typecodes = self.labels(statements)
        marks = marks_of(matrix, theorems, len(axioms))
        return ReportContent(theorems, axioms, [], marks, None, len(axioms), typecodes, statements)

    def content(self) -> ReportContent:
        """What they say."""
        matrix = self.section(b"matrix", b"citations")
        citations = self.section(b"citations", b"statements")
        statements = self.last()
        theorems, axioms, typecodes = self.labels(statements)
        coming = Citations(ascii_text(citations), theorems, axioms)
        try:
            marks = marks_of(matrix, theorems, len(axioms))
            cites = coming.lists()
        finally:
            coming.stop()
        return ReportContent(theorems, axioms, [], marks, cites, len(axioms), typecodes, statements)


def report_head(data: bytes) -> tuple[int, int, int]:
    """The numbers of axioms and theorems that the head of a report says, and its length."""
    match = HEAD.match(data)
    if match is None or not data.endswith(b"\nend\n"):
        raise Damaged
    return int(match[1]), int(match[2]), match.end()


def ascii_text(data: bytes) -> str:
    """A text in ASCII."""
    try:
        return data.decode("ascii")
    except UnicodeDecodeError:
        raise Damaged from None


def labels_in(section: str) -> tuple[list[str], list[str], list[str]]:
    """The labels of theorems and of axioms, and the typecodes of these, by the section
    `statements`. What else stands on its lines is judged where it is asked for."""
    lines = [line.split(":", 2) for line in section.split("\n")[:-1]]
    if {*map(len, lines)} - {3} or {line[1] for line in lines} - {*"apo"}:
        raise Damaged
    axioms = [line for line in lines if line[1] != "p"]
    return (
        [line[0] for line in lines if line[1] == "p"],
        [line[0] for line in axioms],
        [typecode_of(letter, said) for _, letter, said in axioms],
    )


def marks_of(section: bytes, theorems: list[str], columns: int) -> Marks:
    """The marks of the section `matrix` in form 2."""
    parts = [line.partition(b":") for line in section.split(b"\n")[:-1]]
    labels = b"\n".join([label for label, _, _ in parts])
    rows = [row for _, _, row in parts]
    digits = -(-columns // 4)
    if labels != "\n".join(theorems).encode() or {*map(len, rows)} - {digits}:
        raise Damaged
    if not columns:
        return Marks(len(rows), 0, bytes(len(rows)))
    # Each row takes whole bytes.
    joint = b"0".join([*rows, b""]) if digits % 2 else b"".join(rows)
    if any(sign in joint for sign in b"ABCDEF"):
        raise Damaged
    try:
        return Marks(len(rows), columns, unhexlify(joint))
    except ValueError:
        raise Damaged from None


class Citations:
    """What each theorem cites, by the numbers of theorems and of axioms after them. Other processes
    read it, one each half of the section, since that takes longer than all else."""

    def __init__(self, section: str, theorems: list[str], axioms: list[str]) -> None:
        node = {label: number for number, label in enumerate([*theorems, *axioms])}
        middle = section.find("\n", len(section) // 2) + 1
        first = section.count("\n", 0, middle)
        halves = ((section[:middle], theorems[:first]), (section[middle:], theorems[first:]))
        self.tasks: list[Task] = []
        for lines, labels in halves:
            self.tasks.append(begun(partial(packed_cites, lines, labels, node), len(section)))
        self.sizes = [len(labels) for _, labels in halves]

    def lists(self) -> Lists:
        """Waits for them. Damaged where the section is."""
        places, targets = array("I", [0]), array("I")
        for task, size in zip(self.tasks, self.sizes):
            numbers = array("I")
            numbers.frombytes(task.result())
            if not numbers:
                raise Damaged
            places.extend(len(targets) + place for place in numbers[1 : size + 1])
            targets += numbers[size + 1 :]
        return Lists(places, targets)

    def stop(self) -> None:
        """Ends what isn't done."""
        for task in self.tasks:
            task.stop()


def packed_cites(section: str, theorems: list[str], node: dict[str, int]) -> bytes:
    """As bytes of numbers 0, for each of these theorems where the list ends of what it cites, and
    the lists; b"" where the section is damaged."""
    places = [0]
    targets: list[int] = []  # quicker to fill than an array
    try:
        for line, theorem in zip(section.split("\n")[:-1], theorems, strict=True):
            label, count, words = line.split(":")
            if words:
                targets.extend(map(node.__getitem__, words.split(" ")))
            if label != theorem or count != str(len(targets) - places[-1]):
                return b""
            places.append(len(targets))
    except (KeyError, ValueError):
        return b""
    return array("I", places).tobytes() + array("I", targets).tobytes()


def marks_alone(data: bytes) -> ReportContent:
    """What a report without citations says. Damaged where it isn't one."""
    return ProgramReport(data).without_citations()


def report_content(data: bytes) -> ReportContent:
    """What a report of the sections says that one run writes. Damaged where it isn't one."""
    return ProgramReport(data).content()


def head_counts(data: bytes) -> tuple[int, int]:
    """How many axioms and how many theorems a report counts in its head."""
    axioms, theorems, _ = report_head(data)
    return axioms, theorems


def statements_of(data: bytes) -> bytes:
    """The lines of the section `statements` of a report, whatever others it has."""
    report = ProgramReport(data)
    report.place = data.find(b"\nstatements\n", report.place - 1) + 1
    return report.last()
