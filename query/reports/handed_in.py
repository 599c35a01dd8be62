"""Reports that people hand in, read and checked.

A text may hold several reports, one after the other, such as one with the marks and one with the
citations. Nothing of it is believed alone: counts are checked against lists, sections against one
another, and marks against citations, which say the same in another way: a theorem is marked exactly
where what it cites is the axiom or is marked. What doesn't fit is NoAnswer with the line.
"""

import re
from array import array
from dataclasses import dataclass
from functools import reduce
from itertools import compress
from operator import or_
from typing import NoReturn

from query.answers.errors import NoAnswer, shown
from query.citations.graph import Lists
from query.citations.marks import Marks, bit, marks_of_rows, mask, width_of
from query.reports.content import ReportContent
from query.texts.assertions import LINE

SECTIONS = ("matrix", "counts", "usage", "citations", "proofs", "statements")
WITHOUT_COLUMNS = ("citations", "proofs")
"""Sections that say the same whatever the columns are."""
STEP = re.compile(r"[A-Za-z0-9._-]+|\*(?P<repeated>[1-9][0-9]{0,9})")
LABELS = re.compile(r"[A-Za-z0-9._-]+(?:\n[A-Za-z0-9._-]+)*")
WRONG_COUNT = "the number isn't that of the labels after it"
NUMBER = re.compile(r"0|[1-9][0-9]{0,9}")
MOST_BIT_AXIOMS = 8192
"""Up to so many axioms the bits of each are kept apart, 4 MB at the most."""


@dataclass(frozen=True)
class Section:
    """A section: the number of its first line, counted from 0, how many lines it has, and what its
    report's head says."""

    name: str
    first: int
    lines: int
    form: int
    axioms: int
    theorems: int


class Report:
    """The lines of reports, and where their sections are."""

    def __init__(self, name: str, data: bytes) -> None:
        self.name = name
        try:
            self.lines = data.decode("ascii").split("\n")
        except UnicodeDecodeError as error:
            self.damaged(data.count(b"\n", 0, error.start), "a byte that no report has")
        if not data.endswith(b"\nend\n"):
            raise NoAnswer(f"{name}:{len(self.lines)}: the report is cut off")
        self.lines.pop()
        self.sections: dict[str, Section] = {}
        place = 0
        while place < len(self.lines):
            place = self.read_one(place)

    def damaged(self, line: int, why: str) -> NoReturn:
        """Raises NoAnswer about a line, counted from 0."""
        raise NoAnswer(f"{self.name}:{line + 1}: the report is damaged: {shown(why)}")

    def number(self, line: int, word: str) -> int | None:
        """The number after a word and a space on a line; None where it isn't this word."""
        if line >= len(self.lines):
            raise NoAnswer(f"{self.name}:{line + 1}: the report is cut off")
        head, _, rest = self.lines[line].partition(" ")
        if head != word:
            return None
        if not NUMBER.fullmatch(rest):
            self.damaged(line, f"no number after '{word}'")
        return int(rest)

    def wanted(self, line: int, word: str) -> int:
        """The same of a line that has to have this word."""
        number = self.number(line, word)
        if number is None:
            self.damaged(line, f"'{word}' and a number have to stand here")
        return number

    def read_one(self, place: int) -> int:
        """Reads the head of a report and finds its sections. Returns the line after it."""
        form = self.wanted(place, "mmdepend")
        if form not in (1, 2):
            raise NoAnswer(f"{self.name}:{place + 1}: a report of a form that mmquery doesn't know")
        axioms = self.wanted(place + 1, "axioms")
        place += 2 if self.number(place + 2, "open") is None else 3
        theorems = self.wanted(place, "theorems")
        place += 1
        while True:
            if place >= len(self.lines):
                raise NoAnswer(f"{self.name}:{place + 1}: the report is cut off")
            word = self.lines[place]
            if word == "end":
                return place + 1
            if word not in SECTIONS:
                self.damaged(place, "a section or 'end' has to begin here")
            if word in self.sections:
                self.damaged(place, f"the section '{word}' is there twice")
            lines = self.length(word, place + 1, axioms, theorems)
            self.sections[word] = Section(word, place + 1, lines, form, axioms, theorems)
            place += 1 + lines

    def length(self, name: str, first: int, axioms: int, theorems: int) -> int:
        """How many lines a section has. Those of `statements` aren't counted in the head: where a
        typecode is chosen, theorems of others aren't told."""
        if name == "statements":
            return self.lines.index("end", first) - first
        return axioms if name == "usage" else theorems


class SectionReader:
    """Reads the sections of a report, each checked against those read before."""

    def __init__(self, report: Report) -> None:
        self.report = report
        self.sections = report.sections
        self.found = ReportContent()
        self.rows: dict[str, int] = {}
        self.has_theorems = False

    def read(self) -> ReportContent:
        """Reads all sections."""
        if len({each.theorems for each in self.sections.values()}) > 1:
            self.differ("theorems")
        if len({each.axioms for each in self.with_columns()}) > 1:
            self.differ("axioms")
        self.found.axioms = max((each.axioms for each in self.sections.values()), default=0)
        self.read_theorems()
        self.read_columns()
        known = CitationReader(self).read() if "citations" in self.sections else None
        self.read_marks(known if "usage" in self.sections else None)
        if "proofs" in self.sections:
            self.check_proofs()
        if "statements" in self.sections:
            self.check_statements()
        return self.found

    def with_columns(self) -> list[Section]:
        """The sections that are about the axioms of the head."""
        return [each for name, each in self.sections.items() if name not in WITHOUT_COLUMNS]

    def differ(self, what: str) -> NoReturn:
        """Raises NoAnswer: the sections are of different databases."""
        last = max(self.sections.values(), key=lambda section: section.first)
        self.report.damaged(last.first - 1, f"another number of {what} than in a section before")

    def lines(self, name: str) -> list[str]:
        """The lines of a section."""
        section = self.sections[name]
        return self.report.lines[section.first : section.first + section.lines]

    def damaged(self, name: str, number: int, why: str) -> NoReturn:
        """Raises NoAnswer about a line of a section, counted from 0 in it."""
        self.report.damaged(self.sections[name].first + number, why)

    def labels_of(self, name: str) -> list[str]:
        """The labels before the first `:` of a section's lines."""
        labels = [line.partition(":")[0] for line in self.lines(name)]
        if labels and not LABELS.fullmatch("\n".join(labels)):
            number = next(i for i, label in enumerate(labels) if not LABELS.fullmatch(label))
            self.damaged(name, number, "no label stands at its beginning")
        return labels

    def read_theorems(self) -> None:
        """The labels of theorems, which have to be the same in each section."""
        for name in ("matrix", "counts", *WITHOUT_COLUMNS):
            if name not in self.sections:
                continue
            labels = self.labels_of(name)
            if not self.has_theorems:
                self.found.theorems = labels
                self.has_theorems = True
                self.rows = {label: row for row, label in enumerate(labels)}
                if len(self.rows) < len(labels):
                    self.damaged(name, first_repeated(labels), "this theorem has a line before")
            elif labels != self.found.theorems:
                pairs = zip(labels, self.found.theorems)
                number = next(i for i, (one, other) in enumerate(pairs) if one != other)
                self.damaged(
                    name, number, f"another section has '{self.found.theorems[number]}' here"
                )

    def read_columns(self) -> None:
        """The labels of axioms with marks, from the section `usage`."""
        if "usage" not in self.sections:
            return
        labels = self.labels_of("usage")
        if len(set(labels)) < len(labels):
            self.damaged("usage", first_repeated(labels), "this axiom has a line before")
        for number, label in enumerate(labels):
            if label in self.rows:
                self.damaged("usage", number, f"'{label}' is a theorem in another section")
        self.found.columns = labels

    def read_marks(self, marks: Marks | None) -> None:
        """The marks, from each section that has them, beside those that citations give. Without
        `usage` the columns have no names, so the sections are only checked."""
        heads = [each.axioms for each in self.with_columns()]
        if not heads or not self.has_theorems:
            return
        columns = heads[0]
        if "matrix" in self.sections:
            marks = self.check_matrix(columns, marks)
        if "usage" in self.sections:
            self.found.marks = marks = marks or self.marks_by_usage(columns)
        if "usage" in self.sections and marks is not None:
            self.check_usage(marks)
        if "counts" in self.sections and marks is not None:
            self.check_counts(marks)

    def check_matrix(self, columns: int, known: Marks | None) -> Marks:
        """The marks of the matrix, which have to be those of the citations where they are known."""
        form = self.sections["matrix"].form
        digits = columns if form == 1 else -(-columns // 4)
        rows = [line.partition(":")[2] for line in self.lines("matrix")]
        for number, row in enumerate(rows):
            if len(row) != digits:
                self.damaged("matrix", number, f"a row of {columns} axioms has to stand here")
        data = bytes(len(rows)) if columns == 0 else of_digits(rows, form)
        if data is None:
            signs = "01" if form == 1 else "0123456789abcdef"
            number = next(i for i, row in enumerate(rows) if row.strip(signs))
            self.damaged("matrix", number, "a sign that is no digit of a row")
        marks = Marks(len(rows), columns, data)
        beyond = (1 << (8 * marks.width - columns)) - 1 if columns else 0
        for number, byte in enumerate(data[marks.width - 1 :: marks.width] if beyond else b""):
            if byte & beyond:
                self.damaged("matrix", number, "a mark beyond the last axiom")
        if known is not None and data != known.data:
            number = next(i for i in range(marks.rows) if marks.row(i) != known.row(i))
            self.damaged("matrix", number, "these aren't the marks that the citations give")
        return marks

    def marks_by_usage(self, columns: int) -> Marks:
        """The marks that the section `usage` has."""
        width = width_of(columns)
        data = bytearray(width * len(self.found.theorems))
        for number, line in enumerate(self.lines("usage")):
            for label in line.rpartition(":")[2].split():
                if label in self.rows:
                    data[self.rows[label] * width + (number >> 3)] |= 0x80 >> (number & 7)
        return Marks(len(self.found.theorems), columns, bytes(data))

    def check_usage(self, marks: Marks) -> None:
        """Compares the section `usage` with the marks."""
        for number, line in enumerate(self.lines("usage")):
            words = fields(line)
            column = marks.column(number)
            users = list(compress(self.found.theorems, column))
            if words != users:
                self.damaged("usage", number, self.odd_user(words, marks, number))

    def odd_user(self, words: list[str] | None, marks: Marks, column: int) -> str:
        """Why the users of an axiom aren't those that the marks give."""
        if words is None:
            return WRONG_COUNT
        for word in words:
            if word not in self.rows:
                return f"'{word}' is no theorem"
        users = [self.rows[word] for word in words]
        odd = set(users) ^ set(marks.users(column))
        if not odd:
            return "the labels aren't in file order, each once"
        source = "citations" if self.found.cites is not None else "matrix"
        kind = "has" if min(odd) in users else "lacks"
        return f"it {kind} '{self.found.theorems[min(odd)]}', other than the {source} say"

    def check_counts(self, marks: Marks) -> None:
        """Compares the section `counts` with the marks."""
        for number, line in enumerate(self.lines("counts")):
            if line.partition(":")[2] != str(marks.row(number).bit_count()):
                self.damaged("counts", number, "another number than that of the marks")

    def check_proofs(self) -> None:
        """The steps of the section `proofs`: each is a label, or the number of a step before it."""
        for number, line in enumerate(self.lines("proofs")):
            words = fields(line)
            if words is None:
                self.damaged("proofs", number, WRONG_COUNT)
            if not words:
                self.damaged("proofs", number, "a proof has steps")
            for place, word in enumerate(words):
                match = STEP.fullmatch(word)
                if match is None or int(match["repeated"] or 0) > place:
                    self.damaged("proofs", number, f"'{word}' is no step that can stand here")

    def check_statements(self) -> None:
        """Compares the section `statements` with the labels of the others, and with the head."""
        axioms: list[str] = []
        row = -1
        for number, line in enumerate(self.lines("statements")):
            match = LINE.fullmatch(line)
            if match is None:
                self.damaged("statements", number, "no assertion is told here")
            label = match["label"]
            if match["letter"] != "p":
                axioms.append(label)
            elif self.has_theorems:
                before, row = row, self.rows.get(label, -1)
                if row <= before:
                    self.damaged("statements", number, "another section hasn't this theorem here")
        section = self.sections["statements"]
        if (
            len(axioms) != section.axioms
            or "usage" in self.sections
            and axioms != self.found.columns
        ):
            self.damaged("statements", -1, "its axioms aren't those of the head, or of `usage`")


class CitationReader:
    """Reads the section `citations`, and gives the marks that follow from it: of each theorem
    those of what it cites, and the axioms that it cites."""

    def __init__(self, reader: SectionReader) -> None:
        self.reader = reader
        self.found = reader.found
        first, columns = len(self.found.theorems), len(self.found.columns)
        self.nodes = {label: first + place for place, label in enumerate(self.found.columns)}
        # The marks of each node as bits; those of theorems come as their lines are read. Where
        # axioms are many, theirs together would take the square of their number.
        self.has_many = columns > MOST_BIT_AXIOMS
        self.bits = [0] * first
        self.bits += [0] * columns if self.has_many else (bit(columns, i) for i in range(columns))

    def read(self) -> Marks:
        """All lines of it."""
        places = array("I", [0])
        targets = array("I")
        nodes, bits = self.nodes, self.bits
        node_of, bits_of = nodes.__getitem__, bits.__getitem__
        for number, line in enumerate(self.reader.lines("citations")):
            words = fields(line)
            if words is None:
                self.damaged(number, WRONG_COUNT)
            try:
                cited = list(map(node_of, words))
            except KeyError:
                cited = [self.known(number, word) for word in words]
            self.check_order(number, cited)
            targets.extend(cited)
            places.append(len(targets))
            bits[number] = reduce(or_, map(bits_of, cited), self.own_bits(cited))
            nodes[self.found.theorems[number]] = number
        self.found.cites = Lists(places, targets)
        self.check_axioms()
        return marks_of_rows(bits[: len(self.found.theorems)], len(self.found.columns))

    def own_bits(self, cited: list[int]) -> int:
        """The bits of the axioms among what is cited, where `bits` doesn't have them."""
        if not self.has_many:
            return 0
        first, columns = len(self.found.theorems), len(self.found.columns)
        return mask(columns, [node - first for node in cited if first <= node < first + columns])

    def damaged(self, number: int, why: str) -> NoReturn:
        """Raises NoAnswer about a line."""
        self.reader.damaged("citations", number, why)

    def known(self, number: int, word: str) -> int:
        """The node of a label, a new one where it is an axiom that comes for the first time."""
        node = self.nodes.get(word)
        if node is None:
            if word in self.reader.rows:
                self.damaged(number, f"'{word}' stands not before this theorem")
            if not LABELS.fullmatch(word):
                self.damaged(number, "a word that is no label")
            self.found.others.append(word)
            count = len(self.found.columns) + len(self.found.others)
            node = self.nodes[word] = len(self.found.theorems) + count - 1
            self.bits.append(0)
        return node

    def check_order(self, number: int, cited: list[int]) -> None:
        """Each label has to be there once, theorems in file order, and axioms that are columns
        too."""
        if len(set(cited)) < len(cited):
            self.damaged(number, "a label is there twice")
        first = len(self.found.theorems)
        last = first + len(self.found.columns)
        theorems = [node for node in cited if node < first]
        columns = [node for node in cited if first <= node < last]
        if theorems != sorted(theorems) or columns != sorted(columns):
            self.damaged(number, "the labels aren't in file order")

    def check_axioms(self) -> None:
        """There may not be more axioms than a head says."""
        if len(self.found.columns) + len(self.found.others) > self.found.axioms:
            self.damaged(-1, "together with other sections it has more axioms than its head says")


def fields(line: str) -> list[str] | None:
    """The words of a line of `usage`, `citations` or `proofs`; None where their number isn't what
    it says."""
    parts = line.split(":")
    if len(parts) != 3:
        return None
    words = parts[2].split(" ") if parts[2] else []
    return words if parts[1] == str(len(words)) else None


def first_repeated(labels: list[str]) -> int:
    """Where a label stands for the second time."""
    seen: set[str] = set()
    for number, label in enumerate(labels):
        if label in seen:
            return number
        seen.add(label)
    return -1


def of_digits(rows: list[str], form: int) -> bytes | None:
    """The bytes of rows of the matrix, which all have the same length; None where a sign is no
    digit."""
    text = "".join(rows)
    if form == 1:
        if text.count("0") + text.count("1") != len(text):
            return None
        width = width_of(len(rows[0])) if rows else 1
        up = 8 * width - len(rows[0]) if rows else 0
        return b"".join((int(row, 2) << up).to_bytes(width, "big") for row in rows)
    if rows and len(rows[0]) % 2:
        text = "0".join(rows) + "0"
    try:
        data = bytes.fromhex(text)
    except ValueError:
        return None
    return data if data.hex() == text else None


def checked(name: str, data: bytes) -> ReportContent:
    """What a text of reports says. NoAnswer where it is damaged or its parts don't fit together."""
    return SectionReader(Report(name, data)).read()
