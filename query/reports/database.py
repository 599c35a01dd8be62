"""A database or a report, verified by the program and prepared for questions."""

import hashlib
import json
from array import array
from collections.abc import Callable, Sequence
from dataclasses import dataclass
from functools import cached_property
from typing import TYPE_CHECKING

from query.answers.errors import NEAR_LABEL, NoAnswer, nearest, shown
from query.citations.graph import Graph, Lists
from query.citations.marks import Marks, columns_of, mask
from query.platform import cache, progress
from query.program import mmdepend
from query.program.mmdepend import REFUSAL, Program
from query.program.refusals import Refused
from query.program.source import Source, source_of
from query.reports.choice import Options
from query.reports.content import ReportContent
from query.reports.handed_in import checked
from query.reports.of_program import COUNTS, SECTIONS, head_counts, report_content
from query.texts.assertions import Assertion, Damaged, has_symbol

if TYPE_CHECKING:
    from query.texts.text import Text

# Counts the forms in which results are kept. A change of what they hold has to change it.
FORM = 2
REPORTED = ("--form=2", SECTIONS)
"""The options for the report that is read whole."""
NOTHING = "has neither axioms nor theorems"
NO_CITATIONS = "the report has no section 'citations'"


@dataclass
class Dependence:
    """On which axioms each theorem rests.

    `axioms` are the labels of the columns, the axioms chosen by the options; `theorems` those of
    the rows. Both are in file order. Rows and columns are counted from 0. `name` is how messages
    call the database, and `which` says after `axiom` which axioms these are.
    """

    name: str
    which: str
    axioms: list[str]
    theorems: list[str]
    marks: Marks
    chosen: Sequence[int]  # for each column that of `marks`
    graph_if_known: Graph | None
    left_out: Callable[[str], str] = lambda label: ""
    """Why an axiom isn't among those chosen, as the end of a sentence."""
    remark: Callable[[str], str] = lambda word: ""
    """What a word that is no label is instead, in the same way."""

    @cached_property
    def rows(self) -> dict[str, int]:
        """The row of each theorem."""
        return {label: row for row, label in enumerate(self.theorems)}

    @cached_property
    def columns(self) -> dict[str, int]:
        """The column of each axiom that is chosen."""
        return {label: column for column, label in enumerate(self.axioms)}

    @cached_property
    def _mask(self) -> int:
        return mask(self.marks.columns, self.chosen)

    @cached_property
    def _column_of(self) -> dict[int, int]:
        return {number: column for column, number in enumerate(self.chosen)}

    def bits(self, row: int) -> int:
        """The marks of a row as the bits of a number: two rows rest on the same axioms where these
        are the same, and a row rests on as many as there are bits."""
        return self.marks.row(row) & self._mask

    def rests(self, row: int) -> list[int]:
        """The columns of the axioms on which the theorem of this row rests, rising."""
        return self.columns_of(self.marks.row(row))

    def columns_of(self, bits: int) -> list[int]:
        """The columns of the bits of a row, rising."""
        numbers = columns_of(bits, self.marks.columns)
        if isinstance(self.chosen, range):
            return numbers
        columns = (self._column_of.get(number) for number in numbers)
        return [column for column in columns if column is not None]

    def place_of(self, column: int) -> int:
        """The place of the bit of a column in a row, from the lowest one."""
        return 8 * self.marks.width - 1 - self.chosen[column]

    def is_marked(self, row: int, column: int) -> bool:
        """Whether the theorem of this row rests on the axiom of this column."""
        return self.marks.is_marked(row, self.chosen[column])

    def users(self, column: int) -> list[int]:
        """The rows of the theorems that rest on the axiom of this column, rising."""
        return self.marks.users(self.chosen[column])

    def marked(self, column: int) -> bytes:
        """For each row 1 where its theorem rests on the axiom of this column, otherwise 0."""
        return self.marks.column(self.chosen[column])

    def mask_of(self, columns: Sequence[int]) -> int:
        """The bits of several columns, as `bits` has them."""
        return mask(self.marks.columns, [self.chosen[column] for column in columns])

    def sizes(self) -> list[int]:
        """For each column how many theorems rest on its axiom."""
        sizes = self.marks.sizes()
        return [sizes[number] for number in self.chosen]

    def see_theorem(self, label: str) -> None:
        """NoAnswer where there is no theorem of this label."""
        if label not in self.rows:
            meant = self.remark(label) or nearest(label, self.rows, NEAR_LABEL)
            raise NoAnswer(f"{self.name}: has no theorem '{shown(label)}'{meant}")

    def see_axiom(self, label: str) -> None:
        """NoAnswer where no axiom of this label is among those chosen."""
        if label not in self.columns:
            why = self.left_out(label) or self.remark(label)
            why = why or nearest(label, self.columns, NEAR_LABEL)
            raise NoAnswer(f"{self.name}: has no axiom{self.which} '{shown(label)}'{why}")

    def row(self, label: str) -> int:
        """The row of a theorem. NoAnswer where there is none of this label."""
        self.see_theorem(label)
        return self.rows[label]

    def column(self, label: str) -> int:
        """The column of an axiom. NoAnswer where it isn't among those chosen."""
        self.see_axiom(label)
        return self.columns[label]

    @property
    def graph(self) -> Graph:
        """The citations. NoAnswer where DATABASE is a report without them."""
        if self.graph_if_known is None:
            raise NoAnswer(f"{self.name}: {NO_CITATIONS}")
        return self.graph_if_known


@dataclass
class Database:
    """What DATABASE names. `name` is how messages call it."""

    source: Source
    options: Options
    uses_cache: bool
    known: ReportContent | None = None
    given: bytes | None = None
    """The report on it, which a comparison had written; it is read where it is asked for."""
    told: bytes | None = None
    """The lines of its section `statements`, where these alone are known."""

    @classmethod
    def opened(cls, word: str, options: Options, uses_cache: bool) -> "Database":
        """Reads it. NoAnswer where that can't be done."""
        progress.now(f"reading {shown(word)}")
        source = source_of(word)
        if source.is_report() and options.chosen:
            raise NoAnswer(
                f"{source.name}: a report is as it was made, so {options.chosen} wants a database"
            )
        return cls(source, options, uses_cache)

    @property
    def name(self) -> str:
        """How messages call it."""
        return self.source.name

    @property
    def is_report(self) -> bool:
        """Whether it is a report or a refusal."""
        return self.source.is_report()

    def see_text(self) -> None:
        """NoAnswer where DATABASE is a report."""
        self.source.see_text()

    def data(self) -> bytes:
        """The bytes of the database, not compressed. NoAnswer where DATABASE is a report."""
        self.see_text()
        return self.source.data

    @cached_property
    def text(self) -> "Text":
        """What stands in the text. NoAnswer where DATABASE is a report, or is refused."""
        # It takes 12 milliseconds, and many answers need no text.
        from query.texts.text import Text

        return Text(self.data(), self.lines)

    @property
    def lines(self) -> bytes:
        """The lines of the section `statements`; none of a report."""
        return self.content.statements if self.told is None else self.told

    def symbol(self, word: str) -> str:
        """That a word is a symbol, as the end of a sentence; "" where no statement has it."""
        if not has_symbol(self.lines, word):
            return ""
        return "; it is a symbol, and `mmquery search` finds the statements that have it"

    def assertion(self, label: str) -> Assertion:
        """The assertion of a label. NoAnswer where there is none."""
        found = self.text.find(label)
        if found is None:
            meant = self.symbol(label) or nearest(label, self.text.by_label, NEAR_LABEL)
            raise NoAnswer(f"{self.name}: has no assertion '{shown(label)}'{meant}")
        return found

    @cached_property
    def sum(self) -> str:
        """The sum of the bytes, in hexadecimal."""
        return hashlib.blake2b(self.source.data, digest_size=16).hexdigest()

    @property
    def content(self) -> ReportContent:
        """Marks, citations and, of a database, statements. Refused where it is refused."""
        if self.known is None:
            self.known = (
                of_report(self.source) if self.is_report else self.kept or self.of_program()
            )
            progress.now(f"working on {self.name}")
        return self.known

    @cached_property
    def program(self) -> Program:
        """The program that judges it, ready to run."""
        return mmdepend.ready()

    @cached_property
    def key(self) -> str:
        """Under which key the result of the program is kept."""
        options = self.options
        return result_key(FORM, self.sum, self.program.sum, options.essential, options.open)

    @property
    def kept(self) -> ReportContent | None:
        """What was kept."""
        kept = cache.load(self.key) if self.uses_cache else None
        return None if kept is None else from_parts(kept)

    def said(self, *words: str) -> bytes:
        """What the program says with these options. Refused where it refuses the database."""
        progress.now(f"verifying {self.name}")
        flags = ["--essential"] * self.options.essential + ["--open"] * self.options.open
        return mmdepend.report(self.program, self.source, [*flags, *words])

    def of_program(self) -> ReportContent:
        """What the program says."""
        data = self.said(*REPORTED) if self.given is None else self.given
        progress.now(f"reading the report of {self.name}")
        try:
            found = report_content(data)
        except Damaged as why:
            raise NoAnswer(f"{self.name}: {why}") from None
        if self.uses_cache:
            cache.store(self.key, to_parts(found))
        return found

    def counts(self) -> tuple[int, int]:
        """How many axioms and how many theorems it has. Refused where it is refused."""
        found = self.content if self.is_report or self.known else self.kept
        if found is None:
            return head_counts(self.said(COUNTS))
        return found.axioms, len(found.theorems)

    def see_statements(self) -> None:
        """Refused where something else than a proof is at fault."""
        try:
            self.counts()
        except Refused as refused:
            if not refused.is_of_proof:
                raise

    def graph(self) -> Graph:
        """The citations alone, which need no marks. NoAnswer where the database is refused, or the
        report is damaged or lacks them.
        """
        found = self.content
        if found.cites is None:
            raise NoAnswer(f"{self.name}: {NO_CITATIONS}")
        return self.graph_of(found, found.cites)

    def graph_of(self, found: ReportContent, cites: Lists) -> Graph:
        """The graph of what was found."""
        labels = found.theorems + found.columns + found.others
        if not found.theorems and not found.columns:
            raise NoAnswer(f"{self.name}: {NOTHING}")
        return Graph(self.name, labels, len(found.theorems), cites, self.symbol)

    def dependence(self) -> Dependence:
        """Marks and citations together. NoAnswer where the database is refused, the report is
        damaged or lacks marks, or no axiom is chosen.
        """
        found = self.content
        if found.marks is None:
            raise NoAnswer(
                f"{self.name}: the report has to have the section 'usage', and one of 'matrix',"
                " 'counts' and 'citations' beside it"
            )
        graph = None if found.cites is None else self.graph_of(found, found.cites)
        chosen = self.chosen_columns(found)
        axioms = [found.columns[number] for number in chosen]
        return Dependence(
            self.name,
            self.which(),
            axioms,
            found.theorems,
            found.marks,
            chosen,
            graph,
            self.left_out,
            self.symbol,
        )

    def of_typecode(self) -> Sequence[int]:
        """The columns of the axioms of the typecode that the options choose."""
        only, typecodes = self.options.only, self.content.typecodes
        if self.is_report or only is None:
            return range(len(self.content.columns))
        return [number for number, typecode in enumerate(typecodes) if typecode == only]

    def axioms(self) -> list[str]:
        """The labels of these axioms."""
        columns = self.content.columns
        return [columns[number] for number in self.of_typecode()]

    def see_axioms(self) -> None:
        """NoAnswer where it has no axiom of this typecode."""
        if not self.of_typecode():
            raise NoAnswer(f"{self.name}: has no axiom{self.which()}")

    def left_out(self, label: str) -> str:
        """Which option left an axiom out, as the end of a sentence; empty where none did."""
        if label in self.axioms():
            begins = self.options.ignore_definitions and label.startswith("df-")
            return f"; {'--ignore-definitions' if begins else '--axioms'} leaves it out"
        if label in self.content.columns:
            return "; it is one of another typecode, and --all takes every axiom"
        return "; it is a theorem" if label in self.content.theorems else ""

    def which(self) -> str:
        """Which axioms are asked for, as messages say it after `axiom`."""
        if self.is_report or self.options.only is None:
            return ""
        return f" of typecode '{shown(self.options.only)}'"

    def chosen_columns(self, found: ReportContent) -> Sequence[int]:
        """The columns of the axioms that the options choose. NoAnswer where there are none."""
        self.see_axioms()
        options, columns = self.options, self.of_typecode()
        if not options.axioms and not options.ignore_definitions:
            return columns
        for word in options.axioms:
            if not any(found.columns[number].startswith(word) for number in columns):
                raise NoAnswer(
                    f"{self.name}: has no axiom{self.which()} that begins with '{shown(word)}'"
                )
        chosen = [number for number in columns if options.has_axiom(found.columns[number])]
        if not chosen:
            raise NoAnswer(f"{self.name}: has no axiom{self.which()} that is no definition")
        return chosen


def result_key(*words: str | int | None) -> str:
    """Under which key the result is kept that these make what it is."""
    return hashlib.blake2b(json.dumps(words).encode(), digest_size=20).hexdigest()


def of_report(source: Source) -> ReportContent:
    """What a report says."""
    if source.data.startswith(b"refused"):
        refusal = REFUSAL.fullmatch(source.data)
        if not refusal:
            raise NoAnswer(f"{source.name}: a refusal that isn't whole")
        raise Refused(source, int(refusal[1]), int(refusal[2]), refusal[3].decode())
    return checked(source.name, source.data)


def to_parts(found: ReportContent) -> dict[str, bytes]:
    """What the program said, in the form in which it is kept."""
    assert found.marks is not None and found.cites is not None
    return {
        "theorems": "\n".join(found.theorems).encode(),
        "columns": "\n".join(found.columns).encode(),
        "typecodes": "\n".join(found.typecodes).encode(),
        "marks": found.marks.data,
        "places": found.cites.places.tobytes(),
        "targets": found.cites.targets.tobytes(),
        "statements": found.statements,
    }


def from_parts(parts: dict[str, bytes]) -> ReportContent:
    """What was kept."""
    theorems, columns, typecodes = (
        parts[name].decode().split("\n") if parts[name] else []
        for name in ("theorems", "columns", "typecodes")
    )
    cites = Lists(unpacked_numbers(parts["places"]), unpacked_numbers(parts["targets"]))
    marks = Marks(len(theorems), len(columns), parts["marks"])
    statements = parts["statements"]
    return ReportContent(theorems, columns, [], marks, cites, len(columns), typecodes, statements)


def unpacked_numbers(kept: bytes) -> "array[int]":
    """Numbers that were kept."""
    numbers = array("I")
    numbers.frombytes(kept)
    return numbers
