"""A database as tables of SQLite: statements, citations, marks and chapters."""

from __future__ import annotations

import errno
import os
import sqlite3
from collections.abc import Iterable, Iterator
from dataclasses import dataclass
from itertools import chain, islice

from query.answers.errors import NoAnswer, reason, shown
from query.platform import progress, system
from query.platform.files import replacing
from query.proofs.lengths import lengths
from query.reports.database import Dependence
from query.texts.contributed import contributed
from query.texts.discouraged import is_discouraged, is_proof_discouraged
from query.texts.text import Text

APPLICATION = 0x6D6D7175
"""What the header has as the application, `mmqu`; by it a file that was exported is known."""
APPLICATION_PLACE = slice(68, 72)
"""Where the header of a file of SQLite has it, as the form of such files says."""
SCHEMA = 1
"""The number of the schema, in the header as the user's version and in `about`: another one where a
table or a view loses a column, or a column means something else."""

TABLES = """
CREATE TABLE about (key TEXT PRIMARY KEY, value TEXT NOT NULL) WITHOUT ROWID;
CREATE TABLE chapter (
    id INTEGER PRIMARY KEY,
    number TEXT NOT NULL,
    level INTEGER NOT NULL,
    title TEXT NOT NULL,
    first INTEGER NOT NULL,
    last INTEGER NOT NULL
);
CREATE TABLE statement (
    id INTEGER PRIMARY KEY,
    label TEXT NOT NULL UNIQUE,
    kind TEXT NOT NULL,
    typecode TEXT NOT NULL,
    formula TEXT NOT NULL,
    line INTEGER NOT NULL,
    chapter INTEGER REFERENCES chapter,
    mathbox TEXT,
    usage_discouraged INTEGER NOT NULL,
    proof_discouraged INTEGER NOT NULL,
    comment TEXT NOT NULL,
    contributor TEXT,
    contributed TEXT
);
CREATE TABLE hypothesis (
    statement INTEGER NOT NULL REFERENCES statement,
    position INTEGER NOT NULL,
    label TEXT NOT NULL,
    formula TEXT NOT NULL,
    PRIMARY KEY (statement, position)
) WITHOUT ROWID;
CREATE TABLE disjoint (
    statement INTEGER NOT NULL REFERENCES statement,
    first TEXT NOT NULL,
    second TEXT NOT NULL,
    PRIMARY KEY (statement, first, second)
) WITHOUT ROWID;
CREATE TABLE proof (
    theorem INTEGER PRIMARY KEY REFERENCES statement,
    steps INTEGER NOT NULL,
    depth INTEGER NOT NULL,
    bytes INTEGER NOT NULL
);
CREATE TABLE citation (
    citing INTEGER NOT NULL REFERENCES statement,
    cited INTEGER NOT NULL REFERENCES statement,
    PRIMARY KEY (citing, cited)
) WITHOUT ROWID;
CREATE TABLE mark (
    theorem INTEGER NOT NULL REFERENCES statement,
    axiom INTEGER NOT NULL REFERENCES statement,
    PRIMARY KEY (theorem, axiom)
) WITHOUT ROWID;
"""

VIEWS = """
CREATE VIEW citation_label AS
    SELECT citing.label AS citing, cited.label AS cited FROM citation
    JOIN statement AS citing ON citing.id = citation.citing
    JOIN statement AS cited ON cited.id = citation.cited;
CREATE VIEW mark_label AS
    SELECT theorem.label AS theorem, axiom.label AS axiom FROM mark
    JOIN statement AS theorem ON theorem.id = mark.theorem
    JOIN statement AS axiom ON axiom.id = mark.axiom;
"""

INDICES = """
CREATE INDEX statement_by_chapter ON statement (chapter);
CREATE INDEX statement_by_kind ON statement (kind);
CREATE INDEX citation_by_cited ON citation (cited, citing);
CREATE INDEX mark_by_axiom ON mark (axiom, theorem);
PRAGMA analysis_limit = 1000;
ANALYZE;
"""

Row = tuple[object, ...]
MOST_VALUES = 999
"""How many values a statement may have, whatever the version of SQLite."""
ROWS_TOLD = 10_000
"""After so many rows of a table a terminal is told how many there are."""


@dataclass(frozen=True)
class Content:
    """What is exported. `about` has what the table of this name has."""

    about: dict[str, str]
    text: Text
    dependence: Dependence

    def number(self, label: str) -> int:
        """The `id` of a statement: its number among axioms and theorems, from 1 in file order."""
        return self.text.by_label[label].number + 1

    def chapters(self) -> Iterator[Row]:
        """The rows of `chapter`."""
        for number, each in enumerate(self.text.headers, 1):
            yield number, each.number, each.level, each.title, each.first + 1, each.end

    def statements(self) -> Iterator[Row]:
        """The rows of `statement`."""
        text = self.text
        for one in text.assertions:
            kind = "open" if one.is_open else "axiom" if one.kind == "a" else "theorem"
            header = text.header(one)
            comment = " ".join(text.comment(one).split())
            by = contributed(comment)
            yield (
                one.number + 1,
                one.label,
                kind,
                one.typecode,
                one.formula,
                text.line(one.place),
                None if header is None else header + 1,
                text.mathbox(one),
                is_discouraged(text, one),
                is_proof_discouraged(text, one),
                comment,
                by.name,
                by.day,
            )

    def hypotheses(self) -> Iterator[Row]:
        """The rows of `hypothesis`."""
        for one in self.text.assertions:
            for position, each in enumerate(one.frame().essential(), 1):
                yield one.number + 1, position, each.label, each.formula

    def disjoint(self) -> Iterator[Row]:
        """The rows of `disjoint`: what binds who cites the statement."""
        for one in self.text.assertions:
            for first, second in one.frame().pairs():
                yield one.number + 1, first, second

    def proofs(self) -> Iterator[Row]:
        """The rows of `proof`."""
        for label, each in lengths(self.text, self.dependence.graph).items():
            yield self.number(label), each.steps, each.depth, each.size

    def citations(self) -> Iterator[Row]:
        """The rows of `citation`."""
        graph = self.dependence.graph
        ids = [self.number(label) for label in graph.labels]
        for theorem in range(graph.theorems):
            for cited in graph.cites[theorem]:
                yield ids[theorem], ids[cited]

    def marks(self) -> Iterator[Row]:
        """The rows of `mark`."""
        axioms = [self.number(label) for label in self.dependence.axioms]
        for row, label in enumerate(self.dependence.theorems):
            theorem = self.number(label)
            for column in self.dependence.rests(row):
                yield theorem, axioms[column]

    def tables(self) -> Iterator[tuple[str, Iterable[Row]]]:
        """Each table with its rows."""
        yield "about", self.about.items()
        yield "chapter", self.chapters()
        yield "statement", self.statements()
        yield "hypothesis", self.hypotheses()
        yield "disjoint", self.disjoint()
        yield "proof", self.proofs()
        yield "citation", self.citations()
        yield "mark", self.marks()


def is_exported(path: str) -> bool:
    """Whether a file is one that was exported before."""
    try:
        with open(path, "rb") as file:
            head = file.read(APPLICATION_PLACE.stop)
    except OSError:
        return False
    is_sqlite = head.startswith(b"SQLite format 3\0")
    return is_sqlite and head[APPLICATION_PLACE] == APPLICATION.to_bytes(4, "big")


def export(content: Content, path: str) -> list[tuple[str, int]]:
    """Writes the tables into a file, whole or not at all; says how many rows each has.

    NoAnswer where the file can't be written, or is there and was not made so.
    """
    name = shown(path)
    if os.path.lexists(path) and not is_exported(path):
        raise NoAnswer(f"{name}: is there already, and wasn't made by export; it isn't replaced")
    try:
        with replacing(path) as new:
            os.close(os.open(new, system.MAKING, 0o666))
            return fill_tables(content, new)
    except OSError as error:
        raise NoAnswer(f"{name}: {reason(error)}") from None
    except sqlite3.Error as error:
        is_full = getattr(error, "sqlite_errorcode", None) == sqlite3.SQLITE_FULL
        said = reason(OSError(errno.ENOSPC, "")) if is_full else str(error)
        raise NoAnswer(f"{name}: {said}") from None


def insert(connection: sqlite3.Connection, table: str, rows: Iterator[Row]) -> int:
    """Inserts rows, many by one statement, which takes a third of the time. Says how many."""
    width = len(connection.execute(f"PRAGMA table_info({table})").fetchall())
    values = f"({', '.join('?' * width)})"
    count = told = 0
    while block := list(islice(rows, MOST_VALUES // width)):
        if count >= told:
            progress.now(f"writing the table {table}, {count} rows are done")
            told += ROWS_TOLD
        many = ", ".join([values] * len(block))
        connection.execute(f"INSERT INTO {table} VALUES {many}", list(chain.from_iterable(block)))
        count += len(block)
    return count


def fill_tables(content: Content, path: str) -> list[tuple[str, int]]:
    """Makes the tables in an empty file. sqlite3.Error where that can't be done."""
    counts = []
    connection = sqlite3.connect(path)
    try:
        connection.executescript(
            "PRAGMA journal_mode = OFF; PRAGMA synchronous = OFF; PRAGMA temp_store = MEMORY;"
            f"PRAGMA application_id = {APPLICATION}; PRAGMA user_version = {SCHEMA};"
        )
        connection.executescript(TABLES)
        for table, rows in content.tables():
            counts.append((table, insert(connection, table, iter(rows))))
        connection.commit()
        steps = INDICES.strip().splitlines()
        for number, each in enumerate(steps):
            progress.now(f"making the indices of the tables, {number} of {len(steps)} are done")
            connection.execute(each)
        connection.executescript(VIEWS)
        connection.commit()
    finally:
        connection.close()
    return counts
