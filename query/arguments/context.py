"""What a command is given besides its words: where its answer goes, databases, and filters."""

from collections.abc import Collection, Iterable, Mapping, Sequence
from dataclasses import dataclass, field
from types import MappingProxyType
from typing import TypeVar

from query.answers.output import Output, Value
from query.arguments.filters import Filters, Test
from query.reports.choice import Options
from query.reports.database import Database

Row = TypeVar("Row")
LARGER = "a larger N"
"""By which word a list is longer that is cut by a word N, and not by the option `--most`."""


@dataclass
class Context:
    """The surroundings of one command.

    `out` takes the answer, and `remarks` what standard error says besides once it is written.
    `uses_cache` is whether results may be kept and taken from the cache. `filters` say what of a
    list is wanted.
    """

    out: Output = field(default_factory=Output)
    uses_cache: bool = True
    filters: Filters = Filters()
    remarks: list[str] = field(default_factory=list)
    asked: Database | None = None
    """The first database that was asked for, of which the filters speak."""

    def database(self, word: str, options: Options = Options()) -> Database:
        """The database or report that the word DATABASE names: a file, also one compressed by gzip,
        bzip2 or xz, `-`, `REV:PATH` of git, or a report. It isn't verified yet: that is done when
        its dependence or its graph is asked for. NoAnswer where it can't be read.
        """
        found = Database.opened(word, options, self.uses_cache)
        self.asked = self.asked or found
        return found

    def test(self) -> Test:
        """Whether a label passes the filters, as a test. NoAnswer where these name what isn't
        there."""
        if self.asked is None or not self.filters.are_given:
            return lambda label: True
        return self.filters.test(self.asked)

    def passing(self, rows: Iterable[Sequence[Value]], column: int = 0) -> list[Sequence[Value]]:
        """The rows whose label in a column passes the filters."""
        rows = list(rows)
        passes = self.test()
        left = [row for row in rows if passes(str(row[column]))]
        if rows and not left:
            given = self.filters.in_words().removeprefix(" among what passes")
            self.tell(f"none of the {len(rows)} that there are passes the filters{given}")
        return left

    def first(
        self, rows: Sequence[Row], most: int | None, word: str = "--most N", also: str = ""
    ) -> Sequence[Row]:
        """The first rows, as many as are wanted; all of them where no number is given. Where that
        cuts the list, standard error says so, and by which word of the command it is longer.
        `also` is a remark of the command itself, which stands on the same line."""
        is_cut = most is not None and most < len(rows)
        cut = f"{most} of {len(rows)} rows; {word} shows more" if is_cut else ""
        if self.asked is not None and (cut or also):
            self.tell(f"{self.asked.name}: {'; '.join(filter(None, (cut, also)))}")
        return rows[:most]

    def table(
        self,
        columns: Sequence[str],
        rows: Iterable[Sequence[Value]],
        empty: str,
        listed: str | None = None,
        aside: Collection[str] = (),
        remarks: Mapping[str, Sequence[str]] = MappingProxyType({}),
    ) -> None:
        """Answers with a table. Where it has no row, standard error says why, by `empty`. Of a list
        `listed` is the column of the labels to which the filters apply. The form `text` leaves out
        the columns `aside`. `remarks` are about several labels each; standard error says how many
        these are, and the first one."""
        rows = list(rows)
        said = [told.format(len(some), some[0]) for told, some in remarks.items() if some]
        if not rows:
            self.tell("; ".join([empty, *said]))
        left = rows if listed is None else self.passing(rows, columns.index(listed))
        self.out.table(columns, left, aside)
        if rows and said and self.asked is not None:
            self.tell(f"{self.asked.name}: {'; '.join(said)}")

    def tell(self, text: str) -> None:
        """Adds a line for standard error, a remark that changes nothing of the answer. Where this
        can't be written, that line alone is said, and no remark."""
        self.remarks.append(text)
