"""The answer: tables as text, TSV, CSV or JSON, or lines and bytes as they are.

It is kept until the command has its whole answer, and written then. So nothing is on standard
output where there is no answer.

A value is written by one rule in each form. For a program: that there is none is an empty field in
TSV and CSV, and null in JSON; yes and no are `true` and `false` in all three; a list is an array in
JSON, and in the others its words apart by spaces. For a person, as text: `-`, `yes` and `no`. The
columns of an answer don't depend on how many words a command was given.
"""

import json
import os
import re
from collections.abc import Collection, Iterable, Sequence

from query.answers.errors import NoAnswer, reason, shown

Value = str | int | float | bool | None | list[str]
# What a spreadsheet takes as the beginning of a formula, also behind signs that it passes over.
RUNNING = re.compile(r"[\s\x00-\x1f]*[=+\-@\uff1d\uff0b\uff0d\uff20']|[\t\r\n]")
QUOTED = re.compile(r"[,\"\r\n]|\A\s|\s\Z")
WIDEST = 200
WIDEST_LISTS = 40
"""Columns of a table as text are so wide at the most, and those of lists. One long label or list
doesn't make all lines long."""


def _text_field(value: Value) -> str:
    """A value in a field of text."""
    if value is None or value == []:
        return "-"
    if isinstance(value, bool):
        return "yes" if value else "no"
    return _field(value)


def _field(value: Value) -> str:
    """A value in a field of TSV and CSV."""
    if value is None:
        return ""
    if isinstance(value, bool):
        return "true" if value else "false"
    if isinstance(value, list):
        return " ".join(value)
    return str(value)


def _aligned(columns: Sequence[str], rows: Sequence[Sequence[Value]]) -> str:
    """The table for a person: one column as lines, several aligned under a line of their names."""
    if len(columns) == 1:
        return "".join(_text_field(row[0]) + "\n" for row in rows)
    if not rows:
        return ""
    forms = []
    words = []
    for name, column in zip(columns, zip(*rows, strict=True)):
        words.append([name, *map(_text_field, column)])
        is_right = all(isinstance(value, (int, float)) or value is None for value in column)
        has_lists = any(isinstance(value, list) for value in column)
        width = min(max(map(len, words[-1])), WIDEST_LISTS if has_lists else WIDEST)
        forms.append(f"{{:{'>' if is_right else '<'}{width}}}")
    form = "  ".join(forms)
    return "".join(form.format(*line).rstrip() + "\n" for line in zip(*words))


def _tabs(columns: Sequence[str], rows: Iterable[Sequence[Value]]) -> str:
    """The table as TSV: a tab or a line's end in a field becomes a space."""
    lines = [list(columns), *([_field(value) for value in row] for row in rows)]
    return "".join(
        "\t".join(" ".join(word.splitlines()).replace("\t", " ") for word in line) + "\n"
        for line in lines
    )


def _commas(columns: Sequence[str], rows: Iterable[Sequence[Value]]) -> str:
    """The table as CSV, lines ended by a line feed."""
    lines = [list(columns), *([_field(value) for value in row] for row in rows)]
    # An empty line would be none.
    return "".join((",".join(map(_cell, line)) or '""') + "\n" for line in lines)


def _cell(word: str) -> str:
    """A field of CSV. What a spreadsheet would take as a formula has a `'` before it, and so has
    what begins with `'`: who takes one `'` from the beginning of each field has the word."""
    if RUNNING.match(word):
        word = "'" + word
    if QUOTED.search(word):
        return '"' + word.replace('"', '""') + '"'
    return word


def _objects(columns: Sequence[str], rows: Iterable[Sequence[Value]]) -> str:
    """The table as a JSON array, an object with its fields by name on each line."""
    lines = [json.dumps(dict(zip(columns, row, strict=True))) for row in rows]
    return "[\n" + ",\n".join(lines) + "\n]\n" if lines else "[]\n"


class Output:
    """What a command answers. `format` is the word after `--format`."""

    def __init__(self, format: str = "text") -> None:
        self.format = format
        self._parts: list[bytes] = []

    def table(
        self, columns: Sequence[str], rows: Iterable[Sequence[Value]], aside: Collection[str] = ()
    ) -> None:
        """Adds a table in the format chosen; one in another format than tsv, csv and json as text.

        In text a table without rows is empty and one of a single column has no line of names, so
        that an answer of labels is just these; and the columns that are `aside` are left out: they
        say the same on each line, or nothing.
        """
        if self.format == "json":
            self.text(_objects(columns, rows))
        elif self.format == "csv":
            self.text(_commas(columns, rows))
        elif self.format == "tsv":
            self.text(_tabs(columns, rows))
        else:
            wanted = [number for number, name in enumerate(columns) if name not in aside]
            names = [columns[number] for number in wanted]
            self.text(_aligned(names, [[row[number] for number in wanted] for row in rows]))

    def line(self, text: str) -> None:
        """Adds a line as it is, whatever the format."""
        self.text(text + "\n")

    def text(self, text: str) -> None:
        """Adds a text as it is, in UTF-8, whatever the format."""
        self._parts.append(text.encode("utf-8", "surrogateescape"))

    def value(self, value: object) -> None:
        """Adds a value as JSON, whatever the format."""
        self.line(json.dumps(value, indent=1))

    def write(self, data: bytes) -> None:
        """Adds bytes as they are, whatever the format."""
        self._parts.append(data)

    def taken(self) -> list[bytes]:
        """All of it, which is no longer kept here."""
        parts, self._parts = self._parts, []
        return parts

    def flush(self) -> None:
        """Writes all of it to standard output. NoAnswer where that can't be done."""
        data = b"".join(self.taken())
        write_all(1, for_terminal(data) if os.isatty(1) else data)


def for_terminal(data: bytes) -> bytes:
    """Bytes as a terminal gets them: without any sign that it obeys but ends of lines and tabs."""
    text = data.decode("utf-8", "surrogateescape")
    return shown(text, "\n\t").encode("utf-8", "backslashreplace")


def write_all(descriptor: int, data: bytes) -> None:
    """Writes bytes to an open file. NoAnswer, with the reason, where not all of it is written; but
    who closes a pipe has read enough, as `head` does, and that is no error."""
    view = memoryview(data)
    try:
        while view:
            view = view[os.write(descriptor, view) :]
    except BrokenPipeError:
        return
    except OSError as error:
        raise NoAnswer(f"the answer can't be written: {reason(error)}") from error
