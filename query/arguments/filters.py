"""Which of the assertions that a command lists are wanted: the filters of all lists.

An assertion is listed where it passes each filter that is given. By an example:

    filters = filters_of(arguments)
    keeps = filters.test(database)     # the database's text is read where a filter needs it
    keeps("zorn")                      # whether zorn is listed
"""

from __future__ import annotations

import argparse
import difflib
import os
import re
from collections.abc import Callable, Sequence
from dataclasses import dataclass
from fnmatch import fnmatchcase
from typing import TYPE_CHECKING

from query.answers.errors import NoAnswer, nearest, shown
from query.arguments.label_files import words_in
from query.arguments.options import Parser, between_commas
from query.texts.contributed import contributed, is_day

if TYPE_CHECKING:
    from query.reports.database import Database
    from query.texts.text import Header, Text

Test = Callable[[str], bool]
YEAR = re.compile(r"[0-9]{4}")
FIRST_DAY, LAST_DAY = "0001-01-01", "9999-12-31"
"""The first and the last day that a comment can name."""
OPTIONS = {"unlike": "--not"}
"""The options of filters that have another name."""
MOST_NEAR = 5
"""So many headers are named where it isn't clear which one is meant."""
LONG_TITLE = 100
"""Longer titles are cut in a message, and aren't looked for among near ones."""
MOST_COMPARED = 5000
"""With so many titles a word is compared that none has."""
NUMBER = re.compile(r"[0-9.]+")
"""What is only the number of a header."""


@dataclass(frozen=True)
class Filters:
    """The filters that are given. `like` and `unlike` are patterns, `among` and `not_among` names
    of files, `since` and `until` days as ISO 8601 writes them."""

    after: str | None = None
    before: str | None = None
    main: bool = False
    mathbox: str | None = None
    under: str | None = None
    like: tuple[str, ...] = ()
    unlike: tuple[str, ...] = ()
    among: tuple[str, ...] = ()
    not_among: tuple[str, ...] = ()
    contributor: str | None = None
    since: str | None = None
    until: str | None = None

    @property
    def are_given(self) -> bool:
        """Whether there is one."""
        return self != Filters()

    def in_words(self) -> str:
        """The filters that are given, as the end of a sentence; "" where there is none."""
        given = [
            f"{OPTIONS.get(name, '--' + name.replace('_', '-'))} {words_of_filter(value)}".strip()
            for name, value in vars(self).items()
            if value not in (None, False, ())
        ]
        return shown(f" among what passes {' '.join(given)}") if given else ""

    def test(self, database: Database) -> Test:
        """Whether a label passes. NoAnswer where a filter names what isn't there, or needs the text
        of what is only a report."""
        tests = [*self._tests_of_places(database), *self._tests_of_labels()]
        tests += self._tests_of_comments(database)
        return lambda label: all(test(label) for test in tests)

    def _tests_of_places(self, database: Database) -> list[Test]:
        """The tests of where an assertion stands."""
        named = (self.after, self.before, self.mathbox, self.under)
        if all(each is None for each in named) and not self.main:
            return []
        text = database.text
        stretches = self._stretches(database)
        boxes = None if self.mathbox is None else mathboxes_of(text, database.name, self.mathbox)

        def stands(label: str) -> bool:
            one = text.by_label[label]
            if any(not start <= one.number < end for start, end in stretches):
                return False
            box = text.box(one)
            return (boxes is None or box in boxes) and not (self.main and box is not None)

        return [stands]

    def _stretches(self, database: Database) -> list[tuple[int, int]]:
        """The stretches of assertions in which one has to stand: the number of the first, and that
        behind the last."""
        text = database.text
        stretches: list[tuple[int, int]] = []
        if self.after is not None:
            stretches.append((database.assertion(self.after).number + 1, len(text.assertions)))
        if self.before is not None:
            stretches.append((0, database.assertion(self.before).number))
        if self.under is not None:
            header = header_of(text, database.name, self.under)
            stretches.append((header.first, header.end))
        return stretches

    def _tests_of_labels(self) -> list[Test]:
        """The tests of the label alone."""
        tests: list[Test] = []
        if self.like:
            tests.append(lambda label: any(fnmatchcase(label, each) for each in self.like))
        if self.unlike:
            tests.append(lambda label: not any(fnmatchcase(label, each) for each in self.unlike))
        for path in self.among:
            tests.append(labels_in(path).__contains__)
        for path in self.not_among:
            tests.append(outside(labels_in(path)))
        return tests

    def _tests_of_comments(self, database: Database) -> list[Test]:
        """The tests of who contributed an assertion, and when."""
        is_of_days = self.since is not None or self.until is not None
        if self.contributor is None and not is_of_days:
            return []
        text = database.text
        if self.contributor is not None:
            see_contributor(text, database.name, self.contributor)
        first, last = self.since or FIRST_DAY, self.until or LAST_DAY

        def is_theirs(label: str) -> bool:
            name, day = contributed(text.comment(text.by_label[label]))
            if self.contributor is not None and name != self.contributor:
                return False
            return not is_of_days or (day is not None and first <= day <= last)

        return [is_theirs]


def words_of_filter(value: str | bool | tuple[str, ...]) -> str:
    """What is given for a filter, as it is typed."""
    if isinstance(value, bool):
        return ""
    word = value if isinstance(value, str) else ",".join(value)
    return f"'{word}'" if set(word) & {*" *?"} else word


def labels_in(path: str) -> set[str]:
    """The labels that a file has. NoAnswer where it can't be read."""
    return {word for _, word in words_in(os.fspath(path))}


def outside(labels: set[str]) -> Test:
    """Whether a label isn't one of these, as a test."""
    return lambda label: label not in labels


def header_of(text: Text, name: str, wanted: str, level: int | None = None) -> Header:
    """The header of a number, of a title, or of a part of a title that no other one has; of this
    level if one of those is. NoAnswer where none has it, or several have."""
    title = plain_title(wanted)
    titles = {plain_title(header.title): header for header in reversed(text.headers)}
    found = [header for header in text.headers if header.number == wanted]
    what = "the title"
    if not found:
        found = [header for header in text.headers if plain_title(header.title) == title]
    if not found and title and not NUMBER.fullmatch(wanted):
        found = [header for header in text.headers if title in plain_title(header.title)]
        what = "in the title"
    found = [header for header in found if header.level == level] or found
    if len(found) == 1:
        return found[0]
    if found:
        said = f"several headers have {what} '{shown(wanted)}': {listed(found)}"
        raise NoAnswer(f"{name}: {said}; give the number of one of them")
    short = [each for each in titles if len(each) < LONG_TITLE][:MOST_COMPARED]
    near = difflib.get_close_matches(title[:LONG_TITLE], short, MOST_NEAR)
    meant = f"; near it are {listed([titles[each] for each in near])}" if near else ""
    meant = meant or "; `mmquery chapters` lists them"
    raise NoAnswer(f"{name}: has no header '{shown(wanted)}'{meant}")


def plain_title(title: str) -> str:
    """A title without capitals, and with one space between its words."""
    return " ".join(title.casefold().split())


def listed(headers: Sequence[Header]) -> str:
    """The first of some headers, by numbers and titles."""
    names = [f"{each.number} '{cut(each.title)}'" for each in headers[:MOST_NEAR]]
    more = len(headers) - len(names)
    return shown(", ".join(names)) + (f" and {more} more" if more else "")


def cut(title: str) -> str:
    """A title that is no longer than a line of a message has room for."""
    return title if len(title) < LONG_TITLE else f"{title[:LONG_TITLE]}.."


def mathboxes_of(text: Text, name: str, owner: str) -> frozenset[int]:
    """The mathboxes of this name. NoAnswer where there is none."""
    names = {number: each for _, number, each in text.boxed()}
    found = frozenset(number for number, each in names.items() if each == owner)
    if not found:
        meant = nearest(owner, names.values()) or "; `mmquery chapters` lists them"
        raise NoAnswer(f"{name}: has no mathbox for '{shown(owner)}'{meant if names else ''}")
    return found


def see_contributor(text: Text, name: str, contributor: str) -> None:
    """NoAnswer where no comment names this contributor."""
    known: set[str] = set()
    for one in text.assertions:
        found = contributed(text.comment(one)).name
        if found == contributor:
            return
        if found is not None:
            known.add(found)
    meant = nearest(contributor, sorted(known))
    raise NoAnswer(f"{name}: nothing was contributed by '{shown(contributor)}'{meant}")


def since_day(word: str) -> str:
    """The first day of a year, or a day. ArgumentTypeError where the word is neither."""
    return day_of_word(word, "01-01")


def until_day(word: str) -> str:
    """The last day of a year, or a day. ArgumentTypeError where the word is neither."""
    return day_of_word(word, "12-31")


def day_of_word(word: str, of_year: str) -> str:
    """A day, or this day of a year."""
    day = f"{word}-{of_year}" if YEAR.fullmatch(word) else word
    if not is_day(day):
        raise argparse.ArgumentTypeError(f"'{word}' is no year as 2014, and no day as 2014-05-31")
    return day


def add_filters(parser: Parser) -> None:
    """Adds the filters."""
    group = parser.add_argument_group("filters of the list")
    parser.value("--before", "T", "only what stands before T", group=group)
    parser.value("--after", "T", "only what stands after T", group=group)
    parser.flag("--main", "only what stands in no mathbox", group=group)
    parser.value("--mathbox", "NAME", "only what stands in NAME's mathbox", group=group)
    under = "only what the header of this number, title or part of a title has below it"
    parser.value("--under", "HEADER", under, group=group)
    like = "only labels like PATTERN, in which * is anything; several: by commas"
    parser.values("--like", "PATTERN", like, group=group)
    parser.values("--not", "PATTERN", "no labels like PATTERN", group=group, dest="unlike")
    parser.values("--among", "FILE", "only labels that FILE has", group=group)
    parser.values("--not-among", "FILE", "no labels that FILE has", group=group)
    by = "only what NAME contributed, as comments say: (Contributed by NAME, 5-Aug-1993.)"
    parser.value("--contributor", "NAME", by, group=group)
    since = "only what was contributed on DATE or later: 2014 or 2014-05-31"
    parser.value("--since", "DATE", since, group=group, type=since_day)
    until = "only what was contributed on DATE or earlier, or in that year"
    parser.value("--until", "DATE", until, group=group, type=until_day)


def filters_of(arguments: argparse.Namespace) -> Filters:
    """The filters among the arguments of a command."""
    return Filters(
        after=arguments.after,
        before=arguments.before,
        main=arguments.main,
        mathbox=arguments.mathbox,
        under=arguments.under,
        like=tuple(between_commas(arguments.like)),
        unlike=tuple(between_commas(arguments.unlike)),
        among=tuple(arguments.among),
        not_among=tuple(arguments.not_among),
        contributor=arguments.contributor,
        since=arguments.since,
        until=arguments.until,
    )
