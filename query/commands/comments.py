"""`comments` and `obsolete`: what comments say that isn't so, and what may be removed by what they
say."""

import argparse
from collections.abc import Iterator
from datetime import date

from query.answers.errors import NoAnswer
from query.answers.output import Value
from query.arguments.context import Context
from query.arguments.filters import until_day
from query.arguments.options import (
    Parser,
    add_choice_of_citations,
    add_database,
    add_open,
    options_of,
)
from query.commands import Command
from query.platform import progress
from query.reports.choice import Options
from query.reports.database import NOTHING
from query.texts.obsolete import LAST, obsolete
from query.texts.references import Reference, labels_of_hypotheses, references
from query.texts.text import Text
from query.texts.uncommented import without_comments

COMMENTS_PAGE = """
Lists the labels in comments, behind `~`, that no axiom and no theorem has, in file order: a page
has nothing to which such a label leads. None of them is what begins with `http://`, `https://` or
`mm`, an address of a page, nor what stands between backticks.

label      the word behind the `~`
line       the line on which the `~` stands
in         statement: in the comment that describes a statement, the last one before its `$a` or
                      `$p`
           header:    in that of a header
           other:     in another one; there only words that could be labels, with a space before
           metamath.exe's `verify markup` tells of the first, and of headers but those that stand
           in front of another one
is         hypothesis where a `$e` or `$f` has the label; nothing where no statement has it
statement  which statement the comment describes, or in which it stands, or before which; the last
           one where none follows

The filters go by the statement.

  $ mmquery comments set.mm
"""

OBSOLETE_PAGE = """
Lists the statements that are to be removed: those whose label ends in OLD, and those whose comment
says that they are obsolete as of some day, as `Obsolete version of ~ xorass as of 20-Jun-2020.` By
the conventions of set.mm they are kept for a year.

label    its label
by       in favour of what it is obsolete, as the comment says: `version of ~ LABEL`, `proof of ~
         LABEL` or `Use ~ LABEL`
since    since which day; nothing where the comment has none
until    the day a year later, from which on it may be removed
citing   how many theorems cite it. As long as these are there it can't go

With --due DATE, only those that may be removed on that day; --due today asks the clock. `drop` says
which of them can go together.

  $ mmquery obsolete set.mm
  $ mmquery obsolete set.mm --due 2021-06-30 --main
"""
TODAY = "today"


def configure_comments(parser: Parser) -> None:
    """The words and options of `comments`."""
    add_database(parser)
    add_open(parser)


def run_comments(context: Context, arguments: argparse.Namespace) -> int:
    """Answers `comments`."""
    database = context.database(arguments.database, Options(open=arguments.open))
    text = database.text
    if not text.assertions:
        raise NoAnswer(f"{database.name}: {NOTHING}")
    progress.now(f"looking at the comments of {database.name}")
    dead = [each for each in references(text) if text.find(each.word) is None]
    context.table(
        ("label", "line", "in", "is", "statement"),
        comment_rows(text, dead),
        f"{database.name}: no comment names a label that no axiom and no theorem has",
        "statement",
    )
    return 0


def comment_rows(text: Text, dead: list[Reference]) -> Iterator[list[Value]]:
    """A row for each label that is named and that no axiom and no theorem has."""
    hypotheses = labels_of_hypotheses(without_comments(text.data)) if dead else set()
    for each in dead:
        what = "hypothesis" if each.word in hypotheses else None
        yield [each.word, text.line(each.place), each.kind, what, each.assertion.label]


def day_due(word: str) -> str:
    """A day, the last one of a year, or today. ArgumentTypeError where the word is none."""
    return date.today().isoformat() if word == TODAY else until_day(word)


def configure_obsolete(parser: Parser) -> None:
    """The words and options of `obsolete`."""
    add_database(parser)
    about = "only what may be removed on DATE: 2021, 2021-06-30, or today"
    parser.value("--due", "DATE", about, type=day_due)
    add_choice_of_citations(parser)


def run_obsolete(context: Context, arguments: argparse.Namespace) -> int:
    """Answers `obsolete`."""
    database = context.database(arguments.database, options_of(arguments))
    text, graph = database.text, database.graph()
    if not text.assertions:
        raise NoAnswer(f"{database.name}: {NOTHING}")
    due = arguments.due
    found = [
        (one, said)
        for one in text.assertions
        if (said := obsolete(text.comment(one))).since is not None or one.label.endswith(LAST)
        if due is None or (said.until is not None and said.until <= due)
    ]
    citing = graph.citing([graph.node(one.label) for one, _ in found])
    rows: list[list[Value]] = []
    for (one, said), users in zip(found, citing.values(), strict=True):
        rows.append([one.label, said.by, said.since, said.until, len(users)])
    so = "" if due is None else f" on {due}"
    why = f"{database.name}: no statement may be removed{so}, as far as labels and comments say it"
    context.table(("label", "by", "since", "until", "citing"), rows, why, "label")
    return 0


COMMANDS = [
    Command("comments", COMMENTS_PAGE, configure_comments, run_comments, lists=True),
    Command("obsolete", OBSOLETE_PAGE, configure_obsolete, run_obsolete, lists=True),
]
