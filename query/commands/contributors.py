"""`contributors`: how many theorems each contributor has, and since when."""

import argparse
from dataclasses import dataclass

from query.answers.errors import NoAnswer
from query.answers.output import Value
from query.arguments.context import Context
from query.arguments.options import Parser, add_database, add_open, positive
from query.commands import Command
from query.reports.choice import Options
from query.reports.database import NOTHING
from query.texts.contributed import contributed

PAGE = """
Counts the theorems of each contributor, as comments name them: (Contributed by N, 5-Aug-1993.). Who
has most comes first; equal ones are in file order of their first theorem. A name is what stands
there, so who is named in two ways has two rows.

theorems     how many theorems are theirs
first        the earliest day of these, as 1993-08-05; nothing where no comment has one
last         the latest day
contributor  the name; nothing for all theorems whose comments name nobody

The filters choose which theorems are counted. Whose a theorem is, is told by `proofs`.

  $ mmquery contributors set.mm
  $ mmquery contributors set.mm --main --most 5
"""
COLUMNS = ("theorems", "first", "last", "contributor")


@dataclass
class Share:
    """What a contributor has."""

    theorems: int = 0
    first: str | None = None
    last: str | None = None

    def add(self, day: str | None) -> None:
        """One theorem more, of this day."""
        self.theorems += 1
        if day is not None:
            self.first = min(self.first or day, day)
            self.last = max(self.last or day, day)


def configure(parser: Parser) -> None:
    """Adds the words and options."""
    add_database(parser)
    parser.value("--most", "N", "only the N who have most (else: all)", type=positive)
    add_open(parser)


def run(context: Context, arguments: argparse.Namespace) -> int:
    """Answers."""
    database = context.database(arguments.database, Options(open=arguments.open))
    text = database.text
    if not text.assertions:
        raise NoAnswer(f"{database.name}: {NOTHING}")
    theorems = [one for one in text.assertions if one.kind == "p"]
    passes = context.test()
    shares: dict[str | None, Share] = {}
    for one in theorems:
        if passes(one.label):
            name, day = contributed(text.comment(one))
            shares.setdefault(name, Share()).add(day)
    ranked = sorted(shares.items(), key=lambda pair: -pair[1].theorems)
    rows: list[list[Value]] = [
        [share.theorems, share.first, share.last, name] for name, share in ranked
    ]
    which = " that passes the filters" if theorems else ""
    why = f"{database.name}: has no theorem{which}"
    context.table(COLUMNS, context.first(rows, arguments.most), why)
    return 0


COMMANDS = [Command("contributors", PAGE, configure, run, lists=True)]
