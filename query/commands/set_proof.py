"""`set-proof`: a database with the proof of one theorem in place of another's."""

import argparse

from query.answers.errors import NoAnswer, shown
from query.arguments.context import Context
from query.arguments.options import Parser, add_database
from query.commands import Command
from query.reports.choice import Options
from query.texts.uncommented import Stretch, proof_of, without_comments

PAGE = """
Writes the database with the proof of OTHER in place of that of THEOREM, or with ? where OTHER is ?.
Nothing else is changed. What comes out is there to try things with, and it may be invalid: so the
database may have open theorems and wrong proofs, and `set-proof` takes what it wrote.

  $ mmquery set-proof set.mm r1pw r1pwALT > new.mm
  $ mmquery set-proof set.mm numth3 '?' > open.mm
"""


def configure(parser: Parser) -> None:
    """The words."""
    add_database(parser)
    parser.add_argument("theorem", metavar="THEOREM")
    parser.add_argument("other", metavar="OTHER")


def found_proof(text: bytes, name: str, label: str) -> Stretch:
    """Where the proof of a theorem stands. NoAnswer where there is no such theorem."""
    found = proof_of(text, label)
    if found is None:
        raise NoAnswer(f"{name}: has no theorem '{shown(label)}'")
    return found


def run(context: Context, arguments: argparse.Namespace) -> int:
    """Answers."""
    database = context.database(arguments.database, Options(only=None, open=True))
    data = database.data()
    database.see_statements()
    text = without_comments(data)
    start, end = found_proof(text, database.name, arguments.theorem)
    given = b" ? "
    if arguments.other != "?":
        first, last = found_proof(text, database.name, arguments.other)
        given = data[first:last]
    context.out.write(data[:start] + given + data[end:])
    return 0


COMMANDS = [Command("set-proof", PAGE, configure, run, ())]
