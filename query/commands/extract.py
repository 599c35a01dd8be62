"""`extract`: a part of a database that is a database."""

import argparse

from query.answers.errors import NoAnswer
from query.arguments.context import Context
from query.arguments.label_files import add_list, labels_of
from query.arguments.options import Parser, add_database
from query.commands import Command
from query.exports.extraction import extract, needed_by
from query.reports.choice import Options

PAGE = """
Writes a database that has the LABELs and what they need, and nothing else: all that their proofs
name, all the way down, with the blocks, hypotheses, $d and declarations of these. Of headings and
comments only those stay that describe an assertion. The assertions are as they were, so each rests
on what it rested on before.

A syntax axiom is only there where a proof names it. So not every formula needs to have a tree, and
`definitions` may have something to say of that. More syntax axioms can be named as LABELs.

Standard error says how many theorems and axioms it has, these with those of syntax.

  $ mmquery extract set.mm id > id.mm
  $ mmquery extract set.mm zorn ax-reg > part.mm
"""


def configure(parser: Parser) -> None:
    """The words."""
    add_database(parser)
    parser.add_argument("labels", metavar="LABEL", nargs="*")
    add_list(parser)


def run(context: Context, arguments: argparse.Namespace) -> int:
    """Answers."""
    labels = labels_of(arguments)
    if not labels:
        raise NoAnswer("extract wants at least one LABEL, or a list that isn't empty")
    database = context.database(arguments.database, Options(only=None, open=True))
    database.see_text()
    wanted = [database.assertion(label) for label in labels]
    numbers, hypotheses = needed_by(database.text, wanted)
    lines = extract(database.text, numbers, hypotheses)
    context.out.write("".join(lines).encode("latin-1"))
    theorems = sum(database.text.assertions[number].kind == "p" for number in numbers)
    said = f"{counted(theorems, 'theorem')} and {counted(len(numbers) - theorems, 'axiom')}"
    context.tell(f"{database.name}: the part has {said}")
    return 0


def counted(count: int, what: str) -> str:
    """So many of something, in words."""
    return f"{count} {what}{'' if count == 1 else 's'}"


COMMANDS = [Command("extract", PAGE, configure, run, ())]
