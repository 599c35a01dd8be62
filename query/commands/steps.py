"""`steps`: a proof, step by step."""

import argparse

from query.answers.output import Value
from query.arguments.context import Context
from query.arguments.options import Parser, add_database, add_open
from query.commands import Command
from query.proofs.steps import steps_of
from query.reports.choice import Options

PAGE = """
Shows the proof of THEOREM step by step: what is applied to which steps before, and what comes of
it. The last step says what THEOREM says.

step        the number of the step, from 1
hypotheses  the numbers of the steps that stand for the hypotheses of what is applied, in their
            order; none where it has no hypotheses
label       what is applied: an axiom, a theorem or a hypothesis; @N where the step N is repeated
formula     what comes of it

These are the logical steps, numbered as by metamath.exe's `show proof THEOREM /lemmon /renumber`.
With --all, also those that build formulas, numbered as by `show proof THEOREM /lemmon /all`, and as
in what `verify` says of a wrong step. How long proofs are is told by `proofs`.

  $ mmquery steps set.mm id
  $ mmquery steps set.mm id --all
"""
COLUMNS = ("step", "hypotheses", "label", "formula")


def configure(parser: Parser) -> None:
    """Adds the words and options."""
    add_database(parser)
    parser.add_argument("theorem", metavar="THEOREM")
    parser.flag("--all", "also the steps that build formulas")
    add_open(parser)


def run(context: Context, arguments: argparse.Namespace) -> int:
    """Answers."""
    database = context.database(arguments.database, Options(open=arguments.open))
    theorem = database.assertion(arguments.theorem)
    if not theorem.is_open:
        database.graph().theorem(theorem.label)
    rows: list[list[Value]] = []
    for step in steps_of(database.text, theorem, arguments.all):
        hypotheses = [str(number) for number in step.hypotheses]
        rows.append([step.number, hypotheses, step.label, " ".join(step.formula)])
    context.out.table(COLUMNS, rows)
    return 0


COMMANDS = [Command("steps", PAGE, configure, run)]
