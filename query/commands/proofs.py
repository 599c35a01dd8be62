"""`proofs`: how long proofs are, how deep the theorems stand, and whose they are."""

import argparse
from collections.abc import Sequence

from query.answers.output import Value
from query.arguments.context import Context
from query.arguments.options import Parser, add_choice_of_citations, add_database, options_of
from query.commands import Command
from query.proofs.expanded import LIMIT, TOO_LONG, Expanded
from query.proofs.lengths import lengths
from query.texts.contributed import Contributed, contributed
from query.texts.text import Text

PAGE = """
Lists in file order how long the proofs of the LABELs are. Without a LABEL, the theorems that have
most of what --by names, the largest first.

steps        of the proof as it stands in the text: its labels, or the numbers of a compressed one
depth        of the longest chain of citations down from it: 1 where it cites only axioms, or
             nothing
bytes        between $= and $.
theorem      the label of the theorem
contributor  who contributed it, as its comment says: (Contributed by N, 5-Aug-1993.)
contributed  and when, as 1993-08-05
expanded     with --expanded: how many steps the proof would have if all theorems that it cites were
             expanded down to axioms, as metamath.exe's `show trace_back T /count_steps` counts

A hypothesis and an axiom are one step, and so is what builds a formula. A theorem counts as many as
its own proof, less one for each of its hypotheses, floating ones too, since the steps for these
stand before it. What repeats a marked step of a compressed proof counts nothing. In place of a
number of more than a thousand digits it says `more than 1000 digits`, also where a theorem below
has such a one. --by expanded counts the steps of all theorems, and has the column too.

With --essential the depth is that by the logical part of proofs. Steps and bytes are those of the
text, with what builds formulas, and stay as they are; `steps` lists the logical steps alone.

How many theorems each contributor has is told by `contributors`.

  $ mmquery proofs set.mm --most 5
  $ mmquery proofs set.mm --by depth --main
  $ mmquery proofs set.mm 2p2e4
  $ mmquery proofs set.mm 2p2e4 --expanded
  $ mmquery uncited set.mm --main >labels; mmquery proofs set.mm --among labels --most 999999
"""
COLUMNS: tuple[str, ...] = ("steps", "depth", "bytes", "theorem", "contributor", "contributed")
EXPANDED = "expanded"


def configure(parser: Parser) -> None:
    """Adds the words and options."""
    add_database(parser)
    parser.add_argument("labels", metavar="LABEL", nargs="*")
    parser.add_argument(
        "--by", choices=(*COLUMNS[:3], EXPANDED), default="steps", help="of what most (else: steps)"
    )
    parser.number("--most", "N", "without LABEL: how many", 10)
    parser.flag("--expanded", "the steps too if all were expanded down to axioms")
    add_choice_of_citations(parser)


def run(context: Context, arguments: argparse.Namespace) -> int:
    """Answers."""
    database = context.database(arguments.database, options_of(arguments))
    graph = database.graph()
    wanted = {graph.labels[graph.theorem(label)] for label in arguments.labels}
    found = lengths(database.text, graph)
    rows: list[list[Value]] = []
    for label, each in found.items():
        if label in wanted or not arguments.labels:
            rows.append([each.steps, each.depth, each.size, label])
    if not rows:
        context.tell(f"{database.name}: has no theorem with a proof")
    expanded = Expanded(database.text)
    passing = context.passing(rows, 3)
    if not arguments.labels:
        ranked = sorted(passing, key=lambda row: -rank_of(row, arguments.by, expanded))
        passing = [*context.first(ranked, arguments.most)]
    told: list[list[Value]] = [[*row, *whose(database.text, str(row[3]))] for row in passing]
    columns = COLUMNS
    if arguments.expanded or arguments.by == EXPANDED:
        columns = (*COLUMNS, EXPANDED)
        for row in told:
            count = expanded.count(str(row[3]))
            row.append(TOO_LONG if count is None else count)
    context.out.table(columns, told)
    return 0


def rank_of(row: Sequence[Value], by: str, expanded: Expanded) -> int:
    """How much of something a theorem has. A number that isn't told is larger than all others."""
    if by != EXPANDED:
        return int(str(row[COLUMNS.index(by)]))
    count = expanded.count(str(row[3]))
    return LIMIT if count is None else count


def whose(text: Text, label: str) -> Contributed:
    """Who contributed a theorem, and when."""
    return contributed(text.comment(text.by_label[label]))


COMMANDS = [Command("proofs", PAGE, configure, run, lists=True)]
