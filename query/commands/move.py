"""`move`: what has to go along where a theorem is moved, and which theorems may be moved as they
are."""

import argparse

from query.answers.errors import NoAnswer
from query.answers.output import Value
from query.arguments.context import Context
from query.arguments.options import Parser, add_database, add_open, options_of
from query.citations.crossing import fit_before, last_cited
from query.citations.graph import Graph
from query.commands import Command
from query.texts.assertions import Assertion
from query.texts.text import Text

MOVE_PAGE = """
Shows what has to go along where THEOREM is moved, in file order.

what   after: THEOREM may stand right behind this one, the last of those that its proof cites;
       there is none where it cites nothing
       needs: with --to PLACE, THEOREM rests on this one, which stands at PLACE or behind it
       user: with --to PLACE, this theorem rests on THEOREM, and stands before PLACE
label  which assertion
where  the mathbox in which it stands, or else the number of its header
line   that on which the label stands

PLACE is the assertion before which THEOREM is to stand. What it needs goes before PLACE with it;
users go behind PLACE with it. These are the citations alone: the variables of THEOREM, and
hypotheses of blocks, have to be declared there too.

With --ready PLACE, and no THEOREM, it lists in file order the theorems behind PLACE that may stand
right before it as they are, each by itself: their proofs cite nothing that stands at PLACE or
behind it, and they have no symbol that is declared there, but for variables. PLACE itself isn't
among them. The filters choose which of them are listed.

theorem  the label of the theorem
after    the last of those that its proof cites; nothing where it cites nothing
where    the mathbox in which the theorem stands, or else the number of its header
line     that on which its label stands

  $ mmquery move set.mm zorn
  $ mmquery move set.mm zorn --to ax-ac2
  $ mmquery move set.mm --ready ax-ac2 --main
"""


def configure_move(parser: Parser) -> None:
    """The words and options of `move`."""
    add_database(parser)
    parser.add_argument("theorem", metavar="THEOREM", nargs="?")
    parser.exclude("--to", "--ready")
    parser.value("--to", "PLACE", "THEOREM is to stand right before PLACE")
    parser.value("--ready", "PLACE", "the theorems behind PLACE that may stand right before it")
    add_open(parser)


def run_move(context: Context, arguments: argparse.Namespace) -> int:
    """Answers `move`."""
    see_words(context, arguments)
    database = context.database(arguments.database, options_of(arguments))
    graph, text = database.graph(), database.text
    if arguments.ready is not None:
        put_ready(context, graph, text, database.assertion(arguments.ready))
        return 0
    theorem = graph.theorem(arguments.theorem)
    rows: list[list[Value]] = [["after", *row_of(text, last_cited(graph, text, theorem))]]
    if arguments.to is not None:
        target = database.assertion(arguments.to)
        rows += [[what, *row_of(text, one)] for what, one in along(graph, text, theorem, target)]
    context.out.table(["what", "label", "where", "line"], rows)
    return 0


def see_words(context: Context, arguments: argparse.Namespace) -> None:
    """NoAnswer where neither a theorem nor a list is asked for, or both are."""
    if arguments.ready is not None and arguments.theorem is not None:
        raise NoAnswer(
            "--ready lists all theorems that are ready, so move takes no THEOREM with it"
        )
    if arguments.ready is None and arguments.theorem is None:
        raise NoAnswer("move wants THEOREM, or --ready PLACE")
    if arguments.ready is None and context.filters.are_given:
        raise NoAnswer("the filters are for --ready: what goes along with THEOREM is told whole")


def put_ready(context: Context, graph: Graph, text: Text, place: Assertion) -> None:
    """Lists the theorems that may stand right before a place as they are."""
    rows: list[list[Value]] = []
    for node in fit_before(graph, text, place):
        last = last_cited(graph, text, node)
        label, *where = row_of(text, text.by_label[graph.labels[node]])
        rows.append([label, None if last is None else last.label, *where])
    why = f"{graph.name}: no theorem behind {place.label} may stand before it as it is"
    context.table(["theorem", "after", "where", "line"], rows, why, "theorem")


def row_of(text: Text, one: Assertion | None) -> list[Value]:
    """The label of an assertion, where it stands, and its line."""
    if one is None:
        return [None, None, None]
    where = text.mathbox(one) or text.chapter_number(one)
    return [one.label, where, text.line(one.place)]


def along(graph: Graph, text: Text, theorem: int, target: Assertion) -> list[tuple[str, Assertion]]:
    """What goes along with a theorem to before an assertion, in file order."""
    own = text.by_label[graph.labels[theorem]].number
    if target.number <= own:
        what, nodes = "needs", graph.below([theorem])
    else:
        what, nodes = "user", graph.above([theorem])
    found = [text.by_label[graph.labels[node]] for node in nodes - {theorem}]
    stretch = range(min(target.number, own), max(target.number, own))
    return [
        (what, one) for one in sorted(found, key=lambda one: one.number) if one.number in stretch
    ]


COMMANDS = [Command("move", MOVE_PAGE, configure_move, run_move, lists=True)]
