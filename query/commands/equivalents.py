"""`equivalents`: which statements give an axiom back."""

import argparse
from collections.abc import Iterable, Iterator

from query.answers.errors import NoAnswer
from query.answers.output import Value
from query.arguments.context import Context
from query.arguments.options import (
    Parser,
    add_choice_of_axioms,
    add_database,
    between_commas,
    options_of,
)
from query.citations.graph import Graph
from query.citations.wrappers import Kind, wrappers
from query.commands import Command
from query.definitions.foundations import BEGINNING
from query.formulas.equivalents import Found, Links, Search
from query.formulas.restated import restated
from query.reports.database import Database

PAGE = """
Lists which statements, added to the database without AX, give AX back: those from which links lead
to AX, the fewest first. A link is an assertion that doesn't rest on AX: of the form ( S -> F ),
( S <-> F ) or, with a $e, F from S. Statements are the same that differ in the names of variables
alone, or in quantifiers before all. AX may be a theorem too. What another axiom proves without AX,
as ax-ac2 does for ax-ac, counts as proved; --without ax-ac2 gives that axiom up too.

how        equivalent: AX gives it
           stronger: it isn't known that AX gives it; it may even be false
           proved: an assertion states it that rests on nothing that is given up, so the others
           give AX; label is such an assertion then. Standard error names the first one, and which
           axiom to give up besides, so that what it proves is told as equivalent
label      an assertion that states it; nothing where there is none
by         the links from the statement to AX; nothing where it says what AX says
from       how AX gives it: what states it, or the links from AX to it
statement  what it says
rests      the axioms on which all these rest, besides AX, and if AX is a theorem besides those on
           which it rests itself; in the form text only with an option that chooses axioms

Of distinct variables neither a link may ask more than AX does, nor an assertion that states what
leads to AX. What isn't said by such links isn't found. Where no row has a link, so that all only
restate AX, standard error says so, and also through which theorems all chains from one of them to
AX lead: a proof of these without AX would prove AX.

Without AX, it lists in file order the axioms that an assertion states which doesn't rest on them.
Each of these could be left out by itself, but maybe not all of them: what states one may rest on
another one. Here only the names of variables may differ, and of assertions that say the same the
first 1,000 are looked at.

axiom  the label of the axiom
label  that of the first such assertion, which may be an axiom too

  $ mmquery equivalents set.mm ax-ac2
  $ mmquery equivalents set.mm ax-ac2 --axioms ax-
  $ mmquery equivalents set.mm ax-ac --without ax-ac2
  $ mmquery equivalents nf.mm
"""
COLUMNS = ("how", "label", "by", "from", "statement", "rests")


def configure(parser: Parser) -> None:
    """Adds the words and options."""
    add_database(parser)
    parser.add_argument("axiom", metavar="AX", nargs="?")
    parser.values("--without", "LABEL", "gives up LABEL too; several: by commas, or more options")
    add_choice_of_axioms(parser)


def run(context: Context, arguments: argparse.Namespace) -> int:
    """Answers."""
    database = context.database(arguments.database, options_of(arguments))
    if arguments.axiom is None:
        if arguments.without:
            raise NoAnswer("--without is about what gives AX back, so it wants AX")
        return put_restated(context, database)
    graph = database.graph()
    others = [each for each in between_commas(arguments.without) if each != arguments.axiom]
    lost = labels_above(graph, others)
    bound = labels_above(graph, [arguments.axiom]) | lost
    assertions = database.text.assertions
    links = Links(assertions, [one.label not in bound for one in assertions])
    given_up = [one.label in lost for one in assertions]
    search = Search(links, database.assertion(arguments.axiom), given_up)
    rows = [row_of(database, search, each) for each in search.found()]
    is_chosen = arguments.only or arguments.all or arguments.axioms or arguments.ignore_definitions
    why = f"{database.name}: no statement is found that gives {arguments.axiom} back"
    context.table(COLUMNS, rows, why, aside=[] if is_chosen else ["rests"])
    said = [*told_of_proved(database, rows, arguments.axiom, others)]
    said += told_of_links(database, rows, arguments.axiom)
    if said:
        context.tell(f"{database.name}: {'; '.join(said)}")
    return 0


def put_restated(context: Context, database: Database) -> int:
    """Lists the axioms that could be left out since something else states them."""
    database.see_text()
    dependence = database.dependence()
    columns = dependence.columns

    def rests(label: str, axiom: str) -> bool:
        """Whether an assertion rests on an axiom. An axiom has no row, and rests on none."""
        row = dependence.rows.get(label)
        return row is not None and dependence.is_marked(row, columns[axiom])

    pairs = restated(database.text.assertions, columns, rests)
    rows: list[list[Value]] = [[axiom.label, one.label] for axiom, one in pairs]
    why = f"{database.name}: no assertion states an axiom on which it doesn't rest"
    context.table(("axiom", "label"), rows, why)
    return 0


def told_of_proved(
    database: Database, rows: list[list[Value]], axiom: str, others: list[str]
) -> Iterator[str]:
    """That what isn't given up proves the axiom, where it does."""
    proved = next((str(row[1]) for row in rows if row[0] == "proved"), None)
    if proved is not None:
        named = ",".join([*others, *last_below(database, proved, axiom)])
        advice = f"; --without {named} gives more of them up" if named else ""
        yield f"the others give {axiom}, by {proved}{advice}"


def told_of_links(database: Database, rows: list[list[Value]], axiom: str) -> Iterator[str]:
    """That all which is found says what the axiom says, where no row has a link; and then what all
    chains from such a theorem to the axiom lead through."""
    if not rows or any(row[COLUMNS.index("by")] for row in rows):
        return
    yield (
        f"only restatements are found: no link leads to {axiom} from another statement, and"
        " proofs that are more than chains of links aren't looked for"
    )
    graph = database.graph()
    kinds = wrappers(graph, database.text, graph.node(axiom))
    labels = [graph.labels[node] for node, kind in kinds.items() if kind is Kind.GIVES_BACK]
    if labels:
        yield Kind.GIVES_BACK.said(labels, axiom)


def labels_above(graph: Graph, labels: Iterable[str]) -> set[str]:
    """These labels, and those of all theorems that rest on one of them."""
    return {graph.labels[node] for node in graph.above(map(graph.node, labels))}


def last_below(database: Database, label: str, axiom: str) -> list[str]:
    """What is likeliest to say as much as the axiom that is asked about, which this assertion says:
    itself, or the last axiom without a `$e` on which it rests, no definition if it can be helped;
    nothing where there is none."""
    text = database.text
    if text.by_label[label].kind == "a":
        return [label]
    rests = rests_of(database, {label}, axiom)
    rests = [each for each in rests if not text.by_label[each].frame().essential()]
    return ([each for each in rests if not each.startswith(BEGINNING)] or rests)[-1:]


def row_of(database: Database, search: Search, found: Found) -> list[Value]:
    """A row of the answer."""
    way, stated = found.way, found.stated
    how = "proved" if found.is_proved else "stronger" if way is None else "equivalent"
    label = None if stated is None else stated.label
    given = list(way.labels) if way is not None else []
    rests = rests_of(database, {*found.by, *found.rules, *given}, search.axiom.label)
    return [how, label, list(found.by), given, found.formula, rests]


def rests_of(database: Database, labels: set[str], axiom: str) -> list[str]:
    """The axioms on which assertions rest, but for one of them, or if that is a theorem for those
    on which it rests."""
    columns = columns_below(database, labels) - columns_below(database, {axiom})
    return [database.dependence().axioms[each] for each in sorted(columns)]


def columns_below(database: Database, labels: set[str]) -> set[int]:
    """The columns of the axioms on which assertions rest, or which they are."""
    dependence = database.dependence()
    columns: set[int] = set()
    for label in labels:
        if label in dependence.rows:
            columns.update(dependence.rests(dependence.rows[label]))
        elif label in dependence.columns:
            columns.add(dependence.columns[label])
    return columns


COMMANDS = [Command("equivalents", PAGE, configure, run)]
