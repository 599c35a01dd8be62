"""`cites`, `cited-by` and `uncited`: direct citations."""

import argparse
from collections import Counter

from query.answers.errors import shown
from query.answers.output import Value
from query.arguments.context import Context
from query.arguments.label_files import labels_like
from query.arguments.options import (
    Parser,
    add_choice_of_citations,
    add_database,
    options_of,
    positive,
)
from query.citations.graph import Graph
from query.commands import Command
from query.texts.discouraged import is_discouraged
from query.texts.text import Text

CITES_PAGE = """
Lists in file order what the proof of LABEL itself applies, axioms and theorems of every typecode.
An axiom cites nothing. With --on, only what is that assertion or rests on it: the citations that
bring it in.

theorem  who cites it, one of the LABELs
cited    what is cited

  $ mmquery cites set.mm zorn --essential
  $ mmquery cites set.mm zorn --on ax-ac2
"""

CITED_BY_PAGE = """
Lists in file order the theorems whose proof itself applies LABEL. A LABEL may be a pattern, in
which * is anything and ? any character: then it is each theorem and axiom like that.

theorem  who cites it
cited    what is cited, one of the LABELs

Proofs alone cite. On which lines comments name a theorem, as ~ LABEL or in a $j, is told by `drop`,
and which labels in comments no statement has, as after a label was changed, by `comments`.

  $ mmquery cited-by set.mm ax-ac2
  $ mmquery cited-by set.mm '*OLD'
"""

UNCITED_PAGE = """
Lists in file order the theorems that no other one cites. With --not-discouraged, only those that
may be cited: whose comment doesn't say (New usage is discouraged.). With --outside-mathboxes, what
a mathbox cites counts as not cited, so that what is cited in mathboxes alone is listed too. Axioms
on which nothing rests are listed by `top --below 1`, which has the option --outside-mathboxes too.

theorem  the label of the theorem

With --at-most N, the theorems that N others or fewer cite:

citing   how many cite it
theorem  the label of the theorem

  $ mmquery uncited set.mm
  $ mmquery uncited set.mm --main --not-discouraged
  $ mmquery uncited set.mm --at-most 1
"""


PAIRS = ["theorem", "cited"]


def configure_cites(parser: Parser) -> None:
    """The words and options of `cites`."""
    add_database(parser)
    parser.add_argument("labels", metavar="LABEL", nargs="+")
    parser.value("--on", "LABEL", "only what is the axiom or theorem LABEL, or rests on it")
    add_choice_of_citations(parser)


def run_cites(context: Context, arguments: argparse.Namespace) -> int:
    """Answers `cites`."""
    graph = context.database(arguments.database, options_of(arguments)).graph()
    nodes = [graph.node(label) for label in dict.fromkeys(arguments.labels)]
    above = None if arguments.on is None else graph.above([graph.node(arguments.on)])
    rows = [
        [graph.labels[node], graph.labels[cited]]
        for node in nodes
        for cited in graph.cites[node]
        if above is None or cited in above
    ]
    names = shown(", ".join(arguments.labels))
    why = f"{graph.name}: {names}: cites nothing"
    if arguments.on is not None:
        why += f" that rests on {shown(arguments.on)}"
    aside = ["theorem"] if len(nodes) == 1 else []
    context.table(PAIRS, rows, why, "cited", aside)
    return 0


def configure_cited_by(parser: Parser) -> None:
    """The words and options of `cited-by`."""
    add_database(parser)
    parser.add_argument("labels", metavar="LABEL", nargs="+")
    add_choice_of_citations(parser)


def run_cited_by(context: Context, arguments: argparse.Namespace) -> int:
    """Answers `cited-by`."""
    graph = context.database(arguments.database, options_of(arguments)).graph()
    labels = labels_like(arguments.labels, graph.labels, graph.name)
    nodes = [graph.node(label) for label in labels]
    rows = [
        [graph.labels[user], graph.labels[node]]
        for node, users in graph.citing(nodes).items()
        for user in users
    ]
    why = f"{graph.name}: no theorem cites {shown(' or '.join(arguments.labels))}"
    is_of_one = len(labels) == 1 and labels == arguments.labels
    context.table(PAIRS, rows, why, "theorem", ["cited"] if is_of_one else [])
    return 0


def configure_uncited(parser: Parser) -> None:
    """The words and options of `uncited`."""
    add_database(parser)
    parser.flag("--not-discouraged", "only those whose new usage isn't discouraged")
    parser.flag("--outside-mathboxes", "those that nothing outside of mathboxes cites")
    parser.value("--at-most", "N", "those that at most N theorems cite", type=positive)
    add_choice_of_citations(parser)


def run_uncited(context: Context, arguments: argparse.Namespace) -> int:
    """Answers `uncited`."""
    database = context.database(arguments.database, options_of(arguments))
    graph, most = database.graph(), arguments.at_most or 0
    if arguments.outside_mathboxes:
        counts = counts_outside(graph, database.text)
    else:
        counts = Counter(graph.cites.targets)
    nodes = [node for node in range(graph.theorems) if counts[node] <= most]
    which = f"that at most {most} cite" if most else "that nobody cites"
    if arguments.not_discouraged:
        text = database.text
        ones = [text.by_label[graph.labels[node]] for node in nodes]
        nodes = [node for node, one in zip(nodes, ones) if not is_discouraged(text, one)]
        which += " and that may be cited"
    rows: list[list[Value]] = [[counts[node], graph.labels[node]] for node in nodes]
    why = f"{graph.name}: there is no theorem {which}"
    if most:
        context.table(["citing", "theorem"], rows, why, "theorem")
    else:
        context.table(["theorem"], [row[1:] for row in rows], why, "theorem")
    return 0


def counts_outside(graph: Graph, text: Text) -> Counter[int]:
    """By how many theorems that stand in no mathbox each node is cited."""
    found: Counter[int] = Counter()
    for node in range(graph.theorems):
        if text.box(text.by_label[graph.labels[node]]) is None:
            found.update(graph.cites[node])
    return found


COMMANDS = [
    Command("cites", CITES_PAGE, configure_cites, run_cites, lists=True),
    Command("cited-by", CITED_BY_PAGE, configure_cited_by, run_cited_by, lists=True),
    Command("uncited", UNCITED_PAGE, configure_uncited, run_uncited, lists=True),
]
