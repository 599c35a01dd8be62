"""`graph` and `picture`: the citations as files for other programs, the marks as a picture."""

import argparse
import os

from query.answers.errors import NoAnswer, shown
from query.arguments.context import Context
from query.arguments.options import (
    Parser,
    add_choice_of_axioms,
    add_choice_of_citations,
    add_database,
    add_form,
    options_of,
    positive,
)
from query.citations import subgraphs
from query.citations.graph import Graph
from query.citations.subgraphs import Part
from query.commands import Command
from query.exports.graph_files import FIGURE, Look, lines_of
from query.reports.database import Database

MOST_LANDMARKS = 1000
"""Each takes a bit at each node of the graph, and a person doesn't look at as many."""
MOST_NAMED = 10
"""So many axioms are named that a graph lacks."""

GRAPH_PAGE = """
Writes the graph of citations: an arrow leads from each theorem to what its proof applies. With
THEOREM, only what that rests on; with ON too, only the chains from THEOREM to ON. With an axiom
alone in place of THEOREM, only what rests on that. Axioms that nothing cites aren't in it.

--as dot      for `dot`, a program of Graphviz, which makes pictures of it; axioms are boxes
--as graphml  for NetworkX and Gephi; the data `kind` of a node is `axiom` or `theorem`
--as edges    a line for each citation: the theorem, a space, and what it cites

Of THEOREM's graph, --depth N has what at most N citations lead to, with all citations between
these; standard error says how much is farther away, or how far ON is. --through LABEL has only the
chains that lead through LABEL. --landmarks N has only THEOREM, ON and the N theorems in which most
of it comes together: those to whose proofs alone most is due, counted where chains part. An arrow
then stands for chains through none of the others, and there is none beside a longer way. So chains
may lead past a landmark; what all of them lead through is said by `why --unavoidable`. As DOT an
arrow is dashed where it is no citation, and each node says in which chapter it stands.

  $ mmquery graph set.mm zorn ax-ac2 --as dot
  $ mmquery graph set.mm ax-groth | dot -Tsvg > groth.svg
  $ mmquery graph set.mm stirling --landmarks 25 | dot -Tsvg > stirling.svg
"""

PICTURE_PAGE = """
Draws the marks: theorems down and axioms across, both in file order. Each dot is for as many
theorems and axioms as the others; it is black where one of these theorems rests on one of these
axioms. The picture is a PBM file (P4), or with --png a PNG file with axes and a legend: the headers
of the database beside it (labels of theorems where it has none, and of a report), and labels of
axioms above it. With --svg it is the same as an SVG file, whose lines and letters can be made
larger. The citations of a theorem are drawn by `graph`.

  $ mmquery picture set.mm --png > set.png
  $ mmquery picture set.mm --svg > set.svg
"""


def configure_graph(parser: Parser) -> None:
    """The words and options of `graph`."""
    add_database(parser)
    parser.add_argument("theorem", metavar="THEOREM", nargs="?")
    parser.add_argument("on", metavar="ON", nargs="?")
    add_form(parser, "the form of the file (else: dot)", "dot")
    parser.value("--depth", "N", "what at most N citations lead to", type=positive)
    parser.value("--through", "LABEL", "only chains that lead through LABEL")
    parser.value("--landmarks", "N", "the N theorems in which most comes together", type=positive)
    add_choice_of_citations(parser)


def run_graph(context: Context, arguments: argparse.Namespace) -> int:
    """Answers `graph`."""
    database = context.database(arguments.database, options_of(arguments))
    graph = database.graph()
    part = chosen_part(graph, arguments)
    if part.is_empty():
        context.tell(why_empty(graph, arguments))
    elif arguments.depth is not None:
        tell_cut(context, graph, arguments)
    name = arguments.theorem or os.path.basename(arguments.database)
    is_figure = arguments.form == "dot" and arguments.landmarks is not None
    looks = look(database, part, is_figure)
    lines = lines_of(part, arguments.form, name, arguments.theorem is not None, looks)
    context.out.text("".join(line + "\n" for line in lines))
    return 0


def chosen_part(graph: Graph, arguments: argparse.Namespace) -> Part:
    """The part that is asked for."""
    if is_of_no_theorem(graph, arguments):
        for option in ("depth", "through", "landmarks"):
            if getattr(arguments, option) is not None:
                raise NoAnswer(f"--{option} is about the graph of a THEOREM, so it wants one")
        if arguments.theorem is None:
            return subgraphs.whole(graph)
        return subgraphs.part_of(graph, graph.above([graph.node(arguments.theorem)]))
    end = None if arguments.on is None else graph.node(arguments.on)
    order = "THEOREM comes first, and ON behind it"
    start = graph.theorem(arguments.theorem, end, order)
    nodes = graph.below([start])
    if end is not None:
        nodes &= graph.above([end])
    if arguments.depth is not None:
        nodes &= subgraphs.within(graph, start, arguments.depth)
    nodes.add(start)
    if arguments.through is None:
        part = subgraphs.part_of(graph, nodes)
    else:
        part = subgraphs.through(graph, nodes, start, graph.node(arguments.through))
    if arguments.landmarks is not None:
        if arguments.landmarks > MOST_LANDMARKS:
            raise NoAnswer(f"--landmarks takes at most {MOST_LANDMARKS}")
        part = subgraphs.landmarks(part, start, end, arguments.landmarks)
    return part


def is_of_no_theorem(graph: Graph, arguments: argparse.Namespace) -> bool:
    """Whether the whole graph is asked for, or what rests on an axiom."""
    if arguments.theorem is None:
        return True
    return arguments.on is None and not graph.is_theorem(graph.node(arguments.theorem))


def why_empty(graph: Graph, arguments: argparse.Namespace) -> str:
    """Says why a part has no arrow."""
    if arguments.theorem is None:
        return f"{graph.name}: no theorem cites anything"
    theorem = shown(arguments.theorem)
    if is_of_no_theorem(graph, arguments):
        return f"{graph.name}: nothing rests on {theorem}"
    if arguments.on is not None and not is_above(graph, arguments.theorem, arguments.on):
        return f"{graph.name}: {theorem} doesn't rest on {shown(arguments.on)}"
    if arguments.through is not None:
        to = "" if arguments.on is None else f" to {shown(arguments.on)}"
        through = shown(arguments.through)
        return f"{graph.name}: no chain from {theorem}{to} leads through {through}"
    if arguments.on is not None:
        return f"{graph.name}: no chain from {theorem} to {shown(arguments.on)} is that short"
    return f"{graph.name}: {theorem} cites nothing"


def tell_cut(context: Context, graph: Graph, arguments: argparse.Namespace) -> None:
    """Says what the graph lacks since it is too far away: ON, some of what is on the chains to it,
    or some of what THEOREM rests on."""
    start = graph.node(arguments.theorem)
    theorem, on, depth = shown(arguments.theorem), arguments.on, arguments.depth
    farther = graph.below([start]) - subgraphs.within(graph, start, depth) - {start}
    if on is None:
        if farther:
            context.tell(
                f"{graph.name}: the graph ends behind {depth} citations: {theorem} rests on"
                f" {len(farther)} more assertions{axioms_among(graph, farther)}"
            )
        return
    end = graph.node(on)
    chain = graph.chain(start, end)
    if len(chain) - 1 > depth:
        context.tell(
            f"{graph.name}: the graph ends before {shown(on)}: a shortest chain from {theorem} has"
            f" {len(chain) - 1} citations"
        )
    elif farther & graph.above([end]):
        context.tell(
            f"{graph.name}: the graph ends behind {depth} citations: longer chains to {shown(on)}"
            " are cut"
        )


def axioms_among(graph: Graph, nodes: set[int]) -> str:
    """The axioms among some nodes, as a part of a sentence; "" where there are none."""
    axioms = [graph.labels[node] for node in sorted(nodes) if not graph.is_theorem(node)]
    more = ".." if len(axioms) > MOST_NAMED else ""
    return f", the axioms {' '.join(axioms[:MOST_NAMED])}{more} among them" if axioms else ""


def is_above(graph: Graph, theorem: str, on: str) -> bool:
    """Whether a theorem rests on an assertion."""
    return theorem != on and bool(graph.chain(graph.node(theorem), graph.node(on)))


def look(database: Database, part: Part, is_figure: bool) -> Look:
    """The look of a figure; of other graphs just nodes and arrows are shown."""
    if not is_figure:
        return Look()
    chapters: dict[int, str] = {}
    if not database.is_report:
        text = database.text
        for node in (*part.arrows, *(each for cited in part.arrows.values() for each in cited)):
            number = text.chapter_number(text.by_label[part.graph.labels[node]])
            if number is not None:
                chapters[node] = number
    return Look(FIGURE, chapters)


def configure_picture(parser: Parser) -> None:
    """The words and options of `picture`."""
    add_database(parser)
    parser.flag("--png", "a PNG file with axes and a legend")
    parser.flag("--svg", "an SVG file with axes and a legend")
    parser.exclude("--png", "--svg")
    parser.number("--across", "N", "at most N dots across", 500)
    parser.number("--down", "N", "at most N dots down", 700)
    add_choice_of_axioms(parser)


def run_picture(context: Context, arguments: argparse.Namespace) -> int:
    """Answers `picture`."""
    # It takes 7 milliseconds; the other commands of this module draw nothing.
    from query.exports.picture import Dots, drawing, layout, svg

    database = context.database(arguments.database, options_of(arguments))
    dependence = database.dependence()
    if not dependence.theorems:
        raise NoAnswer(f"{database.name}: has no theorem")
    dots = Dots(dependence, arguments.across, arguments.down)
    if arguments.png or arguments.svg:
        names = names_down(database, dependence.theorems)
        placed = layout(dots, names, arguments.across, arguments.down)
        context.out.write(svg(placed) if arguments.svg else drawing(placed))
    else:
        context.out.write(dots.pbm())
    return 0


def names_down(database: Database, theorems: list[str]) -> list[tuple[int, str]]:
    """Names on the axis of theorems, the most important first: the row, and the name."""
    found = []
    if not database.is_report:
        text = database.text
        rows = {label: row for row, label in enumerate(theorems)}
        first_row = [len(theorems)] * (len(text.assertions) + 1)
        for number in range(len(text.assertions) - 1, -1, -1):
            first_row[number] = rows.get(text.assertions[number].label, first_row[number + 1])
        for header in sorted(text.headers, key=lambda header: header.level):
            found.append((first_row[header.first], header.title))
    named = [(row, title) for row, title in found if row < len(theorems)]
    return named if found else list(enumerate(theorems))


COMMANDS = [
    Command("graph", GRAPH_PAGE, configure_graph, run_graph, ()),
    Command("picture", PICTURE_PAGE, configure_picture, run_picture, ()),
]
