"""`rests` and `falls`: on what assertions rest, and what rests on them."""

import argparse
from collections.abc import Container, Iterable, Mapping, Sequence
from dataclasses import replace

from query.answers.errors import NoAnswer, shown
from query.answers.output import Value
from query.arguments.context import Context
from query.arguments.filters import header_of, listed
from query.arguments.options import Parser, add_choice_of_axioms, add_database, options_of
from query.citations.bits import bits_of
from query.commands import Command
from query.platform import progress
from query.reports.database import Database, Dependence

RESTS_PAGE = """
Lists in file order the axioms on which the proofs of the LABELs rest: those that a proof applies,
and those of the theorems that it applies. An axiom rests on itself.

axiom    the label of the axiom
labels   which of the LABELs rest on it

With --theorems, the theorems on which they rest instead:

theorem  the label of the theorem
labels   which of the LABELs rest on it

With --apart, the axioms of every typecode, those of one typecode (|- or that of --only) apart:

kind     logic: an axiom of this typecode; syntax: another one
axiom    the label of the axiom
labels   which of the LABELs rest on it

  $ mmquery rests set.mm 2p2e4 --axioms ax-
  $ mmquery rests --all set.mm 2p2e4
  $ mmquery rests --apart set.mm 2p2e4
"""

FALLS_PAGE = """
Lists in file order the theorems that rest on the LABELs, axioms or theorems: those whose proofs
have to be found anew where a LABEL is dropped. A theorem doesn't rest on itself.

theorem  the label of the theorem
labels   on which of the LABELs it rests

With --only or --axioms, a LABEL that is an axiom has to be one of those. With several LABELs, what
rests on any one of them (--any-of, the default), or on each of them (--all-of). --without LABEL
leaves out what rests on that one too; it may be given several times.

Without a LABEL, --under HEADER is no filter: it says what is dropped, all axioms and theorems that
the header of this number, title or part of a title has below it. What outside of it falls is
listed, by one search for all of them:

theorem  the label of the theorem
cited    what of the header its own proof cites; none where it rests on it by other theorems alone

With --count, how many these are in place of the list: a row for each LABEL, in the order in which
they are given, and with several a last row for all of them together, which tells how many rest on
any one of them, or with --all-of on each of them. The filters choose which theorems are counted.

theorems  how many theorems rest on it
labels    which of the LABELs: one, or in the last row all; with a single one the form text leaves
          it out; with --under and no LABEL there is no such column

  $ mmquery falls set.mm ax-ac2
  $ mmquery falls set.mm ax-reg ax-inf2 --all-of
  $ mmquery falls set.mm ax-reg --without ax-ac2
  $ mmquery falls set.mm ax-reg ax-ac2 --count --main
  $ mmquery falls set.mm --under 'hilbert space explorer'
"""


def add_question(parser: Parser, flags: dict[str, str], least: str = "+") -> None:
    """Adds DATABASE and LABELs, and options of which one may be given, each with its help."""
    add_database(parser)
    parser.add_argument("labels", metavar="LABEL", nargs=least)
    parser.exclude(*flags)
    for flag, about in flags.items():
        parser.flag(flag, about)


def configure_rests(parser: Parser) -> None:
    """The words and options of `rests`."""
    flags = {
        "--theorems": "list theorems instead of axioms",
        "--apart": "list all axioms, logic and syntax apart",
    }
    add_question(parser, flags)
    add_choice_of_axioms(parser)


def run_rests(context: Context, arguments: argparse.Namespace) -> int:
    """Answers `rests`."""
    database = context.database(arguments.database, options_of(arguments))
    labels = list(dict.fromkeys(arguments.labels))
    names = shown(" ".join(labels))
    if arguments.theorems:
        rows = union(theorems_below(database, label) for label in labels)
        why = f"{database.name}: {names}: rests on no theorem"
        put_union(context, "theorem", database.graph().labels, rows, labels, why)
    elif arguments.apart:
        put_apart(context, database, labels)
    else:
        dependence = database.dependence()
        rows = union(rested_on(database, dependence, label) for label in labels)
        why = f"{database.name}: {names}: rests on no axiom{chosen_of(database)}"
        put_union(context, "axiom", dependence.axioms, rows, labels, why)
    return 0


def theorems_below(database: Database, label: str) -> list[int]:
    """The nodes of the theorems on which an assertion rests. NoAnswer where there is none of this
    label."""
    graph = database.graph()
    below = graph.below(graph.cites[graph.node(label)])
    return [node for node in below if graph.is_theorem(node)]


def union(several: Iterable[Iterable[int]]) -> dict[int, list[int]]:
    """The numbers that are in one of several collections, rising, each with the places of those
    that have it."""
    found: dict[int, list[int]] = {}
    for place, numbers in enumerate(several):
        for number in numbers:
            found.setdefault(number, []).append(place)
    return dict(sorted(found.items()))


def put_union(
    context: Context,
    column: str,
    known: Sequence[str],
    rows: Mapping[int, Sequence[int]],
    labels: Sequence[str],
    empty: str,
    are_all: bool = False,
) -> None:
    """Answers with numbers of what is known, each with the LABELs to which it belongs; `are_all`
    says that these are all of them on each line."""
    table: list[list[Value]] = []
    for number, of in rows.items():
        table.append([known[number], [labels[number] for number in of]])
    context.table([column, "labels"], table, empty, column, aside_of(labels, are_all))


def aside_of(labels: Sequence[str], are_all: bool = False) -> list[str]:
    """What the form `text` leaves out: the LABELs where they are the same on each line."""
    return ["labels"] if are_all or len(labels) == 1 else []


def chosen_of(database: Database) -> str:
    """Which axioms are asked for, as the end of a sentence that says that there are none."""
    options = database.options
    which = database.which()
    if options.axioms or options.ignore_definitions:
        return f"{which} that the options choose"
    return f"{which}; --all counts every axiom" if which else ""


def put_apart(context: Context, database: Database, labels: Sequence[str]) -> None:
    """Answers `rests --apart`."""
    logic = set(database.dependence().axioms)
    database.see_text()  # the axioms of a report can't be told apart
    every = replace(database, options=replace(database.options, only=None))
    dependence = every.dependence()
    rows: list[list[Value]] = []
    for column, of in union(rested_on(every, dependence, label) for label in labels).items():
        axiom = dependence.axioms[column]
        kind = "logic" if axiom in logic else "syntax"
        rows.append([kind, axiom, [labels[number] for number in of]])
    why = f"{database.name}: {shown(' '.join(labels))}: rests on no axiom"
    context.table(["kind", "axiom", "labels"], rows, why, "axiom", aside_of(labels))


def rested_on(database: Database, dependence: Dependence, label: str) -> Sequence[int]:
    """The columns on which an assertion rests. NoAnswer where there is none of this label."""
    if label in dependence.rows:
        return dependence.rests(dependence.rows[label])
    if label in dependence.columns:
        return [dependence.columns[label]]
    database.graph().see(label)
    return []


def configure_falls(parser: Parser) -> None:
    """The words and options of `falls`."""
    flags = {
        "--any-of": "what rests on one of the LABELs (the default)",
        "--all-of": "what rests on each of the LABELs",
    }
    add_question(parser, flags, "*")
    parser.values("--without", "LABEL", "leave out what rests on LABEL; may be given several times")
    parser.flag("--count", "how many these are, for each LABEL and for all together")
    add_choice_of_axioms(parser)


def run_falls(context: Context, arguments: argparse.Namespace) -> int:
    """Answers `falls`."""
    database = context.database(arguments.database, options_of(arguments))
    if not arguments.labels:
        put_outside(context, database, arguments)
        return 0
    if arguments.only is not None or arguments.axioms or arguments.ignore_definitions:
        for label in arguments.labels:
            if label not in database.content.theorems:
                database.dependence().see_axiom(label)
    labels = list(dict.fromkeys(arguments.labels))
    on = without(resting_on(database, labels), resting_on(database, arguments.without))
    if arguments.count:
        put_counts(context, database, labels, on, arguments.all_of)
        return 0
    least = len(labels) if arguments.all_of else 1
    rows = {row: [*bits_of(of)] for row, of in on.items() if of.bit_count() >= least}
    word = "each" if arguments.all_of else "any"
    names = shown(", ".join(labels))
    which = names if len(labels) == 1 else f"{word} of {names}"
    left = " that the options leave" if arguments.without else ""
    why = f"{database.name}: no theorem{left} rests on {which}"
    theorems = database.content.theorems
    put_union(context, "theorem", theorems, rows, labels, why, arguments.all_of)
    return 0


def put_counts(
    context: Context,
    database: Database,
    labels: list[str],
    on: Mapping[int, int],
    is_all: bool,
) -> None:
    """Answers with how many of the theorems that pass the filters rest on each label, and behind
    several how many rest on all of them, or on any one."""
    theorems, passes = database.content.theorems, context.test()
    counted = [of for row, of in on.items() if passes(theorems[row])]
    counts = [0] * len(labels)
    for of in counted:
        for place in bits_of(of):
            counts[place] += 1
    rows: list[list[Value]] = [[count, [label]] for count, label in zip(counts, labels)]
    if len(labels) > 1:
        together = sum(of.bit_count() == len(labels) for of in counted) if is_all else len(counted)
        rows.append([together, labels])
    context.out.table(["theorems", "labels"], rows, aside_of(labels))


def resting_on(database: Database, labels: Sequence[str]) -> dict[int, int]:
    """For the row of each theorem that rests on one of some labels on which of them, as the bits of
    a number. NoAnswer where a label is neither that of an axiom nor of a theorem."""
    found = database.content
    places = {label: place for place, label in enumerate(labels)}
    of_marks = [label for label in places if found.marks is not None and label in found.columns]
    if len(of_marks) == len(places) and (len(places) == 1 or found.cites is None):
        rows: dict[int, int] = {}
        for label, place in places.items():
            assert found.marks is not None
            for row in found.marks.users(found.columns.index(label)):
                rows[row] = rows.get(row, 0) | 1 << place
        return dict(sorted(rows.items()))
    graph = database.graph()
    nodes = [graph.node(label) for label in labels]
    progress.now(f"searching what rests on {len(nodes)} labels")
    return {row: of for row, of in enumerate(graph.resting(nodes)) if of}


def without(rows: Mapping[int, int], others: Container[int]) -> dict[int, int]:
    """What a mapping has of rows that aren't among others."""
    return {row: of for row, of in rows.items() if row not in others}


def put_outside(context: Context, database: Database, arguments: argparse.Namespace) -> None:
    """Answers `falls` of a header: what outside of it rests on what stands below it."""
    if arguments.under is None:
        raise NoAnswer("falls wants a LABEL, or --under HEADER, of which it takes all labels")
    if arguments.all_of:
        raise NoAnswer("--all-of wants LABELs")
    context.filters = replace(context.filters, under=None)
    graph, text = database.graph(), database.text
    header = header_of(text, database.name, arguments.under)
    inside = {graph.index[one.label] for one in text.assertions[header.first : header.end]}
    progress.now(f"searching what rests on {len(inside)} labels")
    left_out = resting_on(database, arguments.without)
    rows: list[list[Value]] = []
    for theorem in sorted(graph.above(inside) - inside):
        if theorem not in left_out:
            cited = [graph.labels[each] for each in graph.cites[theorem] if each in inside]
            rows.append([graph.labels[theorem], cited])
    if arguments.count:
        passes = context.test()
        counted = sum(passes(str(row[0])) for row in rows)
        context.out.table(["theorems"], [[counted]])
        return
    below = f"what stands below {listed([header])}"
    left = " that the options leave" if arguments.without else ""
    why = f"{database.name}: nothing outside{left} rests on {below}"
    context.table(["theorem", "cited"], rows, why, "theorem")


COMMANDS = [
    Command("rests", RESTS_PAGE, configure_rests, run_rests, lists=True),
    Command("falls", FALLS_PAGE, configure_falls, run_falls, lists=True),
]
