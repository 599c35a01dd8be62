"""`top`, `sets`, `within` and `same`: axioms and theorems by what rests on them and on what they
rest."""

import argparse
from collections import Counter
from collections.abc import Sequence
from hashlib import blake2b

from query.answers.errors import NoAnswer
from query.answers.output import Value
from query.arguments.context import LARGER, Context
from query.arguments.label_files import add_list, labels_of
from query.arguments.options import Parser, add_choice_of_axioms, add_database, options_of, positive
from query.commands import Command
from query.reports.database import Database, Dependence
from query.texts.text import Text

TOP_PAGE = """
Lists the axioms on which most theorems rest. With --theorems, the theorems that rest on most
axioms. Equal ones are in file order.

theorems  how many theorems rest on it (with --theorems, axioms: on how many it rests)
axiom     the label of the axiom (with --theorems, theorem)

With --below B, in file order the axioms on which fewer than B theorems rest: with --below 1 those
on which nothing rests. With N too, the N of them on which most rest.

With --outside-mathboxes the theorems that stand in no mathbox count, also for --below. So with
--below 1 and --main it lists the axioms of the main part on which mathboxes alone rest, or nothing:

outside   how many theorems that stand in no mathbox rest on it
theorems  how many theorems rest on it, those in mathboxes too
axiom     the label of the axiom

With --cited, the axioms and theorems that most theorems cite:

theorems   how many theorems cite it
assertion  its label

With --against OLD, in file order the axioms on which another number of theorems rests than in the
database OLD:

was       how many did in OLD; nothing where it has no such axiom
theorems  how many do now; nothing where there is no such axiom any more
axiom     the label of the axiom

  $ mmquery top set.mm 3
  $ mmquery top set.mm --theorems 3
  $ mmquery top set.mm --cited 20
  $ mmquery top set.mm --below 1
  $ mmquery top set.mm --outside-mathboxes --below 1 --main --axioms df-
  $ mmquery top set.mm --against old.mm
"""

SETS_PAGE = """
Counts for each set of axioms the theorems that rest on just these: the histogram of all sets, the
one of most theorems first. Equal ones are in file order of the first theorem.

theorems  how many rest on just these axioms
size      how many axioms these are
first     the first of the theorems
axioms    the axioms

The filters choose which theorems are counted. With --together, the axioms that go together: sets of
two or more on which just the same theorems rest, those on which most rest first.

theorems  how many rest on each of these axioms
size      how many axioms these are
first     the first of the theorems
axioms    the axioms

  $ mmquery sets set.mm 5 --axioms ax-
  $ mmquery sets set.mm --together --ignore-definitions
"""

WITHIN_PAGE = """
Lists in file order the theorems that rest on no more axioms than the LABELs: on these, on some of
these, or on none. Only axioms of typecode |- count, unless --all or --only T is given. Definitions
are such axioms; with --ignore-definitions they don't count.

theorem  the label of the theorem

  $ mmquery within set.mm ax-mp ax-1 ax-2
  $ mmquery within set.mm ax-mp ax-1 ax-2 ax-3 --ignore-definitions
"""

SAME_PAGE = """
Lists in file order the other theorems that rest on just the axioms on which THEOREM rests.

theorem  the label of the theorem

  $ mmquery same set.mm id
"""


SETS = ("theorems", "size", "first", "axioms")
SHOWN_RANKS = 10
"""So many `top` shows where no number is given."""


def configure_top(parser: Parser) -> None:
    """The words and options of `top`."""
    add_database(parser)
    parser.add_argument(
        "number", metavar="N", nargs="?", type=positive, help=f"how many (else: {SHOWN_RANKS})"
    )
    parser.exclude("--theorems", "--below", "--against")
    parser.exclude("--theorems", "--outside-mathboxes", "--against")
    for option in ("--theorems", "--below", "--outside-mathboxes", "--against"):
        parser.exclude("--cited", option)
    parser.flag("--theorems", "the theorems that rest on most axioms, not axioms")
    parser.flag("--cited", "the axioms and theorems that most theorems cite")
    parser.value("--below", "B", "all axioms on which fewer than B theorems rest", type=positive)
    parser.flag("--outside-mathboxes", "count only theorems that stand in no mathbox")
    parser.value("--against", "OLD", "axioms on which another number rests than in OLD")
    add_choice_of_axioms(parser)


def run_top(context: Context, arguments: argparse.Namespace) -> int:
    """Answers `top`."""
    database = context.database(arguments.database, options_of(arguments))
    dependence = database.dependence()
    if arguments.against is not None:
        old = context.database(arguments.against, options_of(arguments))
        if old.is_report != database.is_report:
            raise NoAnswer("a report beside a database; both have to be one or the other")
        rows = differences(old.dependence(), dependence)
        why = f"on each axiom as many theorems rest in {old.name} as in {database.name}"
        context.table(["was", "theorems", "axiom"], rows, why, "axiom")
        return 0
    if arguments.cited:
        put_cited(context, arguments, database)
        return 0
    put_ranking(context, arguments, database)
    return 0


def put_cited(context: Context, arguments: argparse.Namespace, database: Database) -> None:
    """Answers `top --cited`."""
    graph, dependence = database.graph(), database.dependence()
    counts = Counter(graph.cites.targets)
    labels = [*dependence.axioms, *dependence.theorems]
    if not database.is_report:
        text = database.text
        labels.sort(key=lambda label: text.by_label[label].number)
    rows: list[list[Value]] = [[counts[graph.node(label)], label] for label in labels]
    if not rows:
        context.tell(f"{database.name}: has no axiom{dependence.which}, and no theorem")
    passing = sorted(context.passing(rows, 1), key=lambda row: -int(str(row[0])))
    listed = context.first(passing, arguments.number or SHOWN_RANKS, LARGER)
    context.out.table(["theorems", "assertion"], listed)


def differences(old: Dependence, new: Dependence) -> list[list[Value]]:
    """The axioms on which another number of theorems rests, with both numbers."""
    was = dict(zip(old.axioms, old.sizes()))
    now = dict(zip(new.axioms, new.sizes()))
    labels = [*now, *(label for label in was if label not in now)]
    return [
        [was.get(label), now.get(label), label]
        for label in labels
        if was.get(label) != now.get(label)
    ]


def put_ranking(context: Context, arguments: argparse.Namespace, database: Database) -> None:
    """Answers `top` about one database."""
    dependence, whose = database.dependence(), ""
    labels, columns = dependence.axioms, ["theorems", "axiom"]
    if arguments.theorems:
        sizes = [dependence.bits(row).bit_count() for row in range(len(dependence.theorems))]
        labels, columns = dependence.theorems, ["axioms", "theorem"]
    else:
        sizes = dependence.sizes()
    rows: list[list[Value]] = [[size, label] for size, label in zip(sizes, labels)]
    if arguments.outside_mathboxes:
        outside = sizes_outside(dependence, database.text)
        rows = [[size, *row] for size, row in zip(outside, rows)]
        columns, whose = ["outside", *columns], " outside of mathboxes"
    why = f"{dependence.name}: has no theorem"
    if arguments.below is not None:
        rows = [row for row in rows if int(str(row[0])) < arguments.below]
        most = f"{arguments.below} or more rest{whose}"
        why = f"{dependence.name}: on each axiom{dependence.which} {most}"
    if not rows:
        context.tell(why)
    passing: Sequence[Sequence[Value]] = context.passing(rows, len(columns) - 1)
    if arguments.below is None or arguments.number is not None:
        passing = sorted(passing, key=lambda row: -int(str(row[0])))
        passing = context.first(passing, arguments.number or SHOWN_RANKS, LARGER)
    context.out.table(columns, passing)


def sizes_outside(dependence: Dependence, text: Text) -> list[int]:
    """For each column how many theorems that stand in no mathbox rest on its axiom."""
    flags = bytes(text.box(text.by_label[label]) is None for label in dependence.theorems)
    outside = int.from_bytes(flags, "big")
    columns = (dependence.marked(column) for column in range(len(dependence.axioms)))
    return [(int.from_bytes(marked, "big") & outside).bit_count() for marked in columns]


def configure_sets(parser: Parser) -> None:
    """The words and options of `sets`."""
    add_database(parser)
    parser.add_argument(
        "number", metavar="N", nargs="?", type=positive, help="how many (else: all)"
    )
    parser.flag("--together", "sets of axioms on which just the same theorems rest")
    add_choice_of_axioms(parser)


def run_sets(context: Context, arguments: argparse.Namespace) -> int:
    """Answers `sets`."""
    dependence = context.database(arguments.database, options_of(arguments)).dependence()
    passes = context.test()
    chosen = [row for row, label in enumerate(dependence.theorems) if passes(label)]
    if arguments.together:
        rows = axioms_together(dependence, chosen)
        none = "no two axioms have just the same theorems rest on them"
    else:
        rows = axioms_of_theorems(dependence, chosen)
        none = f"has no theorem{' that passes the filters' if dependence.theorems else ''}"
    rows.sort(key=lambda row: -int(str(row[0])))
    listed = context.first(rows, arguments.number, LARGER)
    context.table(SETS, listed, f"{dependence.name}: {none}")
    return 0


def axioms_of_theorems(dependence: Dependence, chosen: list[int]) -> list[list[Value]]:
    """The sets of axioms on which theorems rest, by the first theorem."""
    counts: dict[int, int] = {}
    first: dict[int, str] = {}
    for row in chosen:
        bits = dependence.bits(row)
        counts[bits] = counts.get(bits, 0) + 1
        first.setdefault(bits, dependence.theorems[row])
    rows: list[list[Value]] = []
    for bits, count in counts.items():
        axioms = [dependence.axioms[column] for column in dependence.columns_of(bits)]
        rows.append([count, len(axioms), first[bits], axioms])
    return rows


def axioms_together(dependence: Dependence, chosen: list[int]) -> list[list[Value]]:
    """The sets of two axioms or more on which just the same theorems rest, and at least one."""
    flags = bytearray(len(dependence.theorems))
    for row in chosen:
        flags[row] = 1
    wanted = int.from_bytes(flags, "big")
    groups: dict[bytes, list[str]] = {}
    rows: dict[bytes, list[Value]] = {}
    for column, axiom in enumerate(dependence.axioms):
        marked = int.from_bytes(dependence.marked(column), "big")
        users = (marked & wanted).to_bytes(len(flags), "big")
        if 1 in users:
            key = blake2b(users, digest_size=16).digest()
            axioms = groups.setdefault(key, [])
            axioms.append(axiom)
            first = dependence.theorems[users.index(1)]
            rows[key] = [users.count(1), len(axioms), first, axioms]
    return [row for key, row in rows.items() if len(groups[key]) > 1]


def configure_within(parser: Parser) -> None:
    """The words and options of `within`."""
    add_database(parser)
    parser.add_argument("labels", metavar="LABEL", nargs="*")
    add_list(parser)
    add_choice_of_axioms(parser)


def run_within(context: Context, arguments: argparse.Namespace) -> int:
    """Answers `within`."""
    labels = labels_of(arguments)
    if not labels:
        raise NoAnswer("within wants at least one LABEL, or a list that isn't empty")
    dependence = context.database(arguments.database, options_of(arguments)).dependence()
    allowed = dependence.mask_of([dependence.column(label) for label in labels])
    rows = [
        [label]
        for row, label in enumerate(dependence.theorems)
        if not dependence.bits(row) & ~allowed
    ]
    why = f"{dependence.name}: each theorem rests on other axioms too"
    context.table(["theorem"], rows, why, "theorem")
    return 0


def configure_same(parser: Parser) -> None:
    """The words and options of `same`."""
    add_database(parser)
    parser.add_argument("theorem", metavar="THEOREM")
    add_choice_of_axioms(parser)


def run_same(context: Context, arguments: argparse.Namespace) -> int:
    """Answers `same`."""
    dependence = context.database(arguments.database, options_of(arguments)).dependence()
    wanted = dependence.row(arguments.theorem)
    bits = dependence.bits(wanted)
    rows = [
        [label]
        for row, label in enumerate(dependence.theorems)
        if row != wanted and dependence.bits(row) == bits
    ]
    why = f"{dependence.name}: no other theorem rests on just the axioms of {arguments.theorem}"
    context.table(["theorem"], rows, why, "theorem")
    return 0


COMMANDS = [
    Command("top", TOP_PAGE, configure_top, run_top, lists=True),
    Command("sets", SETS_PAGE, configure_sets, run_sets, lists=True),
    Command("within", WITHIN_PAGE, configure_within, run_within, lists=True),
    Command("same", SAME_PAGE, configure_same, run_same, lists=True),
]
