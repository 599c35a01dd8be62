"""`chapters`, `order`, `unfinished`, `discouraged` and `mathboxes`: what a database's text tells of
its parts, beside what rests on what."""

import argparse
from bisect import bisect_left, bisect_right
from collections.abc import Callable, Sequence

from query.answers.errors import NoAnswer, shown
from query.answers.output import Value
from query.arguments.context import Context
from query.arguments.filters import header_of, mathboxes_of
from query.arguments.options import (
    Parser,
    add_choice_of_axioms,
    add_choice_of_citations,
    add_database,
    between_commas,
    options_of,
    positive,
)
from query.citations.crossing import (
    across_mathboxes,
    citations,
    citing_headers,
    fit_for_main,
    last_cited,
)
from query.citations.graph import Graph
from query.commands import Command
from query.proofs.lengths import Length, lengths as lengths_of, written_steps
from query.reports.choice import Options
from query.reports.database import Database, Dependence
from query.texts.assertions import Assertion
from query.texts.contributed import contributed
from query.texts.discouraged import discouraged_labels, is_proof_discouraged
from query.texts.text import Text

CHAPTERS_PAGE = """
Lists the headers of a database. A header is a comment whose title stands between lines of ####,
#*#*, =-=- or -.-., the outermost level first. The first row is of the whole database.

number    that of the header
theorems  how many theorems stand from it to the next header of its level or of an outer one
axiom     which AXIOM; each header has a row for each of them
rest      how many of these theorems rest on the axiom
first     the first of these that does
title     that of the header
share     how many of a hundred rest on it, with one digit; nothing where no theorem stands there

Without an AXIOM there is a row for each header, and nothing in axiom, rest, first and
share. With --no-empty there is no row where no theorem rests on the axiom, or, without an AXIOM,
none stands. With --level the headers of that level alone have rows. They are in file order; with
--by rest or --by share the largest comes first, and of equal ones the larger by the other of both.
With --any each header has one row for all AXIOMs, which counts what rests on one of them or more.

With --between LEVEL, which headers of one level build on which others, by what the proofs below
them cite themselves. What the headers further down have counts for the one above.

number    that of the header
on        the number of another header, of which something is cited
theorems  how many theorems below the first header cite something below the other
first     the first of these
title     that of the first header
of        that of the other one

With --of HEADER, a number, a title, or a part of a title that no other header has, only the rows
that have it, on either side. What falls where a header is dropped with all that stands below it, is
told by `falls --under HEADER`, also through other theorems.

  $ mmquery chapters set.mm ax-ac2 ax-reg
  $ mmquery chapters set.mm ax-ac2 ax-cc --any
  $ mmquery chapters set.mm ax-ac2 --no-empty
  $ mmquery chapters set.mm ax-ac2 --level chapter --by share --most 5
  $ mmquery chapters set.mm --between part --of 'elementary geometry'
"""

LEVELS = ("part", "chapter", "section", "subsection")
"""The levels of headers, the outermost first."""

ORDER = ("line", "kind", "typecode", "count", "label", "header")
"""The columns of `order`."""
OF_PROOFS = ("steps", "depth", "bytes", "contributor", "contributed")
"""Those that `order --proofs` has besides, as `proofs` has them."""

ORDER_PAGE = """
Lists axioms and theorems together, in file order.

line      that on which the label stands
kind      axiom, theorem, or open: a theorem whose proof is ?, with --open
typecode  the first symbol of the formula
count     of a theorem, on how many axioms it rests; of an axiom, how many theorems rest on it; none
          where it isn't among the axioms chosen
label     which one
header    the number of the header under which it stands, as `chapters` numbers it

With --columns, behind these one for each AXIOM, which has its label for a name: whether a theorem
rests on the axiom, yes or no (true or false in the other formats); nothing for what isn't a
theorem. With --proofs, behind all of these how long its proof is, how deep it stands, who
contributed it and when, in columns as `proofs` has them. With --format=csv it is a table for a
spreadsheet.

With --theorems the axioms are left out.

  $ mmquery order set.mm
  $ mmquery order set.mm --like 2p2e4
  $ mmquery order set.mm --columns ax-reg,ax-ac2 --proofs --format=csv
"""

UNFINISHED_PAGE = """
Lists the theorems that are left open, whose proof is ?, in file order. A chain of citations ends at
an open theorem, as at an axiom. With THEOREM, one of these, the theorems that rest on it.

theorems  how many theorems rest on it; with THEOREM nothing
theorem   the label of the open theorem (with THEOREM: of the theorem that rests on it)

  $ mmquery unfinished set.mm
"""

DISCOURAGED_PAGE = """
Lists statements whose comment says (New usage is discouraged.), with what cites them, and those
whose comment says (Proof modification is discouraged.). As text these are the lines of set.mm's
file `discouraged`, in its order:

  "A" is used by "B".
  New usage of "A" is discouraged (N uses).
  Proof modification of "A" is discouraged (N steps).

In the other formats the fields are

what       use (B uses A), usage (new usage of A is discouraged), or proof
label      A
by         B
count      how many theorems cite A, or how many steps the proof has as it is written
header     the number of the header under which A stands
by_header  and that of the header under which B stands

With --outside LEVEL only the uses of A by a B that stands in another part, chapter, section or
subsection: between the two begins a header of this level or of an outer one. With subsection
that is each use from under another header.

The filters go by A, what is discouraged, and not by B, what cites it. So the filter --mathbox NAME
goes by A: with it only the lines of what stands in NAME's mathbox.

  $ mmquery discouraged set.mm
  $ mmquery discouraged set.mm --outside section --format csv
"""

MATHBOXES_PAGE = """
Lists the citations of statements in a mathbox from outside it. A mathbox is what stands under a
header whose title begins with `Mathbox for`.

theorem  what cites
mathbox  in whose mathbox it is; none where it isn't in one
cited    what it cites
of       in whose mathbox that is

With --of NAME only the citations of what stands in NAME's mathbox. The filter --mathbox NAME goes
by who cites: with it only those by what stands in NAME's mathbox.

With --ready, the theorems in mathboxes that may stand in the main part as they are: they rest on
nothing that is in a mathbox, and have no symbol that only formulas in mathboxes have.

theorem  the label of the theorem
mathbox  in whose mathbox it is
citing   how many theorems cite it
after    the last of those that it cites, right behind which it may stand
header   the number of the header under which that stands; of what cites nothing there is none

The variables of such a theorem have to be declared there too. That no statement of the main part
says the same is told by `repeats`.

  $ mmquery mathboxes set.mm
  $ mmquery mathboxes set.mm --of 'Mario Carneiro'
  $ mmquery mathboxes set.mm --ready --mathbox 'Mario Carneiro'
"""


def add_level(parser: Parser, option: str, says: str) -> None:
    """Adds an option that takes a level of headers."""
    parser.add_argument(
        option, metavar="LEVEL", choices=LEVELS, help=f"{says}: {', '.join(LEVELS)}"
    )


def configure_chapters(parser: Parser) -> None:
    """The words and options of `chapters`."""
    add_database(parser)
    parser.add_argument("axiom", metavar="AXIOM", nargs="*")
    parser.exclude("--level", "--between")
    add_level(parser, "--level", "only the headers of this level")
    parser.add_argument("--by", choices=("rest", "share"), help="of which most comes first")
    parser.value("--most", "N", "only the first N rows (else: all)", type=positive)
    parser.flag("--no-empty", "leave out headers under which nothing is counted")
    parser.flag("--any", "count what rests on one of the AXIOMs or more, in one row")
    add_level(parser, "--between", "which headers cite which others, of this level")
    parser.value("--of", "HEADER", "with --between: only the rows of this header")
    add_choice_of_axioms(parser)


class Numbers:
    """Where theorems stand among all assertions, so that those of a stretch can be counted."""

    def __init__(self, text: Text, labels: list[str]) -> None:
        self.labels = labels
        self.numbers = [text.by_label[label].number for label in labels]

    def within(self, first: int, end: int) -> tuple[int, str | None]:
        """How many of them are among these assertions, and the first of them."""
        low, high = bisect_left(self.numbers, first), bisect_left(self.numbers, end)
        return high - low, self.labels[low] if low < high else None


def run_chapters(context: Context, arguments: argparse.Namespace) -> int:
    """Answers `chapters`."""
    database = context.database(arguments.database, options_of(arguments))
    if arguments.between is not None:
        put_between(context, database, arguments)
        return 0
    if arguments.of is not None:
        raise NoAnswer("--of wants --between LEVEL")
    dependence = database.dependence()
    for option in ("any", "by"):
        if getattr(arguments, option) and not arguments.axiom:
            raise NoAnswer(f"--{option} wants an AXIOM")
    asked = counted_axioms(dependence, arguments.axiom, arguments.any)
    rows = chapter_rows(database.text, dependence.theorems, asked, arguments)
    about = ["axiom", "rest", "first"]
    if arguments.by is not None:
        rows.sort(key=lambda row: rank_of(row, arguments.by))
    none = f"no theorem rests on {' or '.join(arguments.axiom)}" if asked else "has no theorem"
    if arguments.level and not any(
        LEVELS[header.level] == arguments.level for header in database.text.headers
    ):
        none = f"has no header of the level '{arguments.level}'"
    context.table(
        ["number", "theorems", *about, "title", "share"],
        context.first(rows, arguments.most),
        f"{database.name}: {none}",
        aside=[] if asked else [*about, "share"],
    )
    return 0


def chapter_rows(
    text: Text,
    theorems: list[str],
    asked: list[tuple[Value, Sequence[int]]],
    arguments: argparse.Namespace,
) -> list[list[Value]]:
    """The rows of `chapters`: of each header one for each axiom asked about, or one without."""
    counted = [Numbers(text, theorems)]
    for _, users in asked:
        counted.append(Numbers(text, [theorems[row] for row in users]))
    rows: list[list[Value]] = []
    for number, first, end, title in places_of(text, arguments.level):
        below = counted[0].within(first, end)[0]
        for (name, _), numbers in zip(asked or [(None, ())], counted[1:] or counted):
            count, one = numbers.within(first, end)
            if count or not arguments.no_empty:
                share = round(100 * count / below, 1) if below else None
                about_axiom: list[Value] = [name, count, one] if asked else [None] * 3
                rows.append([number, below, *about_axiom, title, share if asked else None])
    return rows


def places_of(text: Text, level: str | None) -> list[tuple[str, int, int, str]]:
    """The headers of a level, or the whole database and all headers: number, first assertion, the
    one after the last, and title."""
    places = [("0", 0, len(text.assertions), "(the whole database)")] if level is None else []
    for each in text.headers:
        if level is None or LEVELS[each.level] == level:
            places.append((each.number, each.first, each.end, each.title))
    return places


def rank_of(row: Sequence[Value], column: str) -> tuple[float, float]:
    """Where a row of `chapters` stands by `rest` or by `share`; by the other one of equal ones."""
    count, below = int(str(row[3])), int(str(row[1]))
    share = count / below if below else -1.0
    return (-count, -share) if column == "rest" else (-share, -count)


def put_between(context: Context, database: Database, arguments: argparse.Namespace) -> None:
    """Lists which headers of a level cite which others."""
    if arguments.axiom:
        raise NoAnswer("--between is about citations, so it takes no AXIOM")
    graph, text, level = database.graph(), database.text, LEVELS.index(arguments.between)
    asked = None if arguments.of is None else header_of(text, database.name, arguments.of, level)
    if asked is not None and asked.level != level:
        number, its = asked.number, LEVELS[asked.level]
        raise NoAnswer(f"{database.name}: the header {number} is a {its}: --between {its} has it")
    headers = text.headers
    rows: list[list[Value]] = []
    for (one, other), users in citing_headers(graph, text, level).items():
        both = headers[one], headers[other]
        if asked is None or asked in both:
            count, first = len(users), graph.labels[users[0]]
            numbers, titles = [each.number for each in both], [each.title for each in both]
            rows.append([*numbers, count, first, *titles])
    which = f" of the level '{arguments.between}'" if asked is None else f" beside {asked.number}"
    why = f"{database.name}: no header{which} cites what another one has"
    listed = context.first(rows, arguments.most)
    context.table(["number", "on", "theorems", "first", "title", "of"], listed, why)


def counted_axioms(
    dependence: Dependence, labels: list[str], is_any: bool
) -> list[tuple[Value, Sequence[int]]]:
    """What the rows of a header are about: each axiom, or all of them where one is enough, with the
    theorems that rest on it."""
    users = [dependence.users(dependence.column(label)) for label in labels]
    if is_any:
        return [(labels, sorted(set().union(*users)))]
    return list(zip(labels, users))


def configure_order(parser: Parser) -> None:
    """The words and options of `order`."""
    add_database(parser)
    parser.flag("--theorems", "leave out the axioms")
    about = "a column for AXIOM, whether a theorem rests on it; several: by commas, or more options"
    parser.values("--columns", "AXIOM", about)
    parser.flag("--proofs", "columns for the length and depth of proofs, and for contributors")
    add_choice_of_axioms(parser)


def run_order(context: Context, arguments: argparse.Namespace) -> int:
    """Answers `order`."""
    database = context.database(arguments.database, options_of(arguments))
    dependence = database.dependence()
    marked = marks_of(dependence, arguments.columns)
    text = database.text
    lengths = lengths_of(text, dependence.graph) if arguments.proofs else None
    counts = dict(zip(dependence.axioms, dependence.sizes()))
    for row, label in enumerate(dependence.theorems):
        counts[label] = dependence.bits(row).bit_count()
    rows: list[list[Value]] = []
    for one in filter(lambda one: one.kind == "p" or not arguments.theorems, text.assertions):
        kind = "open" if one.is_open else "axiom" if one.kind == "a" else "theorem"
        line = text.line(one.place)
        count, header = counts.get(one.label), text.chapter_number(one)
        own = dependence.rows.get(one.label)
        marks = [None if own is None else each[own] == 1 for each in marked.values()]
        others = [] if lengths is None else about_proof(text, one, lengths.get(one.label))
        rows.append([line, kind, one.typecode, count, one.label, header, *marks, *others])
    columns = [*ORDER, *marked, *(OF_PROOFS if arguments.proofs else ())]
    if arguments.theorems and not rows:
        context.tell(f"{database.name}: has no theorem")
    context.out.table(columns, context.passing(rows, columns.index("label")))
    return 0


def about_proof(text: Text, one: Assertion, length: Length | None) -> list[Value]:
    """What `proofs` says of an assertion; of what has no proof who contributed it."""
    whose = contributed(text.comment(one))
    if length is None:
        return [None, None, None, *whose]
    return [length.steps, length.depth, length.size, *whose]


def marks_of(dependence: Dependence, words: Sequence[str]) -> dict[str, bytes]:
    """For each axiom that the words of `--columns` name the marks of its column. NoAnswer where one
    isn't among those chosen, or can't have a column of its name."""
    found: dict[str, bytes] = {}
    labels = between_commas(words)
    if words and not labels:
        raise NoAnswer("--columns wants an AXIOM")
    for label in labels:
        column = dependence.column(label)
        if label in (*ORDER, *OF_PROOFS):
            raise NoAnswer(f"{dependence.name}: the axiom {label} has the name of another column")
        found[label] = dependence.marked(column)
    return found


def configure_unfinished(parser: Parser) -> None:
    """The words and options of `unfinished`."""
    add_database(parser)
    parser.add_argument("theorem", metavar="THEOREM", nargs="?")
    add_choice_of_citations(parser)


def left_open(dependence: Dependence, text: Text) -> list[str]:
    """The theorems that are left open, which are among the axioms."""
    return [label for label in dependence.axioms if text.by_label[label].is_open]


def run_unfinished(context: Context, arguments: argparse.Namespace) -> int:
    """Answers `unfinished`."""
    options = Options(only=None, open=True, essential=arguments.essential)
    database = context.database(arguments.database, options)
    database.see_text()
    dependence = database.dependence()
    found = left_open(dependence, database.text)
    if arguments.theorem is None:
        rows: list[list[Value]] = []
        for label in found:
            rows.append([len(dependence.users(dependence.column(label))), label])
        why = f"{database.name}: no theorem is left open"
        context.table(["theorems", "theorem"], rows, why, "theorem")
        return 0
    if arguments.theorem not in found:
        raise NoAnswer(f"{database.name}: has no open theorem '{shown(arguments.theorem)}'")
    users = dependence.users(dependence.column(arguments.theorem))
    named: list[list[Value]] = [[None, dependence.theorems[row]] for row in users]
    why = f"{database.name}: nothing rests on {arguments.theorem}"
    context.table(["theorems", "theorem"], named, why, "theorem", ["theorems"])
    return 0


def configure_discouraged(parser: Parser) -> None:
    """The words and options of `discouraged`."""
    add_database(parser)
    add_level(parser, "--outside", "only uses from outside of A's header of this level")
    add_choice_of_citations(parser)


def discouraged_line(row: Sequence[Value]) -> str:
    """A line of set.mm's file `discouraged`."""
    what, label, user, count = row[:4]
    if what == "use":
        return f'"{label}" is used by "{user}".'
    if what == "usage":
        return f'New usage of "{label}" is discouraged ({count} uses).'
    return f'Proof modification of "{label}" is discouraged ({count} steps).'


def headers_of(text: Text, label: str, user: str | None = None) -> list[Value]:
    """The numbers of the headers under which an assertion and what uses it stand."""
    other = None if user is None else text.chapter_number(text.by_label[user])
    return [text.chapter_number(text.by_label[label]), other]


def stretches(text: Text, level: str | None) -> Callable[[str], int]:
    """In which stretch between headers of a level, or of outer ones, an assertion stands."""
    if level is None:
        return lambda label: 0
    most = LEVELS.index(level)
    firsts = [header.first for header in text.headers if header.level <= most]
    return lambda label: bisect_right(firsts, text.by_label[label].number)


def run_discouraged(context: Context, arguments: argparse.Namespace) -> int:
    """Answers `discouraged`."""
    database = context.database(arguments.database, options_of(arguments))
    graph = database.graph()
    text = database.text
    labels = discouraged_labels(text)
    counts = dict.fromkeys(labels, 0)
    rows: list[list[Value]] = []
    stretch = stretches(text, arguments.outside)
    for user, cited in citations(graph, labels):
        counts[cited] += 1
        if arguments.outside is None or stretch(user) != stretch(cited):
            rows.append(["use", cited, user, None, *headers_of(text, cited, user)])
    if arguments.outside is None:
        rows += [
            ["usage", label, None, count, *headers_of(text, label)]
            for label, count in counts.items()
        ]
        for one in text.assertions:
            if is_proof_discouraged(text, one):
                headers = headers_of(text, one.label)
                rows.append(["proof", one.label, None, written_steps(text, one), *headers])
    if not rows and arguments.outside and any(counts.values()):
        context.tell(f"{database.name}: nothing discouraged is used outside of its header")
    elif not rows:
        context.tell(f"{database.name}: no comment says that something is discouraged")
    passing = context.passing(rows, 1)
    if context.out.format != "text":
        context.out.table(["what", "label", "by", "count", "header", "by_header"], passing)
        return 0
    for line in sorted(map(discouraged_line, passing)):
        context.out.line(line)
    return 0


def configure_mathboxes(parser: Parser) -> None:
    """The words and options of `mathboxes`."""
    add_database(parser)
    parser.exclude("--of", "--ready")
    parser.value("--of", "NAME", "only citations of what stands in NAME's mathbox")
    parser.flag("--ready", "the theorems of mathboxes that may stand in the main part")
    add_choice_of_citations(parser)


def run_mathboxes(context: Context, arguments: argparse.Namespace) -> int:
    """Answers `mathboxes`."""
    database = context.database(arguments.database, options_of(arguments))
    graph = database.graph()
    if arguments.ready:
        put_ready(context, graph, database.text)
        return 0
    rows: list[list[Value]] = []
    for user, cited, box, other in across_mathboxes(graph, database.text):
        if arguments.of in (None, other):
            rows.append([user, box, cited, other])
    whose = "another mathbox"
    if arguments.of is not None:
        mathboxes_of(database.text, database.name, arguments.of)
        whose = f"the mathbox of {arguments.of} from outside it"
    why = f"{database.name}: nothing cites a statement of {whose}"
    context.table(["theorem", "mathbox", "cited", "of"], rows, why, "theorem")
    return 0


def put_ready(context: Context, graph: Graph, text: Text) -> None:
    """Lists the theorems of mathboxes that may stand in the main part."""
    ready = fit_for_main(graph, text)
    citing = graph.citing(ready)
    rows: list[list[Value]] = []
    for node, users in citing.items():
        label = graph.labels[node]
        last = last_cited(graph, text, node)
        after = (None, None) if last is None else (last.label, text.chapter_number(last))
        rows.append([label, text.mathbox(text.by_label[label]), len(users), *after])
    context.table(
        ["theorem", "mathbox", "citing", "after", "header"],
        rows,
        f"{graph.name}: no theorem of a mathbox may stand in the main part as it is",
        "theorem",
    )


COMMANDS = [
    Command("chapters", CHAPTERS_PAGE, configure_chapters, run_chapters),
    Command("order", ORDER_PAGE, configure_order, run_order, lists=True),
    Command("unfinished", UNFINISHED_PAGE, configure_unfinished, run_unfinished, lists=True),
    Command("discouraged", DISCOURAGED_PAGE, configure_discouraged, run_discouraged, lists=True),
    Command("mathboxes", MATHBOXES_PAGE, configure_mathboxes, run_mathboxes, lists=True),
]
