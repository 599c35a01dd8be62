"""`definitions` and `needs`: whether definitions are definitions, and which ones a statement
needs."""

import argparse
from collections.abc import Iterator

from query.answers.annotations import escaped
from query.answers.errors import NoAnswer, shown
from query.answers.output import Value
from query.arguments.context import Context
from query.arguments.options import (
    Parser,
    add_choice_of_citations,
    add_database,
    add_form,
    add_open,
    between_commas,
    options_of,
)
from query.commands import TABLE_FORMATS, Command
from query.definitions.foundations import BEGINNING
from query.definitions.needs import Needs
from query.definitions.soundness import (
    CONDITIONS,
    NO,
    TRUST,
    TRUSTED,
    UNKNOWN,
    YES,
    Definitions,
    Verdict,
    cites_by,
    is_definition,
)
from query.definitions.unfolding import statement, without
from query.exports.graph_files import Kinds, lines_of
from query.platform import progress
from query.reports.database import Database
from query.texts.assertions import Assertion

PAGE = (
    """
Lists in file order the definitions, which are the axioms of typecode |- whose label begins with
df-, and whether each is sound: what can be proved with it, and doesn't speak of what it defines,
can be proved without it. With LABELs only these.

definition  its label
sound       yes: all conditions are kept
            no: one is broken, by what shows that the definition is wrong: it may prove what the
            axioms don't, or it leaves out cases, as by a $d of two variables of LEFT
            not judged: one isn't seen to be kept, or it isn't LEFT = RIGHT, or has a $e. The
            definition may be right, or prove F.; it counts as an axiom, and not as sound
            on trust: it is taken as an axiom
why_not     why it isn't sound or not judged, or would not be sound
condition   the name of the condition

The status is 1 if one is `no`; if one isn't seen to have the shape of a definition, by the
condition form, left or new; or if none of the database could be judged. With LABELs it is also 1 if
one of these is `not judged`, so it is 0 only if each is `yes` or on trust; filters such as --like
name none. The gate lets in neither `no` nor `not judged`, unless mmdepend.toml has the whole label.

The conditions are these. The page SOUNDNESS says what follows from them, and why.

"""
    + "".join(f"  {name:<9} {what}\n" for name, what in CONDITIONS.items())
    + """
--trust names the definitions that are axioms, in place of df-bi, df-clab, df-cleq and df-clel;
--equality the syntax axioms of equalities, in place of ( wff <-> wff ) and class = class, or where
neither is there, of T = T for another typecode T. --basis lists on what the verdicts rest: the
grammar, what is on trust, the forms without a definition, and the theorems about equalities.

--expand writes what LABEL says in primitive forms, its $e first, each on a line; new variables have
names such as x_1. --without writes a database that has neither the definition LABEL nor its syntax
axiom, and in which each statement says what it said, unfolded. It is verified first. There is no
answer where the definition has a dummy, or its right side lacks a variable of the left one.

  $ mmquery definitions set.mm --format csv
  $ mmquery definitions set.mm df-cau df-ss
  $ mmquery definitions set.mm --basis
"""
)
NEEDS_PAGE = """
Lists in file order of what LABEL's statement and its $e speak: the forms in it, those in the
definitions of these, and so on down to forms without a definition. Proofs don't matter here. A form
is a syntax axiom; its definition is an axiom of typecode |- whose label begins with df-. Of a
definition it lists those in what it defines its form by.

form        the label of the syntax axiom
definition  that of its definition; nothing where it is primitive
sound       what `definitions` says of that: yes, no, not judged, on trust
depth       how many definitions are between the statement and the form, at least
says        the form, with typecodes in place of variables

With --tree, the statement's forms in their order, and under each one those of its definition:

depth       how far below the statement it stands; in the form text it is set to the right by that
form        the label of the syntax axiom
definition  that of its definition
above       whether what comes under it stands further up already, and isn't repeated
says        the form, with typecodes in place of variables

With --as, the same as a file for another program, as `graph` writes it: an arrow leads from LABEL
to each form of its statement, and from each form to those of its definition.

--as dot      for `dot`, a program of Graphviz; primitive forms are boxes
--as graphml  for NetworkX and Gephi; the data `kind` of a node is `primitive` or `defined`, which
              is also that of LABEL
--as edges    a line for each arrow: LABEL or a form, a space, and the form that it needs

  $ mmquery needs set.mm 2p2e4
  $ mmquery needs set.mm df-ss --tree
  $ mmquery needs set.mm df-sqrt --as dot | dot -Tsvg > sqrt.svg
"""
COLUMNS = ("definition", "sound", "why_not", "condition")


def configure(parser: Parser) -> None:
    """Adds the words and options."""
    add_database(parser)
    parser.add_argument("labels", metavar="LABEL", nargs="*")
    parser.values(
        "--trust", "LABEL", "definitions that are axioms; several: by commas, or more options"
    )
    parser.values(
        "--equality", "LABEL", "syntax axioms of equalities; several: by commas, or more options"
    )
    parser.flag("--basis", "on what the verdicts rest, in place of the verdicts")
    parser.value("--expand", "LABEL", "what LABEL says, with all sound definitions unfolded")
    parser.value("--without", "LABEL", "the database without the definition LABEL")
    parser.exclude("--basis", "--expand", "--without")
    add_choice_of_citations(parser)


def judged(database: Database, trusted: list[str], equalities: list[str]) -> Definitions:
    """The verdicts on a database. NoAnswer where a label isn't what it should be."""
    for label in trusted:
        one = database.assertion(label)
        if one.kind != "a" or one.typecode != "|-" or not label.startswith(BEGINNING):
            raise NoAnswer(f"{database.name}: {shown(label)} is no definition")
    assertions = database.text.assertions
    progress.now(f"judging the definitions of {database.name}")
    found = Definitions(assertions, cites_by(database.graph()), trusted or TRUSTED, equalities)
    for label in equalities:
        database.assertion(label)
        if label not in found.equalities.values():
            raise NoAnswer(
                f"{database.name}: {shown(label)} is no syntax axiom of a wff with two parts of"
                " one typecode, or another one is for this typecode"
            )
    return found


def run(context: Context, arguments: argparse.Namespace) -> int:
    """Answers."""
    database = context.database(arguments.database, options_of(arguments))
    database.see_text()
    database.see_axioms()
    empty = f"{database.name}: no axiom of typecode '|-' has a label that begins with df-"
    is_list = arguments.expand is None and arguments.without is None and not arguments.basis
    if arguments.labels and not is_list:
        raise NoAnswer("--basis, --expand and --without take no LABEL beside DATABASE")
    has_some = bool(arguments.labels) or any(map(is_definition, database.text.assertions))
    if is_list and not has_some:
        context.table(COLUMNS, [], empty)
        return 0
    trusted = between_commas(arguments.trust)
    equalities = between_commas(arguments.equality)
    found = judged(database, trusted, equalities)
    if arguments.without is not None:
        context.out.write(without(database, found, arguments.without))
        return 0
    if arguments.expand is not None:
        for line in statement(found, database.assertion(arguments.expand)):
            context.out.line(line)
        return 0
    if arguments.basis:
        context.table(("what", "label", "says"), map(list, found.basis()), empty)
        return 0
    return put_verdicts(context, database, found, arguments.labels)


def put_verdicts(
    context: Context, database: Database, found: Definitions, labels: list[str]
) -> int:
    """Lists the verdicts, on these definitions if some are named. Returns the status."""
    wanted = {see_definition(database, found, label) for label in labels}
    rows: list[list[Value]] = [
        [each.label, each.sound, each.why, each.condition]
        for each in found.verdicts.values()
        if each.label in wanted or not wanted
    ]
    passing = [found.verdicts[str(row[0])] for row in context.passing(rows)]
    words = {each.sound for each in found.verdicts.values()}
    is_none_judged = UNKNOWN in words and not words & {YES, NO}
    if any(each.sound != YES for each in passing):
        context.tell(f"{database.name}: {in_short(passing, is_none_judged)}")
    if context.out.format == "github":
        context.out.text("".join(annotations(database, passing)))
    else:
        shown_rows = [[each.label, each.sound, each.why, each.condition] for each in passing]
        context.out.table(COLUMNS, shown_rows)
    # Who names a definition asks about it; the others may have one that can't be judged for years.
    failing = (each.is_refused() or (bool(labels) and each.sound == UNKNOWN) for each in passing)
    return 1 if any(failing) or (passing and is_none_judged) else 0


def see_definition(database: Database, found: Definitions, label: str) -> str:
    """The label of a definition. NoAnswer where it is none."""
    database.assertion(label)
    if label not in found.verdicts:
        raise NoAnswer(f"{database.name}: {shown(label)} is no definition")
    return label


def in_short(verdicts: list[Verdict], is_none_judged: bool) -> str:
    """How many there are of each kind, and which are on trust; and whether none of all that the
    database has could be judged."""
    counts = {word: sum(each.sound == word for each in verdicts) for word in (YES, NO, UNKNOWN)}
    said = f"{counts[YES]} sound, {counts[NO]} not, {counts[UNKNOWN]} not judged"
    if counts[UNKNOWN] and is_none_judged:
        said = f"no definition could be judged: {said}"
    trusted = [each.label for each in verdicts if each.sound == TRUST]
    return said + (f"; on trust: {', '.join(trusted)}" if trusted else "")


def annotations(database: Database, verdicts: list[Verdict]) -> Iterator[str]:
    """The verdicts that aren't `yes` as annotations of GitHub."""
    text = database.text
    for each in verdicts:
        if each.sound in (NO, UNKNOWN):
            level = "error" if each.is_refused() else "warning"
            place = f"line={text.line(text.by_label[each.label].place)}"
            name = escaped(database.name, is_property=True)
            title = escaped(f"mmquery definitions ({each.condition})", is_property=True)
            why = escaped(f"{each.label}: {each.sound}: {each.why}")
            yield f"::{level} file={name},{place},title={title}::{why}\n"


def configure_needs(parser: Parser) -> None:
    """The words and options of `needs`."""
    add_database(parser)
    parser.add_argument("label", metavar="LABEL")
    parser.flag("--tree", "as a tree")
    add_form(parser, "as a graph, in a file of this form")
    parser.exclude("--tree", "--as")
    parser.exclude("--format", "--as")
    add_open(parser)


def run_needs(context: Context, arguments: argparse.Namespace) -> int:
    """Answers `needs`."""
    database = context.database(arguments.database, options_of(arguments))
    one = database.assertion(arguments.label)
    needs = Needs(judged(database, [], []))
    empty = f"{database.name}: the statement of {shown(one.label)} has variables alone"
    if arguments.form is not None:
        put_graph(context, database, needs, one, arguments.form)
        return 0
    if arguments.tree:
        put_branches(context, needs, one, empty)
        return 0
    text = database.text
    rows: list[list[Value]] = []
    for each in needs.all(needs.forms_of(one)).values():
        sound = needs.judged.verdicts[each.definition].sound if each.definition else None
        rows.append([each.form, each.definition, sound, each.depth, needs.says(each.form)])
    rows.sort(key=lambda row: text.by_label[str(row[0])].number)
    context.table(("form", "definition", "sound", "depth", "says"), rows, empty, "form")
    return 0


def put_graph(
    context: Context, database: Database, needs: Needs, one: Assertion, form: str
) -> None:
    """Answers `needs --as`. A form that doesn't pass the filters isn't in the graph."""
    part = needs.part(one, context.test())
    if part.is_empty():
        context.tell(f"{database.name}: {shown(one.label)} needs no form besides")
    lines = lines_of(part, form, one.label, True, kinds=Kinds("defined", "primitive"))
    context.out.text("".join(line + "\n" for line in lines))


def put_branches(context: Context, needs: Needs, one: Assertion, empty: str) -> None:
    """Answers `needs --tree`."""
    rows: list[list[Value]] = []
    for each in needs.tree(needs.forms_of(one)):
        need = each.need
        rows.append([each.depth, need.form, need.definition, each.is_above, needs.says(need.form)])
    if not rows:
        context.tell(empty)
    passing = [list(row) for row in context.passing(rows, 1)]
    if context.out.format == "text":
        for row in passing:
            row[1] = f"{'  ' * int(str(row[0]))}{row[1]}"
    context.out.table(("depth", "form", "definition", "above", "says"), passing, ["depth"])


COMMANDS = [
    Command("definitions", PAGE, configure, run, (*TABLE_FORMATS, "github"), lists=True),
    Command("needs", NEEDS_PAGE, configure_needs, run_needs, lists=True),
]
