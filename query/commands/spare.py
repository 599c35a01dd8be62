"""`spare`: theorems that can do without axioms, with the proofs that do."""

import argparse
from collections.abc import Collection, Sequence
from dataclasses import dataclass, replace

from query.answers.errors import NEAR_LABEL, NoAnswer, nearest, shown
from query.answers.output import Value
from query.arguments.context import Context
from query.arguments.label_files import labels_like
from query.arguments.options import (
    Parser,
    add_database,
    add_only,
    add_open,
    between_commas,
    positive,
)
from query.commands import Command
from query.definitions.foundations import BEGINNING
from query.platform.files import see_missing, write_new
from query.reports.choice import Options
from query.reports.database import Database
from query.spare.changes import Changer, ProofRange, Wanted
from query.spare.judge import judge_changes, rewritten
from query.spare.kept import Change
from query.spare.roots import Roots
from query.spare.rules import UNREAD

COLUMNS = (
    *("how", "theorem", "loses", "replaced", "by", "step", "bytes", "chapter", "gains", "with"),
    *("fault", "hides"),
)

PAGE = """
Lists the theorems that can do without AXIOM: their proofs cite statements that stand before them in
place of others, or they cite theorems whose proofs do. Nothing is gained by that but what
--may-gain names: a statement is only cited where the theorem rests on all of its other axioms
anyway.

how       direct:  the proof of the theorem is another one; a row for each step that is replaced
          cascade: its proof stays, and something that it cites rests on less
theorem   its label
loses     the axioms on which it no longer rests, also others than AXIOM
replaced  what the step cited; none where it is a new one, or where steps were only left out
by        what it cites now
step      the formula of the step, of at most 400 symbols
bytes     of a direct one, how much longer its proof is
chapter   the number of the header under which it stands
gains     with --may-gain the axioms on which it comes to rest
with      of a cascade the first of the theorems whose new proofs it loses them with
fault     of a direct one the theorems at which the fault lies: they rest on the axiom, its old
          proof cites them, and its new one proves once more what they say
hides     of a direct one the definitions that may hide an axiom: they aren't known to be sound, and
          a step rests on them that did without them before

A theorem at which a fault lies is mended first, by the same steps or by others, also by new steps;
then those that cite it lose the axiom with it, and keep their proofs. So what is told as a fault
couldn't be mended there, or isn't to be: it isn't asked about, or it would have to cite what is
discouraged, or what stands after it, or would rest on another rule of syntax.

--theorem T, which may be given several times, and the filters choose the theorems whose proofs may
be changed. What others lose by that, which keep their proofs, is told too.

With --may-gain AXIOM, which may be given several times, a theorem may come to rest on that one and
on any rule of syntax, where no proof is found that gains nothing; and so may all that cite it, also
such as lose nothing. A definition has to be named as well. AXIOM may be several ones with commas
between, or a pattern in which * is anything, as 'df-*'. --may-gain-of LABEL allows all axioms and
definitions on which LABEL rests, but for those that are to be lost. Where nothing is found by that
for a theorem of --theorem, but by a statement that would let it gain more, standard error names it.

With --shorter these are the proofs that get shorter by that, whatever axioms they lose.

The rows are in the order in which a maintainer would rather merge them. First come the new proofs
that leave their theorem on fewer of the AXIOMs; of equal ones those that newly cite fewer
statements whose new usage is discouraged; then those with fewer definitions in the column `hides`,
since an axiom may be lost for what such a one says; then those that get shorter by more bytes; and
then the order of the file. A cascade stands behind the first new proof that its column `with`
names. By the same rule one of several proofs of a theorem is taken.

Several AXIOMs are tried together, and one after the other in this order where a proof can't do
without all of them. The answer is judged before it is given: the program verifies the database with
the new proofs, which has to have the same statements, and in which the theorems have to lose just
these axioms, and gain none but what is said. If something isn't so, there is no answer.

Nothing is cited that is discouraged, that has a label which ends in ALT or OLD, or that stands in
another mathbox; and no proof is changed whose modification is discouraged. Options set each of
these aside. A proof with a comment between its $= and $. isn't changed.

A proof whose search takes too long is given up. A formula that the syntax axioms of the database
don't build, or build in two ways, or that takes too long to read, is only compared with others as
it stands. Standard error says how many there were.

Several processes search, one for each processor, at most 4, as far as memory goes; --jobs says how
many. The answer is the same. What was found is kept each minute, so that a search that was
interrupted goes on from there.

--write makes a new file: all is as in DATABASE but the proofs that are changed, which are
compressed, as metamath.exe would save them. --proof prints one of them, from the label of its
theorem to the end.

  $ mmquery spare set.mm ax-13 --write new.mm
  $ mmquery spare set.mm ax-10 ax-13 --theorem eujust
  $ mmquery spare set.mm ax-13 --under 'propositional calculus'
  $ mmquery spare set.mm ax-ac2 --may-gain ax-cc
  $ mmquery spare set.mm ax-inf2 --may-gain-of axinf2 --theorem zfinf2 --cite-discouraged
"""


ASIDE = ("gains", "with", "fault", "hides")
"""The columns that the form text leaves out where they say nothing."""
FLAGS = {
    "--all": "every axiom, the last one first",
    "--shorter": "proofs that get shorter, whatever they lose",
    "--new-steps": "take instances of statements without hypotheses as new steps, too",
}
CONVENTIONS = {
    "--cite-discouraged": "cite what is discouraged, too",
    "--cite-old": "cite labels that end in ALT or OLD, too",
    "--cite-mathboxes": "cite what stands in other mathboxes, too",
    "--change-discouraged": "change proofs whose modification is discouraged, too",
}
"""What sets conventions aside."""
MOST_HINTS = 3
"""Of so many theorems it is said what would do in their proofs, but lets them gain too much."""
MOST_CITED, MOST_GAINED = 3, 3
"""Where more statements would have to be cited it isn't said; so many gained axioms are named."""
PASSING = " among what passes"
"""How the filters begin that the end of a sentence tells."""
GIVEN_UP = (
    "{} proofs were given up, since it takes too long to search them; the first is that of {}"
)


def configure(parser: Parser) -> None:
    """Adds the words and options."""
    add_database(parser)
    parser.add_argument("axiom", metavar="AXIOM", nargs="*")
    for name, words in FLAGS.items():
        parser.flag(name, words)
    parser.values("--theorem", "T", "change only the proof of T; may be given several times")
    gain = "theorems may come to rest on AXIOM, in which * is anything; several: by commas"
    parser.values("--may-gain", "AXIOM", gain)
    of = "theorems may come to rest on all on which LABEL rests; several: by commas"
    parser.values("--may-gain-of", "LABEL", of)
    parser.value("--write", "NEW", "the file to make, with the new proofs")
    parser.value("--proof", "T", "print the theorem T with its new proof")
    add_only(parser, "|-")
    add_open(parser)
    parser.value("--jobs", "N", "search with N processes", type=positive)
    for name, words in CONVENTIONS.items():
        parser.flag(name, words)


@dataclass(frozen=True, slots=True)
class Found:
    """What a search found, which was judged: the changes, and the database with them."""

    changer: Changer
    changes: list[Change]
    data: bytes


def wanted_of(context: Context, database: Database, arguments: argparse.Namespace) -> Wanted:
    """What is asked for. NoAnswer where a label isn't there, or nothing is asked for."""
    dependence = database.dependence()
    axioms: list[str] = list(dict.fromkeys(arguments.axiom))
    for label in axioms:
        dependence.see_axiom(label)
    theorems = theorems_of(context, database, arguments.theorem)
    gained = gained_of(database, arguments, axioms)
    if axioms and arguments.all:
        raise NoAnswer("an AXIOM and --all exclude one another")
    if arguments.shorter and (axioms or arguments.all or arguments.new_steps):
        raise NoAnswer("--shorter and an AXIOM, --all or --new-steps exclude one another")
    if not axioms and not arguments.all and not arguments.theorem and not arguments.shorter:
        raise NoAnswer("an AXIOM is wanted, or --theorem T, or --all, or --shorter")
    if not axioms and not arguments.shorter:
        axioms = [each for each in reversed(dependence.axioms) if each not in gained]
    return Wanted(
        typecode=arguments.only,
        axioms=tuple(axioms),
        theorems=theorems,
        cites_discouraged=arguments.cite_discouraged,
        cites_old=arguments.cite_old,
        cites_mathboxes=arguments.cite_mathboxes,
        changes_discouraged=arguments.change_discouraged,
        has_new_steps=arguments.new_steps,
        is_all=not arguments.axiom and not arguments.theorem,
        is_shorter=arguments.shorter,
        may_gain=gained,
    )


def theorems_of(
    context: Context, database: Database, named: Collection[str]
) -> frozenset[str] | None:
    """The theorems whose proofs may be changed: those of the named ones that pass the filters, or
    of all; None where none is named and there is no filter. NoAnswer where one isn't there."""
    dependence = database.dependence()
    for label in named:
        dependence.see_theorem(label)
    if not named and not context.filters.are_given:
        return None
    return frozenset(filter(context.test(), named or dependence.theorems))


def gained_of(
    database: Database, arguments: argparse.Namespace, axioms: Collection[str]
) -> frozenset[str]:
    """The axioms on which theorems may come to rest, of which none is one of those that are to be
    lost. NoAnswer where a word names none."""
    dependence = database.dependence()
    gained: set[str] = set()
    for word in between_commas(arguments.may_gain):
        found = labels_like([word], dependence.axioms, database.name, "axiom")
        for label in found:
            dependence.see_axiom(label)
        if not {*found}.difference(axioms):
            raise NoAnswer(f"{shown(word)} can't be lost and gained")
        gained.update(found)
    for label in between_commas(arguments.may_gain_of):
        found = axioms_below(database, label)
        if not {*found}.difference(axioms):
            raise NoAnswer(f"{database.name}: {shown(label)} rests on no axiom that may be gained")
        gained.update(found)
    return frozenset(gained.difference(axioms))


def axioms_below(database: Database, label: str) -> list[str]:
    """The axioms on which an assertion rests; an axiom rests on itself. NoAnswer where there is
    none of this label."""
    dependence = database.dependence()
    database.assertion(label)
    if label in dependence.columns:
        return [label]
    row = dependence.rows.get(label)
    return [] if row is None else [dependence.axioms[each] for each in dependence.rests(row)]


def found_by(database: Database, wanted: Wanted, at_once: int | None, looks_below: bool) -> Found:
    """What is found, and where it is looked below new proofs, what can be mended there. NoAnswer
    where it isn't so."""
    changer = Changer(database, wanted, at_once)
    changes = list(changer.changes())
    if looks_below:
        changes = Roots(changer, changes).settled()
    data = rewritten(database.text, changes)
    judge_changes(database, data, changes, changer.gainable)
    return Found(changer, changes, data)


def run(context: Context, arguments: argparse.Namespace) -> int:
    """Answers."""
    database = context.database(
        arguments.database, Options(only=arguments.only, open=arguments.open)
    )
    database.see_text()
    if arguments.write is not None:
        see_missing(arguments.write)
    wanted = wanted_of(context, database, arguments)
    nowhere = nothing_to_lose(context, database, wanted, arguments)
    if nowhere:
        context.table(COLUMNS, [], f"{database.name}: {nowhere}", aside=ASIDE)
        if arguments.write is not None:
            write_new(arguments.write, database.text.data)
        return 0
    found = found_by(database, wanted, arguments.jobs, not wanted.is_shorter)
    if arguments.proof is None:
        empty = "no shorter proof was found"
        if not wanted.is_shorter:
            empty = f"no theorem was found that can do without {in_words(arguments.axiom)}"
        put_rows(context, database, found, empty)
    for hint in hints(database, wanted, arguments, found.changes):
        context.tell(hint)
    if arguments.proof is not None:
        context.out.text(new_statement(database, found.changes, arguments.proof))
    if arguments.write is not None:
        write_new(arguments.write, found.data)
    return 0


def in_words(axioms: Sequence[str]) -> str:
    """The axioms that are named, as what a theorem can do without."""
    if len(axioms) > 1:
        return "any of the axioms"
    return shown(axioms[0]) if axioms else "an axiom on which it rests"


def put_rows(context: Context, database: Database, found: Found, empty: str) -> None:
    """Answers with a row for each step that is replaced, and for each theorem that keeps its
    proof. Where there is none, `empty` says so."""
    given_up = [change.theorem for change in found.changes if change.is_given_up]
    remarks = {GIVEN_UP: given_up, UNREAD: found.changer.rules.unread}
    rows = rows_of(database, found.changer.ranked(found.changes))
    aside = [name for name in ASIDE if all(row[COLUMNS.index(name)] is None for row in rows)]
    why = f"{database.name}: {empty}{context.filters.in_words()}"
    context.table(COLUMNS, rows, why, aside=aside, remarks=remarks)


def hints(
    database: Database,
    wanted: Wanted,
    arguments: argparse.Namespace,
    changes: Collection[Change],
) -> list[str]:
    """What would do in the proofs of theorems of `--theorem` that got no new one, and lets them
    gain more than is allowed. It is searched once more for that, with all allowed."""
    new = {change.theorem for change in changes if change.proof is not None}
    left = (wanted.theorems or frozenset()).difference(new)
    if not arguments.theorem or not arguments.axiom or not wanted.may_gain or not left:
        return []
    axioms = database.axioms()
    every = frozenset(axioms).difference(wanted.axioms)
    more = replace(wanted, theorems=left, may_gain=every, has_new_steps=False)
    try:
        others_found = found_by(database, more, arguments.jobs, False).changes
    except NoAnswer:  # what isn't so is no hint, and the answer itself was judged
        return []
    found: list[str] = []
    for change in others_found:
        gains = [each for each in change.gains if each in axioms and each not in wanted.may_gain]
        gains.sort(key=lambda each: each.startswith(BEGINNING))
        cited = list(dict.fromkeys(each.new for each in change.replaced))
        if change.proof is not None and gains and 0 < len(cited) <= MOST_CITED:
            gained = " ".join(gains[:MOST_GAINED])
            others = f" ({len(gains) - MOST_GAINED} more)" if len(gains) > MOST_GAINED else ""
            found.append(
                f"{database.name}: {shown(', '.join(cited))} would do in the proof of "
                f"{shown(change.theorem)}, which would gain {shown(gained)}{others}; "
                f"--may-gain-of {shown(','.join(cited))} allows {them(gains)}"
            )
    return found[:MOST_HINTS]


def them(several: Collection[str]) -> str:
    """The word for one or several."""
    return "it" if len(several) == 1 else "them"


def nothing_to_lose(
    context: Context, database: Database, wanted: Wanted, arguments: argparse.Namespace
) -> str:
    """That no theorem passes the filters, or none of those that are asked about rests on an axiom
    that was named; "" where one does. This is known without the search, which may take long.
    NoAnswer where a new proof is to be printed, which there can't be."""
    dependence = database.dependence()
    axioms: list[str] = arguments.axiom
    theorems = dependence.theorems if wanted.theorems is None else sorted(wanted.theorems)
    passing = context.filters.in_words()
    if not theorems and wanted.theorems is not None:
        where = f"none of the theorems passes the filters{passing.removeprefix(PASSING)}"
        if arguments.proof is not None:
            raise NoAnswer(f"{database.name}: {where}, so none gets a new proof")
        return where
    if arguments.proof is not None:
        dependence.see_theorem(arguments.proof)
        theorems = [arguments.proof]
    resting = {row for each in axioms for row in dependence.users(dependence.column(each))}
    if not axioms or any(dependence.row(each) in resting for each in theorems):
        return ""
    is_one = len(theorems) == 1
    who = shown(theorems[0]) if is_one else f"none of the theorems{passing}"
    verb = "doesn't rest" if is_one else "rests"
    where = f"{who} {verb} on {in_words(axioms)}"
    if arguments.proof is not None:
        raise NoAnswer(f"{database.name}: {where}, so it gets no new proof")
    return where


def rows_of(database: Database, changes: list[Change]) -> list[list[Value]]:
    """The rows of the answer."""
    axioms = set(database.axioms())
    rows: list[list[Value]] = []
    for change in changes:
        label = change.theorem
        loses = [axiom for axiom in change.loses if axiom in axioms] or None
        gains = [axiom for axiom in change.gains if axiom in axioms] or None
        if change.proof is None and not change.loses and not gains:
            continue
        chapter = database.text.chapter_number(database.text.by_label[label])
        reasons = [list(each) or None for each in (change.sources, change.faults, change.hides)]
        if change.proof is None:
            steps: list[list[Value]] = [[None, None, None]]
            how, longer = "cascade", None
        else:
            steps = [[list(each.old) or None, each.new, each.formula] for each in change.replaced]
            how, longer = "direct", len(change.proof) - change.old_length
        for step in steps or [[None, None, None]]:
            rows.append([how, label, loses, *step, longer, chapter, gains, *reasons])
    return rows


def new_statement(database: Database, changes: list[Change], label: str) -> str:
    """A theorem with its new proof. NoAnswer where it has none."""
    text = database.text
    for change in changes:
        if change.theorem == label and change.proof is not None:
            one = text.by_label[label]
            proof_range = ProofRange(text.data, one.place, one.end)
            data = text.data[one.place : proof_range.start] + change.proof + b"$."
            return data.decode("latin-1") + "\n"
    known = [change.theorem for change in changes if change.proof is not None]
    meant = nearest(label, known, NEAR_LABEL)
    raise NoAnswer(f"{database.name}: no new proof of '{shown(label)}'{meant}")


COMMANDS = [Command("spare", PAGE, configure, run, lists=True)]
