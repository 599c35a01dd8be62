"""`history`: how much rests on axioms in each revision of a repository; or what became of one
statement, and since when a theorem rests on axioms."""

import argparse
import os
from collections.abc import Iterator, Sequence
from typing import NamedTuple

from query.answers.errors import NoAnswer, shown
from query.answers.output import Value
from query.arguments.context import Context
from query.arguments.options import Parser, add_choice_of_citations, add_database, options_of
from query.commands import Command
from query.comparisons.changed_statements import BOTH, Change, change_of, lines_of, most_of
from query.comparisons.pairing import difference_in_words
from query.comparisons.renames import Renames
from query.git.history import Range, Revision, nothing_in, range_of, revisions
from query.git.objects import Objects
from query.git.repository import Repository, repository_with
from query.platform import progress, secret
from query.program import mmdepend
from query.program.source import is_of_git
from query.reports.revisions import (
    Figures,
    Question,
    contents_before,
    contents_of,
    figures_of,
)
from query.reports.trails import Trail

PAGE = """
Shows for each revision of the range that changed DATABASE, the path of a file in a git repository,
how many theorems rest on each AXIOM; the oldest first, and a row for each AXIOM. The repository is
the one in which the file's folder lies, whatever the working folder is.

rev       the revision's full id
date      the day on which it was committed, by universal time
theorems  how many theorems the file has
axiom     the AXIOM, an axiom of any typecode
rest      how many theorems rest on it; none where the file has no such axiom
fault     why nothing is known of this revision: `refused LINE:COLUMN CODE` where a proof or the
          text is faulty, or that the file isn't there
author    the name of its author
subject   the first line of its message

With --faults, only the revisions at which a fault began or ended, or became another one than that
before. Where a row has no fault, one has ended.

With --of T, what became of the statement T, an axiom or a theorem: only the revisions that changed
it, those at which it came to rest on an axiom or no longer does, and those at which a fault began
or ended. So no AXIOM has to be named to find since when, and by whom, T rests on one. The first
revision of the range is compared with the one before it. That has no row; standard error says where
it is faulty, or lacks the file.

rev, date, fault, author, subject   the same
theorem  its label there; none where there is a fault, since nothing is known of that revision
change   there:   it is there already, and nothing is known of before: this is the first revision
                  of the file, or in all that was looked at before the file is faulty or missing
         new:     it came with this revision
         changed: its label says something else now
         renamed: it has another label now. If that was another statement's in the revision before,
                  a second row says `changed` of it
         proof:   it says the same, and its proof is another one
         below:   its proof is the same, but it rests on other axioms than before, by another proof
                  of something that it rests on
         gone:    it isn't there any more
was      for `renamed` the label that it had before
differ, old, new   for `changed` in what both statements differ, and both, as `compare` tells them
gained, lost   the axioms of typecode |- on which it came to rest with this revision, and those on
         which it no longer rests, beside the last sound revision before

With --of T and AXIOM.., of any typecode, the theorem's answers: only the revisions at which one
changed, or a fault began or ended, or the statement or its label changed, and the first one:

axiom    which AXIOM; none in a row about the statement
rests    whether the theorem rests on the axiom; none where there is no theorem T
So the last row of an axiom says since which revision it is as it is, unless that is the first one.
Behind a fault the answer is told anew, whether or not it is that before it.

T is followed where it was renamed, as `compare` finds it: the same statement is there under another
label. Where none is, the label is followed, whatever it says. T is the label that it has in the
newest revision that has one.

REV..REV are the revisions of the second REV that aren't in the first, as in git; REV alone is all
of them. Of a merge the first parent is followed: a merge into the branch is one change, by whatever
revisions it was made. The file is followed where it was renamed. Equal files are judged once. What
is known of a file is kept; each other one takes as long as a first question.

  $ mmquery history set.mm v1..main ax-ac2 ax-reg
  $ mmquery history set.mm v1..main --faults
  $ mmquery history set.mm main --of zorn
  $ mmquery history set.mm main --of zorn --format json
  $ mmquery history set.mm v1..main ax-ac2 --of zorn
  $ mmquery history ~/set.mm/set.mm v1..main ax-ac2
"""

COLUMNS = ("rev", "date", "theorems", "axiom", "rest", "fault", "author", "subject")
OF_AXIOMS = ("axiom", "rests")
OF_CHANGE = ("gained", "lost")
OF_STATEMENT = ("change", "was", *BOTH, *OF_CHANGE)
COLUMNS_OF = ("rev", "date", "theorem", *OF_AXIOMS, "fault", "author", "subject", *OF_STATEMENT)

CHANGED, RENAMED, BELOW = "changed", "renamed", "below"

Row = tuple[Value, ...]
Known = Sequence[tuple[Revision, Figures]]


class Turn(NamedTuple):
    """What a revision did to a statement: the columns about that."""

    change: str | None = None
    was: str | None = None
    differ: str | None = None
    old: str | None = None
    new: str | None = None
    gained: list[str] | None = None
    lost: list[str] | None = None


NO_TURN = Turn()


class Course(NamedTuple):
    """The revisions of a range with what each says, and what the file said before the first one:
    None where there is nothing before, or nobody asked. Each is compared with those before it."""

    known: Known
    before: Figures | None = None

    def sound(self) -> list[Figures]:
        """What is known, without what is faulty; first what was before the range."""
        told = [*([] if self.before is None else [self.before]), *(each for _, each in self.known)]
        return [each for each in told if each.fault is None]

    def fault_turns(self) -> list[bool]:
        """For each revision whether a fault began or ended there. The first one has its turn with
        a fault that was there before, too: in a range that is faulty as a whole, it is told."""
        found = [*fault_turns(self.known)]
        if found and self.before is not None and self.before.fault is not None:
            found[0] = True
        return found


def configure(parser: Parser) -> None:
    """Adds the words and options."""
    add_database(parser)
    parser.add_argument("range", metavar="REV..REV")
    parser.add_argument("axiom", metavar="AXIOM", nargs="*")
    parser.value("--of", "T", "what became of the statement T, or since when it rests on AXIOMs")
    parser.flag("--faults", "only when faults began and ended")
    parser.exclude("--of", "--faults")
    add_choice_of_citations(parser)


def run(context: Context, arguments: argparse.Namespace) -> int:
    """Answers."""
    word = arguments.database
    axioms = list(dict.fromkeys(arguments.axiom))
    if word == "-" or is_of_git(word) or os.path.isdir(word):
        raise NoAnswer(f"{shown(word)}: history wants the path of a file that git keeps")
    repository = repository_with(word)
    path, within = repository.path_of(word), range_in(arguments, repository)
    question = Question(options_of(arguments), context.uses_cache, tuple(axioms), arguments.of)
    mmdepend.ready()
    if context.uses_cache:
        secret.read_or_make()  # here, since a process of its own may be ended while it makes one
    with Objects(repository) as objects:
        progress.now(f"looking for the revisions of {shown(word)}")
        found = revisions(objects, within, path)
        if not found:
            context.tell(nothing_in(objects, within, path))
        course = course_of(objects, within, found, question)
    name = f"{within.word} of {shown(word)}"
    see_labels(course, question, name)
    if repository.is_shallow():
        context.tell("the clone is shallow, so there may be revisions before the first one")
    if arguments.of is not None:
        put_life(context, course, question, name)
        return 0
    shown_ones = known = course.known
    if arguments.faults:
        shown_ones = [pair for pair, is_turn in zip(known, fault_turns(known)) if is_turn]
        if found and not shown_ones:
            context.tell(f"no revision of {name} has a fault")
    aside = [] if axioms else ["axiom", "rest"]
    context.out.table(COLUMNS, counts(shown_ones, axioms), aside)
    return 0


def course_of(
    objects: Objects, within: Range, found: Sequence[Revision], question: Question
) -> Course:
    """What each revision of a range says, in their order; of one assertion also what was before."""
    contents = contents_of(objects, found)
    if question.label is None:
        return Course(list(zip(found, figures_of(objects, contents, question), strict=True)))
    before = contents_before(objects, within, found)
    renames = Renames(question.options, question.uses_cache)
    figures = Trail(objects, [*before, *contents], question, renames.label_in).followed()
    known = list(zip(found, figures[len(before) :], strict=True))
    return Course(known, figures[0] if before else None)


def range_in(arguments: argparse.Namespace, repository: Repository) -> Range:
    """The revisions that are asked for. NoAnswer where one isn't there, which says where REV..REV
    stands if another word may be meant by it."""
    try:
        return range_of(arguments.range, repository)
    except NoAnswer as why:
        if ".." in arguments.range or not all(".." in each for each in arguments.axiom[:1]):
            raise
        raise NoAnswer(f"{why.sentence()}; REV..REV comes before the AXIOM") from None


def see_labels(course: Course, question: Question, name: str) -> None:
    """NoAnswer where no revision has an axiom, or the theorem, that is asked for. One that went
    with the first revision was there before."""
    if all(each.fault is not None for _, each in course.known):
        return
    sound = course.sound()
    for axiom in question.axioms:
        if all(each.count(axiom) is None for each in sound):
            raise NoAnswer(f"no revision in {name} has an axiom '{shown(axiom)}'")
    label = question.label
    if label is None:
        return
    if question.axioms and not any(each.has_theorem for each in sound):
        raise NoAnswer(f"no revision in {name} has a theorem '{shown(label)}'")
    if all(each.line is None for each in sound):
        raise NoAnswer(f"no revision in {name} has a statement '{shown(label)}'")


def fault_turns(known: Known) -> Iterator[bool]:
    """For each revision whether a fault began or ended there, or became another one. A refusal for
    the same kind of fault is the same one, be it at another place: what stands before it grows."""
    last = None
    for _, each in known:
        fault = each.fault
        if fault is not None and fault.startswith("refused "):
            fault = fault.split(" ")[-1]
        yield fault != last
        last = fault


def counts(known: Known, axioms: Sequence[str]) -> Iterator[Row]:
    """For each revision the theorems that rest on each axiom."""
    for revision, each in known:
        said = (each.fault, revision.author, revision.subject)
        if not axioms:
            yield revision.commit, revision.date, each.theorems, None, None, *said
        for axiom in axioms:
            rest = each.count(axiom)
            yield revision.commit, revision.date, each.theorems, axiom, rest, *said


def put_life(context: Context, course: Course, question: Question, name: str) -> None:
    """Answers what became of a statement, or since when it rests on axioms. What was before the
    range has no row, so standard error says where that is faulty, or where no row is left."""
    most, axioms = most_of(context.out.format), question.axioms
    rows = [*(answers(course, axioms, most) if axioms else life(course, most))]
    aside = (*BOTH, *OF_CHANGE) if axioms else (*OF_AXIOMS, *BOTH)
    if course.before is not None and course.before.fault is not None:
        context.tell(f"before {name} nothing is known: {course.before.fault}")
    if course.known and not rows:
        context.tell(f"no revision of {name} changed '{shown(str(question.label))}'")
    context.out.table(COLUMNS_OF, rows, aside)
    if context.out.format == "text":
        changed = [row for row in rows if row[COLUMNS_OF.index("change")] == "changed"]
        start = COLUMNS_OF.index(BOTH[0])
        both = (map(str, row[start : start + len(BOTH)]) for row in changed)
        told = (Change(f"{row[2]}, {row[1]}", *each) for row, each in zip(changed, both))
        for line in lines_of(told):
            context.out.line(line)


def turn(pair: tuple[Revision, Figures], axiom: Value, rests: Value, change: Turn) -> Row:
    """A row about one assertion. Which label it has isn't known where there is a fault."""
    revision, each = pair
    said = (each.fault, revision.author, revision.subject)
    label = each.label if each.fault is None else None
    return (revision.commit, revision.date, label, axiom, rests, *said, *change)


def life(course: Course, most: int) -> Iterator[Row]:
    """The revisions that changed a statement, or at which a fault began or ended."""
    for pair, changes, is_turn in zip(course.known, turns(course, most), course.fault_turns()):
        for change in changes:
            if is_turn or change.change is not None:
                yield turn(pair, None, None, change)


def answers(course: Course, axioms: Sequence[str], most: int) -> Iterator[Row]:
    """For each revision the axioms of which it is another answer than before whether the theorem
    rests on them, or all where a fault began or ended; and before these whether the statement or
    its label changed."""
    last: dict[str, bool | None] = {}
    for pair, changes, is_turn in zip(course.known, turns(course, most), course.fault_turns()):
        each = pair[1]
        for change in changes:
            if change.change in (CHANGED, RENAMED):
                yield turn(pair, None, None, change)
        for axiom in axioms:
            rests = each.rests(axiom)
            is_same = each.fault is not None or (axiom in last and last[axiom] == rests)
            if each.fault is None:
                last[axiom] = rests
            if is_turn or not is_same:
                yield turn(pair, axiom, rests, NO_TURN)


def turns(course: Course, most: int) -> Iterator[list[Turn]]:
    """For each revision what it did to the statement, and then what to its label, where that was
    another statement's. It is compared with the last one before that is sound."""
    before = course.before
    last = None if before is None or before.fault is not None else before
    for _, each in course.known:
        if each.fault is not None:
            yield [NO_TURN]
            continue
        yield [turn_of(last, each, most), *turn_of_label(each, most)]
        last = each


def turn_of_label(now: Figures, most: int) -> Iterator[Turn]:
    """That the label says something else now, where the statement had another label before."""
    old, new = now.replaced, now.assertion
    if old is not None and new is not None and (words := difference_in_words(old, new)):
        yield Turn(CHANGED, None, *change_of(old, new, words, most)[1:4])


def turn_of(before: Figures | None, now: Figures, most: int) -> Turn:
    """What a revision did to the statement, and on which axioms it rests since then and no longer.
    There is none before the first one."""
    found = statement_turn(before, now, most)
    if before is None or not before.has_theorem or not now.has_theorem:
        return found
    was, rests = before.axioms or (), now.axioms or ()
    gained = [axiom for axiom in rests if axiom not in was]
    lost = [axiom for axiom in was if axiom not in rests]
    if not gained and not lost:
        return found
    return found._replace(change=found.change or BELOW, gained=gained or None, lost=lost or None)


def statement_turn(before: Figures | None, now: Figures, most: int) -> Turn:
    """What a revision did to the statement itself and to its proof."""
    old, new = None if before is None else before.assertion, now.assertion
    if new is None:
        return NO_TURN if old is None else Turn("gone")
    if before is None:
        return Turn("there")
    if old is None:
        return Turn("new")
    if words := difference_in_words(old, new):
        was = None if old.label == new.label else old.label
        return Turn(CHANGED, was, *change_of(old, new, words, most)[1:4])
    if old.label != new.label:
        return Turn(RENAMED, old.label)
    return NO_TURN if before.proof == now.proof else Turn("proof")


COMMANDS = [Command("history", PAGE, configure, run)]
