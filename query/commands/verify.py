"""`verify`: whether a database is valid, or what is wrong with it."""

import argparse
from collections.abc import Iterator
from typing import TYPE_CHECKING

from query.answers.output import Value
from query.arguments.context import Context
from query.arguments.options import Parser, add_choice_of_citations, add_database, options_of
from query.commands import Command
from query.platform import progress
from query.program import mmdepend
from query.program.refusals import Refused
from query.program.source import Source
from query.reports.database import Database
from query.texts.includes import misleading
from query.texts.uncommented import leave_open, without_comments

if TYPE_CHECKING:
    from query.proofs.explanation import Explanation
    from query.proofs.hints import Hint

PAGE = """
Tells whether every proof is valid (status 0), or the first fault (status 1) as compilers write it:
file, line, column, code and statement; what the code means, and what to do. Of a wrong step of a
proof it says what it cites, which hypothesis wants what and what stands there, or which variables
aren't distinct; it shows what stands for each of its hypotheses, and the steps before, and names
the other steps that are wrong in the same way. Where a proof ends in another formula than that of
its theorem, both are shown. Where a proof has a word that it can't cite, the word is shown, and the
line on which something of this name is declared. Of a number of a compressed proof that is too
large it says which one is the largest there.

valid      whether the database is accepted
axioms     how many axioms of every typecode it has
theorems   how many theorems it has
line, column, code, statement, meaning, advice   the fault; the column counts bytes from 1
proved, wanted   the formula that the proof proves and that of the theorem, for the code E38; what
           stands there and what the hypothesis wants, for E35; for E37 that of the theorem alone
word, declared   the word, and the line on which there is something of this name, for E33; the
           label, and the line on which it was used before, for E15
step, cited   which step is wrong, and the label that it cites, for E34, E35, E36 and E39; for E45
           which step
hypothesis   the label of the first hypothesis that what stands there doesn't fit, for E35
distinct   the two variables that must be distinct, for E36
first, second   what stands for each of them
lacking    the variable that both have, or two that no active $d has
steps      the last five steps before: number, label and formula, which is cut where it is long;
           for E37 also the steps of the last five entries of the stack
missing    all pairs of variables that aren't distinct at this step and those behind it, or the
           variable alone that both sides of a pair have; what to do names the first twenty
takes      for each hypothesis of the step the number of the step that stands for it, the label of
           the hypothesis, and the formula that stands there; of the first hundred
others     for E35 the other steps of the proof with a hypothesis that isn't met: number, label, and
           the label of that hypothesis; as far as it is known what the steps before them say

All steps are counted, those too that build formulas, as metamath.exe's `show proof T /all` counts
them. Each number of a compressed proof is a step; the label @N says that it repeats the step N. As
text, formulas are cut where they are long: `..` stands for what is left out.

With --each, the faults of all proofs: a theorem whose proof has one is taken as an axiom, and the
other proofs are judged on. --most N ends with the Nth fault.

  $ mmquery verify set.mm
  $ mmquery verify --each broken.mm
"""

SHORTEST_REPORT = ["--report=citations", "--only="]
"""A report of which only the refusal is wanted: no marks are made for it, and each theorem has a
line that cites nothing."""
SHOWN_WORD = 1000
"""Bytes of a word that are shown."""
FIELDS = ["line", "column", "code", "statement", "meaning", "advice"]
FIELDS += ["proved", "wanted", "word", "declared"]
FIELDS += [
    "step",
    "cited",
    "hypothesis",
    "distinct",
    "first",
    "second",
    "lacking",
    "steps",
    "missing",
    "takes",
    "others",
]
COLUMNS = ["valid", "axioms", "theorems", *FIELDS]


def configure(parser: Parser) -> None:
    """The words and options of `verify`."""
    add_database(parser)
    parser.flag("--each", "the faults of all proofs")
    parser.number("--most", "N", "with --each: how many", 100)
    add_choice_of_citations(parser)


def run(context: Context, arguments: argparse.Namespace) -> int:
    """Answers `verify`."""
    database = context.database(arguments.database, options_of(arguments))
    try:
        axioms, theorems = database.counts()
    except Refused as refusal:
        refusals = [refusal]
        if arguments.each and not database.is_report:
            refusals += others(database, refusal, arguments.most - 1)
        put_refusals(context, refusals)
        if arguments.each and len(refusals) == arguments.most:
            context.tell(f"{database.name}: there may be more faults than these {arguments.most}")
        return 1
    tell_includes(context, database)
    if context.out.format == "text":
        counted = f"{number_of(axioms, 'axiom')} and {number_of(theorems, 'theorem')}"
        context.out.line(f"{database.name}: valid, {counted}")
    else:
        row: list[Value] = [True, axioms, theorems]
        context.out.table(COLUMNS, [row + [None] * len(FIELDS)])
    return 0


def number_of(count: int, thing: str) -> str:
    """How many things there are, in words."""
    return f"{count} {thing}" if count == 1 else f"{count} {thing}s"


def tell_includes(context: Context, database: Database) -> None:
    """Says of a database that is valid where metamath.exe would read another text."""
    found = [] if database.is_report else misleading(database.data())
    if found:
        line = database.data().count(b"\n", 0, found[0].place) + 1
        comments = f"{len(found)} comment{'s' if len(found) > 1 else ''}"
        context.tell(
            f"{database.name}: {comments} by which metamath.exe reads another text, or none; the"
            f" first on line {line}: $( {found[0].words[:SHOWN_WORD]} $)"
        )


def others(database: Database, first: Refused, most: int) -> Iterator[Refused]:
    """The faults of other proofs than the first that has one, in file order; so many at most."""
    text = without_comments(database.data())
    data = bytearray(database.data())
    refusal = first
    for number in range(most):
        if not refusal.is_of_proof:
            return
        leave_open(text, data, refusal.at())
        progress.now(f"verifying {database.name} without {number + 1} proofs")
        source = Source(database.name, bytes(data))
        try:
            mmdepend.report(
                database.program, source, SHORTEST_REPORT + ["--open"] * database.options.open
            )
            return
        except Refused as found:
            refusal = Refused(database.source, found.line, found.column, found.code)
        yield refusal


def put_refusals(context: Context, refusals: list[Refused]) -> None:
    """Answers with faults of one database."""
    # It takes 15 milliseconds, and most databases have no fault.
    from query.proofs.explained import explanations
    from query.proofs.explanation import Explanation
    from query.proofs.hints import Hints

    hints = Hints(refusals[0].source)
    known = zip(refusals, explanations(refusals))
    if context.out.format == "text":
        for refusal, why in known:
            put_lines(context, refusal, hints.of(refusal), why or Explanation())
        return
    rows: list[list[Value]] = []
    for refusal, why in known:
        why = why or Explanation()
        hint = hints.of(refusal)
        row: list[Value] = [refusal.line, refusal.column, refusal.code, refusal.statement() or None]
        row += [refusal.meaning, advice_on(refusal, hint, why), *why.formulas()]
        row += [None, None] if hint is None else [hint.word, hint.declared]
        rows.append([False, None, None, *row, *why.fields()])
    context.out.table(COLUMNS, rows)


def advice_on(refusal: Refused, hint: "Hint | None", why: "Explanation") -> str:
    """What to do about a fault: the most particular that is known."""
    return (hint and hint.advice) or why.advice() or refusal.advice


def put_lines(context: Context, refusal: Refused, hint: "Hint | None", why: "Explanation") -> None:
    """Answers with a fault, for a person."""
    at = f"{refusal.source.name}:{refusal.line}:{refusal.column}"
    context.out.line(f"{at}: {refusal.said()}")
    lines = [("what to do", advice_on(refusal, hint, why)), *why.lines()]
    for name, text in lines if hint is None else [hint.line, *lines]:
        context.out.line(f"  {name:<16}  {text}")
    steps = "the last steps" if why.step is None else "the steps before"
    for name, block in (("it takes", why.taken_lines()), (steps, why.step_lines())):
        for line in block:
            context.out.line(f"  {name:<16}  {line}")
            name = ""


COMMANDS = [Command("verify", PAGE, configure, run)]
