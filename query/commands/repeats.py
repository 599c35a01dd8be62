"""`repeats`: theorems that say what an earlier statement says, or a special case of it."""

from __future__ import annotations

import argparse
from collections.abc import Iterator
from copy import copy
from typing import NamedTuple

from query.answers.output import Value
from query.arguments.context import Context
from query.arguments.filters import Test
from query.arguments.options import Parser, add_database, add_only, add_open
from query.commands import Command
from query.platform import progress
from query.reports.choice import Options
from query.reports.database import Database, Dependence, result_key
from query.spare.conventions import LAST, conventions_of, is_fit
from query.spare.repeats import FORM, HOW, Finder, Found, Repeat, load, store
from query.spare.rules import UNREAD, Rule, Rules, rules_of
from query.spare.search import Shelf
from query.texts.discouraged import is_discouraged

COLUMNS = ("theorem", "earlier", "how", "only", "besides")

PAGE = """
Lists the theorems that say what a statement before them says, or a special case of it, in file
order. They may be dropped or moved up, or kept as an alternative.

theorem  its label
earlier  that of the statement, an axiom or a theorem; of several the first that says the same, or
         else the first of which the theorem is weaker, or else the first of which it is an instance
how      same:     both say the same, but for the names of variables and the order of hypotheses
         weaker:   the same, with more hypotheses or more conditions of distinct variables
         instance: what the earlier one says with other formulas for its variables
only     the axioms on which the theorem rests, and the earlier one doesn't
besides  the axioms on which the earlier one rests, and the theorem doesn't

With --how only these are listed.

Theorems aren't listed whose label ends in ALT or OLD or whose comment says (New usage is
discouraged.), nor what repeats these, but with --kept. One whose comment says (Proof modification
is discouraged.) is listed like any other. Neither is listed what repeats a statement of another
mathbox alone, but with --other-mathboxes: what several mathboxes have may be wanted in the main
part. Standard error says how many more are listed with both options, and of how many theorems it
takes too long to find what they repeat. What is found without filters is kept, so that it is
answered at once with any filter and --how.

  $ mmquery repeats set.mm
  $ mmquery repeats iset.mm --main
  $ mmquery repeats set.mm --how same
"""

LEFT_OUT = "{} more with --kept --other-mathboxes; the first is {}"
GIVEN_UP = "of {} theorems it takes too long to say what they repeat; the first is {}"


def configure(parser: Parser) -> None:
    """Adds the words and options."""
    add_database(parser)
    add_only(parser, "|-")
    add_open(parser)
    parser.flag("--kept", "also labels in ALT or OLD, and whose new usage is discouraged")
    parser.flag("--other-mathboxes", "also what repeats a statement of another mathbox")
    parser.add_argument("--how", choices=HOW, help="only those that repeat so (else: all)")


def candidates(rules: Rules, with_kept: bool, keeps: Test) -> Iterator[Rule]:
    """The theorems that may be listed, of those that pass a test."""
    for one in rules.text.assertions:
        rule = rules[one.number]
        if one.number % 1000 == 0:
            progress.now(f"searching, {one.number} of {len(rules)} assertions are done")
        if one.kind == "p" and keeps(one.label) and is_fit(rule):
            is_kept = one.label.endswith(LAST) or is_discouraged(rules.text, one)
            if with_kept or not is_kept:
                yield rule


def run(context: Context, arguments: argparse.Namespace) -> int:
    """Answers."""
    database = context.database(
        arguments.database, Options(only=arguments.only, open=arguments.open)
    )
    database.see_text()
    dependence = database.dependence()
    passes = context.test()
    sought = Sought(arguments.only, arguments.kept, arguments.other_mathboxes)
    found, most = found_in(context, database, sought)
    how: str | None = arguments.how
    rows, others = (
        [
            [one.theorem, one.earlier, one.how]
            for one in each.repeats
            if how in (None, one.how) and passes(one.theorem)
        ]
        for each in (found, most)
    )
    known = {row[0] for row in rows}
    left_out = [row[0] for row in others if row[0] not in known]
    so = "" if how is None else f" in the way '{how}'"
    among = context.filters.in_words()
    context.table(
        COLUMNS,
        [[*row, *rests_apart(dependence, row[0], row[1])] for row in rows],
        f"{database.name}: no theorem says what an earlier statement says{so}{among}",
        "theorem",
        remarks={
            LEFT_OUT: left_out,
            GIVEN_UP: [*filter(passes, found.given_up)],
            UNREAD: found.unread,
        },
    )
    return 0


class Sought(NamedTuple):
    """Among which statements repeats are sought: those of a typecode, with what is kept on purpose
    or not, and with those of other mathboxes or not."""

    typecode: str
    has_kept: bool
    has_other_mathboxes: bool

    def most(self) -> Sought:
        """The same with all statements."""
        return Sought(self.typecode, True, True)


def found_in(context: Context, database: Database, sought: Sought) -> tuple[Found, Found]:
    """What theorems repeat, and what they repeat among all statements: all theorems, where there
    are no filters or that is kept, and otherwise those that pass."""
    keys = [result_key("repeats", FORM, database.key, *each) for each in (sought, sought.most())]
    known = [load(key) for key in keys] if database.uses_cache else [None, None]
    if known[0] is not None and known[1] is not None:
        return known[0], known[1]
    rules = rules_of(database, sought.typecode)
    shelf = Shelf(rules, conventions_of(rules, True, True, True))
    most = known[1]
    if most is None:
        finder = Finder(rules, shelf)
        repeats = [*finder.repeats(candidates(rules, True, context.test()))]
        most = Found(repeats, finder.given_up, rules.unread)
    found = most if sought == sought.most() else among_fewer(context, shelf, most, sought)
    if database.uses_cache and not context.filters.are_given:
        store(keys[0], found)
        if known[1] is None:
            store(keys[1], most)
    return found, most


def among_fewer(context: Context, shelf: Shelf, most: Found, sought: Sought) -> Found:
    """What theorems repeat among fewer statements. Who repeats one of these among all statements
    does so here, and who repeats none at all does so here neither; the others are asked again."""
    rules, kept = shelf.rules, sought.has_kept
    fewer = copy(shelf)
    fewer.conventions = conventions_of(rules, kept, kept, sought.has_other_mathboxes)
    finder = Finder(rules, fewer)
    known = {each.theorem: each for each in most.repeats}
    again = {*most.given_up}
    repeats: list[Repeat] = []
    for theorem in candidates(rules, kept, context.test()):
        one = known.get(theorem.label)
        if one is not None:
            earlier = rules.text.by_label[one.earlier].number
            if fewer.conventions.allowed(theorem.number) >> earlier & 1:
                repeats.append(one)
                continue
        if one is not None or theorem.label in again:
            repeats += finder.repeats(iter([theorem]))
    return Found(repeats, finder.given_up, rules.unread)


def rests_apart(dependence: Dependence, theorem: str, earlier: str) -> list[Value]:
    """The axioms on which one rests and the other doesn't, both ways."""
    rests = []
    for label in (theorem, earlier):
        row = dependence.rows.get(label)
        columns = [dependence.columns[label]] if row is None else dependence.rests(row)
        rests.append([dependence.axioms[column] for column in columns])
    some, others = rests
    return [
        [axiom for axiom in some if axiom not in others] or None,
        [axiom for axiom in others if axiom not in some] or None,
    ]


COMMANDS = [Command("repeats", PAGE, configure, run, lists=True)]
