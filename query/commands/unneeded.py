"""`unneeded`: hypotheses, `$d` conditions and symbols that nothing needs."""

import argparse
from collections.abc import Iterator
from typing import NamedTuple

from query.answers.errors import NoAnswer
from query.answers.output import Value
from query.arguments.context import Context
from query.arguments.options import Parser, add_database, add_open
from query.commands import Command
from query.proofs.unneeded import Symbol, Unneeded, read_text, unneeded_of
from query.proofs.unneeded_through import unneeded_through
from query.reports.choice import Options
from query.reports.database import NOTHING, Database

COLUMNS = ("what", "theorem", "unneeded", "floating")

PAGE = """
Lists what a database asks for although nothing needs it; without an option that chooses, all three.

--hypotheses  the $e of theorems whose label no step of the proof has. One that a step has, if only
              to fill a hypothesis that is unneeded itself, isn't listed, but with --through
--disjoint    the pairs of a theorem's variables that have to be distinct, though no step of its
              proof asks for that: without this pair in a $d, the proof is valid all the same, and
              so it is without all pairs that are listed
--symbols     the constants that are in no formula, and the variables that are in no formula but
              that of a $f whose label no proof has. A formula is that of a $a, $e, $f or $p; in a
              $d alone a symbol isn't needed. Symbols that are declared twice count as one.

Only pairs of variables are listed that are in the formula or in a $e of the theorem. Conditions of
other variables of its proof are another matter. Who drops a hypothesis has to change the proofs
that cite the theorem; who drops a pair doesn't. But a $d holds for all assertions that follow it in
its block, and another one may need it. Theorems come in file order, and symbols last. With a
filter, which asks for theorems, no symbols are listed.

With --through also the $e that a proof uses only to fill hypotheses of cited theorems which are
listed themselves: where these are taken away from the cited theorems, nothing uses them any more.
So all $e that are listed can be taken away together, with the steps that fill them.

what      hypothesis, pair, constant, or variable; through for a $e that is listed by --through
theorem   the label of the theorem; none for a symbol
unneeded  the label of the $e, the two variables, or the symbol
floating  of a variable the labels of its $f

Of a proof that takes too long to be carried out no pair is listed. Standard error says of how many
theorems that is so.

  $ mmquery unneeded set.mm --disjoint --main
  $ mmquery unneeded set.mm --symbols
  $ mmquery unneeded set.mm --hypotheses --through
"""

GIVEN_UP = "of {} theorems it takes too long to say which pairs they need; the first is {}"
CHOICES = {
    "--hypotheses": "the $e that proofs don't use",
    "--disjoint": "the pairs of $d that proofs don't ask for",
    "--symbols": "the constants and variables that are in no formula",
}


class Choice(NamedTuple):
    """What is to be listed; with `through` also hypotheses that only fill others."""

    hypotheses: bool
    pairs: bool
    symbols: bool
    through: bool


NONE = Unneeded([], [])


def configure(parser: Parser) -> None:
    """Adds the words and options."""
    add_database(parser)
    for name, words in CHOICES.items():
        parser.flag(name, words)
    parser.flag("--through", "also $e that only fill hypotheses which are themselves unneeded")
    add_open(parser)


def run(context: Context, arguments: argparse.Namespace) -> int:
    """Answers."""
    hypotheses, pairs, symbols = (
        bool(vars(arguments)[name.removeprefix("--")]) for name in CHOICES
    )
    if symbols and context.filters.are_given:
        raise NoAnswer("a filter asks for theorems, so it and --symbols exclude one another")
    if not hypotheses and not pairs and not symbols:
        hypotheses = pairs = True
        symbols = not context.filters.are_given
    if arguments.through and not hypotheses:
        raise NoAnswer("--through is about hypotheses, so it wants --hypotheses")
    database = context.database(arguments.database, Options(open=arguments.open))
    database.see_text()
    if not database.text.assertions:
        raise NoAnswer(f"{database.name}: {NOTHING}")
    given_up: list[str] = []
    choice = Choice(hypotheses, pairs, symbols, arguments.through)
    rows = [*rows_of(context, database, choice, given_up)]
    why = f"{database.name}: nothing was found that isn't needed{context.filters.in_words()}"
    aside = [
        name for name in COLUMNS[1::2] if all(row[COLUMNS.index(name)] is None for row in rows)
    ]
    context.table(COLUMNS, rows, why, aside=aside, remarks={GIVEN_UP: given_up})
    return 0


def rows_of(
    context: Context, database: Database, choice: Choice, given_up: list[str]
) -> Iterator[list[Value]]:
    """The rows of the answer. Adds the labels of the theorems whose pairs aren't known."""
    text, keeps = database.text, context.test()
    declared, bare_text, proofs = read_text(text)
    every = [one for one in text.assertions if one.letter == "p"]
    theorems = [one for one in every if keeps(one.label)]
    hypotheses = dict(unneeded_through(proofs, every)) if choice.through else {}
    found: dict[str, Unneeded] = {}
    if choice.hypotheses or choice.pairs:
        has_direct = choice.hypotheses and not choice.through
        found = dict(unneeded_of(proofs, theorems, has_direct, choice.pairs))
    for one in theorems:
        each = found.get(one.label, NONE)
        for hypothesis in each.hypotheses:
            yield ["hypothesis", one.label, hypothesis, None]
        for hypothesis, is_used in hypotheses.get(one.label, {}).items():
            yield ["through" if is_used else "hypothesis", one.label, hypothesis, None]
        for pair in each.pairs:
            yield ["pair", one.label, [*pair], None]
        given_up += [one.label] * each.is_too_long
    if choice.symbols:
        yield from map(row_of, declared.unneeded(bare_text))


def row_of(symbol: Symbol) -> list[Value]:
    """The row of a symbol."""
    what = "constant" if symbol.is_constant else "variable"
    return [what, None, symbol.name, symbol.floating or None]


COMMANDS = [Command("unneeded", PAGE, configure, run, lists=True)]
