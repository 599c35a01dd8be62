"""`search`: statements by their formulas."""

import argparse
from collections.abc import Sequence

from query.answers.output import Value
from query.arguments.context import Context
from query.arguments.options import Parser, add_database, add_open
from query.commands import Command
from query.formulas.bracketed import bracketed
from query.formulas.search import ARROW, Pattern, Searcher, pattern_of, without_typecode
from query.reports.choice import Options
from query.texts.text import Text

PAGE = """
Lists in file order the formulas, and not the comments, that have each PATTERN: symbols as they are
typed, of a whole formula or of a part. A constant stands for itself. A variable stands for anything
that may be put in its place, the same wherever it stands: `A ~~ B ->` finds `( ( A u. B ) ~~ C ->
ph )`. In double quotes, as in '"A ~~ B ->"', a variable stands for itself, too. One that an option
may be meant by, as -u alone, goes behind --, after which nothing is an option. Where no formula has
a PATTERN, standard error says how many have it with more brackets, as ( A + B ) for A + B, or both
sides of its one ->, or without the typecode with which it begins.

With --conclusion only formulas of which each PATTERN is the conclusion, and no other part: all of X
in |- X, |- ( ph -> X ), |- ( ph -> ( ps -> X ) ) and so on. The typecode may be left out.

With --no-hypotheses the formulas of statements alone, and not those of their $e.

With --given PATTERN only those of statements that have a $e with that pattern too; with several, a
$e for each. In all patterns together a variable stands for the same.

With --not-given PATTERN only those that --given PATTERN as well would leave out: no $e has that
pattern, with the same in place of the variables that other patterns have too. So what may be
anything gets a variable that no other pattern has.

label    that of the axiom or theorem
given    the label of the $e whose formula it is; nothing where it is that of the statement
formula  the formula

  $ mmquery search set.mm 'A ~~ B ->' --main
  $ mmquery search set.mm '"|- -. -. ph"' --no-hypotheses
  $ mmquery search set.mm 'K || ( M + N )' --conclusion --no-hypotheses
  $ mmquery search set.mm '|- A = B' --given 'A C_ B' --given 'B C_ A'
  $ mmquery search set.mm '|- A = B' --not-given '|- C = D' --not-given '|- ( ph -> C = D )'
  $ mmquery search set.mm '-. A = B'
"""
UNREAD = "{} formulas aren't read by the syntax axioms, so less may be found; the first is of {}"
GIVEN_UP = "of {} formulas it takes too long to say whether they have it; the first is of {}"
COLUMNS = ("label", "given", "formula")


def configure(parser: Parser) -> None:
    """Adds the words and options."""
    add_database(parser)
    parser.takes_formulas = True
    parser.add_argument("patterns", metavar="PATTERN", nargs="+")
    parser.values("--given", "PATTERN", "only where a $e has PATTERN; may be given several times")
    parser.values(
        "--not-given", "PATTERN", "only where no $e has PATTERN; may be given several times"
    )
    parser.flag("--conclusion", "only where PATTERN is the conclusion, X of |- ( ph -> X )")
    parser.flag("--no-hypotheses", "leave out the formulas of $e")
    add_open(parser)


def run(context: Context, arguments: argparse.Namespace) -> int:
    """Answers."""
    database = context.database(arguments.database, Options(open=arguments.open))
    text = database.text
    patterns, given, lacked = (
        [pattern_of(text, database.name, word) for word in words]
        for words in (arguments.patterns, arguments.given, arguments.not_given)
    )
    if arguments.conclusion:
        patterns = [without_typecode(text, each) or each for each in patterns]
    passes = context.test()
    wanted = [one for one in text.assertions if passes(one.label)]
    has_given, is_conclusion = not arguments.no_hypotheses, arguments.conclusion
    searcher = Searcher(wanted, text.assertions, has_given, is_conclusion)
    rows: list[list[Value]] = []
    for hit in searcher.hits(patterns, given, lacked):
        rows.append([hit.one.label, hit.given, hit.formula])
    remarks = {
        told: [label for label, _ in places]
        for told, places in ((UNREAD, searcher.unread), (GIVEN_UP, searcher.given_up))
    }
    whose = " of a statement itself" if arguments.no_hypotheses else ""
    what = "that as its conclusion" if is_conclusion else "that"
    why = f"{database.name}: no formula{whose} has {what}{context.filters.in_words()}"
    is_alone = len(patterns) == 1 and not given and not lacked
    if not rows and is_alone and '"' not in arguments.patterns[0]:
        why += near(searcher, text, database.name, patterns[0])
    aside = ["given"] if arguments.no_hypotheses else []
    context.table(COLUMNS, rows, why, aside=aside, remarks=remarks)
    return 0


def near(searcher: Searcher, text: Text, name: str, pattern: Pattern) -> str:
    """How many formulas have a pattern with more brackets, or else both sides of its arrow wherever
    they stand, as the end of a sentence; or else the pattern without its typecode, as it is or with
    one of these. "" where none has."""
    for more in bracketed(searcher.reader.grammar, pattern.symbols, pattern.kinds):
        found = having(searcher, text, name, [more])
        if found:
            return found
    symbols = pattern.symbols
    if symbols.count(ARROW) == 1 and ARROW not in (symbols[0], symbols[-1]):
        place = symbols.index(ARROW)
        found = having(searcher, text, name, [symbols[:place], symbols[place + 1 :]])
        if found:
            return f"{found}, as two PATTERNs"
    bare = without_typecode(text, pattern)
    if bare is None:
        return ""
    return having(searcher, text, name, [bare.symbols]) or near(searcher, text, name, bare)


def having(searcher: Searcher, text: Text, name: str, patterns: Sequence[Sequence[str]]) -> str:
    """How many formulas have all these patterns, as the end of a sentence; "" where none has."""
    words = [" ".join(symbols) for symbols in patterns]
    count = sum(1 for _ in searcher.hits([pattern_of(text, name, each) for each in words]))
    have = "formulas have" if count > 1 else "formula has"
    return f"; {count} {have} {' and '.join(map(repr, words))}" if count else ""


COMMANDS = [Command("search", PAGE, configure, run, lists=True)]
