"""`compare`: what became of theorems and axioms from one release to the next."""

import argparse
from collections.abc import Iterator, Mapping
from dataclasses import dataclass, replace

from query.answers.errors import NoAnswer, shown
from query.answers.output import Value
from query.arguments.context import Context
from query.arguments.options import Parser, add_choice_of_axioms, add_database, options_of
from query.commands import Command
from query.comparisons.changed_statements import COLUMNS as BOTH, Change, changes, lines_of, most_of
from query.comparisons.changes import Comparison, side_by_side
from query.comparisons.pairing import SAME_THEOREM, Pairing
from query.program.source import is_same_file
from query.reports.choice import Options
from query.spare.relations import relations

Row = tuple[Value, ...]
COLUMNS = ("change", "kind", "label", "was", "axiom", "citing", "cited", *BOTH)

PAGE = """
Compares two databases, OLD and NEW. The axioms are those of typecode |- unless the options choose
others; with AXIOM.., all lines are about these. With --changed, only the lines `changed`, and the
axioms are those of any typecode unless --only names one.

  change   new      only NEW has the label, and it isn't renamed
           gone     only OLD has the label, and its statement isn't renamed
           renamed  the same statement, under another label: its formula, its hypotheses in order,
                    and the pairs of its variables that must be distinct. This is a guess
           changed  both have the label, with another statement. It is told of each such label,
                    also where it is renamed, or its old statement is. Such a theorem neither gains
                    nor loses an axiom, since it isn't one of both, unless only the order of its
                    `$f` is other or the names of its variables are; but one that is renamed does,
                    beside its old label
           gained   a theorem of both that came to rest on an axiom
           lost     a theorem of both that no longer rests on one
  kind     axiom or theorem. A label that is an axiom's in one and a theorem's in the other is gone
           as the one and new as the other if it says the same. If it says something else, it is
           changed, and the kind is that of NEW
  label    which one: its label in NEW, or in OLD for `gone` and `lost`
  was      for `renamed` its label in OLD
  axiom    for `gained` and `lost` which axiom
  citing, cited
           why it was gained or lost: the first citation on a shortest chain from theorem to axiom
           that the other database lacks, as what cites and what it cites
  differ   for `changed` in what the two statements differ, in words
  old, new for `changed` both statements: the formula, and before it the hypotheses where these
           differ, and the pairs of distinct variables that only one of both has. Where one of them
           is long, they are cut: `..` stands for what is left out
  how      for `changed` what the new statement is beside the old one, as far as one step shows it:
           weaker   the same, with more hypotheses or more conditions of distinct variables; or what
                    an inference of both databases gives from the old one or an instance of it, such
                    as `a1i` of set.mm, which puts an antecedent before a formula, or `mptru`, which
                    takes one away that is true. Inferences have one hypothesis, which is a variable
                    or from which a variable follows, and no conditions of distinct variables
           instance what the old one says with other formulas for its variables
           stronger the old one is weaker than the new one
           general  the old one is an instance of the new one
           same     each of both says what the other says
           Where there is nothing, none of these was seen; one may follow from the other by more
           than one step, or by another one. So `weaker` doesn't say that the old statement
           can't be had from the new one. Only the first 2000 changed statements are looked at

First come the theorems, in file order, then each axiom with what was gained and lost of it. With
AXIOM.. a changed theorem is listed where only one of its statements rests on one of these. What
only one of both has, and what rests on more or on less, is what `mmdepend --against OLD NEW` says.
Its answer is proved. So OLD and NEW are databases, and not reports. That two labels are those of
one statement is a guess: an axiom or theorem that was renamed is the same one to what is gained.
Proofs aren't compared: `review` tells which theorems have another one.

  $ mmquery compare v1:set.mm set.mm ax-ac2 ax-reg
  $ mmquery compare v1:set.mm set.mm --changed
"""

CHANGED = "changed"
EMPTY_OF_CHANGED = ("was", "axiom", "citing", "cited")
"""The columns that have nothing for what was changed."""


def configure(parser: Parser) -> None:
    """Adds the words and options."""
    add_database(parser, "OLD")
    add_database(parser, "NEW")
    parser.add_argument("axiom", metavar="AXIOM", nargs="*", help="only what is about these axioms")
    parser.flag("--changed", "only what says something else, axioms of any typecode too")
    add_choice_of_axioms(parser)


def chosen_in(arguments: argparse.Namespace) -> Options:
    """Which axioms are meant. Who asks what was changed means rules of syntax too: what statements
    mean depends on them."""
    options = options_of(arguments)
    is_any = arguments.changed and arguments.only is None
    return replace(options, only=None) if is_any else options


@dataclass(frozen=True)
class Telling:
    """How changed statements are told: with so many characters at the most, and how the new one is
    related to the old one, by labels; "" where nothing is seen of it."""

    most: int
    hows: Mapping[str, str]


def hows_of(comparison: Comparison) -> dict[str, str]:
    """For each assertion that was changed how its new statement is related to the old one; "" where
    nothing is seen of it. Those that can't be compared, and those that are too many, are left out.
    """
    told = comparison.differences
    labels = [*comparison.axioms.changed, *comparison.theorems.changed]
    if not labels:
        return {}
    assertions = comparison.text.assertions
    syntax = [*assertions, *told.gone.values()]
    of_both = (one for one in assertions if one.label not in told.new)
    pairs = [(told.gone[label], told.new[label]) for label in labels]
    typecode = comparison.new.database.options.only or "|-"
    found = zip(labels, relations(syntax, of_both, pairs, typecode))
    return {label: how for label, how in found if how is not None}


def change_rows(comparison: Comparison, kind: str, telling: Telling) -> Iterator[Row]:
    """What is new, renamed, changed and gone of the theorems, or of the axioms."""
    pairing = comparison.theorems if kind == "theorem" else comparison.axioms
    nothing = (None,) * (len(COLUMNS) - 4)
    for label in pairing.new:
        yield ("new", kind, label, None, *nothing)
    for label, old in pairing.renamed.items():
        yield ("renamed", kind, label, old, *nothing)
    for each in changes(comparison, kind, telling.most, telling.hows):
        yield (CHANGED, kind, each.label, None, None, None, None, *each.values())
    for label in pairing.gone:
        yield ("gone", kind, label, None, *nothing)


def shifts_of(comparison: Comparison, old: str | None, new: str | None) -> Iterator[Row]:
    """What gained and lost an axiom, by its labels in OLD and NEW; None where it isn't one."""
    for change, axiom in (("gained", new), ("lost", old)):
        if axiom is None:
            continue
        for shift in comparison.shifts(axiom, lost=change == "lost"):
            why = (axiom, shift.citing, shift.cited)
            yield (change, "theorem", shift.theorem, None, *why, *[None] * len(BOTH))


def axioms_of(comparison: Comparison) -> list[tuple[str | None, str | None]]:
    """The axioms of both that are chosen, each by its labels in OLD and NEW: those of NEW in file
    order, and then those that only OLD has."""
    old = comparison.old_axioms
    found: list[tuple[str | None, str | None]] = []
    for label in comparison.new.dependence.axioms:
        was = comparison.to_old.get(label)
        found.append((was if was in old else None, label))
    known = {was for was, _ in found}
    return found + [(label, None) for label in old if label not in known]


def see_axioms(comparison: Comparison, labels: list[str]) -> None:
    """Raises NoAnswer where a label is no axiom of either database."""
    new = comparison.new.dependence.columns
    for label in labels:
        if label not in new and label not in comparison.old_axioms:
            names = " nor ".join(shown(side.name) for side in (comparison.old, comparison.new))
            raise NoAnswer(f"neither {names} has an axiom '{shown(label)}' among those chosen")


def about_axioms(
    comparison: Comparison, named: list[str], telling: Telling, has_shifts: bool
) -> Iterator[Row]:
    """The rows about each axiom, or about those named; `has_shifts` is whether these say what was
    gained and lost. A label of OLD and NEW may be of two axioms, and has its rows once, with the
    first of these."""
    about: dict[str, list[Row]] = {}
    for row in change_rows(comparison, "axiom", telling):
        about.setdefault(str(row[2]), []).append(row)
    for old, new in axioms_of(comparison):
        if named and old not in named and new not in named:
            continue
        for label in dict.fromkeys((new, old)):
            if label is not None:
                yield from about.pop(label, ())
        if has_shifts:
            yield from shifts_of(comparison, old, new)


def about_theorems(comparison: Comparison, named: list[str], telling: Telling) -> Iterator[Row]:
    """The rows about theorems; where axioms are named, of those that say something else now, and of
    which only one of both statements rests on one of the axioms, or was one."""
    rows = change_rows(comparison, "theorem", telling)
    if not named:
        yield from rows
        return
    axioms = [pair for pair in axioms_of(comparison) if not {*pair}.isdisjoint(named)]
    old, new = ({pair[side] for pair in axioms} for side in (0, 1))
    for row in rows:
        if row[0] == CHANGED and row[2] in comparison.restated:
            gained, lost = comparison.shift(str(row[2]), str(row[2]))
            if row[2] in old or not new.isdisjoint(gained) or not old.isdisjoint(lost):
                yield row


def compared(context: Context, arguments: argparse.Namespace, options: Options) -> Comparison:
    """OLD and NEW side by side."""
    words = (arguments.old, arguments.new)
    if words == ("-", "-"):
        raise NoAnswer("only one of two databases can be the standard input")
    old, new = (context.database(word, options) for word in words)
    return side_by_side(old, new)


def why_empty(arguments: argparse.Namespace, comparison: Comparison, otherwise: str) -> str:
    """Why nothing is told of two databases: they are the same file, or otherwise."""
    names = f"{comparison.old.name} and {comparison.new.name}"
    is_one = is_same_file(arguments.old, arguments.new)
    return f"{names} {'are the same file' if is_one else otherwise}"


def the_same_theorems(*pairings: Pairing) -> dict[str, list[str]]:
    """Remarks on what counts as changed only because its `$f` are in another order, or its
    variables have other names."""
    changed = [pair for pairing in pairings for pair in pairing.changed.items()]
    return {
        f"of {{}} changed {words}, such as {{}}": [
            label for label, differ in changed if differ == words
        ]
        for words in SAME_THEOREM
    }


def run(context: Context, arguments: argparse.Namespace) -> int:
    """Answers."""
    comparison = compared(context, arguments, chosen_in(arguments))
    see_axioms(comparison, arguments.axiom)
    telling = Telling(most_of(context.out.format), hows_of(comparison))
    rows = [*about_theorems(comparison, arguments.axiom, telling)]
    rows += about_axioms(comparison, arguments.axiom, telling, not arguments.changed)
    aside: tuple[str, ...] = BOTH
    if arguments.changed:
        rows = [row for row in rows if row[0] == CHANGED]
        aside = (*EMPTY_OF_CHANGED, *BOTH)
    empty = why_empty(arguments, comparison, "don't differ in this")
    remarks = the_same_theorems(comparison.theorems, comparison.axioms)
    context.table(COLUMNS, rows, empty, aside=aside, remarks=remarks)
    if context.out.format == "text":
        changed = [row for row in rows if row[0] == CHANGED]
        for line in lines_of(change_in(row, telling) for row in changed):
            context.out.line(line)
    return 0


def change_in(row: Row, telling: Telling) -> Change:
    """What a row says that was changed."""
    label, (differ, old, new, _) = str(row[2]), row[-len(BOTH) :]
    return Change(label, str(differ), str(old), str(new), telling.hows.get(label))


COMMANDS = [Command("compare", PAGE, configure, run)]
