"""`review`: what a pull request does to the theorems of a database."""

import argparse
import re
from collections.abc import Callable, Iterable, Iterator, Mapping, Sequence
from dataclasses import dataclass, field
from functools import cached_property, reduce
from itertools import islice
from operator import or_
from typing import NamedTuple

from query.answers.output import Value
from query.arguments.context import Context
from query.arguments.options import Parser, add_choice_of_axioms, add_database, options_of
from query.commands import TABLE_FORMATS, Command
from query.commands.compare import (
    Telling,
    axioms_of,
    compared,
    hows_of,
    the_same_theorems,
    why_empty,
)
from query.comparisons.causes import Causes
from query.comparisons.changed_statements import (
    COLUMNS as BOTH,
    Change,
    arrival_of,
    changes as both_statements,
    in_words,
    lines_of,
    most_of,
)
from query.comparisons.changes import Comparison
from query.comparisons.kept_order import longest_rising
from query.comparisons.new_labels import ANOTHER, BY_NEW_LABELS, Proofs
from query.gate.new_definitions import introduced
from query.texts.assertions import Assertion
from query.texts.text import Text

COLUMNS = ("theorem", "status", "was", "axioms", "gained", "lost", "via", "bytes", *BOTH)
SHOWN_ROWS = 60
"""Rows of a comment's table, and axioms of a line. A longer one isn't read."""
SHOWN_NEW = 10
"""New theorems that are named with an axiom."""
SHOWN_LABEL = 200
"""How many characters of a label, or of a side of a definition, a comment shows."""
BACKTICKS = re.compile("`+")

PAGE = """
Lists the theorems that a change from OLD to NEW is about, in file order, and last those that are
gone. One that is an axiom now, and says something else, stands before these.

theorem  its label in NEW; of one that is gone, in OLD
status   new:     only NEW has the label, and it isn't renamed
         gone:    only OLD has the label, and its statement isn't renamed
         renamed: it had another label
         changed: both have the label, with another statement; it may be renamed too, and so may
                  what the label said before. Such a theorem loses no axiom, and gains none that
                  OLD has, unless it is renamed, or only the order of its `$f` is other or the
                  names of its variables are
         moved:   it stands before or behind others than it did
         proof:   it has another proof; one theorem may have several of these words. A proof is
                  the same one where only labels of what was renamed are other in it
was      of a renamed one the label in OLD
axioms   of a new or changed one, on how many axioms it rests
gained   the axioms on which it came to rest; of a new or changed one those on which it rests and
         that OLD hasn't
lost     the axioms on which it no longer rests
via      for each axiom gained, by what: of the first new citation on a shortest chain to the axiom
         what the theorem cites, or, where another theorem has that citation, which one; of a new or
         changed theorem the axiom, where it cites that, or the first that it cites and that rests
         on it
bytes    how much longer its text is, from the label to the end, than it was under the label `was`
         or else under its own; of a new one how long
differ   of a changed one in what its statements differ, in words
old, new both statements of a changed one, as `compare` tells them; of a new one what it says, with
         its hypotheses and the pairs of distinct variables, or their number where that is long
how      what the new one is beside the old one, as `compare` tells it

As text it says first on which axioms that OLD hasn't new or changed theorems rest, and which ones.
Then come the edits that let axioms in: which proof newly cites what, how many theorems of both came
to rest on each axiom by that, and how many fewer would without the new citations of that proof.
Where a theorem became an axiom, that is the edit. Each theorem is counted with one edit, the first
on a shortest chain to the axiom; by another edit it may rest on the axiom all the same. What new
theorems say, and both statements of changed ones, stand below the table.

The table has only what this change touches itself: `compare` lists all theorems that came to rest
on an axiom. Theorems with the same proof by new labels, those of what was renamed, are only counted
on standard error or in the comment, unless something else became of them. Standard error also says
which axioms of any typecode are new, changed, renamed and gone, and of each new or changed
definition what it defines, or why it isn't sound. With --format markdown it is a comment for the
pull request, which says first which axioms these are, then on which of them new or changed theorems
rest, and then has at most 60 edits that let axioms in, what new and changed definitions define, at
most 60 theorems, both statements of at most 60 that were changed, and what at most 60 new ones say,
in both axioms included.

  $ mmquery review v1:set.mm set.mm
  $ mmquery review v1:set.mm set.mm --format markdown
"""

STATUSES = {
    **{word: word for word in ("new", "gone", "renamed", "changed", "moved")},
    "proof": "with another proof",
}
"""How a comment calls each status."""
NEW_LABELS = "with the same proof by new labels"
"""How a comment calls theorems in whose proofs only labels of what was renamed are other."""


@dataclass
class Outcome:
    """What became of a theorem."""

    label: str
    status: list[str] = field(default_factory=list)
    was: str | None = None
    axioms: int | None = None
    gained: list[str] = field(default_factory=list)
    lost: list[str] = field(default_factory=list)
    via: list[str] = field(default_factory=list)
    bytes: int = 0
    change: Change | None = None

    def row(self) -> list[Value]:
        """Its row of the table."""
        lists = [self.gained, self.lost, self.via]
        both = [None] * len(BOTH) if self.change is None else self.change.values()
        return [self.label, self.status, self.was, self.axioms, *lists, self.bytes, *both]


class Review(NamedTuple):
    """What became of each theorem that the change is about, and the labels of all theorems in whose
    proofs only labels of what was renamed are other."""

    changes: Sequence[Outcome]
    by_new_labels: Sequence[str]


def configure(parser: Parser) -> None:
    """Adds the words and options."""
    add_database(parser, "OLD")
    add_database(parser, "NEW")
    add_choice_of_axioms(parser)


def run(context: Context, arguments: argparse.Namespace) -> int:
    """Answers."""
    comparison = compared(context, arguments, options_of(arguments))
    causes = Causes(comparison)
    fresh = NewAxioms(comparison)
    telling = Telling(most_of(context.out.format), hows_of(comparison))
    review = review_of(comparison, telling, causes)
    # A comment shows so many rows.
    for each in review.changes[: SHOWN_ROWS if context.out.format == "markdown" else None]:
        fresh.add_to(each)
    changes = review.changes
    empty = why_empty(
        arguments, comparison, "have the same theorems, with the same proofs, in one order"
    )
    if context.out.format == "markdown":
        context.out.text(comment(comparison, review, causes, fresh, telling))
        return 0
    counts = axioms_in_words(comparison, cut)
    counts += "".join(f"; {each}" for each in definitions_in_words(comparison, cut))
    if counts and changes:
        context.tell(f"axioms: {counts}")
    told = f"; axioms: {counts}" if counts else ""
    remarks: dict[str, Sequence[str]] = {
        "of {} the proof is the same by new labels, such as {}": review.by_new_labels,
        **the_same_theorems(comparison.theorems, comparison.axioms),
    }
    rows = [each.row() for each in changes]
    if context.out.format == "text":
        first = [*new_in_words(fresh, cut), *causes_in_words(causes, cut)]
        context.out.text("".join(f"{each}\n" for each in (*first, "") if first))
    context.table(COLUMNS, rows, empty + told, aside=BOTH, remarks=remarks)
    if context.out.format == "text":
        for line in lines_of(each.change for each in changes if each.change is not None):
            context.out.line(line)
    return 0


def changed_axioms(comparison: Comparison) -> dict[str, list[str]]:
    """The axioms of any typecode with which something became, by what; their labels in NEW, or of
    those that are gone in OLD."""
    pairing = comparison.axioms
    return {
        "new": pairing.new,
        "changed": list(pairing.changed),
        "renamed": list(pairing.renamed),
        "gone": pairing.gone,
    }


def review_of(comparison: Comparison, telling: Telling, causes: Causes) -> Review:
    """What became of each theorem that the change is about. What let axioms in is added to
    `causes`."""
    found, by_new_labels = touched_by(comparison)
    for label in (*comparison.theorems.new, *comparison.restated):
        found[label].axioms = number_of_axioms(comparison, label)
    for label in comparison.theorems.new:
        found[label].change = arrival_of(comparison.text.by_label[label], telling.most)
    for each in both_statements(comparison, "theorem", telling.most, telling.hows):
        found[each.label].change = each
    add_shifts(comparison, found, causes)
    old, went = comparison.old_text, comparison.theorems.gone
    gone = [Outcome(label, ["gone"], bytes=-length(old, label)) for label in went]
    return Review([*found.values(), *axioms_now(comparison, telling), *gone], by_new_labels)


def touched_by(comparison: Comparison) -> tuple[dict[str, Outcome], list[str]]:
    """The theorems of NEW that the change is about, each with its words, and the labels of those in
    whose proofs only labels of what was renamed are other."""
    old, new = comparison.old_text, comparison.text
    pairing = comparison.theorems
    fresh = set(pairing.new)
    origin = origins(old, new, comparison.to_old)
    moved = out_of_order((label, before.number) for label, before in origin.items())
    for label in pairing.changed:
        origin.setdefault(label, old.by_label[label])
    proofs, by_new_labels = Proofs(comparison), []
    found: dict[str, Outcome] = {}
    for one in filter(lambda one: one.kind == "p", new.assertions):
        change = Outcome(one.label, bytes=one.end - one.place)
        if one.label in fresh:
            change.status = ["new"]
        elif one.label in origin:
            before = origin[one.label]
            change.bytes -= before.end - before.place
            if one.label in pairing.renamed:
                change.was = before.label
            proof = proofs.change(before, one)
            by_new_labels += [one.label] if proof == BY_NEW_LABELS else []
            for word, is_so in (
                ("renamed", change.was is not None),
                ("changed", one.label in pairing.changed),
                ("moved", one.label in moved),
                ("proof", before.kind == "p" and proof == ANOTHER),
            ):
                if is_so:
                    change.status.append(word)
        if change.status:
            found[one.label] = change
    return found, by_new_labels


def origins(old: Text, new: Text, to_old: Mapping[str, str]) -> dict[str, Assertion]:
    """For each theorem what it was in OLD, if that was a theorem."""
    return {
        one.label: before
        for one in new.assertions
        if one.kind == "p" and (before := old.find(to_old.get(one.label, "")))
        if before.kind == "p"
    }


def axioms_now(comparison: Comparison, telling: Telling) -> Iterator[Outcome]:
    """The theorems that are axioms now, and say something else."""
    old, new = comparison.old_text, comparison.text
    for each in both_statements(comparison, "axiom", telling.most, telling.hows):
        if old.by_label[each.label].kind == "p":
            longer = length(new, each.label) - length(old, each.label)
            yield Outcome(each.label, ["changed"], bytes=longer, change=each)


def number_of_axioms(comparison: Comparison, label: str) -> int | None:
    """On how many axioms a theorem of NEW rests; None of one that is left open."""
    row = comparison.new.dependence.rows.get(label)
    return None if row is None else comparison.new.dependence.bits(row).bit_count()


def length(text: Text, label: str) -> int:
    """How long the text of an assertion is."""
    one = text.by_label[label]
    return one.end - one.place


def add_shifts(comparison: Comparison, found: dict[str, Outcome], causes: Causes) -> None:
    """Adds which axioms the theorems gained and lost, and the causes of the gains."""
    for axiom in comparison.new.dependence.axioms:
        for shift in comparison.shifts(axiom):
            causes.add(shift)
            change = found.get(shift.theorem)
            if change is not None:
                change.gained.append(axiom)
                is_own = shift.citing == shift.theorem
                change.via.append(shift.cited if is_own else shift.citing)
        causes.weigh(axiom)
    for axiom in old_axioms(comparison):
        for theorem in comparison.lost(axiom):
            change = found.get(comparison.to_new.get(theorem, ""))
            if change is not None:
                change.lost.append(axiom)


class NewAxioms:
    """The axioms that OLD hasn't, and the theorems of NEW that rest on them for which OLD has none
    that says the same: new ones, and those whose statement was changed."""

    def __init__(self, comparison: Comparison) -> None:
        self.dependence = comparison.new.dependence
        self.comparison = comparison
        fresh = [axiom for was, axiom in axioms_of(comparison) if was is None and axiom is not None]
        columns = self.dependence.columns
        self.mask = self.dependence.mask_of([columns[axiom] for axiom in fresh])

    @cached_property
    def rows(self) -> dict[str, int]:
        """The rows of the theorems, by their labels. One that is left open has none."""
        renamed = self.comparison.theorems.renamed
        changed = (label for label in self.comparison.restated if label not in renamed)
        known = self.dependence.rows
        labels = (*self.comparison.theorems.new, *changed)
        return {label: known[label] for label in labels if label in known}

    def bits(self, row: int) -> int:
        """The axioms on which the theorem of a row rests."""
        return self.dependence.bits(row) & self.mask

    @cached_property
    def columns(self) -> list[int]:
        """The columns of the axioms on which one of the theorems rests."""
        return self.dependence.columns_of(reduce(or_, map(self.bits, self.rows.values()), 0))

    def theorems(self, column: int) -> list[str]:
        """The labels of the theorems that rest on the axiom of a column, in file order."""
        labels = (self.dependence.theorems[row] for row in self.dependence.users(column))
        return [label for label in labels if label in self.rows]

    def add_to(self, outcome: Outcome) -> None:
        """Adds to what became of a theorem on which of the axioms it rests, and by what: what its
        proof cites, the axiom itself or else the first theorem that rests on it."""
        row = self.rows.get(outcome.label)
        if row is None:
            return
        graph, left = self.dependence.graph, self.bits(row)
        via = dict.fromkeys(self.dependence.columns_of(left), "")
        for node in sorted(graph.cites[row], key=graph.is_theorem) if left else ():
            found = left & self.bits_of(node)
            left &= ~found
            via |= dict.fromkeys(self.dependence.columns_of(found), graph.labels[node])
        outcome.gained += [self.dependence.axioms[column] for column in via]
        outcome.via += via.values()

    def bits_of(self, node: int) -> int:
        """The axioms on which an assertion rests, or the one that it is."""
        if self.dependence.graph.is_theorem(node):
            return self.bits(node)
        column = self.dependence.columns.get(self.dependence.graph.labels[node])
        return 0 if column is None else self.mask & self.dependence.mask_of([column])


def old_axioms(comparison: Comparison) -> list[str]:
    """The axioms of OLD that are chosen, in its order."""
    told = comparison.old_text.assertions
    return [one.label for one in told if one.label in comparison.old_axioms]


def out_of_order(numbered: Iterable[tuple[str, int]]) -> set[str]:
    """The labels that have to be left out, so that the numbers of the others rise, as few as can
    be."""
    pairs = list(numbered)
    stayed = set(longest_rising([number for _, number in pairs]))
    return {label for place, (label, _) in enumerate(pairs) if place not in stayed}


def counts_in_words(review: Review) -> str:
    """With how many theorems the change did what."""
    counts = {
        words: sum(word in each.status for each in review.changes)
        for word, words in STATUSES.items()
    }
    counts[NEW_LABELS] = len(review.by_new_labels)
    return ", ".join(f"{count} {words}" for words, count in counts.items() if count)


def comment(
    comparison: Comparison, review: Review, causes: Causes, new: NewAxioms, telling: Telling
) -> str:
    """The comment for a pull request. What comes from a database stands as code, in which nothing
    is a link or a mention, and labels have no sign that would end it."""
    changes = review.changes
    lines = [f"**Axioms**: {axioms_in_words(comparison, code) or 'no change'}.", ""]
    fresh = islice(new_in_words(new, code), SHOWN_ROWS)
    lines += section("New and changed theorems on new axioms", fresh, "axioms", len(new.columns))
    edits = [*causes_in_words(causes, code)]
    lines += section("Edits that let axioms in", edits[:SHOWN_ROWS], "edits", len(edits))
    if definitions := definitions_in_words(comparison, code):
        lines += ["**Definitions**:", "", *(f"- {each}" for each in definitions), ""]
    lines += [f"**Theorems**: {counts_in_words(review) or 'no change'}."]
    gained = {axiom: len(comparison.gained(axiom)) for axiom in comparison.new.dependence.axioms}
    lost = {axiom: len(comparison.lost(axiom)) for axiom in old_axioms(comparison)}
    for words, counts in (("came to rest on", gained), ("no longer rest on", lost)):
        named = [f"{code(axiom)} ({count})" for axiom, count in counts.items() if count]
        if named:
            lines += ["", f"Theorems of both {words} {listed(named)}."]
    if changes:
        lines += ["", "| theorem | status | axioms | gained | lost | bytes |"]
        lines += ["|---|---|---|---|---|---|"]
        lines += [table_line(each) for each in changes[:SHOWN_ROWS]]
    lines += more_lines(changes, "`mmquery review` lists them")
    lines += statement_lines(comparison, changes, telling)
    return "\n".join(lines) + "\n"


def section(title: str, told: Iterable[str], what: str, count: int) -> list[str]:
    """A heading, what is told under it, and how many more there are of that, where there are
    `count`; nothing where nothing is told."""
    items = [f"- {each}." for each in told]
    left = [f"- {count - len(items)} more {what}."] if count > len(items) else []
    return [f"**{title}**:", "", *items, *left, ""] if items else []


def statement_lines(
    comparison: Comparison, changes: Sequence[Outcome], telling: Telling
) -> list[str]:
    """Both statements of what was changed, and then what is new, each first of axioms, and then of
    theorems."""
    axioms = [*both_statements(comparison, "axiom", telling.most, telling.hows)]
    told = {each.label for each in axioms}
    news = (comparison.text.by_label[label] for label in comparison.axioms.new)
    axioms += [arrival_of(one, telling.most) for one in news]
    theorems = (each.change for each in changes if each.label not in told)
    every = [*axioms, *(each for each in theorems if each is not None)]
    changed, fresh = ([e for e in every if (e.old is None) == is_new] for is_new in (False, True))
    lines = ["", "**Changed statements**:", ""] if changed else []
    for each in changed[:SHOWN_ROWS]:
        lines += [f"- {code(each.label)}: {in_words(each)}"]
        lines += [f"  - was {fenced(each.old or '')}", f"  - is {fenced(each.new)}"]
    lines += more_lines(changed, "`mmquery compare` lists them")
    lines += ["", "**New statements**:", ""] if fresh else []
    lines += [f"- {code(each.label)}: {fenced(each.new)}" for each in fresh[:SHOWN_ROWS]]
    return lines + more_lines(fresh, "`mmquery review` lists the theorems")


def more_lines(some: Sequence[object], where: str) -> list[str]:
    """How many more there are than are shown, and where they are listed."""
    more = f"{len(some) - SHOWN_ROWS} more aren't shown; {where}."
    return ["", more] if len(some) > SHOWN_ROWS else []


def axioms_in_words(comparison: Comparison, shown: Callable[[str], str]) -> str:
    """How many axioms are new, changed, renamed and gone, and which ones; "" where none is. `shown`
    says how a label is."""
    parts = []
    for word, labels in changed_axioms(comparison).items():
        was = comparison.axioms.renamed if word == "renamed" else {}
        named = [shown(label) + (f" from {shown(was[label])}" if was else "") for label in labels]
        parts += [f"{len(named)} {word} ({listed(named)})"] if named else []
    return ", ".join(parts)


def causes_in_words(causes: Causes, shown: Callable[[str], str]) -> Iterator[str]:
    """Each edit that let an axiom in, and then how many theorems followed, and how many fewer would
    without the new citations of that proof; once where it is the same for all axioms. `shown` says
    how a label is."""
    for each in causes.in_order():
        if each.is_alike():
            axioms = listed([shown(axiom) for axiom in each.axioms])
            counts = f"{axioms} ({each.count_in_words(next(iter(each.axioms)), ' each')})"
        else:
            counts = listed([f"{shown(one)} ({each.count_in_words(one)})" for one in each.axioms])
        if each.citing is None:
            edit = f"{shown(each.cited)} is new among the axioms"
        else:
            edit = f"{shown(each.citing)} newly cites {shown(each.cited)}"
        yield f"{edit}, by which theorems came to rest on {counts}"


def new_in_words(new: NewAxioms, shown: Callable[[str], str]) -> Iterator[str]:
    """Each axiom that OLD hasn't and on which new or changed theorems rest, with these. `shown`
    says how a label is."""
    for column in new.columns:
        theorems = new.theorems(column)
        named = listed([*map(shown, theorems[:SHOWN_NEW])], SHOWN_NEW, len(theorems))
        axiom = shown(new.dependence.axioms[column])
        yield f"{axiom} is new among the axioms, and new or changed theorems rest on it: {named}"


def definitions_in_words(comparison: Comparison, shown: Callable[[str], str]) -> list[str]:
    """What each new or changed definition defines, or why it isn't sound. `shown` says how what
    comes from a database is."""
    found = []
    for label, equation, why in introduced(comparison).told(shown):
        if equation is None:
            found.append(f"{shown(label)} is {why.partition(':')[0]}")
        else:
            left, right = map(shown, equation)
            found.append(f"{shown(label)} defines {left} as {right}")
    more = [f"{len(found) - SHOWN_ROWS} more definitions"] if len(found) > SHOWN_ROWS else []
    return found[:SHOWN_ROWS] + more


def cut(text: str) -> str:
    """A text, cut where it is long."""
    return text if len(text) <= SHOWN_LABEL else text[:SHOWN_LABEL] + ".."


def listed(words: Sequence[str], most: int = SHOWN_ROWS, count: int | None = None) -> str:
    """Words with commas between, and how many more there are than are shown, of `count` if that is
    given."""
    left = (len(words) if count is None else count) - most
    return ", ".join(words[:most]) + (f" and {left} more" if left > 0 else "")


def code(text: str) -> str:
    """A label, or symbols, as code, cut where it is long."""
    return fenced(cut(text))


def fenced(text: str) -> str:
    """A text as code. A symbol may be a backtick."""
    longest = max((len(each) for each in BACKTICKS.findall(text)), default=0)
    fence, space = "`" * (longest + 1), " " if longest else ""
    return f"{fence}{space}{text}{space}{fence}"


def table_line(change: Outcome) -> str:
    """A line of the comment's table."""
    pairs = zip(change.gained, change.via, strict=True)
    gained = [f"{code(axiom)} via {code(via)}" for axiom, via in pairs]
    was = {"renamed": f" from {code(change.was)}"} if change.was else {}
    status = ", ".join(word + was.get(word, "") for word in change.status)
    axioms = "" if change.axioms is None else str(change.axioms)
    lost = listed([code(axiom) for axiom in change.lost])
    fields = (code(change.label), status, axioms, listed(gained), lost)
    return f"| {' | '.join(fields)} | {change.bytes:+} |"


COMMANDS = [Command("review", PAGE, configure, run, (*TABLE_FORMATS, "markdown"))]
