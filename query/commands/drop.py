"""`drop`: whether statements, or all below a header, may be dropped, and what is in the way."""

import argparse
from collections.abc import Collection, Iterable, Iterator, Mapping, Sequence
from dataclasses import dataclass

from query.answers.errors import NoAnswer
from query.answers.output import Value
from query.arguments.context import Context
from query.arguments.filters import header_of, listed
from query.arguments.label_files import labels_like
from query.arguments.options import (
    Parser,
    add_choice_of_citations,
    add_database,
    options_of,
)
from query.citations.graph import Graph
from query.citations.symbols import symbols_of
from query.commands import Command
from query.exports.removal import judged, without
from query.platform import progress
from query.platform.files import see_missing, write_new
from query.reports.database import Database
from query.texts.discouraged import is_discouraged, is_proof_discouraged
from query.texts.named import Named, names_in
from query.texts.text import HEADING_START, Text

PAGE = """
Tells which of the LABELs, which are theorems or axioms, may be dropped: the most of them that may
go together. The status is 0 where all may, and else 1. A LABEL stays where a $j comment names it,
or where a theorem that stays cites it: one that isn't among the LABELs, or a LABEL that stays
itself. A rule of syntax stays also where an axiom or a theorem stays whose formulas have a constant
that only rules of syntax have which are to be dropped; then cited has that one.

label    the label of the statement
drop     whether it may be dropped, together with all others of which that is said
cited    the theorems that cite it and stay, whose proofs would have to be found anew
marks    the lines of the $j comments that name it
remarks  the lines on which comments say ~ LABEL, which have to be changed then
kept     what its own comment discourages, usage or proof: it may be there on purpose

With --under HEADER also all that this header has below it, by its number, title or part of a title:
axioms too, so that a chapter can be dropped whole. The constants and variables that are declared
there stay in any case. Comments that stand below the header go with it, and aren't in the way.

A LABEL may be a pattern, in which * is anything and ? any character: then it is each theorem like
that, and no axiom. `uncited` lists what nobody cites, and `falls` all theorems that rest on a
label.

--write makes a new file, also where the answer is no: the database without the LABELs and without
all theorems that rest on them. Each goes with the comment directly before it, unless this is a
heading or one of $j. All else stays byte by byte, but for lines of which nothing is left: headings,
$j comments, declarations, hypotheses, blocks, and axioms whose formulas have a constant of a rule
of syntax that is gone. Standard error says how many theorems went along, and how many lines of
comments still name what is gone. The file is only written where the program accepts it and each
statement that is left says what it said. The status is the same as without --write.

  $ mmquery drop set.mm idALT
  $ mmquery drop set.mm ax-groth df-rgspn
  $ mmquery drop set.mm zorn '*OLD'
  $ mmquery drop set.mm --under 'hilbert space explorer'
  $ mmquery drop set.mm ax-groth --write new.mm
"""

COLUMNS = ("label", "drop", "cited", "marks", "remarks", "kept")


def configure(parser: Parser) -> None:
    """Adds the words and options."""
    add_database(parser)
    parser.add_argument("labels", metavar="LABEL", nargs="*")
    under = "also all axioms and theorems that the header of this number or title has below it"
    parser.value("--under", "HEADER", under)
    parser.value("--write", "NEW", "the file to make, without them and all that rests on them")
    add_choice_of_citations(parser)


def run(context: Context, arguments: argparse.Namespace) -> int:
    """Answers."""
    database = context.database(arguments.database, options_of(arguments))
    if arguments.write is not None:
        see_writable(database, arguments)
    graph, text = database.graph(), database.text
    labels = labels_of(database, arguments)
    left = None if arguments.write is None else Left.of(database, labels)
    progress.now(f"searching what cites {len(labels)} labels")
    named = named_outside(database, arguments, labels)
    uses = Uses(graph, symbols_of(text, {*labels}))
    citing = uses.of([graph.node(label) for label in labels])
    stays = uses.staying(citing, [graph.node(label) for label in labels if named[label].marks])
    rows: list[list[Value]] = []
    for label, (node, users) in zip(labels, citing.items(), strict=True):
        one = text.by_label[label]
        cited = [graph.labels[user] for user in users if user not in citing or user in stays]
        marks = lines(text, named[label].marks)
        kept = ["usage"] * is_discouraged(text, one) + ["proof"] * is_proof_discouraged(text, one)
        remarks = lines(text, named[label].remarks)
        rows.append([label, node not in stays, cited, marks, remarks, kept])
    context.out.table(COLUMNS, rows)
    if left is not None:
        if left.remark:
            context.tell(f"{database.name}: {left.remark}")
        write_new(arguments.write, left.data)
    return 1 if stays else 0


def see_writable(database: Database, arguments: argparse.Namespace) -> None:
    """NoAnswer where a new file can't be made: it is there already, the text isn't known, or proofs
    would be left that name what is gone."""
    database.see_text()
    if arguments.essential:
        raise NoAnswer("--write and --essential exclude one another: syntax in proofs is cited too")
    see_missing(arguments.write)


@dataclass(frozen=True)
class Left:
    """What is left of a database, which was judged; and what standard error says of it, or ""."""

    data: bytes
    remark: str

    @classmethod
    def of(cls, database: Database, labels: Sequence[str]) -> "Left":
        """What is left without these assertions and all theorems that rest on them. NoAnswer where
        that isn't so."""
        graph = database.graph()
        progress.now(f"searching what rests on {len(labels)} labels")
        gone = {graph.labels[node] for node in graph.above(map(graph.node, labels))}
        data = without(database.text, gone)
        text = judged(database, data, gone)
        said = []
        if len(gone) > len(labels):
            said.append(f"theorems that went along: {len(gone) - len(labels)}")
        found = names_in(data, gone).values()
        naming = {text.line(place) for each in found for place in each.remarks + each.marks}
        if naming:
            said.append(f"lines of comments that still name what is gone: {len(naming)}")
        return cls(data, "; ".join(said))


def named_outside(
    database: Database, arguments: argparse.Namespace, labels: Sequence[str]
) -> dict[str, Named]:
    """Where comments name what is to be dropped, but for those that stand below the header."""
    text = database.text
    named = names_in(text.data, labels)
    if arguments.under is None:
        return named
    header = header_of(text, database.name, arguments.under)
    if header.first == header.end:
        return named
    start = text.assertions[header.first - 1].end if header.first else 0
    behind = HEADING_START.search(text.data, text.assertions[header.end - 1].end)
    end = behind.start() if behind else text.assertions[header.end - 1].end
    for each in named.values():
        each.remarks = [place for place in each.remarks if not start <= place < end]
        each.marks = [place for place in each.marks if not start <= place < end]
    return named


def labels_of(database: Database, arguments: argparse.Namespace) -> list[str]:
    """What is to be dropped: the LABELs, and what stands below a header. NoAnswer where a LABEL is
    no assertion, or there is none."""
    text = database.text
    theorems = (one.label for one in text.assertions if one.kind == "p")
    labels = labels_like(arguments.labels, [*theorems], database.name, "theorem")
    for label in labels:
        database.assertion(label)
    if arguments.under is not None:
        header = header_of(text, database.name, arguments.under)
        below = text.assertions[header.first : header.end]
        if not below and not labels:
            raise NoAnswer(f"{database.name}: nothing stands below {listed([header])}")
        labels += [one.label for one in below]
    if not labels:
        raise NoAnswer("drop wants a LABEL, or --under HEADER, of which it takes all labels")
    return [*dict.fromkeys(labels)]


@dataclass(frozen=True)
class Uses:
    """What uses what: `graph` has citations, and `symbols` for each assertion the rules of syntax
    of its constants, as far as they matter."""

    graph: Graph
    symbols: Mapping[str, Collection[str]]

    def of(self, nodes: Sequence[int]) -> dict[int, list[int]]:
        """For each of these nodes those that use it."""
        citing = self.graph.citing(nodes)
        for label, rules in self.symbols.items():
            user = self.graph.index[label]
            for rule in rules:
                users = citing[self.graph.index[rule]]
                if user not in users[-1:]:
                    users.append(user)
        return {node: [*dict.fromkeys(users)] for node, users in citing.items()}

    def used(self, node: int) -> Iterator[int]:
        """What a node uses."""
        yield from self.graph.cites[node]
        for rule in self.symbols.get(self.graph.labels[node], ()):
            yield self.graph.index[rule]

    def staying(self, citing: Mapping[int, Sequence[int]], marked: Iterable[int]) -> set[int]:
        """Which of the nodes of `citing`, each with those that use it, can't be dropped: the marked
        ones, those that another one uses, and all that these use in turn."""
        found = {node for node, users in citing.items() if not citing.keys() >= {*users}}
        found.update(marked)
        left = list(found)
        while left:
            for used in self.used(left.pop()):
                if used in citing and used not in found:
                    found.add(used)
                    left.append(used)
        return found


def lines(text: Text, places: Iterable[int]) -> list[str]:
    """The lines of places, each once."""
    return list(dict.fromkeys(str(text.line(place)) for place in places))


COMMANDS = [Command("drop", PAGE, configure, run)]
