"""`why`, `way-out` and `frees`: chains of citations, and what would cut them."""

import argparse
from collections.abc import Iterable, Iterator, Sequence
from dataclasses import dataclass
from itertools import islice

from query.answers.errors import NoAnswer
from query.answers.output import Value
from query.arguments.context import Context
from query.arguments.options import (
    Parser,
    add_choice_of_citations,
    add_database,
    add_only,
    between_commas,
    options_of,
    positive,
)
from query.citations import cuts
from query.citations.graph import Graph
from query.citations.wrappers import Kind, wrappers
from query.commands import Command
from query.platform import progress
from query.reports.database import Database
from query.texts.text import Text

WHY_PAGE = """
Shows a shortest chain of citations by which LABEL rests on ON, from the one to the other: each
line is cited by the proof of the line before. Of several shortest chains it is the one whose
labels come first in the file. Where LABEL doesn't rest on ON, the answer is empty and standard
error says so.

label    what is on the chain

With --longest it is a longest chain instead, of several again the one that comes first; without ON
a longest one of all that lead down from LABEL to an axiom of typecode |-, or of that of --only.
Standard error says how many citations it has. With --unavoidable it is what every chain leads
through, both ends included.

With --all, the part of the graph between: all citations that are on a chain, in file order.

theorem  who cites
cited    what is cited

  $ mmquery why set.mm zorn ax-ac2
  $ mmquery why set.mm zorn ax-ac2 --all
  $ mmquery why set.mm 2p2e4 ax-1 --longest
  $ mmquery why set.mm 2p2e4 --longest
  $ mmquery why set.mm fta ax-inf2 --unavoidable
"""

WAY_OUT_PAGE = """
Shows the smallest change that frees THEOREM of ON, an axiom or a theorem, as far as citations tell.

of       THEOREM
what     applies: `theorem`, on a way from THEOREM to ON, cites ON itself, or what is kept
         first: one of the citations that have to go, as few as possible; where there is a choice,
         those nearest to THEOREM
         last: the same, but those nearest to ON
theorem  who cites
cited    what is cited

Without THEOREM, `of` is each theorem for which one citation is enough, with one line for the first
such citation and one for the last.

With --keep LABEL, theorems that need ON anyway: they stay as they are, and what cites them counts
as what cites ON. With --keep-wrappers these are the theorems that may only say ON in another form:
those that state what ON states but for the variables, and those whose proof applies ON and nothing
else that rests on ON. Of the latter nothing more is known: one may as well say less than ON. What
gives ON back is kept too: where a theorem states ON, and all chains from it lead through T, a proof
of T without ON would prove ON. Standard error says which they are. They are found by what stands
there: others may still say ON in other words.

  $ mmquery way-out set.mm numth2 ax-ac2
  $ mmquery way-out set.mm ax-ac2
  $ mmquery way-out set.mm numth2 ax-ac2 --keep axac3
"""

FREES_PAGE = """
Lists in file order which theorems no longer rest on ON, an axiom or a theorem, if the THEOREMs get
proofs without it and all other proofs stay; the THEOREMs are among them.

freed    how many theorems it frees by itself, itself included
theorem  the label of the theorem

Without a THEOREM, the theorems that free most so, each by itself. The best of them may be
statements that need ON in truth: they may say it in another form. --keep T leaves such a one as it
is.

With --plan N, the N theorems to prove one after the other, so that each frees most beside what
those before it have freed:

freed    how many theorems it frees besides, itself included
total    how many are free by then
theorem  the label of the theorem

Each is the one that frees most next. Of a longer plan some are left out then, the one that is
missed least first; where that frees more with N theorems, it is the plan. Then each is exchanged
for another one as long as that frees more. Another choice of N may free still more.

With --given T, theorems that have such a proof already: this is about the others, and `total`
counts what is free by T too. The filters choose which theorems a plan may take.

With --keep LABEL, theorems that need ON anyway: they get no other proof, and what cites them rests
on ON. With --keep-wrappers these are the theorems that may only say ON in another form: those that
state what ON states but for the variables, and those whose proof applies ON and nothing else that
rests on ON. Of the latter nothing more is known: one may as well say less than ON. What gives ON
back is kept too: where a theorem states ON, and all chains from it lead through T, a proof of T
without ON would prove ON. Standard error says which they are. They are found by what stands there:
what is listed may still say ON in other words, as an inference says a theorem.

  $ mmquery frees set.mm ax-ac2 axac3
  $ mmquery frees set.mm ax-ac2 --keep axac3
  $ mmquery frees set.mm ax-ac2 --most 4
  $ mmquery frees set.mm ax-13 --keep-wrappers
  $ mmquery frees set.mm ax-13 --keep-wrappers --plan 5
  $ mmquery frees set.mm ax-13 --keep-wrappers --given hbsb2,ax6e
"""


FREED = ["freed", "theorem"]
MOST_RESTATED = 50
"""So many axioms that a theorem states are looked at: each of them takes a walk over the file."""
WAYS = ["of", "what", "theorem", "cited"]


def configure_why(parser: Parser) -> None:
    """The words and options of `why`."""
    add_database(parser)
    parser.add_argument("label", metavar="LABEL")
    parser.add_argument("on", metavar="ON", nargs="?")
    parser.exclude("--all", "--longest", "--unavoidable")
    parser.flag("--all", "all citations on chains between")
    parser.flag("--longest", "a longest chain in place of a shortest one")
    parser.flag("--unavoidable", "what every chain leads through")
    add_only(parser, None, "--longest without ON ends at an axiom of typecode T (else: |-)")
    add_choice_of_citations(parser)


def run_why(context: Context, arguments: argparse.Namespace) -> int:
    """Answers `why`."""
    options = options_of(argparse.Namespace(**{**vars(arguments), "all": False}))
    database = context.database(arguments.database, options)
    graph = database.graph()
    if arguments.on is None:
        if not arguments.longest:
            raise NoAnswer("why wants ON; without it, it answers --longest alone")
        put_longest(context, database, graph.node(arguments.label))
        return 0
    if arguments.only is not None:
        raise NoAnswer("--only says where a chain ends, so why takes no ON with it")
    node, end = graph.node(arguments.label), graph.node(arguments.on)
    found = longest_to if arguments.longest else Graph.chain
    found = cuts.unavoidable if arguments.unavoidable else found
    chain = found(graph, node, end) if node != end else []
    if not chain:
        said = reverse(graph, node, end) or restated(database, node, end)
        context.tell(f"{graph.labels[node]} doesn't rest on {graph.labels[end]}{said}")
    if arguments.all:
        between = graph.below([node]) & graph.above([end]) if chain else set()
        rows = [
            [graph.labels[user], graph.labels[cited]]
            for user in sorted(between)
            for cited in graph.cites[user]
            if cited in between and user != end
        ]
        context.out.table(["theorem", "cited"], rows)
    else:
        context.out.table(["label"], [[graph.labels[each]] for each in chain])
        if arguments.longest and chain:
            tell_length(context, graph, chain)
    return 0


def put_longest(context: Context, database: Database, node: int) -> None:
    """Answers with a longest chain that ends at one of the axioms that are chosen."""
    database.see_axioms()
    graph = database.graph()
    chain = longest_chain(graph, node, [graph.theorems + each for each in database.of_typecode()])
    context.out.table(["label"], [[graph.labels[each]] for each in chain])
    if chain:
        tell_length(context, graph, chain)
    else:
        which = database.which()
        others = "; --only T chooses others" if which else ""
        context.tell(f"{graph.labels[node]} rests on no axiom{which}{others}")


def tell_length(context: Context, graph: Graph, chain: Sequence[int]) -> None:
    """Says how many citations a chain has."""
    count = len(chain) - 1
    citations = "citation" if count == 1 else "citations"
    ends = f"from {graph.labels[chain[0]]} to {graph.labels[chain[-1]]}"
    context.tell(f"{graph.name}: {count} {citations} {ends}")


def longest_to(graph: Graph, node: int, end: int) -> list[int]:
    """A longest chain of citations from one node to another."""
    return longest_chain(graph, node, [end])


def longest_chain(graph: Graph, node: int, ends: Iterable[int]) -> list[int]:
    """A longest chain of citations from a node to one of others, both included; of several the one
    that is first in the file at each step. Empty where there is none."""
    far = dict.fromkeys(ends, 0)
    for theorem in range(min(node + 1, graph.theorems)):
        steps = [far[each] for each in graph.cites[theorem] if each in far]
        if steps:
            far[theorem] = 1 + max(steps)
    chain = [node] if node in far else []
    while chain and far[chain[-1]]:
        left = far[chain[-1]] - 1
        chain.append(next(each for each in graph.cites[chain[-1]] if far.get(each) == left))
    return chain


def reverse(graph: Graph, node: int, end: int) -> str:
    """What the remark that there is no chain says besides where there is one the other way."""
    if node != end and graph.chain(end, node):
        return f", but {graph.labels[end]} on {graph.labels[node]}"
    return ""


def restated(database: Database, node: int, end: int) -> str:
    """What the remark that there is no chain says where an axiom only states what a theorem proves
    that has one, as `ax-cnex` of set.mm states `axcnex`."""
    if node == end or database.is_report:
        return ""
    found = list(islice(restatements(database, node, end), 2))
    if not found:
        return ""
    graph = database.graph()
    axiom, theorem = found[0]
    says = f", but on {graph.labels[axiom]}"
    if theorem == end:
        return f"{says}, which says the same"
    so_do = ", as with other axioms" if len(found) > 1 else ""
    same = f"{graph.labels[theorem]}, which says the same, rests on {graph.labels[end]}"
    return f"{says}; {same}{so_do}"


def restatements(database: Database, node: int, end: int) -> Iterator[tuple[int, int]]:
    """The axioms without `$e` on which a node rests, each with a theorem that says the same, rests
    on `end` and not on this axiom. Of the axioms that a theorem states some are looked at."""
    graph = database.graph()
    below, above = graph.below([node]), graph.above([end])
    proved: dict[str, list[int]] = {}
    for one in database.text.assertions:
        if one.kind == "p" and graph.index.get(one.label) in above:
            proved.setdefault(one.formula, []).append(graph.index[one.label])
    axioms = [
        axiom
        for axiom in sorted(each for each in below if not graph.is_theorem(each))
        if database.text.by_label[graph.labels[axiom]].formula in proved
    ]
    for axiom in axioms[:MOST_RESTATED]:
        one = database.text.by_label[graph.labels[axiom]]
        if all(each.kind == "f" for each in one.frame().hypotheses()):
            users = graph.above([axiom])
            theorem = next((each for each in proved[one.formula] if each not in users), None)
            if theorem is not None:
                yield axiom, theorem


def add_keep(parser: Parser) -> None:
    """Adds `--keep`."""
    parser.values(
        "--keep", "LABEL", "a theorem that needs ON anyway; several: by commas, or more options"
    )
    parser.flag("--keep-wrappers", "keep the theorems that may only say ON in another form")


def kept_in(
    context: Context, arguments: argparse.Namespace, database: Database, end: int
) -> frozenset[int]:
    """The theorems that are kept. NoAnswer where one isn't a theorem, or doesn't rest on ON."""
    graph = database.graph()
    named = named_in(graph, end, "--keep", arguments.keep)
    if not arguments.keep_wrappers:
        return named
    found = wrappers(graph, database.text, end)
    if found:
        labels = graph.labels
        direct = [labels[node] for node, kind in found.items() if kind is Kind.APPLIES]
        said = f"; {Kind.APPLIES.said(direct, labels[end])}" if direct else ""
        context.tell(f"kept as wrappers: {', '.join(labels[node] for node in found)}{said}")
    else:
        context.tell(f"{graph.name}: no theorem only wraps {graph.labels[end]}")
    return named | frozenset(found)


def named_in(graph: Graph, end: int, option: str, words: list[str]) -> frozenset[int]:
    """The theorems that an option names. NoAnswer where one isn't a theorem, or doesn't rest on
    ON."""
    nodes = [graph.theorem(label) for label in between_commas(words)]
    above = graph.above([end]) if nodes else set()
    for node in nodes:
        if node not in above or node == end:
            raise NoAnswer(
                f"{graph.name}: {graph.labels[node]} doesn't rest on {graph.labels[end]},"
                f" so {option} can't name it"
            )
    return frozenset(nodes)


def configure_way_out(parser: Parser) -> None:
    """The words and options of `way-out`."""
    add_database(parser)
    parser.add_argument("labels", metavar="[THEOREM] ON", nargs="+")
    add_keep(parser)
    add_choice_of_citations(parser)


def run_way_out(context: Context, arguments: argparse.Namespace) -> int:
    """Answers `way-out`."""
    if len(arguments.labels) > 2:
        raise NoAnswer("way-out takes DATABASE, THEOREM and ON, or DATABASE and ON alone")
    database = context.database(arguments.database, options_of(arguments))
    graph = database.graph()
    end = graph.node(arguments.labels[-1])
    labels = graph.labels
    kept = kept_in(context, arguments, database, end)
    if len(arguments.labels) == 2:
        start = graph.theorem(arguments.labels[0], end, "THEOREM comes first, and ON behind it")
        found = cuts.way_out(graph, start, end, kept)
        rows = [
            [labels[start], word, labels[node], labels[cited]]
            for word, edges in (
                ("applies", found.applies),
                ("first", found.first),
                ("last", found.last),
            )
            for node, cited in edges
        ]
        why = "is kept" if start in kept else f"doesn't rest on {labels[end]}"
        context.table(WAYS, rows, f"{graph.name}: {labels[start]} {why}", "of", ["of"])
        return 0
    ends = cuts.Bottlenecks(graph, end, citations=True, kept=kept).ends
    rows = []
    for node, pair in ends.items():
        for word, edge in zip(("first", "last"), pair or ()):
            rows.append([labels[node], word, *(labels[each] for each in edge)])
    why = f"{graph.name}: no theorem rests on {labels[end]} by way of a single citation"
    context.table(WAYS, rows, why, "of")
    return 0


def configure_frees(parser: Parser) -> None:
    """The words and options of `frees`."""
    add_database(parser)
    parser.add_argument("on", metavar="ON")
    parser.add_argument("theorems", metavar="THEOREM", nargs="*")
    parser.exclude("--most", "--plan")
    parser.number("--most", "N", "without THEOREM: how many are listed", 10)
    parser.value("--plan", "N", "the best N one after the other", type=positive)
    parser.values(
        "--given",
        "T",
        "a theorem that has such a proof already; several: by commas, or more options",
    )
    add_keep(parser)
    add_choice_of_citations(parser)


def run_frees(context: Context, arguments: argparse.Namespace) -> int:
    """Answers `frees`."""
    if arguments.plan is not None and arguments.theorems:
        raise NoAnswer("--plan chooses the theorems itself, so frees takes no THEOREM with it")
    database = context.database(arguments.database, options_of(arguments))
    graph = database.graph()
    end = graph.node(arguments.on)
    kept = kept_in(context, arguments, database, end)
    given = named_in(graph, end, "--given", arguments.given)
    for node in given & kept:
        raise NoAnswer(f"{graph.name}: {graph.labels[node]} is kept, so --given can't name it")
    says_more = arguments.keep_wrappers or database.is_report
    text = None if says_more else database.text
    asked = Asked(graph, end, kept, given, text, context.out.format == "text")
    if arguments.theorems:
        order = "ON comes first, and THEOREMs behind it"
        again = {graph.theorem(label, end, order) for label in arguments.theorems}
        put_freed(context, asked, again)
    elif arguments.plan is not None:
        put_plan(context, asked, arguments.plan)
    else:
        put_most(context, asked, arguments.most)
    return 0


@dataclass(frozen=True)
class Asked:
    """What `frees` is asked: of what to free, what is kept, and what is proved anew already."""

    graph: Graph
    end: int
    kept: frozenset[int]
    given: frozenset[int]
    text: Text | None
    """The text, where it may be told that a theorem wraps ON."""
    is_read: bool
    """Whether the answer is in the form text, so that somebody is there to judge what it lists."""

    def remark(self, nodes: Sequence[int]) -> str:
        """What is to say of the theorems that are listed; "" where nothing is."""
        on = self.graph.labels[self.end]
        said = [] if self.text is None else [self.wrapping(self.text, nodes)]
        if self.is_read and nodes:
            may = f"what is listed may still say {on} in other words"
            said.append(f"{may}, and --keep LABEL takes such a one out")
        return "; ".join(filter(None, said))

    def wrapping(self, text: Text, nodes: Sequence[int]) -> str:
        """That some of these theorems wrap ON; "" where none does."""
        kinds, labels = wrappers(self.graph, text, self.end), self.graph.labels
        said = []
        for kind in Kind:
            found = [labels[node] for node in nodes if kinds.get(node) is kind]
            if found:
                said.append(kind.said(found, labels[self.end]))
        return f"{'; '.join(said)}, and --keep-wrappers keeps such theorems" if said else ""


def put_freed(context: Context, asked: Asked, again: set[int]) -> None:
    """Lists what is freed by theorems."""
    graph, end, kept, given = asked.graph, asked.end, asked.kept, asked.given
    counts = {node: freed for freed, node in cuts.freeing(graph, end, kept, given)}
    found = cuts.freed(graph, end, again | given, kept)
    rows: list[list[Value]] = [
        [counts[node], graph.labels[node]] for node in found if node in counts
    ]
    context.table(FREED, rows, nothing_rests(graph, end, "of these "), "theorem", ["freed"])


def put_plan(context: Context, asked: Asked, steps: int) -> None:
    """Lists the theorems of a plan."""
    graph, end, kept = asked.graph, asked.end, asked.kept
    passes = context.test()
    advances = cuts.mended_plan(
        graph,
        end,
        kept,
        asked.given,
        lambda node: passes(graph.labels[node]),
        steps,
        progress.now,
    )
    rows: list[list[Value]] = []
    chosen: list[int] = []
    for each in advances:
        chosen.append(each.theorem)
        rows.append([each.freed, each.total, graph.labels[each.theorem]])
    context.out.table(["freed", "total", "theorem"], rows)
    resting = graph.above([end]) - {end}
    if rows:
        count, total = len(resting & kept), len(resting)
        are_kept = f"; {count} of these {'are' if count > 1 else 'is'} kept" if count else ""
        bound = ""
        if len(rows) < steps:
            bound = "; no further theorem frees more"
        elif len(rows) > 1 and asked.is_read and advances[-1].total < total - count:
            bound = f"; another choice of {len(rows)} may free more"
        remark = asked.remark(chosen)
        context.tell(
            f"{graph.name}: free are then {rows[-1][1]} of the {total} that rest on"
            f" {graph.labels[end]}{are_kept}{bound}{remark and f'; {remark}'}"
        )
    elif cuts.freeing(graph, end, kept, asked.given):
        context.tell(f"{graph.name}: none that rests on {graph.labels[end]} passes the filters")
    else:
        context.tell(nothing_left(asked))


def put_most(context: Context, asked: Asked, most: int) -> None:
    """Lists the theorems that free most, each by itself."""
    freeing = cuts.freeing(asked.graph, asked.end, asked.kept, asked.given)
    freeing.sort(key=lambda pair: -pair[0])
    if not freeing:
        context.tell(nothing_left(asked))
    found: list[list[Value]] = [[freed, asked.graph.labels[node]] for freed, node in freeing]
    listed = context.passing(found, 1)
    remark = asked.remark([asked.graph.node(str(label)) for _, label in listed[:most]])
    context.out.table(FREED, context.first(listed, most, also=remark))


def nothing_left(asked: Asked) -> str:
    """Says why there is no theorem to prove anew."""
    graph, end = asked.graph, asked.end
    if asked.kept or asked.given:
        or_free = ", or free by --given" if asked.given else ""
        return f"{graph.name}: all that rests on {graph.labels[end]} is kept{or_free}"
    return nothing_rests(graph, end)


def nothing_rests(graph: Graph, end: int, which: str = "") -> str:
    """Says that no theorem rests on a node."""
    return f"{graph.name}: none {which}rests on {graph.labels[end]}"


COMMANDS = [
    Command("why", WHY_PAGE, configure_why, run_why),
    Command("way-out", WAY_OUT_PAGE, configure_way_out, run_way_out, lists=True),
    Command("frees", FREES_PAGE, configure_frees, run_frees, lists=True),
]
