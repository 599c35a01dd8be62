"""Which theorems wrap an axiom or another theorem: they state it, or may say it in another form, or
a proof of them without it would prove it.

A theorem wraps ON where it states what ON states but for the variables. Those of ax-13 in set.mm
are ax13v, which has another `$d`, and axc9lem1, which has an equation turned round.

It wraps ON too where its proof applies ON and nothing else that rests on ON. In set.mm an axiom is
mostly applied by its wrappers alone, and that of ax-ac2 is axac3, which says it as `CHOICE`. But
not all of these say ON: elirr of iset.mm applies ax-setind, and says `-. A e. A`.

Of some theorems ON is an instance, as ax-13 is of ax13, which states it without another `$d`. What
all chains from such a theorem to ON lead through wraps ON too: if it were proved without ON, the
theorem would be, and so ON.
"""

from __future__ import annotations

from collections.abc import Sequence
from enum import Enum, auto

from query.citations.cuts import unavoidable_for_one
from query.citations.graph import Graph
from query.texts.assertions import Assertion, Frame
from query.texts.text import Text


MOST_NAMED = 5
"""So many theorems are named of one kind."""


class Kind(Enum):
    """What is known of a theorem that wraps another one, or an axiom."""

    STATES = auto()
    GIVES_BACK = auto()
    APPLIES = auto()

    def said(self, labels: Sequence[str], on: str) -> str:
        """That of these theorems, in words."""
        if self is Kind.GIVES_BACK:
            return f"a proof of {listed(labels, 'or')} without {on} would prove {on}"
        which, is_one = listed(labels, "and"), len(labels) == 1
        if self is Kind.STATES:
            return f"{which} state{'s' * is_one} what {on} states but for the variables"
        applies = "applies" if is_one else "apply"
        return f"{which} {applies} {on} directly and so may say it in another form"


def listed(labels: Sequence[str], word: str) -> str:
    """Labels in a sentence, with a word before the last one; of very many the first ones."""
    if len(labels) > MOST_NAMED:
        others = len(labels) - MOST_NAMED
        labels = [*labels[:MOST_NAMED], f"{others} other{'s' * (others > 1)}"]
    *first, last = labels
    return f"{', '.join(first)} {word} {last}" if first else last


def wrappers(graph: Graph, text: Text, end: int) -> dict[int, Kind]:
    """The theorems that wrap a node, in file order."""
    above = graph.above([end])
    wrapped = text.by_label[graph.labels[end]]
    shape, length = shape_of(wrapped), wrapped.formula.count(" ")
    found = {}
    giving = []
    for node in sorted(above - {end}):
        one = text.by_label[graph.labels[node]]
        is_alike = one.formula.count(" ") == length and shape_of(one) == shape
        if is_alike:
            found[node] = Kind.STATES
        elif [cited for cited in graph.cites[node] if cited in above] == [end]:
            found[node] = Kind.APPLIES
        if is_alike and is_instance(wrapped, one):
            giving.append(node)
    for node in unavoidable_for_one(graph, giving, end) if giving else ():
        if found.get(node) is not Kind.STATES:
            found[node] = Kind.GIVES_BACK
    return dict(sorted(found.items()))


def shape_of(one: Assertion) -> list[list[str]]:
    """The symbols of the essential hypotheses and of the formula of an assertion, with typecodes in
    place of variables; a typecode has a space before it, as no symbol does."""
    frame = one.frame()
    variables = {name: f" {typecode}" for name, typecode in typecodes_of(frame).items()}
    return [
        [variables.get(symbol, symbol) for symbol in formula] for formula in formulas_of(one, frame)
    ]


def is_instance(special: Assertion, general: Assertion) -> bool:
    """Whether an assertion is what another one of its shape says with other variables, so that it
    is proved by that."""
    frames = special.frame(), general.frame()
    variables = typecodes_of(frames[1])
    meant: dict[str, str] = {}
    for theirs, own in zip(formulas_of(special, frames[0]), formulas_of(general, frames[1])):
        for other, symbol in zip(theirs, own):
            if symbol in variables and meant.setdefault(symbol, other) != other:
                return False
    allowed = {*frames[0].pairs()}
    pairs = ((meant[one], meant[other]) for one, other in frames[1].pairs())
    return all((min(pair), max(pair)) in allowed for pair in pairs)


def formulas_of(one: Assertion, frame: Frame) -> list[list[str]]:
    """The symbols of the essential hypotheses of an assertion, and of its formula."""
    given = (each.formula for each in frame.essential())
    return [formula.split(" ") for formula in (*given, one.formula)]


def typecodes_of(frame: Frame) -> dict[str, str]:
    """The typecodes of the variables of a frame."""
    floating = (each.formula.split(" ") for each in frame.hypotheses() if each.kind == "f")
    return {name: typecode for typecode, name in floating}
