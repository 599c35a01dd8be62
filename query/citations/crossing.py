"""Citations of some assertions, those that lead into a mathbox from outside it or from one header
to another, what in mathboxes rests on nothing in them, and what may stand before a place."""

from __future__ import annotations

from bisect import bisect_right
from collections.abc import Iterable, Iterator

from query.citations.graph import Graph
from query.texts.assertions import Assertion
from query.texts.text import Text


def citations(graph: Graph, labels: Iterable[str]) -> Iterator[tuple[str, str]]:
    """Each citation of these assertions, as what cites and what it cites, in file order."""
    nodes = [graph.index[label] for label in labels if label in graph.index]
    for cited, users in graph.citing(nodes).items():
        for user in users:
            yield graph.labels[user], graph.labels[cited]


def across_mathboxes(graph: Graph, text: Text) -> Iterator[tuple[str, str, str | None, str]]:
    """Each citation of an assertion in a mathbox from outside it: what cites, what it cites, and
    the mathboxes of both. Those of one that is cited come together."""
    boxes, names = {}, {}
    for one, number, name in text.boxed():
        node = graph.index.get(one.label)
        if node is not None:
            boxes[node], names[node] = number, name
    inside = boxes.keys()
    found = []
    for user in range(min(inside, default=graph.theorems), graph.theorems):
        cited = graph.cites[user]
        if not inside.isdisjoint(cited):
            own = boxes.get(user)
            found += [(each, user) for each in inside & cited if boxes[each] != own]
    order = {node: number for number, node in enumerate(boxes)}
    for each, user in sorted(found, key=lambda pair: (order[pair[0]], pair[1])):
        yield graph.labels[user], graph.labels[each], names.get(user), names[each]


def fit_for_main(graph: Graph, text: Text) -> list[int]:
    """The theorems in mathboxes that rest on nothing in a mathbox, and have no symbol that only
    formulas in mathboxes have; in file order."""
    boxed = {graph.index[one.label] for one, _, _ in text.boxed() if one.label in graph.index}
    resting = graph.above(boxed)
    known = symbols_of_main(text)
    return [
        node
        for node in sorted(boxed)
        if graph.is_theorem(node)
        and resting.isdisjoint(graph.cites[node])
        and known.issuperset(constants_of(text.by_label[graph.labels[node]]))
    ]


def fit_before(graph: Graph, text: Text, place: Assertion) -> list[int]:
    """The theorems behind an assertion that cite nothing from it on, and have no constant that is
    declared there; in file order."""
    numbers = [text.by_label[label].number for label in graph.labels]
    behind = bisect_right(numbers, place.number, hi=graph.theorems)
    found = []
    for node in range(behind, graph.theorems):
        if all(numbers[cited] < place.number for cited in graph.cites[node]):
            found.append(node)
    if not found:
        return []
    known = text.constants_before(place)
    return [
        node for node in found if known.issuperset(constants_of(text.by_label[graph.labels[node]]))
    ]


def last_cited(graph: Graph, text: Text, theorem: int) -> Assertion | None:
    """The last assertion that the proof of a theorem cites; None where it cites nothing."""
    cited = [text.by_label[graph.labels[node]] for node in graph.cites[theorem]]
    return max(cited, key=lambda one: one.number) if cited else None


def symbols_of_main(text: Text) -> set[str]:
    """The constants that formulas of axioms outside of mathboxes have."""
    found: set[str] = set()
    for one in text.assertions:
        if one.kind == "a" and text.box(one) is None:
            found |= constants_of(one)
    return found


def constants_of(one: Assertion) -> set[str]:
    """The constants in the formulas of an assertion and of its hypotheses."""
    hypotheses = one.frame().hypotheses()
    variables = {each.formula.partition(" ")[2] for each in hypotheses if each.kind == "f"}
    given = [each.formula for each in hypotheses if each.kind == "e"]
    return {
        symbol for formula in (one.formula, *given) for symbol in formula.split(" ")
    } - variables


def citing_headers(graph: Graph, text: Text, level: int) -> dict[tuple[int, int], list[int]]:
    """For two headers of a level, by their numbers from 0, the theorems below the first that cite
    something below the other; rising. What stands before the first header of the level, or behind
    the last one that an outer header ends, is below none."""
    below: list[int | None] = [None] * len(text.assertions)
    for number, header in enumerate(text.headers):
        if header.level == level:
            below[header.first : header.end] = [number] * (header.end - header.first)
    header_of = [below[text.by_label[label].number] for label in graph.labels]
    found: dict[tuple[int, int], list[int]] = {}
    for theorem in range(graph.theorems):
        own = header_of[theorem]
        if own is not None:
            for other in {header_of[cited] for cited in graph.cites[theorem]} - {own, None}:
                assert other is not None
                found.setdefault((own, other), []).append(theorem)
    return dict(sorted(found.items()))
