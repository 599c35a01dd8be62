"""Parts of the graph of citations for a figure: how far it goes down, through what it leads, and
its landmarks alone."""

from __future__ import annotations

from collections.abc import Iterable
from dataclasses import dataclass

from query.citations.bits import bits_of
from query.citations.cuts import Meetings
from query.citations.graph import Graph


@dataclass(frozen=True)
class Part:
    """A part of the graph: its nodes, and for each theorem among them to what arrows lead from it,
    in file order. An arrow of `chains` stands for chains of several citations."""

    graph: Graph
    arrows: dict[int, list[int]]
    chains: frozenset[tuple[int, int]] = frozenset()

    def theorems(self, downwards: bool) -> list[int]:
        """The theorems, in file order or from the last one on."""
        return sorted(self.arrows, reverse=downwards)

    def is_empty(self) -> bool:
        """Whether there is no arrow."""
        return not any(self.arrows.values())


def part_of(graph: Graph, nodes: set[int]) -> Part:
    """These nodes, with all citations between them."""
    theorems = (node for node in nodes if graph.is_theorem(node))
    return Part(
        graph, {node: [cited for cited in graph.cites[node] if cited in nodes] for node in theorems}
    )


def whole(graph: Graph) -> Part:
    """All theorems, and what they cite."""
    return Part(graph, {node: list(graph.cites[node]) for node in range(graph.theorems)})


def through(graph: Graph, nodes: set[int], start: int, middle: int) -> Part:
    """The chains from a theorem that lead through a node, of those between these nodes; the theorem
    alone where there are none."""
    if middle not in nodes:
        return part_of(graph, {start})
    upper, lower = graph.above([middle]) & nodes, graph.below([middle]) & nodes
    arrows = dict(part_of(graph, upper).arrows)
    for node, cited in part_of(graph, lower).arrows.items():
        arrows.setdefault(node, []).extend(cited)
    return Part(graph, arrows)


def within(graph: Graph, start: int, depth: int) -> set[int]:
    """The nodes to which at most so many citations lead from a theorem."""
    found, edge = {start}, [start]
    for _ in range(depth):
        edge = [cited for node in edge for cited in graph.cites[node] if cited not in found]
        if not edge:
            break
        edge = list(dict.fromkeys(edge))
        found.update(edge)
    return found


def landmarks(part: Part, start: int, end: int | None, count: int) -> Part:
    """The start, the end and the theorems of a part in which most comes together, with arrows for
    the chains between them; but no arrow beside a chain of others."""
    weights = weights_of(part, start)
    theorems = [node for node in part.theorems(False) if node not in (start, end)]
    theorems.sort(key=lambda node: -weights[node])
    kept = sorted({start, *theorems[:count], *(() if end is None else (end,))})
    return reduced(part, kept)


def downwards(part: Part) -> Iterable[int]:
    """The nodes of a part from the last theorem on, and then the axioms."""
    theorems = part.theorems(True)
    cited = {node for arrows in part.arrows.values() for node in arrows}
    return [*theorems, *sorted(node for node in cited if not part.graph.is_theorem(node))]


def weights_of(part: Part, start: int) -> dict[int, int]:
    """For each node how much comes together in it: of the nodes to which all chains from the start
    lead through it, itself included, how many there are besides those to which they lead through
    one more node, the one that has most."""
    meetings = Meetings(start)
    above: dict[int, list[int]] = {}
    order = [node for node in downwards(part) if node <= start or not part.graph.is_theorem(node)]
    for node in order:
        if node != start:
            meetings.put(node, meetings.common(above[node]))
        for cited in part.arrows.get(node, ()):
            above.setdefault(cited, []).append(node)
    below = dict.fromkeys(order, 1)
    most = dict.fromkeys(order, 0)
    for node in reversed(order):
        over = meetings.over.get(node)
        if isinstance(over, int):
            below[over] += below[node]
            most[over] = max(most[over], below[node])
    return {node: below[node] - most[node] for node in order}


def reduced(part: Part, kept: list[int]) -> Part:
    """Some nodes of a part, with an arrow where a chain leads from one to another but through none
    of the others. Rows of bits say what is reached."""
    place = {node: number for number, node in enumerate(kept)}
    next_kept: dict[int, int] = {}
    reached: dict[int, int] = {}
    arrows: dict[int, list[int]] = {}
    chains: set[tuple[int, int]] = set()
    for node in part.theorems(False):
        met = 0
        for cited in part.arrows[node]:
            met |= 1 << place[cited] if cited in place else next_kept.get(cited, 0)
        if node not in place:
            next_kept[node] = met
            continue
        nexts = [kept[number] for number in bits_of(met)]
        beyond = 0
        for each in nexts:
            beyond |= reached.get(each, 0)
        reached[node] = met | beyond
        arrows[node] = [each for each in nexts if not beyond >> place[each] & 1]
        direct = {*part.arrows[node]}
        chains.update((node, each) for each in arrows[node] if each not in direct)
    return Part(part.graph, arrows, frozenset(chains))
