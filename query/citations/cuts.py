"""Which citations, and which theorems, hold others to an assertion: least cuts and bottlenecks.

Everything here is about chains of citations that end at one node, `end`, an axiom or a theorem.
Theorems may be `kept`: they rest on it whatever is done, so a chain may end at one of them as well.
"""

from collections.abc import Callable, Container, Iterable, Iterator, Mapping, Sequence, Set
from dataclasses import dataclass, field
from itertools import islice

from query.citations.graph import Graph

Citation = tuple[int, int]  # a theorem and what it cites


@dataclass
class Flow:
    """Chains from one node to one of others that share no citation, as many as there can be.

    `ahead` has for each theorem on the way what it cites on the way. Each citation carries one
    chain at most: `used` are those that carry one, and `back` has for each node from where they
    come.
    """

    start: int
    ends: frozenset[int]
    ahead: dict[int, list[int]]
    used: set[Citation] = field(default_factory=set)
    back: dict[int, dict[int, bool]] = field(default_factory=dict)

    def steps(self, node: int) -> list[int]:
        """Where a further chain can go: by a citation without a chain, or back along one with
        one."""
        forward = [to for to in self.ahead.get(node, []) if (node, to) not in self.used]
        return forward + list(self.back.get(node, {}))

    def levels(self) -> dict[int, int]:
        """How many steps the nodes are from the start, up to the first of the ends."""
        level = {self.start: 0}
        edge = [self.start]
        while edge and self.ends.isdisjoint(level):
            further = []
            for node in edge:
                for to in self.steps(node):
                    if to not in level:
                        level[to] = level[node] + 1
                        further.append(to)
            edge = further
        return level

    def carry(self, chain: list[int]) -> None:
        """Adds a chain."""
        for one, to in zip(chain, chain[1:]):
            if to in self.back.get(one, {}):
                del self.back[one][to]
                self.used.remove((to, one))
            else:
                self.used.add((one, to))
                self.back.setdefault(to, {})[one] = True

    def augment(self, level: dict[int, int]) -> None:
        """Adds chains that rise from level to level until there is none: Dinic's algorithm. A step
        that was taken, or led nowhere, isn't tried again."""
        choices: dict[int, Iterator[int]] = {}
        chain = [self.start]
        while chain:
            node = chain[-1]
            if node in self.ends:
                self.carry(chain)
                chain = [self.start]
                continue
            if node not in choices:
                choices[node] = iter(self.steps(node))
            rising = (to for to in choices[node] if level.get(to) == level[node] + 1)
            to = next(rising, None)
            if to is None:
                level[node] = -1
                chain.pop()
            else:
                chain.append(to)

    def fill(self) -> None:
        """Adds chains until no further one can be added."""
        while True:
            level = self.levels()
            if self.ends.isdisjoint(level):
                return
            self.augment(level)

    def reaching(self) -> set[int]:
        """The nodes from which steps lead to one of the ends."""
        before: dict[int, list[int]] = {}
        for node in [*self.ahead, *self.ends]:
            for to in self.steps(node):
                before.setdefault(to, []).append(node)
        found = set(self.ends)
        left = list(self.ends)
        while left:
            for node in before.get(left.pop(), []):
                if node not in found:
                    found.add(node)
                    left.append(node)
        return found

    def cut(self, inside: set[int]) -> list[Citation]:
        """The citations that lead out of a set of nodes, in file order."""
        return [
            (node, to)
            for node in sorted(self.ahead)
            for to in self.ahead[node]
            if node in inside and to not in inside
        ]


@dataclass(frozen=True)
class WayOut:
    """What would free a theorem of `end`: `applies` are the citations on the way of it and of what
    is kept; `first` and `last` are least sets of citations that have to go, next to the theorem and
    next to the end.
    """

    applies: list[Citation]
    first: list[Citation]
    last: list[Citation]


NOTHING: frozenset[int] = frozenset()


def way_out(graph: Graph, start: int, end: int, kept: frozenset[int] = NOTHING) -> WayOut:
    """The least changes that free a theorem of another assertion. Empty where it doesn't rest on
    it, or is kept."""
    far = graph.above([end])
    ends = (kept & far) | {end}
    if start not in far or start in ends:
        return WayOut([], [], [])
    ahead: dict[int, list[int]] = {}
    left = [start]
    while left:
        node = left.pop()
        if node not in ahead and node not in ends:
            ahead[node] = [cited for cited in graph.cites[node] if cited in far]
            left += ahead[node]
    flow = Flow(start, ends, ahead)
    flow.fill()
    applies = [(node, cited) for node in sorted(ahead) for cited in ahead[node] if cited in ends]
    return WayOut(applies, flow.cut(set(flow.levels())), flow.cut(set(ahead) - flow.reaching()))


class Meetings:
    """Parts one behind the other in a tree, whose root is `end`: for two of them, what is behind
    both is found.

    `over[x]` is the part behind `x`; `deep[x]` is how many such parts follow. `far[x]` is a part
    farther on, so placed that each part is found in about as many steps as the number of parts has
    digits.
    """

    def __init__(self, end: int) -> None:
        self.end = end
        self.deep: dict[int | Citation, int] = {end: 0}
        self.over: dict[int | Citation, int | Citation] = {}
        self.far: dict[int | Citation, int | Citation] = {end: end}

    def put(self, part: int | Citation, over: int | Citation) -> None:
        """Puts a part in front of another one."""
        deep, far = self.deep, self.far
        self.over[part] = over
        deep[part] = deep[over] + 1
        middle = far[over]
        is_even = deep[over] - deep[middle] == deep[middle] - deep[far[middle]]
        far[part] = far[middle] if is_even else over

    def common(self, nodes: Sequence[int | Citation]) -> int | Citation:
        """The first part that is behind all of these, or is one of them."""
        last: int | Citation = nodes[0]
        for node in nodes:
            if last == self.end:
                break
            if node != last:
                last = self.meeting(last, node)
        return last

    def meeting(self, one: int | Citation, other: int | Citation) -> int | Citation:
        """The first part that is behind both, or is one of them."""
        deep, over, far = self.deep, self.over, self.far
        if deep[one] < deep[other]:
            one, other = other, one
        wanted = deep[other]
        while deep[one] > wanted:
            one = far[one] if deep[far[one]] >= wanted else over[one]
        while one != other:
            if far[one] != far[other]:
                one, other = far[one], far[other]
            else:
                one, other = over[one], over[other]
        return one


class Bottlenecks(Meetings):
    """For each node that rests on `end`, what is on all its chains to it. Theorems of `again` are
    proved anew without it, so that no chain leads through them.

    `over[x]` is the last common part of the chains of what `x` cites, nearer to the end. A part is
    a node, or with `citations` also a citation.
    """

    def __init__(
        self,
        graph: Graph,
        end: int,
        citations: bool = False,
        kept: frozenset[int] = NOTHING,
        again: Set[int] = NOTHING,
    ) -> None:
        super().__init__(end)
        above = graph.above([end])
        self.kept = kept & above
        self.theorems: list[int] = []
        # For each theorem the first and the last citation on all its chains; None where there is
        # none.
        self.ends: dict[int, tuple[Citation, Citation] | None] = {end: None}
        for node in sorted(above - self.kept - again - {end}):
            cited = [
                other for other in graph.cites[node] if other in self.deep or other in self.kept
            ]
            if not cited:  # what it cites is free by those that are proved anew
                continue
            self.theorems.append(node)
            if citations and len(cited) == 1:
                self.add_citation(node, cited[0])
            else:
                self.add(node, [self.merged(other) for other in cited])

    def merged(self, node: int) -> int:
        """A node, or the end where it is kept."""
        return self.end if node in self.kept else node

    def add(self, node: int, cited: list[int]) -> None:
        """Adds a theorem that cites these."""
        last = self.common(cited)
        self.put(node, last)
        self.ends[node] = self.ends[last[0] if isinstance(last, tuple) else last]

    def add_citation(self, node: int, cited: int) -> None:
        """Adds a theorem that cites one alone, so that this citation is on all its chains."""
        edge = node, cited
        self.put(edge, self.merged(cited))
        self.put(node, edge)
        before = self.ends[self.merged(cited)]
        self.ends[node] = edge, before[1] if before else edge


def unavoidable(graph: Graph, node: int, end: int) -> list[int]:
    """What every chain from a node to `end` leads through, from the one to the other; empty where
    there is no chain."""
    over = Bottlenecks(graph, end).over
    return [node, *behind(over, node, {})] if node in over or node == end else []


def unavoidable_for_one(graph: Graph, nodes: Iterable[int], end: int) -> set[int]:
    """What every chain from one of these nodes to `end` leads through, for any of them; without
    `end`."""
    over = Bottlenecks(graph, end).over
    found: set[int] = set()
    for node in nodes:
        found.update((node, *behind(over, node, found)) if node in over else ())
    return found - {end}


def behind(
    over: Mapping[int | Citation, int | Citation], node: int, known: Container[int]
) -> Iterator[int]:
    """The nodes that are one behind the other in a tree, up to one that is known."""
    while node in over and node not in known:
        part = over[node]
        assert isinstance(part, int)
        node = part
        yield node


def freeing(
    graph: Graph, end: int, kept: frozenset[int] = NOTHING, again: Set[int] = NOTHING
) -> list[tuple[int, int]]:
    """For each theorem that rests on `end` and isn't kept, in file order: how many theorems no
    longer do if it is proved without, itself included, and the theorem. Where those of `again` are
    proved without already, this is about the others that rest on `end` still."""
    found = Bottlenecks(graph, end, kept=kept, again=again)
    freed = dict.fromkeys(found.theorems, 0)
    freed[end] = 0
    for node in reversed(found.theorems):
        freed[node] += 1
        over = found.over[node]
        assert isinstance(over, int)
        freed[over] += freed[node]
    return [(freed[node], node) for node in found.theorems]


class Resting:
    """The theorems that rest on `end` and aren't kept, in file order, with what each cites of all
    that rest on it: so it is found for many sets of theorems what they free."""

    def __init__(self, graph: Graph, end: int, kept: frozenset[int] = NOTHING) -> None:
        above = graph.above([end])
        self.last = {end} | (kept & above)
        self.cites = [
            (node, [cited for cited in graph.cites[node] if cited in above])
            for node in sorted(above - self.last)
        ]

    def freed(self, again: Set[int]) -> list[int]:
        """Those that no longer rest on it if these are proved without it, themselves included."""
        still = set(self.last)
        found = []
        for node, cited in self.cites:
            if node not in again and not still.isdisjoint(cited):
                still.add(node)
            else:
                found.append(node)
        return found


def freed(graph: Graph, end: int, again: Set[int], kept: frozenset[int] = NOTHING) -> list[int]:
    """The theorems, in file order, that no longer rest on `end` if those of `again` are proved
    without it."""
    return Resting(graph, end, kept).freed(again)


BEYOND = 5
"""So many theorems more are chosen than a plan has, and then left out again."""
MOST_EXCHANGED = 20
"""So often it is tried whether another theorem in place of one of a plan frees more."""
MOST_MENDED = 30
"""A plan of more theorems is what was chosen first: it takes a walk over the file for each theorem
that could be left out."""


@dataclass(frozen=True)
class Advance:
    """A step of a plan: a theorem to prove without `end`, how many theorems it frees beside those
    that the steps before it have freed, itself included, and how many are free then."""

    theorem: int
    freed: int
    total: int


def plan(
    graph: Graph,
    end: int,
    kept: frozenset[int],
    again: Set[int],
    may: Callable[[int], bool],
) -> Iterator[Advance]:
    """The theorems that free most, one after the other: each is the one that frees most beside what
    `again` and those before it free, and of several the first in the file. Only those that `may`
    be proved anew are taken. It ends where nothing is left."""
    done = set(again)
    total = len(freed(graph, end, done, kept))
    while True:
        left = [pair for pair in freeing(graph, end, kept, done) if may(pair[1])]
        if not left:
            return
        more, theorem = max(left, key=lambda pair: pair[0])
        total += more
        done.add(theorem)
        yield Advance(theorem, more, total)


def mended_plan(
    graph: Graph,
    end: int,
    kept: frozenset[int],
    again: Set[int],
    may: Callable[[int], bool],
    steps: int,
    tell: Callable[[str], object],
) -> list[Advance]:
    """A plan of so many theorems at the most. What is chosen first may be needless once all are
    chosen: so BEYOND more are chosen, and then the one that is missed least is left out, again and
    again. What is left is the plan where it frees more than the first ones do. Then each theorem is
    exchanged for another one as long as more is free by that. `tell` gets how far it is."""
    most = steps + (BEYOND if steps <= MOST_MENDED else 0)
    longer: list[Advance] = []
    for each in islice(plan(graph, end, kept, again, may), most):
        longer.append(each)
        tell(f"{len(longer)} of {most} theorems chosen")
    if len(longer) <= steps:
        return longer
    resting = Resting(graph, end, kept)
    left = {each.theorem for each in longer}
    total = 0
    while len(left) > steps:
        tell(f"leaving out {len(left) - steps} of {len(left)} theorems")
        total, dropped = max((len(resting.freed(again | left - {each})), each) for each in left)
        left.remove(dropped)
    first = {each.theorem for each in longer[:steps]}
    if total <= longer[steps - 1].total:
        left, total = first, longer[steps - 1].total
    left = exchanged(graph, end, kept, again, may, left, total, tell)
    if left == first:
        return longer[:steps]
    chosen = [*plan(graph, end, kept, again, left.__contains__)]
    done = {*again, *(each.theorem for each in chosen)}
    return chosen + [*islice(plan(graph, end, kept, done, may), steps - len(chosen))]


def exchanged(
    graph: Graph,
    end: int,
    kept: frozenset[int],
    again: Set[int],
    may: Callable[[int], bool],
    chosen: Set[int],
    total: int,
    tell: Callable[[str], object],
) -> set[int]:
    """As many theorems, each exchanged for another one as long as more is free by that, until so
    many were tried. `total` is what is free by `again` and those that are chosen."""
    resting = Resting(graph, end, kept)
    best = {*chosen}
    left = sorted(best)
    for tried in range(MOST_EXCHANGED):
        if not left:
            break
        one = left.pop()
        tell(f"exchanging theorems, {tried} of {MOST_EXCHANGED} at most are tried")
        others = again | best - {one}
        pairs = [pair for pair in freeing(graph, end, kept, others) if may(pair[1])]
        more, other = max(pairs, key=lambda pair: pair[0])
        if len(resting.freed(others)) + more > total:
            total = len(resting.freed(others)) + more
            best = best - {one} | {other}
            left = sorted(best - {other})
    return best
