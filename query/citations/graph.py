"""The graph of citations: which assertion cites which, and the walks over it.

Nodes are numbers from 0: first the theorems, in file order, so that the node of a theorem is its
row; then the axioms. A theorem cites only theorems before it.
"""

from array import array
from collections.abc import Callable, Iterable, Iterator, Set
from functools import cached_property

from query.answers.errors import NEAR_LABEL, NoAnswer, nearest, shown


NOTHING: "array[int]" = array("I")


class Lists:
    """Many lists of numbers in two arrays: list `i` is `targets[places[i]:places[i + 1]]`. A list
    beyond the last one is empty."""

    def __init__(self, places: "array[int]", targets: "array[int]") -> None:
        self.places = places
        self.targets = targets

    def __len__(self) -> int:
        return len(self.places) - 1

    def __getitem__(self, number: int) -> "array[int]":
        if number + 1 >= len(self.places):
            return NOTHING
        return self.targets[self.places[number] : self.places[number + 1]]


class Graph:
    """The citations of a database.

    `labels` has the label of each node: those of `theorems` theorems, in file order, and then
    those of axioms (with `--open` also of open theorems). Of a report these are its columns and
    what is cited. `cites[i]` is what node `i` cites, in file order; for an axiom nothing. `name` is
    how messages call the database, and `remark` what they say of a word that is no label, or "".
    """

    def __init__(
        self,
        name: str,
        labels: list[str],
        theorems: int,
        cites: Lists,
        remark: Callable[[str], str] = lambda word: "",
    ) -> None:
        self.name = name
        self.labels = labels
        self.theorems = theorems
        self.cites = cites
        self.remark = remark

    @cached_property
    def index(self) -> dict[str, int]:
        """The node of each label."""
        return {label: node for node, label in enumerate(self.labels)}

    def citing(self, nodes: Iterable[int]) -> dict[int, list[int]]:
        """For each of these nodes the theorems that cite it, in file order."""
        found: dict[int, list[int]] = {node: [] for node in nodes}
        wanted = set(found)
        for theorem, cited in self.citing_any(wanted):
            for node in wanted.intersection(cited):
                found[node].append(theorem)
        return found

    def citing_any(self, nodes: Set[int]) -> Iterator[tuple[int, "array[int]"]]:
        """The theorems that cite one of these nodes, in file order, each with all that it cites."""
        places, targets = self.cites.places, self.cites.targets
        for theorem in range(self.theorems):
            cited = targets[places[theorem] : places[theorem + 1]]
            if not nodes.isdisjoint(cited):
                yield theorem, cited

    def is_theorem(self, node: int) -> bool:
        """Whether the node is a theorem."""
        return node < self.theorems

    def see(self, label: str) -> None:
        """NoAnswer where there is neither an axiom nor a theorem of this label."""
        if label not in self.index:
            meant = self.remark(label) or nearest(label, self.index, NEAR_LABEL)
            raise NoAnswer(
                f"{self.name}: has neither a theorem nor an axiom '{shown(label)}'{meant}"
            )

    def node(self, label: str) -> int:
        """The node of a label. NoAnswer where there is neither an axiom nor a theorem of it."""
        self.see(label)
        return self.index[label]

    def theorem(self, label: str, on: int | None = None, order: str = "") -> int:
        """The node of a theorem. NoAnswer where there is none of this label; where an axiom has it,
        it says in which order they stand if what is asked for `on` is a theorem."""
        node = self.node(label)
        if not self.is_theorem(node):
            besides = f"; {order}" if order and on is not None and self.is_theorem(on) else ""
            raise NoAnswer(
                f"{self.name}: '{label}' is an axiom, where a theorem is wanted{besides}"
            )
        return node

    def axiom(self, label: str) -> int:
        """The node of an axiom. NoAnswer where there is none of this label."""
        node = self.node(label)
        if self.is_theorem(node):
            raise NoAnswer(f"{self.name}: '{label}' is a theorem, where an axiom is wanted")
        return node

    def below(self, nodes: Iterable[int]) -> set[int]:
        """The nodes, and all that they rest on through citations."""
        found = set(nodes)
        left = list(found)
        while left:
            for cited in self.cites[left.pop()]:
                if cited not in found:
                    found.add(cited)
                    left.append(cited)
        return found

    def above(self, nodes: Iterable[int]) -> set[int]:
        """The nodes, and all theorems that rest on one of them through citations."""
        found = set(nodes)
        places, targets = self.cites.places, self.cites.targets
        for theorem in range(self.theorems):
            if not found.isdisjoint(targets[places[theorem] : places[theorem + 1]]):
                found.add(theorem)
        return found

    def resting(self, nodes: Iterable[int]) -> list[int]:
        """For each theorem on which of these nodes it rests, as the bits of a number: the lowest is
        that of the first node. No theorem rests on itself."""
        carried = [0] * len(self.labels)
        for place, node in enumerate(nodes):
            carried[node] |= 1 << place
        found = [0] * self.theorems
        places, targets = self.cites.places, self.cites.targets
        for theorem in range(self.theorems):
            bits = 0
            for cited in targets[places[theorem] : places[theorem + 1]]:
                bits |= carried[cited]
            found[theorem] = bits
            carried[theorem] |= bits
        return found

    def distances(self, end: int, theorems: Iterable[int] | None = None) -> dict[int, int]:
        """For each node that rests on this one, how many citations a shortest chain to it has; 0
        for the node itself. Of other theorems than those given, which rise, it says nothing.
        """
        far = {end: 0}
        for theorem in range(self.theorems) if theorems is None else theorems:
            cited = self.cites[theorem]
            if not far.keys().isdisjoint(cited):
                far[theorem] = 1 + min(far[each] for each in cited if each in far)
        return far

    def following(self, node: int, far: dict[int, int]) -> int:
        """What is next on a shortest chain from a node, by the distances to its end: of several the
        one that is first in the file.
        """
        return next(cited for cited in self.cites[node] if far.get(cited) == far[node] - 1)

    def chain(self, node: int, end: int) -> list[int]:
        """A shortest chain of citations from one node to another, both included, by `following`.
        Empty where there is none.
        """
        far = self.distances(end, range(min(node + 1, self.theorems)))
        if node not in far:
            return []
        chain = [node]
        while chain[-1] != end:
            chain.append(self.following(chain[-1], far))
        return chain
