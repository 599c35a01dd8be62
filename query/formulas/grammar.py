"""The grammar that the syntax axioms of a database are, and the trees of formulas by it.

A syntax axiom is a `$a` of another typecode than `|-`: its variables stand for parts of their
typecode. By an example:

    grammar = Grammar()
    grammar.add("wi", "wff", ["(", "ph", "->", "ps", ")"], {"ph": "wff", "ps": "wff"})
    tree = grammar.tree("wff", ["(", "ph", "->", "ch", ")"], {"ph": "wff", "ch": "wff"})
    tree.rules                             # for each part its syntax axiom: {"wi"}

Formulas are read by Earley's method, from left to right and without recursion, over tries in which
axioms that begin alike are read as one. An axiom may begin with its own typecode, or have no symbol
at all. A grammar could make that slow, so a formula is given up after a number of steps for each of
its symbols; as databases are written it takes far fewer.
"""

from __future__ import annotations

from collections.abc import Iterator, Mapping, Sequence
from dataclasses import dataclass, field
from typing import NamedTuple, TypeVar

STEPS, STEPS_OF_SYMBOL, MOST_STEPS = 2000, 20, 2_000_000
"""So many steps, and so many for each symbol, are taken to read a formula, and at most so many.
Of Debian's databases no formula takes more than 4 for each symbol."""

Kind = TypeVar("Kind")


class NotRead(Exception):
    """A formula has no tree, or more than one, or takes too long. Its text says which."""


class Unbuilt(NotRead):
    """It has no tree."""

    def __init__(self) -> None:
        super().__init__("it isn't built by the syntax axioms before it")


class Twofold(NotRead):
    """It has more than one tree."""

    def __init__(self) -> None:
        super().__init__("it can be read in two ways")


class Part(NamedTuple):
    """A part of a formula: its typecode, where it begins and the symbol after its last one."""

    typecode: str
    start: int
    end: int


class Node:
    """A node of the tries: what may follow where a syntax axiom was read up to here. `rule` is the
    label of the one that ends here."""

    __slots__ = ("typecode", "symbols", "parts", "rule")

    def __init__(self, typecode: str) -> None:
        self.typecode = typecode
        self.symbols: dict[str, Node] = {}
        self.parts: dict[str, Node] = {}
        self.rule: str | None = None


class Item:
    """An axiom that was read from `start` on up to a node. `before` has the item before it and the
    part between, None for a symbol; two of them where there are several, which make no tree."""

    __slots__ = ("node", "start", "before")

    def __init__(self, node: Node, start: int) -> None:
        self.node = node
        self.start = start
        self.before: list[tuple[Item, Part | None]] = []


@dataclass
class Tree:
    """The tree of a formula. For each part that isn't a variable, `rules` has its syntax axiom and
    `below` its parts, in order. `root` is the whole."""

    root: Part
    rules: dict[Part, str] = field(default_factory=dict)
    below: dict[Part, list[Part]] = field(default_factory=dict)


class Grammar:
    """Syntax axioms."""

    def __init__(self) -> None:
        self.roots: dict[str, Node] = {}
        self.arguments: dict[str, list[str]] = {}
        """For each syntax axiom the typecodes of its variables, in the order of its symbols."""
        self.shapes: dict[str, tuple[str, ...]] = {}
        """For each its symbols, with typecodes in place of variables."""
        self.has_empty = False
        """Whether an axiom has no symbol."""
        self.size = 0
        """How many symbols the axioms have."""
        self.equal: dict[str, list[tuple[int, int]]] = {}
        """For each in which a variable occurs again, the `repetitions` of its variables."""
        self.typecodes: dict[str, str] = {}
        """The typecode of each."""
        self._constants: dict[str, list[str]] = {}

    def add(
        self, label: str, typecode: str, symbols: Sequence[str], variables: Mapping[str, str]
    ) -> None:
        """Adds a syntax axiom. One of the same form as another isn't added."""
        node = self.roots.setdefault(typecode, Node(typecode))
        for symbol in symbols:
            kind = variables.get(symbol)
            nexts, key = (node.symbols, symbol) if kind is None else (node.parts, kind)
            node = nexts.setdefault(key, Node(typecode))
        self.size += len(symbols)
        if node.rule is None:
            node.rule = label
            self.has_empty = self.has_empty or not symbols
            self.typecodes[label] = typecode
            names = [each for each in symbols if each in variables]
            self.arguments[label] = [variables[each] for each in names]
            self.shapes[label] = tuple(variables.get(each, each) for each in symbols)
            self._constants[label] = [each for each in symbols if each not in variables]
            if len({*names}) < len(names):
                self.equal[label] = list(repetitions(names))

    def constants(self, label: str) -> list[str]:
        """The constants of a syntax axiom, in order."""
        return self._constants.get(label, [])

    def tree(self, typecode: str, symbols: Sequence[str], variables: Mapping[str, str]) -> Tree:
        """The tree of a formula of this typecode. NotRead where it has none, or several."""
        return FormulaReader(self, symbols, variables).tree(typecode)


class FormulaReader:
    """Reads one formula."""

    def __init__(
        self, grammar: Grammar, symbols: Sequence[str], variables: Mapping[str, str]
    ) -> None:
        self.grammar = grammar
        self.symbols = symbols
        self.variables = variables
        self.left = min(MOST_STEPS, STEPS + STEPS_OF_SYMBOL * len(symbols))
        self.items: list[list[Item]] = [[], []]
        """The items at this position and at the next one, by the last bit of the position."""
        self.index: list[dict[tuple[int, int], Item]] = [{}, {}]
        self.waiting: list[dict[str, list[Item]]] = [{} for _ in range(len(symbols) + 1)]
        self.known: dict[Part, list[Item | None]] = {}
        """The items that end as a part, two at most; None for a variable."""

    def tree(self, typecode: str) -> Tree:
        """The tree."""
        self.predict(typecode, 0)
        for position in range(len(self.symbols) + 1):
            self.read(position)
            self.items[position & 1], self.index[position & 1] = [], {}
        return self.tree_of(Part(typecode, 0, len(self.symbols)))

    def take(self, steps: int) -> None:
        """Counts steps. NotRead where there were too many."""
        self.left -= steps
        if self.left < 0:
            raise NotRead("it takes too long to read")

    def predict(self, typecode: str, position: int) -> None:
        """Notes that a part of a typecode may begin at a position."""
        self.waiting[position][typecode] = []
        if typecode in self.grammar.roots:
            self.put(self.grammar.roots[typecode], position, position)

    def put(self, node: Node, start: int, position: int) -> Item:
        """The item of a node at a position."""
        self.take(1)
        index = self.index[position & 1]
        item = index.get((id(node), start))
        if item is None:
            item = index[id(node), start] = Item(node, start)
            self.items[position & 1].append(item)
        return item

    def follow(self, item: Item, node: Node, part: Part | None, position: int) -> None:
        """Adds what follows an item behind a symbol or a part, up to a position."""
        following = self.put(node, item.start, position)
        if len(following.before) < 2:
            following.before.append((item, part))

    def read(self, position: int) -> None:
        """Carries on the items at a position; more of them come meanwhile."""
        waiting, has_empty = self.waiting[position], self.grammar.has_empty
        for item in self.items[position & 1]:
            parts = item.node.parts
            if item.node.rule is not None:
                self.complete(Part(item.node.typecode, item.start, position), item)
            if len(parts) > 1:
                self.take(len(parts))
            for typecode, node in parts.items():
                if typecode not in waiting:
                    self.predict(typecode, position)
                waiting[typecode].append(item)
                if has_empty and Part(typecode, position, position) in self.known:
                    self.follow(item, node, Part(typecode, position, position), position)
        if position < len(self.symbols):
            self.read_symbol(position)

    def read_symbol(self, position: int) -> None:
        """Reads the symbol at a position."""
        symbol = self.symbols[position]
        typecode = self.variables.get(symbol)
        if typecode is not None:
            self.complete(Part(typecode, position, position + 1), None)
            return
        for item in self.items[position & 1]:
            node = item.node.symbols.get(symbol)
            if node is not None:
                self.follow(item, node, None, position + 1)

    def complete(self, part: Part, item: Item | None) -> None:
        """Notes a part, and carries on what waits for it."""
        ends = self.known.setdefault(part, [])
        if len(ends) < 2:
            ends.append(item)
        if len(ends) == 1:
            for each in self.waiting[part.start].get(part.typecode, ()):
                self.follow(each, each.node.parts[part.typecode], part, part.end)

    def tree_of(self, root: Part) -> Tree:
        """The tree of a part. NotRead where it has none, or several."""
        if root not in self.known:
            raise Unbuilt
        tree = Tree(root)
        left = [root]
        is_sound = True
        while left:
            part = left.pop()
            item = only(self.known[part])
            if item is not None:
                assert item.node.rule is not None
                tree.rules[part] = item.node.rule
                tree.below[part] = parts_of(item)
                left += tree.below[part]
                is_sound = is_sound and self.are_equal(item.node.rule, tree.below[part])
        if not is_sound:
            raise Unbuilt
        return tree

    def are_equal(self, rule: str, parts: Sequence[Part]) -> bool:
        """Whether those parts are equal that stand for one variable of an axiom."""
        pairs = [(parts[one], parts[other]) for one, other in self.grammar.equal.get(rule, ())]
        symbols = self.symbols
        return all(
            symbols[one.start : one.end] == symbols[other.start : other.end] for one, other in pairs
        )


def repetitions(names: Sequence[str]) -> Iterator[tuple[int, int]]:
    """For each name that stood there before the index of its first occurrence, and its own index.
    As a name is a variable, the parts with these numbers have to be equal."""
    first: dict[str, int] = {}
    for index, name in enumerate(names):
        if first.setdefault(name, index) != index:
            yield first[name], index


def parts_of(item: Item) -> list[Part]:
    """The parts of an axiom that was read."""
    found = []
    while item.before:
        item, part = only(item.before)
        if part is not None:
            found.append(part)
    return found[::-1]


def only(several: list[Kind]) -> Kind:
    """The only one. NotRead where there are two."""
    if len(several) > 1:
        raise Twofold
    return several[0]
