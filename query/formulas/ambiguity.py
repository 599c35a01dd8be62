"""Whether a grammar is unambiguous: whether each formula has one tree at the most.

It is proved where no formula of a typecode is the beginning of a longer one of that typecode. Then
two trees can be compared from left to right. Two that differ differ first where one goes on with a
symbol and the other with a part, or each with a part of another typecode. From there both are
followed side by side. A part of one typecode that both have at one place is the same in both, since
it can't be longer in one of them: so it is passed at once. If the two never come to the end of what
they began with, there are no such trees. docs/SOUNDNESS.md has the argument.

A grammar in which that doesn't hold is tried from right to left, too.
"""

from __future__ import annotations

from collections.abc import Iterator
from dataclasses import dataclass
from typing import NamedTuple

from query.formulas.grammar import Grammar, Node

STEPS, STEPS_OF_SYMBOL, MOST_STEPS = 200_000, 20, 2_000_000
"""So many steps, and so many for each symbol of the syntax axioms, are taken at the most, and no
more than that in all, since each state is kept. set.mm's grammar takes some 6,000."""
AXIOMS_OF_STEP = 8
"""To keep a state counts as a step for so many axioms within one another."""
MOST_DEPTH = 100
"""So many axioms within one another are followed at the most: each state has all of them."""
SHOWN_SYMBOLS = 30
"""A formula is told in a message up to so many symbols."""
MOST_PARTS = 10_000
"""Of so many states at the most the symbols are put together."""

Stack = tuple[Node, ...]
"""How far a part has been read: for each axiom that was begun what follows the part that is being
read, the outermost first; the last one is where symbols come next. Empty where it is at its end."""
Parts = tuple[str, str]
"""The typecodes of two parts that begin at one place, one in each tree. Where the typecodes are the
same, these are the trees themselves."""
Symbols = tuple[str, ...]
Begun = tuple[frozenset[str], Stack]
"""How a part can begin with a symbol: the typecodes of the parts that begin there, and the axioms
that were begun."""


class State(NamedTuple):
    """How far two parts have been read, each in one of the trees."""

    parts: Parts
    one: Stack
    other: Stack


class Origin(NamedTuple):
    """Whence a state comes: the one before it, the last state of the parts that were followed
    since, if any were, and then the symbols that were read."""

    state: State | None
    end: State | None
    symbols: Symbols


class Caller(NamedTuple):
    """A state in which both trees go on with parts, and what follows these."""

    state: State
    one: Stack
    other: Stack


@dataclass(frozen=True)
class Ambiguity:
    """What is known of a grammar. `is_unambiguous` is None where it isn't known, and `why` says
    why, or which formula has two trees."""

    is_unambiguous: bool | None
    why: str


class GivenUp(Exception):
    """It takes too many steps."""


def ambiguity(grammar: Grammar, backward: Grammar) -> Ambiguity:
    """What is known of a grammar, given also with the symbols of each axiom in reverse order."""
    found: list[Ambiguity] = []
    for each, turned in ((grammar, False), (backward, True)):
        if each.has_empty:
            return Ambiguity(None, "an axiom has no symbol")
        try:
            found.append(Comparison(each, turned).answer())
        except GivenUp:
            found.append(Ambiguity(None, "it takes too long to find out"))
        if found[-1].is_unambiguous is not None:
            return found[-1]
    return found[0]


class Comparison:
    """Follows two trees side by side, from left to right, or from right to left where the grammar
    is `turned`."""

    def __init__(self, grammar: Grammar, turned: bool) -> None:
        self.roots = grammar.roots
        self.turned = turned
        self.left = min(STEPS + STEPS_OF_SYMBOL * grammar.size, MOST_STEPS)
        self.seen: dict[State, Origin] = {}
        self.todo: list[State] = []
        self.begun: dict[str, dict[str, list[Begun]]] = {}
        self.callers: dict[Parts, list[Caller]] = {}
        self.ends: dict[Parts, list[State]] = {}
        """For two parts the states in which one of them is at its end, or both."""
        self.prefix = ""
        """The first formula that was found to be the beginning of a longer one; "" if none was."""
        self.double = ""
        """How the first formula begins that was found to have two trees; "" if none was."""

    def take(self, steps: int = 1) -> None:
        """Counts steps."""
        self.left -= steps
        if self.left < 0:
            raise GivenUp

    def answer(self) -> Ambiguity:
        """What is known."""
        if circle := self.circle():
            how = "ends with" if self.turned else "begins with"
            return Ambiguity(None, f"a formula of typecode {circle} {how} one of that typecode")
        for typecode in self.roots:
            self.follow(typecode)
        if self.double:
            return Ambiguity(False, f"the formula {self.double} has two trees")
        if self.prefix:
            how = "end" if self.turned else "beginning"
            return Ambiguity(None, f"the formula {self.prefix} is also the {how} of a longer one")
        return Ambiguity(True, "")

    def circle(self) -> str:
        """A typecode of which a formula begins with one of the same typecode; "" where there is
        none. Finds also how parts begin."""
        is_done: dict[str, bool] = {}
        for start in self.roots:
            left = [(start, False)]
            while left:
                typecode, is_last = left.pop()
                if is_last:
                    is_done[typecode] = True
                    self.begun[typecode] = self.beginnings(typecode)
                elif typecode not in is_done:
                    is_done[typecode] = False
                    left.append((typecode, True))
                    left += [(each, False) for each in self.firsts(typecode)]
                elif not is_done[typecode]:
                    return typecode
        return ""

    def firsts(self, typecode: str) -> list[str]:
        """The typecodes of the parts with which a formula can begin."""
        root = self.roots.get(typecode)
        return [] if root is None else list(root.parts)

    def beginnings(self, typecode: str) -> dict[str, list[Begun]]:
        """How a part can begin, by its first symbol, which may be a part too: one of `typecode` is
        then the whole. Those of the parts with which it can begin are known."""
        found: dict[str, list[Begun]] = {typecode: [(frozenset(), ())]}
        root = self.roots.get(typecode)
        if root is None:
            return found
        own = frozenset([typecode])
        for symbol, node in root.symbols.items():
            self.take()
            found.setdefault(key_of(symbol), []).append((own, (node,)))
        for other, node in root.parts.items():
            for first, ways in self.begun[other].items():
                self.take(sum(2 + len(stack) for _, stack in ways))
                found.setdefault(first, []).extend(
                    (own | opened, (node, *stack)) for opened, stack in ways
                )
        return found

    def follow(self, typecode: str) -> None:
        """Compares the trees of a typecode. At each place of its tries two of them can part."""
        parts = (typecode, typecode)
        first = State(parts, (self.roots[typecode],), (self.roots[typecode],))
        self.seen[first] = Origin(None, None, ())
        states = [first]
        while states:
            state = states.pop()
            self.take()
            node = state.one[-1]
            if node.rule is not None and (node.symbols or node.parts):
                self.note_prefix(state)
            if node.parts:
                self.go_on(state, are_apart=False)
            nexts = [(symbol, each) for symbol, each in node.symbols.items()]
            nexts += [(shown_part(kind), each) for kind, each in node.parts.items()]
            for symbol, each in nexts:
                following = State(parts, (each,), (each,))
                self.seen[following] = Origin(state, None, (symbol,))
                states.append(following)
            while self.todo:
                self.step(self.todo.pop())

    def put(
        self, state: State, origin: State | None, symbols: Symbols, end: State | None = None
    ) -> None:
        """Notes a state."""
        self.take()
        if state not in self.seen:
            if max(len(state.one), len(state.other)) > MOST_DEPTH:
                raise GivenUp
            self.take((len(state.one) + len(state.other)) // AXIOMS_OF_STEP)
            self.seen[state] = Origin(origin, end, symbols)
            self.todo.append(state)

    def step(self, state: State) -> None:
        """Goes on from a state."""
        parts, one, other = state
        if not one or not other:
            self.end(state)
            return
        if one[-1].rule is not None:
            self.put(State(parts, one[:-1], other), state, ())
        if other[-1].rule is not None:
            self.put(State(parts, one, other[:-1]), state, ())
        self.go_on(state, are_apart=True)

    def go_on(self, state: State, are_apart: bool) -> None:
        """Reads the next symbol or part in both trees. Where these aren't yet apart, they part
        here."""
        parts, one, other = state
        node, beside = one[-1], other[-1]
        below, under = one[:-1], other[:-1]
        if are_apart:
            for symbol in node.symbols.keys() & beside.symbols.keys():
                following = State(
                    parts, (*below, node.symbols[symbol]), (*under, beside.symbols[symbol])
                )
                self.put(following, state, (symbol,))
            for kind in node.parts.keys() & beside.parts.keys():
                following = State(parts, (*below, node.parts[kind]), (*under, beside.parts[kind]))
                self.put(following, state, (shown_part(kind),))
        for kind, after in node.parts.items():
            for another, behind in beside.parts.items():
                self.take()
                if kind != another and (are_apart or kind < another):
                    self.call((kind, another), Caller(state, (*below, after), (*under, behind)))
        for kind, behind in beside.parts.items():
            for symbol, stack in self.common(node, kind):
                following = State(parts, (*below, node.symbols[symbol]), (*under, behind, *stack))
                self.put(following, state, (symbol,))
        if not are_apart:
            return
        for kind, after in node.parts.items():
            for symbol, stack in self.common(beside, kind):
                following = State(parts, (*below, after, *stack), (*under, beside.symbols[symbol]))
                self.put(following, state, (symbol,))

    def common(self, node: Node, typecode: str) -> Iterator[tuple[str, Stack]]:
        """The symbols of a node with which a part can begin, and the ways in which it does."""
        ways = self.begun.get(typecode, {})
        if len(node.symbols) <= len(ways):
            symbols = [each for each in node.symbols if key_of(each) in ways]
        else:
            symbols = [each[1:] for each in ways if each[1:] in node.symbols and is_key(each)]
        self.take(min(len(node.symbols), len(ways)))
        for symbol in symbols:
            for _, stack in ways[key_of(symbol)]:
                yield symbol, stack

    def ways(self, typecode: str) -> dict[str, list[Begun]]:
        """How a part can begin. One of which no axiom is can only be a variable."""
        return self.begun.get(typecode) or {typecode: [(frozenset(), ())]}

    def call(self, parts: Parts, caller: Caller) -> None:
        """Both trees go on with parts, of two typecodes. Those are followed once, wherever they
        begin."""
        is_known = parts in self.callers
        self.callers.setdefault(parts, []).append(caller)
        if is_known:
            for end in self.ends[parts]:
                self.give_back(caller, end)
            return
        self.ends[parts] = []
        ways, others = self.ways(parts[0]), self.ways(parts[1])
        for first in ways if len(ways) <= len(others) else others:
            for opened, stack in ways.get(first, ()):
                for also, second in others.get(first, ()):
                    self.take()
                    if not opened & also:
                        symbol = first[1:] if is_key(first) else shown_part(first)
                        self.put(State(parts, stack, second), None, (symbol,))

    def end(self, state: State) -> None:
        """A part ends in one tree, or in both."""
        parts = state.parts
        if parts[0] != parts[1]:
            self.ends[parts].append(state)
            for caller in self.callers[parts]:
                self.give_back(caller, state)
        elif state.one or state.other:
            self.note_prefix(state)
            # The other tree may have no symbol left either.
            if (state.one or state.other)[-1].rule is not None:
                self.put(State(parts, state.one[:-1], state.other[:-1]), state, ())
        else:
            self.note_double(state)

    def give_back(self, caller: Caller, end: State) -> None:
        """Goes on behind two parts of which one is at its end."""
        following = State(caller.state.parts, (*caller.one, *end.one), (*caller.other, *end.other))
        self.put(following, caller.state, (), end)

    def note_prefix(self, state: State) -> None:
        """Notes a formula that is the beginning of a longer one of its typecode."""
        self.prefix = self.prefix or self.shown(state)

    def note_double(self, state: State) -> None:
        """Notes the beginning of a formula that has two trees."""
        self.double = self.double or self.shown(state)

    def shown(self, last: State) -> str:
        """The symbols that were read up to a state, as they stand in the database, cut where there
        are many."""
        found: list[str] = []
        left, count = [last], 0
        while left and count < MOST_PARTS:
            origin = self.seen[left.pop()]
            found += origin.symbols[::-1]
            left += [each for each in (origin.state, origin.end) if each is not None]
            count += 1
        symbols = found[::-1]
        if left or len(symbols) > SHOWN_SYMBOLS:
            symbols = [*symbols[:SHOWN_SYMBOLS], ".."]
        return " ".join(symbols[::-1] if self.turned else symbols)


def key_of(symbol: str) -> str:
    """A constant among the symbols with which parts begin; a typecode stands for a part. No symbol
    has a space."""
    return f" {symbol}"


def is_key(first: str) -> bool:
    """Whether it is a constant."""
    return first.startswith(" ")


def shown_part(typecode: str) -> str:
    """A part as it is shown among symbols."""
    return f"<{typecode}>"
