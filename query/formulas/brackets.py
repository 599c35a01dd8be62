"""Reads the parts of many formulas of a database, each formula by its brackets.

What stands in brackets is read by itself. Where it is a part, a token that says its typecode stands
in its place in what is around it. So a long formula falls into short levels, and most of these are
alike but for their variables, so that few have to be read. By an example, `|- ( ph -> ( x + A ) )`:

    ( $setvar + $class )                   # is of typecode class
    ( $wff -> $class )                     # has no tree, so neither has the formula

A symbol that is an axiom by itself, such as `(/)`, is a token of its typecode too. All this needs a
grammar of which parts are read from left to right, and each formula has one tree at the most
(`query/formulas/descent_parser.py`): a tree that is found is the only one. Where the grammar isn't
known to be such a one, and where no tree is found so, `query/formulas/grammar.py` reads the whole
formula. Brackets are guessed, and a wrong guess costs time alone.
"""

from __future__ import annotations

from collections import Counter
from collections.abc import Iterable, Mapping, Sequence
from contextlib import suppress

from query.formulas.descent_parser import OF_TYPECODE, Descent, Span
from query.formulas.grammar import Grammar, NotRead, Unbuilt
from query.formulas.syntax import PROVABLE, parts_within

MOST_TOKENS = 16
"""For each symbol of a formula so many tokens are read by brackets, before it is read as a whole.
Formulas as they are written take some two."""

Starts = Mapping[str, Mapping[int, Sequence[int]]]
"""For a typecode and the token with which parts of it begin the tokens behind these."""
NOTHING: Starts = {}


class Level:
    """What stands in brackets, or a whole formula with its typecode. `places` are those of the
    formula where its tokens begin, and at last the one behind it; `below` are the levels for which
    tokens stand, by the indices of these; `starts` are its parts."""

    __slots__ = ("tokens", "places", "below", "ends", "starts")

    def __init__(self, ends: frozenset[str] = frozenset()) -> None:
        self.tokens: list[str] = []
        self.places: list[int] = []
        self.below: dict[int, Level] = {}
        self.ends = ends
        """The symbols that end it."""
        self.starts = NOTHING

    def add(self, tokens: Sequence[str], start: int, end: int) -> None:
        """Adds the tokens from a place of the formula to another."""
        self.tokens += tokens[start:end]
        self.places += range(start, end)

    def take(self, other: Level) -> None:
        """Takes the tokens of another level, which isn't a part."""
        base = len(self.tokens)
        self.tokens += other.tokens
        self.places += other.places[: len(other.tokens)]
        for index, level in other.below.items():
            self.below[base + index] = level

    def open_below(self) -> None:
        """Puts the tokens of the levels below in their places."""
        tokens, places, below = self.tokens, self.places, self.below
        self.tokens, self.places, self.below = [], [], {}
        for index, token in enumerate(tokens):
            if index in below:
                self.take(below[index])
            else:
                self.tokens.append(token)
                self.places.append(places[index])
        self.places.append(places[-1])


class TooLong(Exception):
    """To read a formula by its brackets takes too many tokens."""


class Reader:
    """Reads formulas by a grammar. The typecodes of variables have to be declared before."""

    def __init__(self, grammar: Grammar) -> None:
        self.grammar = grammar
        self.descent = Descent.of(grammar)
        self.typecodes = list(dict.fromkeys(grammar.typecodes.values()))
        self.variables: dict[str, str] = {}
        self.tokens = {
            symbol: OF_TYPECODE + kind for symbol, kind in single_symbols(grammar).items()
        }
        """Those of variables, and of symbols that are parts by themselves."""
        self.brackets, self.heads = brackets_of(grammar)
        self.ends = frozenset[str]().union(*self.brackets.values())
        self.marks = self.ends.union(self.brackets)
        self.edges = self.marks.union(head for head, _ in self.heads)
        """The symbols with which levels begin and end."""
        self.known: dict[tuple[str, ...], tuple[str, Starts] | None] = {}
        """What tokens are. Before those of a whole formula stands ""."""
        self.left = 0
        """So many tokens may be read of this formula yet."""

    def declare(self, variable: str, typecode: str) -> None:
        """Says of which typecode a variable is from now on."""
        self.variables[variable] = typecode
        self.tokens[variable] = OF_TYPECODE + typecode

    def level(self, symbols: Sequence[str]) -> tuple[Level, bool]:
        """A formula, whose first symbol is a typecode, with its parts, and whether it has a tree.
        Where it has none, only variables are parts."""
        found = None
        if self.descent is not None:
            with suppress(TooLong):
                found = self.by_brackets(symbols)
        return self.as_whole(symbols) if found is None else (found, True)

    def by_brackets(self, symbols: Sequence[str]) -> Level | None:
        """A formula that is read by its brackets; None where it isn't read so."""
        self.left = MOST_TOKENS * len(symbols)
        names = self.tokens
        tokens = [names.get(symbol, symbol) for symbol in symbols]
        level, above, start = Level(), list[Level](), 0
        for place in [index for index, symbol in enumerate(symbols) if symbol in self.marks]:
            if symbols[place] in self.brackets:
                level.add(tokens, start, place)
                above.append(level)
                level = self.begun(level, symbols[place])
                start = place
            elif symbols[place] in level.ends:
                level.add(tokens, start, place + 1)
                level.places.append(place + 1)
                level = self.closed(level, above.pop())
                start = place + 1
        level.add(tokens, start, len(symbols))
        while above:
            above[-1].take(level)
            level = above.pop()
        level.places.append(len(symbols))
        return None if self.read(level, symbols[0]) is None else level

    def begun(self, above: Level, symbol: str) -> Level:
        """A level that begins with a bracket, and with the symbol before it where these two begin
        an axiom."""
        level = Level(self.brackets[symbol])
        if above.tokens and (above.tokens[-1], symbol) in self.heads:
            level.tokens.append(above.tokens.pop())
            level.places.append(above.places.pop())
        return level

    def closed(self, level: Level, above: Level) -> Level:
        """What is around a level that ends, with a token for it where it is a part."""
        typecode = self.read(level, None)
        if typecode is None:
            above.take(level)
            return above
        above.below[len(above.tokens)] = level
        above.tokens.append(OF_TYPECODE + typecode)
        above.places.append(level.places[0])
        return above

    def read(self, level: Level, whole: str | None) -> str | None:
        """The typecode of a level; None where it isn't a part. Where tokens for levels below make
        it none, these levels are opened. `whole` is the first symbol of a whole formula."""
        while True:
            self.left -= len(level.tokens)
            if self.left < 0:
                raise TooLong
            key = tuple(level.tokens) if whole is None else ("", *level.tokens)
            if key not in self.known:
                self.known[key] = self.found(level.tokens, whole)
            found = self.known[key]
            if found is not None:
                level.starts = found[1]
                return found[0]
            if not level.below:
                return None
            level.open_below()

    def found(self, tokens: Sequence[str], whole: str | None) -> tuple[str, Starts] | None:
        """What tokens are. `whole` is the first symbol of a whole formula, which is no part."""
        assert self.descent is not None
        first = 0 if whole is None else 1
        for typecode in [whole] if whole in self.typecodes else self.typecodes:
            spans = self.descent.parts(typecode, tokens[first:])
            if spans is not None:
                moved = [(kind, start + first, end + first) for kind, start, end in spans]
                return typecode, starts_of(tokens, moved)
        return None

    def as_whole(self, symbols: Sequence[str]) -> tuple[Level, bool]:
        """A formula that is read without regard to brackets, and whether it has a tree."""
        level = Level()
        level.tokens += [self.tokens.get(symbol, symbol) for symbol in symbols]
        level.places += range(len(symbols) + 1)
        kinds = self.variables
        leaves = [OF_TYPECODE + kinds[each] if each in kinds else each for each in symbols]
        for typecode in [symbols[0]] if symbols[0] in self.typecodes else self.typecodes:
            try:
                tree = self.grammar.tree(typecode, symbols[1:], kinds)
            except Unbuilt:
                continue
            except NotRead:
                break
            parts = parts_within(tree, tree.root)
            spans = [(part.typecode, part.start + 1, part.end + 1) for part in parts]
            level.starts = starts_of(leaves, spans)
            if symbols[0] == PROVABLE and typecode != self.typecodes[0]:
                self.typecodes.remove(typecode)  # the next formula is likely of this one, too
                self.typecodes.insert(0, typecode)
            return level, True
        level.starts = starts_of(leaves, ())
        return level, False


def starts_of(tokens: Sequence[str], spans: Iterable[Span]) -> Starts:
    """Parts by where they begin: these, and those that tokens stand for."""
    found: dict[str, dict[int, list[int]]] = {}
    for index, token in enumerate(tokens):
        if token.startswith(OF_TYPECODE):
            found.setdefault(token[1:], {})[index] = [index + 1]
    for typecode, start, end in spans:
        found.setdefault(typecode, {}).setdefault(start, []).append(end)
    return found


def single_symbols(grammar: Grammar) -> dict[str, str]:
    """The typecodes of the symbols that are axioms by themselves, and stand in no longer one."""
    longer = {symbol for shape in grammar.shapes.values() if len(shape) > 1 for symbol in shape}
    kinds: dict[str, set[str]] = {}
    for label, shape in grammar.shapes.items():
        if len(shape) == 1 and not grammar.arguments[label]:
            kinds.setdefault(shape[0], set()).add(grammar.typecodes[label])
    single = {symbol: each for symbol, each in kinds.items() if len(each) == 1}
    return {symbol: min(each) for symbol, each in single.items() if symbol not in longer}


def brackets_of(grammar: Grammar) -> tuple[dict[str, frozenset[str]], set[tuple[str, str]]]:
    """For each bracket those that close it. These are constants with which an axiom begins and
    ends; of several that begin with one end the bracket is the one of the most axioms. And which
    symbols begin an axiom before such a bracket, whose other bracket is its end."""
    shapes = [shape for shape in grammar.shapes.values() if len(shape) > 1]
    kinds = {*grammar.typecodes.values()}.union(*grammar.arguments.values())
    pairs = Counter((shape[-1], shape[0]) for shape in shapes if not {shape[0], shape[-1]} & kinds)
    opening = {last: first for (last, first), _ in reversed(pairs.most_common())}
    ends: dict[str, set[str]] = {}
    for last, first in opening.items():
        if first not in opening:
            ends.setdefault(first, set()).add(last)
    brackets = {symbol: frozenset(each) for symbol, each in ends.items()}
    heads = {
        (shape[0], shape[1])
        for shape in shapes
        if shape[0] not in kinds | brackets.keys() and shape[-1] in brackets.get(shape[1], ())
    }
    return brackets, heads
