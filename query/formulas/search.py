"""Which statements have a formula, or a part of one, as it is typed.

A pattern is a list of symbols, which need not be a whole formula: `A ~~ B ->`. A constant stands
for itself, and a variable for any part of a formula that has its typecode, the same one wherever it
stands. In double quotes a variable stands for itself too. What parts a formula has is read by the
syntax axioms; of one that can't be read only variables are parts.
"""

from __future__ import annotations

import re
from collections import Counter
from collections.abc import Iterable, Iterator, Mapping, Sequence
from dataclasses import dataclass, replace
from functools import cached_property
from itertools import groupby, islice, takewhile
from typing import NamedTuple

from query.answers.errors import NoAnswer, nearest, shown
from query.formulas.bracketed import CLOSING, OPENING
from query.formulas.brackets import Level, Reader
from query.formulas.descent_parser import OF_TYPECODE
from query.formulas.syntax import syntax_of
from query.platform import progress
from query.texts.assertions import Assertion
from query.texts.floating import floating_of
from query.texts.text import Text

ARROW = "->"
QUOTED = re.compile(r'\s*"\s*([^"]*?)\s*"\s*')
MOST_TRIED, MOST_OF_SYMBOL = 100_000, 100
"""So many symbols of patterns, and so many for each symbol of a formula, are compared with it."""
MOST_AGREED = 10_000
"""In so many ways in which formulas have patterns it is looked whether they agree."""


class Step(NamedTuple):
    """A symbol of a pattern: a constant, or a variable of a typecode. `is_bound` is whether it is a
    variable that stands in the pattern more than once, or in another pattern too."""

    symbol: str
    typecode: str | None
    is_bound: bool


@dataclass(frozen=True)
class Pattern:
    """What is looked for: symbols, of which those in `kinds` stand for parts of these typecodes.
    Other patterns have those that are `shared` too."""

    symbols: tuple[str, ...]
    kinds: Mapping[str, str]
    shared: frozenset[str] = frozenset()

    @cached_property
    def runs(self) -> list[str]:
        """The stretches of constants, in order, each between spaces."""
        groups = groupby(self.symbols, lambda symbol: symbol in self.kinds)
        return [f" {' '.join(symbols)} " for is_variable, symbols in groups if not is_variable]

    @cached_property
    def steps(self) -> list[Step]:
        """Its symbols, one for each step of comparing it."""
        counts, kinds = Counter(self.symbols), self.kinds
        bound = {each for each in kinds if counts[each] > 1 or each in self.shared}
        return [Step(symbol, kinds.get(symbol), symbol in bound) for symbol in self.symbols]

    def near(self, reader: Reader) -> list[str]:
        """The tokens that a level has in which the pattern begins: those of its constants up to
        the first with which it may go on in another level."""
        first, *others = self.symbols
        others = [each for each in others if each not in self.kinds]
        if first in reader.ends:
            others = []
        constants = [first] if first not in self.kinds else []
        constants += takewhile(lambda symbol: symbol not in reader.edges, others)
        return [reader.tokens.get(each, each) for each in dict.fromkeys(constants)]


def sharing(patterns: Sequence[Pattern]) -> list[Pattern]:
    """The same patterns, of which each knows the variables that others have too."""
    counts = Counter(variable for each in patterns for variable in each.kinds)
    return [
        replace(each, shared=frozenset(name for name in each.kinds if counts[name] > 1))
        for each in patterns
    ]


def may_have(text: str, runs: Sequence[str]) -> bool:
    """Whether a text between spaces has these stretches one behind the other."""
    place = 0
    for run in runs:
        place = text.find(run, place)
        if place < 0:
            return False
        place += len(run) - 1
    return True


def pattern_of(text: Text, name: str, word: str) -> Pattern:
    """The pattern that a word is. NoAnswer where it has a symbol that the database hasn't."""
    quoted = QUOTED.fullmatch(word)
    symbols = tuple((word if quoted is None else quoted[1]).split())
    if not symbols:
        raise NoAnswer("a PATTERN wants at least one symbol")
    kinds = {}
    for symbol in dict.fromkeys(symbols):
        typecode = typecode_of_symbol(text, name, symbol)
        if typecode is not None:
            kinds[symbol] = typecode
    return Pattern(symbols, {} if quoted else kinds)


def without_typecode(text: Text, pattern: Pattern) -> Pattern | None:
    """A pattern without the typecode with which it begins; None where it begins with none, or has
    nothing else."""
    first, *others = pattern.symbols
    if not others or not any(one.typecode == first for one in text.assertions):
        return None
    return replace(pattern, symbols=tuple(others))


def conclusions(symbols: Sequence[str]) -> dict[int, int]:
    """Where the conclusions of a formula begin, and for each the place behind it: all that stands
    behind the typecode, and of a conclusion `( X -> Y )` also Y."""
    closing: dict[int, int] = {}
    opened: list[int] = []
    for place, symbol in enumerate(symbols):
        if symbol == OPENING:
            opened.append(place)
        elif symbol == CLOSING and opened:
            closing[opened.pop()] = place
    start, end = 1, len(symbols)
    found = {start: end}
    while closing.get(start) == end - 1:
        end -= 1
        arrows, place = [], start + 1
        while place < end:
            arrows += [place] if symbols[place] == ARROW else []
            place = closing.get(place, place) + 1
        if len(arrows) != 1:
            break
        start = arrows[0] + 1
        found[start] = end
    return found


def typecode_of_symbol(text: Text, name: str, symbol: str) -> str | None:
    """The typecode of a symbol that is a variable, None for a constant. NoAnswer where no statement
    has it."""
    between = f" {symbol} "
    for one in text.assertions:
        if between in f"{one.said} ":
            given = one.frame().hypotheses()
            floating = dict(each.formula.split(" ")[::-1] for each in given if each.kind == "f")
            if symbol in floating:
                return floating[symbol]
            formulas = [one.formula, *(each.formula for each in given if each.kind == "e")]
            if any(between in f" {formula} " for formula in formulas):
                return None
    for typecode, variable in floating_of(text.data).values():
        if variable == symbol:
            return typecode
    if text.find(symbol) is not None:
        raise NoAnswer(f"{name}: '{shown(symbol)}' is a label, and a PATTERN has symbols")
    known = {each for one in text.assertions for each in one.formula.split(" ")}
    meant = nearest(symbol, known) or "; formulas are searched, and not comments"
    raise NoAnswer(f"{name}: no statement has the symbol '{shown(symbol)}'{meant}")


@dataclass(frozen=True)
class Hit:
    """A formula that has a pattern: that of a statement, or of its `$e` of this label."""

    one: Assertion
    given: str | None
    formula: str


class TooMany(Exception):
    """There are too many ways to put parts in place of variables."""


Way = dict[str, str]
"""What stands in place of the variables of a pattern that other patterns have too."""


class Ways(NamedTuple):
    """What is known of a formula: the ways in which it has a pattern, whether it has a tree or
    needs none, and whether it takes too long to say."""

    found: Sequence[Way]
    is_read: bool = True
    is_too_long: bool = False


class Sought:
    """A pattern, and what is known of formulas that were looked at. In a database that was verified
    a variable has one typecode wherever it stands, so that equal formulas are the same. Where it
    `is_conclusion`, a formula has it only as one of its conclusions."""

    def __init__(self, pattern: Pattern, reader: Reader, is_conclusion: bool = False) -> None:
        self.pattern = pattern
        self.reader = reader
        self.is_conclusion = is_conclusion
        self.near = pattern.near(reader) if pattern.kinds else []
        self.known: dict[str, Ways] = {}

    def ways(self, formula: str) -> Ways:
        """The ways in which a formula has it."""
        known = self.known.get(formula)
        if known is None:
            known = self.known[formula] = self._ways(formula)
        return known

    def _ways(self, formula: str) -> Ways:
        if not may_have(f" {formula} ", self.pattern.runs):
            return Ways(())
        if not self.pattern.kinds and not self.is_conclusion:
            return Ways([{}])
        symbols = formula.split(" ")
        level, is_read = self.reader.level(symbols)
        is_read = is_read or not self.pattern.kinds
        match = Match(symbols, level, conclusions(symbols) if self.is_conclusion else None)
        try:
            return Ways(match.ways(self.pattern, self.near), is_read)
        except TooMany:
            return Ways((), is_read, True)


Wanted = Sequence[tuple[Sought, Sequence[str]]]
"""For each pattern the formulas of which one has to have it."""


class Searcher:
    """Finds patterns in the formulas of some statements of a database, which has `every` one; in
    those of their `$e` too where it `takes_hypotheses`, and only as conclusions where it
    `takes_conclusions`."""

    def __init__(
        self,
        assertions: Sequence[Assertion],
        every: Sequence[Assertion],
        takes_hypotheses: bool = True,
        takes_conclusions: bool = False,
    ) -> None:
        self.assertions = assertions
        self.takes_hypotheses = takes_hypotheses
        self.takes_conclusions = takes_conclusions
        self.reader = Reader(syntax_of(every))
        self.unread: dict[tuple[str, str], None] = {}
        """The formulas that have no tree, each with the label of its statement."""
        self.given_up: dict[tuple[str, str], None] = {}
        """Those of which it takes too long to say whether they have a pattern."""
        self._declared: set[str] = set()
        """The `$f` whose variables are declared."""

    def hits(
        self,
        patterns: Sequence[Pattern],
        given: Sequence[Pattern] = (),
        lacked: Sequence[Pattern] = (),
    ) -> Iterator[Hit]:
        """The formulas that have all patterns, in file order, a statement before its `$e`; only of
        statements that have a `$e` with each of those in `given`, and without those that would be
        found with one of `lacked` in `given` too."""
        every = sharing([*patterns, *given, *lacked])
        left = iter(every)
        as_what = self.takes_conclusions
        own = [Sought(each, self.reader, as_what) for each in islice(left, len(patterns))]
        conditions = [Sought(each, self.reader) for each in islice(left, len(given))]
        lacking = [Sought(each, self.reader) for each in left]
        for one in progress.counted(self.assertions, "searching"):
            if not all(may_have(f"{one.said} ", each.pattern.runs) for each in own + conditions):
                continue
            formulas = self.formulas_of(one)
            others = [formula for _, formula in formulas[1:]]
            for label, formula in formulas if self.takes_hypotheses else formulas[:1]:
                if not all(may_have(f" {formula} ", each.pattern.runs) for each in own):
                    continue
                wanted: Wanted = [
                    *((each, others) for each in conditions),
                    *((each, [formula]) for each in own),
                ]
                try:
                    if self.holds(one, wanted) and not any(
                        self.holds(one, [(each, others), *wanted]) for each in lacking
                    ):
                        yield Hit(one, label, formula)
                except TooMany:
                    self.given_up[one.label, formula] = None

    def holds(self, one: Assertion, wanted: Wanted) -> bool:
        """Whether the formulas of a statement agree. TooMany where that takes too long to say."""
        return Agreement(self, one.label).holds(wanted, {})

    def note(self, label: str, formula: str, ways: Ways) -> None:
        """Notes what isn't known of a formula."""
        if not ways.is_read:
            self.unread[label, formula] = None
        if ways.is_too_long:
            self.given_up[label, formula] = None

    def formulas_of(self, one: Assertion) -> list[tuple[str | None, str]]:
        """The formula of a statement, and those of its `$e` by their labels. Declares its
        variables."""
        found: list[tuple[str | None, str]] = [(None, one.formula)]
        for part in one.frame().given.split(" $")[1:]:
            if part.startswith("e "):
                _, label, formula = part.split(" ", 2)
                found.append((label, formula))
            elif part not in self._declared:
                _, _, typecode, variable = part.split(" ")
                self.reader.declare(variable, typecode)
                self._declared.add(part)
        return found


class Agreement:
    """Whether the formulas of a statement have several patterns, with the same in place of each
    variable."""

    def __init__(self, searcher: Searcher, label: str) -> None:
        self.searcher = searcher
        self.label = label
        self.left = MOST_AGREED

    def holds(self, wanted: Wanted, bound: Way) -> bool:
        """Whether they have these, with what is bound. TooMany where that takes too long to say."""
        if not wanted:
            return True
        sought, formulas = wanted[0]
        for formula in formulas:
            ways = sought.ways(formula)
            self.searcher.note(self.label, formula, ways)
            for way in ways.found:
                self.left -= 1
                if self.left < 0:
                    raise TooMany
                agrees = all(bound.get(variable, part) == part for variable, part in way.items())
                if agrees and self.holds(wanted[1:], {**bound, **way}):
                    return True
        return False


Above = tuple[Level, int, "Above"] | None
"""The token that stands for a level in the one above it: that one, its index, and what is above."""
Bound = dict[str, tuple[int, int]]
"""The part that stands in place of a variable, from its first symbol to the one behind it, of those
that a pattern has more than once, or shares."""
State = tuple[int, Level, int, Above, Bound]
"""How far a pattern was compared: the number of the next step, the level and the index of the next
token, what is above, and what is bound."""
NONE: Mapping[int, Sequence[int]] = {}


class Match:
    """Looks for patterns in one formula. With `ends` a pattern begins at one of these places, and
    ends before the one that this has."""

    def __init__(
        self, symbols: Sequence[str], whole: Level, ends: Mapping[int, int] | None = None
    ) -> None:
        self.symbols = symbols
        self.whole = whole
        self.ends = ends
        self.left = MOST_TRIED + MOST_OF_SYMBOL * len(symbols)

    def ways(self, pattern: Pattern, near: Sequence[str]) -> list[Way]:
        """The ways in which the formula has a pattern somewhere, which begins in a level that has
        these tokens; of a pattern that shares no variable one of them."""
        found: dict[tuple[str, ...], Way] = {}
        for bound in self.places(pattern, near):
            parts = {name: self.symbols[slice(*bound[name])] for name in pattern.shared}
            self.left -= sum(map(len, parts.values()))
            if self.left < 0:
                raise TooMany
            way = {name: " ".join(part) for name, part in parts.items()}
            found[tuple(way.values())] = way
            if not way:
                break
        return [*found.values()]

    def places(self, pattern: Pattern, near: Sequence[str]) -> Iterator[Bound]:
        """What is bound at each place where the formula has a pattern."""
        left: list[tuple[Level, Above]] = [(self.whole, None)]
        while left:
            level, above = left.pop()
            is_near = all(map(level.tokens.__contains__, near))
            for index in self.starts(level, above, pattern.steps[0], is_near):
                if self.ends is None or level.places[index] in self.ends:
                    yield from self.at(pattern.steps, (0, level, index, above, {}))
            for index, below in level.below.items():
                left.append((below, (level, index, above)))

    def starts(self, level: Level, above: Above, first: Step, is_near: bool) -> Iterable[int]:
        """The tokens of a level at which a pattern with this first step may begin."""
        symbol, typecode, _ = first
        if typecode is None:
            places = enumerate(level.places[:-1] if is_near else ())
            return [index for index, place in places if self.symbols[place] == symbol]
        starts = level.starts.get(typecode, NONE)
        if above is None or 0 not in starts:
            return starts if is_near else ()
        # The level itself begins here, and what comes behind it is in the one above. That has a
        # token for it, unless the level is of several typecodes.
        is_above = above[0].tokens[above[1]] == OF_TYPECODE + typecode
        return [index for index in starts if (is_near if index else not is_above)]

    def at(self, steps: Sequence[Step], state: State) -> Iterator[Bound]:
        """What is bound in each way in which a pattern is at a token."""
        left = [state]
        _, level, index, _, _ = state
        wanted = None if self.ends is None else self.ends[level.places[index]]
        while left:
            state = left.pop()
            first, level, index, above, bound = state
            number = first
            for number in range(first, len(steps)):
                symbol, typecode, is_bound = steps[number]
                while index == len(level.tokens) and above is not None:
                    level, index, above = above
                    index += 1
                while index in level.below:
                    level, index, above = level.below[index], 0, (level, index, above)
                if typecode is None:
                    places = level.places
                    if index == len(level.tokens) or self.symbols[places[index]] != symbol:
                        break
                    index += 1
                    continue
                ends = level.starts.get(typecode, NONE).get(index, ())
                while not ends and index == 0 and above is not None:
                    level, index, above = above
                    ends = level.starts.get(typecode, NONE).get(index, ())
                if len(ends) != 1:
                    left += self.branches(steps[number], (number, level, index, above, bound), ends)
                    break
                end = ends[0]
                if is_bound and not self.binds(bound, symbol, level, index, end):
                    break
                index = end
            else:
                if wanted in (None, level.places[index]):
                    yield bound
            self.left -= number - first + 1
            if self.left < 0:
                raise TooMany

    def branches(self, step: Step, state: State, ends: Sequence[int]) -> Iterator[State]:
        """What may follow where a variable stands for one of several parts, or for none."""
        number, level, index, above, bound = state
        for end in ends:
            self.left -= len(bound)
            own = {**bound}
            if not step.is_bound or self.binds(own, step.symbol, level, index, end):
                yield number + 1, level, end, above, own

    def binds(self, bound: Bound, variable: str, level: Level, index: int, end: int) -> bool:
        """Binds a variable to a part, where it isn't bound to another one."""
        start, behind = level.places[index], level.places[end]
        first, last = bound.setdefault(variable, (start, behind))
        if start == first or behind - start != last - first:
            return behind == last
        return self.symbols[start:behind] == self.symbols[first:last]
