"""Which statements, added to a database without one of its axioms, give this axiom back.

A *link* is an assertion that doesn't rest on the axiom and leads from one statement to another:
`( S -> F )`, `( S <-> F )` either way, or `|- F` from the hypothesis `|- S`. A chain of links leads
from a statement to the axiom, and one from the axiom to the statement; or a theorem states it. All
statements are the same that differ in the names of variables, or by what a database both adds and
takes away, as `A. x` in front.

What a link asks of distinct variables counts: it may ask no more of two variables of the axiom than
the axiom does. Other variables get names of their own.
"""

from __future__ import annotations

from collections import deque
from collections.abc import Iterable, Iterator, Mapping, Sequence
from dataclasses import dataclass

from query.answers.errors import NoAnswer
from query.formulas.grammar import NotRead, Part, Tree
from query.formulas.syntax import PROVABLE, WFF, read_as, syntax_of
from query.platform import progress
from query.texts.assertions import Assertion

Pairs = frozenset[frozenset[int]]
"""Pairs of variables that are distinct, by their numbers in a statement."""
MOST_WAYS = 8
"""So many ways from the axiom to a statement are kept."""
VARIABLE = "\0"
"""Stands between the typecode and the number of a variable in a key; no symbol has it."""


@dataclass(frozen=True)
class Side:
    """A statement as a part of an assertion. `key` is the same of statements that are the same;
    `names` are its variables, by their numbers; `formula` is all of it."""

    key: str
    names: tuple[str, ...]
    formula: str


@dataclass(frozen=True)
class Link:
    """An assertion that leads from `start` to `end`; `rule` is the one that detaches the end, None
    where the assertion itself is a rule."""

    label: str
    rule: str | None
    start: Side
    end: Side
    pairs: frozenset[frozenset[str]]

    @property
    def is_of_all(self) -> bool:
        """Whether it begins or ends with a variable alone, so that it is about all statements."""
        keys = (self.start.key, self.end.key)
        return any(VARIABLE in key and " " not in key for key in keys)


@dataclass(frozen=True)
class Way:
    """How a statement follows: by which assertions, and which of its variables have to be distinct
    then. `stated` is the assertion that is the statement, None where links lead to it."""

    labels: tuple[str, ...]
    pairs: Pairs
    stated: Assertion | None = None


@dataclass(frozen=True)
class Found:
    """A statement that gives the axiom back by the links `by` and `rules`. `way` is how the axiom
    gives it, None where that isn't known. `stated` is the assertion that is the statement, None
    where there is none. `is_proved` is whether that one rests on nothing that is given up."""

    formula: str
    by: tuple[str, ...]
    rules: frozenset[str]
    way: Way | None
    stated: Assertion | None
    is_proved: bool

    @property
    def rank(self) -> tuple[bool, bool]:
        """The greater, the more is known of it."""
        return self.is_proved, self.way is not None


class Logic:
    """What a database can do with statements. `detaching` has for each form the rules by which the
    one of its parts follows from the other: 0 or 1, which follows, with the label. `opened` has for
    each form that may be put before a statement and taken away the part that is left, and both
    rules."""

    def __init__(self, assertions: Sequence[Assertion]) -> None:
        self.grammar = syntax_of(assertions)
        self.detaching: dict[str, dict[int, str]] = {}
        self.opened: dict[str, tuple[int, frozenset[str]]] = {}
        closing: dict[tuple[str, int], str] = {}
        opening: dict[tuple[str, int], str] = {}
        for one in assertions:
            if one.typecode != PROVABLE:
                continue
            frame = one.frame()
            given = [each.formula for each in frame.essential()]
            if 0 < len(given) < 3 and not frame.disjoint:
                self.note(one, given, closing, opening)
        for key in closing.keys() & opening.keys():
            self.opened[key[0]] = (key[1], frozenset((closing[key], opening[key])))

    def note(
        self,
        one: Assertion,
        given: Sequence[str],
        closing: dict[tuple[str, int], str],
        opening: dict[tuple[str, int], str],
    ) -> None:
        """Notes a rule that detaches, or puts something before a statement, or takes it away."""
        symbols, kinds = read_as(one)
        formulas = [formula.split(" ")[1:] for formula in given]
        single = [each[0] for each in formulas if len(each) == 1 and each[0] in kinds]
        others = [each for each in formulas if len(each) > 1]
        is_single = len(symbols) == 1 and symbols[0] in kinds
        if is_single and len(single) == len(others) == 1:
            self.note_detaching(one, single[0], others[0], kinds)
        elif is_single and not single and len(others) == 1:
            self.note_put(one, others[0], symbols[0], kinds, opening)
        elif not is_single and len(single) == 1 and not others:
            self.note_put(one, symbols, single[0], kinds, closing)

    def note_detaching(
        self, one: Assertion, minor: str, major: Sequence[str], kinds: Mapping[str, str]
    ) -> None:
        """Notes a rule that says a variable by another one and a form of both."""
        tree = self.read(major, kinds)
        parts = tree.below[tree.root] if tree is not None and tree.rules else []
        names = [major[part.start] for part in parts if part.end == part.start + 1]
        said = one.formula.split(" ")[1]
        if tree is not None and len(parts) == 2 and minor != said and {*names} == {minor, said}:
            followed = self.detaching.setdefault(tree.rules[tree.root], {})
            followed.setdefault(names.index(said), one.label)

    def note_put(
        self,
        one: Assertion,
        symbols: Sequence[str],
        name: str,
        kinds: Mapping[str, str],
        found: dict[tuple[str, int], str],
    ) -> None:
        """Notes a rule between a variable and a form of it and of other variables."""
        tree = self.read(symbols, kinds)
        if tree is None or not tree.rules:
            return
        parts = tree.below[tree.root]
        names = [symbols[part.start] for part in parts if part.end == part.start + 1]
        if len(names) == len(parts) == len({*names}) and name in names:
            others = [kinds.get(each, WFF) for each in names if each != name]
            if kinds[name] == WFF and WFF not in others:
                found.setdefault((tree.rules[tree.root], names.index(name)), one.label)

    def read(self, symbols: Sequence[str], kinds: Mapping[str, str]) -> Tree | None:
        """The tree of a formula; None where it can't be read."""
        try:
            return self.grammar.tree(WFF, symbols, kinds)
        except NotRead:
            return None

    def side(
        self, symbols: Sequence[str], kinds: Mapping[str, str], tree: Tree, part: Part
    ) -> Side:
        """A part of a formula as a statement."""
        whole = " ".join(symbols[part.start : part.end])
        while tree.rules.get(part) in self.opened:
            part = tree.below[part][self.opened[tree.rules[part]][0]]
        numbers: dict[str, int] = {}
        words = []
        for symbol in symbols[part.start : part.end]:
            kind = kinds.get(symbol)
            if kind is None:
                words.append(symbol)
            else:
                words.append(f"{kind}{VARIABLE}{numbers.setdefault(symbol, len(numbers))}")
        return Side(" ".join(words), tuple(numbers), whole)

    def rules_of(self, links: Iterable[Link]) -> frozenset[str]:
        """The rules that links need besides, and those by which statements are the same."""
        found = {link.rule for link in links if link.rule is not None}
        return frozenset(found).union(*(rules for _, rules in self.opened.values()))


@dataclass
class Shaped:
    """An assertion with at most one `$e`. `shape` are its formulas with typecodes in place of
    variables; `links` and `side` are the links that it is and the statement, once they were
    asked for."""

    one: Assertion
    given: str | None
    shape: str
    links: list[Link] | None = None
    side: Side | None = None


class Links:
    """The links of a database that don't rest on an axiom: `free` is whether an assertion, by its
    number, doesn't."""

    def __init__(self, assertions: Sequence[Assertion], free: Sequence[bool]) -> None:
        self.free = free
        self.logic = Logic([one for one in assertions if free[one.number]])
        self.all: list[Shaped] = []
        self.by_symbol: dict[str, list[Shaped]] = {}
        for one in assertions:
            if one.typecode == PROVABLE and not one.is_open:
                given = [each.formula for each in one.frame().essential()]
                if len(given) < 2:
                    self.add(one, given)

    def add(self, one: Assertion, given: Sequence[str]) -> None:
        """Adds an assertion with at most one `$e`."""
        _, kinds = read_as(one)
        words = " ; ".join((*given, one.formula)).split(" ")
        shape = f" {' '.join(kinds.get(word, word) for word in words)} "
        shaped = Shaped(one, given[0] if given else None, shape)
        self.all.append(shaped)
        for word in {*words} - kinds.keys():
            self.by_symbol.setdefault(word, []).append(shaped)

    def having(self, key: str) -> Iterator[Shaped]:
        """The assertions of which this statement may be a part."""
        words = key.split(" ")
        constants = [word for word in words if VARIABLE not in word]
        lists = [self.by_symbol.get(word, []) for word in constants]
        wanted = f" {' '.join(word.partition(VARIABLE)[0] for word in words)} "
        return (each for each in min(lists, key=len, default=self.all) if wanted in each.shape)

    def statement(self, shaped: Shaped) -> Side | None:
        """An assertion without `$e` as a statement; None where it can't be read."""
        if shaped.side is None:
            symbols, kinds = read_as(shaped.one)
            tree = self.logic.read(symbols, kinds)
            if tree is not None:
                shaped.side = self.logic.side(symbols, kinds, tree, tree.root)
        return shaped.side

    def stating(self, key: str) -> Iterator[tuple[Assertion, Side]]:
        """The assertions that are this statement."""
        for each in self.having(key):
            side = self.statement(each) if each.given is None else None
            if side is not None and side.key == key:
                yield each.one, side

    def at(self, key: str) -> Iterator[Link]:
        """The links that begin or end at a statement."""
        for each in self.having(key):
            if not self.free[each.one.number]:
                continue
            if each.links is None:
                each.links = [link for link in self.links_of(each) if not link.is_of_all]
            yield from (link for link in each.links if key in (link.start.key, link.end.key))

    def links_of(self, each: Shaped) -> Iterator[Link]:
        """The links that an assertion is."""
        logic, label = self.logic, each.one.label
        symbols, kinds = read_as(each.one)
        tree = logic.read(symbols, kinds)
        if tree is None:
            return
        pairs = frozenset(frozenset(pair) for pair in each.one.frame().pairs())
        if each.given is not None:
            given = each.given.split(" ")[1:]
            below = logic.read(given, kinds)
            if below is not None:
                start = logic.side(given, kinds, below, below.root)
                end = logic.side(symbols, kinds, tree, tree.root)
                yield Link(label, None, start, end, pairs)
            return
        for followed, rule in logic.detaching.get(tree.rules.get(tree.root, ""), {}).items():
            sides = [logic.side(symbols, kinds, tree, part) for part in tree.below[tree.root]]
            yield Link(label, rule, sides[1 - followed], sides[followed], pairs)


def numbered(pairs: Iterable[Iterable[str]], side: Side) -> Pairs:
    """Those of these pairs whose variables are both in a statement, by their numbers there."""
    numbers = {name: number for number, name in enumerate(side.names)}
    return frozenset(
        frozenset(numbers[name] for name in pair) for pair in pairs if numbers.keys() >= {*pair}
    )


class Search:
    """What leads from the axiom to statements, and from these back to it. `given_up` is whether an
    assertion, by its number, rests on an axiom that is given up besides. By what such an assertion
    states the axiom isn't seen to give it."""

    def __init__(self, links: Links, axiom: Assertion, given_up: Sequence[bool]) -> None:
        self.links = links
        self.axiom = axiom
        self.given_up = given_up
        side = next((links.statement(each) for each in links.all if each.one is axiom), None)
        if side is None:
            has_given = axiom.frame().essential()
            why = "has a $e" if has_given else "isn't read by the syntax axioms"
            raise NoAnswer(f"{axiom.label} {why}")
        self.start = side
        self.pairs = numbered(axiom.frame().pairs(), side)
        self.ways: dict[str, list[Way]] = {side.key: [Way((), self.pairs)]}
        """For each statement that follows from the axiom how it does."""
        self.lost: dict[str, list[Way]] = {}
        """For each statement the assertions that state it and rest on what is given up besides."""
        self.into: dict[str, list[Link]] = {}
        """For each of these statements the links that end there."""
        self.followed: set[str] = set()
        """Of which statements what follows from them was noted."""
        self.looked_up: set[str] = set()
        self.look_up(side.key)
        self.explore()

    def explore(self) -> None:
        """Finds the statements that follow from the axiom, and what leads to them."""
        left = deque([self.start.key])
        while left:
            key = left.popleft()
            is_new, follows = key not in self.into, self.is_to_follow(key)
            if not is_new and not follows:
                continue
            progress.now(f"{len(self.into)} statements that follow are looked at")
            into = self.into.setdefault(key, [])
            self.followed.update([key] if follows else [])
            for link in self.links.at(key):
                if link.end.key == key and is_new:
                    into.append(link)
                    self.look_up(link.start.key)
                if link.start.key == key and follows:
                    self.follow(link)
                left += (side.key for side in (link.start, link.end) if self.is_left(side.key))

    def is_to_follow(self, key: str) -> bool:
        """Whether a statement follows from the axiom, and what follows from it isn't noted yet."""
        return key in self.ways and key not in self.followed

    def is_left(self, key: str) -> bool:
        """Whether a statement has still to be looked at."""
        return self.is_to_follow(key) or (key in self.lost and key not in self.into)

    def look_up(self, key: str) -> None:
        """Notes the assertions that are a statement."""
        if key in self.looked_up:
            return
        self.looked_up.add(key)
        for one, side in self.links.stating(key):
            if one is not self.axiom:
                way = Way((one.label,), numbered(one.frame().pairs(), side), one)
                ways = self.lost if self.given_up[one.number] else self.ways
                ways.setdefault(key, []).append(way)

    def follow(self, link: Link) -> None:
        """Notes that the end of a link follows, since its start does: by the way to this that asks
        for the fewest distinct variables, of several the first one."""
        ways = self.ways.setdefault(link.end.key, [])
        before = min(self.ways[link.start.key], key=lambda way: len(way.pairs))
        if len(ways) < MOST_WAYS and link.end.key != self.start.key:
            names = link.start.names
            asked = {frozenset(names[number] for number in pair) for pair in before.pairs}
            pairs = numbered(link.pairs | asked, link.end)
            ways.append(Way((*before.labels, link.label), pairs))

    def found(self) -> Iterator[Found]:
        """The statements that give the axiom back, those by the fewest links first. Of several ways
        to give it back the first one by which the statement is proved; where it is by none, the
        first one by which the axiom gives it, and else the first one."""
        places = tuple(range(len(self.start.names)))
        seen = {(self.start.key, places)}
        left: deque[tuple[str, tuple[int, ...], tuple[Link, ...]]] = deque()
        left.append((self.start.key, places, ()))
        best: dict[str, Found] = {}
        while left:
            key, places, by = left.popleft()
            found = self.judged(key, places, by)
            if found is not None and (key not in best or best[key].rank < found.rank):
                best.pop(key, None)  # so that it comes behind those by fewer links
                best[key] = found
            for link in self.into.get(key, ()):
                before = self.places_before(link, places)
                if before is not None and (link.start.key, before) not in seen:
                    seen.add((link.start.key, before))
                    left.append((link.start.key, before, (link, *by)))
        return iter(best.values())

    def places_before(self, link: Link, places: Sequence[int]) -> tuple[int, ...] | None:
        """For the variables of a link's start which of the axiom's they are, -1 for others, by the
        same of its end; None where the link asks for more distinct ones than the axiom."""
        place_of = {name: place for name, place in zip(link.end.names, places) if place >= 0}
        for pair in link.pairs:
            if pair <= place_of.keys():
                if frozenset(place_of[name] for name in pair) not in self.pairs:
                    return None
        return tuple(place_of.get(name, -1) for name in link.start.names)

    def judged(self, key: str, places: Sequence[int], by: tuple[Link, ...]) -> Found | None:
        """A statement from which links lead to the axiom; None for the axiom itself."""
        fitting = [way for way in self.ways.get(key, ()) if self.fits(way.pairs, places)]
        lost = [way for way in self.lost.get(key, ()) if self.fits(way.pairs, places)]
        stated = [way for way in fitting if way.stated is not None]
        proved = [way for way in stated if self.is_free(way.stated)]
        one = next((way.stated for way in (*proved, *stated, *lost)), None)
        if key == self.start.key and one is None:
            return None
        way = next(iter(proved or stated or fitting), None)
        formula = by[0].start.formula if one is None else one.formula.partition(" ")[2]
        labels = tuple(link.label for link in by)
        rules = self.links.logic.rules_of(by)
        return Found(formula, labels, rules, way, one, bool(proved))

    def is_free(self, one: Assertion | None) -> bool:
        """Whether there is such an assertion, and it rests on nothing that is given up."""
        return one is not None and self.links.free[one.number]

    def fits(self, pairs: Pairs, places: Sequence[int]) -> bool:
        """Whether of the axiom's variables no more are asked to be distinct than the axiom does."""
        asked = (frozenset(places[number] for number in pair) for pair in pairs)
        return all(-1 in pair or pair in self.pairs for pair in asked)
