"""How formulas are read by their brackets, against trees of whole formulas."""

from __future__ import annotations

import random
import unittest
from collections import Counter
from collections.abc import Sequence

from query.formulas.brackets import MOST_TOKENS, Level, Reader
from query.formulas.descent_parser import Descent
from query.formulas.grammar import Grammar, NotRead, Unbuilt
from query.formulas.syntax import parts_within

KINDS = {
    **{"P": "p", "Q": "q", "R": "r"},
    **dict.fromkeys(["x", "y", "z"], "set"),
    **dict.fromkeys(["ph", "ps"], "wff"),
    **dict.fromkeys(["A", "B", "C"], "class"),
}
Rules = Sequence[tuple[str, str]]
Ends = dict[tuple[str, int], list[int]]

AS_IN_SET: Rules = (
    ("class", "x"),
    ("class", "(/)"),
    ("class", "/"),
    ("class", "{ A }"),
    ("class", "{ A , B }"),
    ("class", "{ x | ph }"),
    ("class", "{ <. x , y >. | ph }"),
    ("class", "{ <. <. x , y >. , z >. | ph }"),
    ("class", "<. A , B >."),
    ("class", "( A B C )"),
    ("class", "if ( ph , A , B )"),
    ("class", "seq A ( B , C )"),
    ("class", "suc A"),
    ("wff", "A = B"),
    ("wff", "A B C"),
    ("wff", "( ph -> ps )"),
    ("wff", "-. ph"),
    ("wff", "A. x ph"),
    ("wff", "A! x ( ph -> ps )"),
    ("wff", "CondEq ( x = y -> ph )"),
    ("wff", "[ x / y ] ph"),
    ("wff", "E. x e. A ph"),
)
"""Axioms like set.mm's: brackets that are no part in `A!` and `seq`, or of another kind in
`CondEq`; one that begins like another; and `/`, which is an axiom and stands in another."""


def grammar_of(rules: Rules) -> Grammar:
    """The grammar of these axioms, a typecode and symbols each."""
    grammar = Grammar()
    for number, (typecode, body) in enumerate(rules):
        grammar.add(f"r{number}", typecode, body.split(), KINDS)
    return grammar


def made(chance: random.Random, rules: Rules, kind: str, depth: int) -> list[str]:
    """A formula of a typecode, made by chance."""
    names = [symbol for symbol, each in KINDS.items() if each == kind]
    bodies = [body for typecode, body in rules if typecode == kind] if depth else []
    if not bodies or chance.random() < 0.15:
        return [chance.choice(names)]
    words = chance.choice(bodies).split()
    parts = [made(chance, rules, KINDS[each], depth - 1) if each in KINDS else [each]
             for each in words]  # fmt: skip
    return [word for part in parts for word in part]


def by_tree(grammar: Grammar, symbols: Sequence[str]) -> tuple[Ends, bool]:
    """Where the parts of a formula end, by its typecode and where they begin, and whether it has a
    tree."""
    found: Ends = {}
    for place, symbol in enumerate(symbols):
        if symbol in KINDS:
            found[KINDS[symbol], place] = [place + 1]
    typecodes = list(dict.fromkeys(grammar.typecodes.values()))
    for typecode in [symbols[0]] if symbols[0] in typecodes else typecodes:
        try:
            tree = grammar.tree(typecode, symbols[1:], KINDS)
        except Unbuilt:
            continue
        except NotRead:
            break
        for part in parts_within(tree, tree.root):
            found.setdefault((part.typecode, part.start + 1), []).append(part.end + 1)
        return found, True
    return found, False


def by_level(level: Level) -> Ends:
    """The same of a formula that was read by its brackets."""
    found: dict[tuple[str, int], set[int]] = {}
    left = [level]
    while left:
        level = left.pop()
        for typecode, starts in level.starts.items():
            for start, ends in starts.items():
                places = {level.places[end] for end in ends}
                found.setdefault((typecode, level.places[start]), set()).update(places)
        left += level.below.values()
    return {spot: sorted(ends) for spot, ends in found.items()}


class Brackets(unittest.TestCase):
    """What parts are found."""

    def reader(self, grammar: Grammar) -> Reader:
        """One that knows the variables."""
        reader = Reader(grammar)
        for symbol, typecode in KINDS.items():
            reader.declare(symbol, typecode)
        return reader

    def agrees(self, grammar: Grammar, reader: Reader, symbols: Sequence[str]) -> bool:
        """Both ways find the same. Returns whether the formula has a tree."""
        level, is_read = reader.level(symbols)
        found, has_tree = by_tree(grammar, symbols)
        said = " ".join(symbols)
        self.assertEqual(is_read, has_tree, said)
        self.assertEqual(by_level(level), {spot: sorted(e) for spot, e in found.items()}, said)
        return is_read

    def test_as_in_set(self) -> None:
        grammar = grammar_of(AS_IN_SET)
        reader = self.reader(grammar)
        self.assertIsNotNone(reader.descent)
        self.assertEqual({*reader.brackets}, {"(", "{", "<."})
        self.assertEqual(reader.heads, {("if", "("), ("CondEq", "(")})
        chance, read = random.Random(3), Counter[bool]()
        for number in range(3000):
            kind = chance.choice(["wff", "class"])
            symbols = made(chance, AS_IN_SET, kind, chance.randint(1, 5))
            if number % 3 == 0:
                others = [word for _, body in AS_IN_SET for word in body.split()]
                symbols[chance.randrange(len(symbols))] = chance.choice(others)
            symbols = [chance.choice(["|-", "|-", kind]), *symbols]
            is_read = self.agrees(grammar, reader, symbols)
            self.assertEqual(reader.by_brackets(symbols) is not None, is_read, symbols)
            read[is_read] += 1
        self.assertGreater(min(read[True] - 1500, read[False]), 300, read)

    def test_any_grammar(self) -> None:
        """Where it isn't known that each formula has one tree, or is read from left to right, whole
        formulas are read."""
        chance, quick, read = random.Random(4), Counter[bool](), Counter[bool]()
        for _ in range(400):
            rules = [
                (chance.choice("pqr"), " ".join(chance.choices("ab()[]PQRR", k=count)))
                for count in chance.choices(range(1, 6), k=chance.randint(2, 7))
            ]
            rules += [(chance.choice("pqr"), "( P )"), (chance.choice("pqr"), "[ Q ]")]
            grammar = grammar_of(rules)
            reader = self.reader(grammar)
            quick[reader.descent is not None] += 1
            for _ in range(30):
                symbols = made(chance, rules, chance.choice("pqr"), chance.randint(1, 4))
                if chance.random() < 0.3:
                    symbols[chance.randrange(len(symbols))] = chance.choice("ab()[]PQ")
                if len(symbols) < 40:
                    # Of one that has trees of several typecodes any may be found.
                    first = chance.choice([*{typecode for typecode, _ in rules}])
                    is_read = self.agrees(grammar, reader, [first, *symbols])
                    read[is_read] += reader.descent is not None
        self.assertGreater(min(quick.values()), 60, quick)
        self.assertGreater(min(read.values()), 500, read)

    def test_what_is_not_read_from_left_to_right(self) -> None:
        """An axiom with a variable twice or without symbols, a formula with two trees, and one that
        begins a longer one."""
        for rules in (("a R a", "a P a", "R"), ("a P", "P b")):
            self.assertIsNone(Descent.of(grammar_of([("p", body) for body in rules])), rules)
        self.assertIsNone(Descent.of(grammar_of([("wff", "( ph & ph )")])))
        self.assertIsNone(Descent.of(grammar_of([("wff", "")])))

    def test_much_that_is_no_part(self) -> None:
        """Brackets that are opened again and again are given up, and the whole is read."""
        grammar = grammar_of([*AS_IN_SET, ("wff", "! ( ph")])
        depth = 20 * MOST_TOKENS
        for symbols in (
            ["|-", *["A!", "x", "("] * depth, "ph", *["->", "ph", ")"] * depth],
            ["|-", *["("] * depth, "A", *[")"] * depth],
            ["|-", *["{"] * depth, "x", "|", "ph", *["}"] * depth],
        ):
            reader = self.reader(grammar)
            self.agrees(grammar, reader, symbols)
            self.assertLess(sum(map(len, reader.known)), 2 * MOST_TOKENS * len(symbols))


if __name__ == "__main__":
    unittest.main()
