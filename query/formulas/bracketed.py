"""Patterns with the brackets that the formulas of a database have, and that who types them may have
left out: `A + B = B + A` for `( A + B ) = ( B + A )`.

Brackets are put around one stretch that is a part with them, in each way; and then around another
one, in what came of that.
"""

from __future__ import annotations

from collections import deque
from collections.abc import Iterator, Mapping, Sequence
from contextlib import suppress
from typing import NamedTuple

from query.formulas.descent_parser import OF_TYPECODE
from query.formulas.grammar import Grammar, NotRead

OPENING, CLOSING = "(", ")"
MOST_SYMBOLS, MOST_AROUND, MOST_TRIED = 40, 7, 20
"""Patterns with more symbols are left as they are, brackets are put around so many signs at the
most, and in so many ways."""


class Sign(NamedTuple):
    """A symbol, or symbols that are a part of a typecode. `token` stands for it in the grammar."""

    token: str
    symbols: tuple[str, ...]


Signs = tuple[Sign, ...]


def bracketed(
    grammar: Grammar, symbols: Sequence[str], kinds: Mapping[str, str]
) -> Iterator[list[str]]:
    """The symbols with brackets, in each way, fewer brackets first. `kinds` has the typecodes of
    the variables."""
    if len(symbols) > MOST_SYMBOLS:
        return
    wrapping = Wrapping(grammar)
    tokens = [wrapping.token(kinds[each]) if each in kinds else each for each in symbols]
    left = deque([tuple(Sign(token, (symbol,)) for token, symbol in zip(tokens, symbols))])
    seen: set[tuple[str, ...]] = set()
    while left:
        for signs in wrapping.around(wrapping.joined(left.popleft())):
            found = tuple(symbol for sign in signs for symbol in sign.symbols)
            if found not in seen:
                seen.add(found)
                left.append(signs)
                yield [*found]
            if len(seen) == MOST_TRIED:
                return


class Wrapping:
    """Puts brackets where a grammar has them."""

    def __init__(self, grammar: Grammar) -> None:
        self.grammar = grammar
        self.typecodes = list(dict.fromkeys(grammar.typecodes.values()))
        self.kinds: dict[str, str] = {}

    def token(self, typecode: str) -> str:
        """What stands for parts of a typecode."""
        self.kinds[OF_TYPECODE + typecode] = typecode
        return OF_TYPECODE + typecode

    def joined(self, signs: Signs) -> Signs:
        """The signs, in which what stands in brackets and is a part is one of them."""
        found: list[Sign] = []
        opened: list[int] = []
        for sign in signs:
            found.append(sign)
            if sign.token == OPENING:
                opened.append(len(found) - 1)
            elif sign.token == CLOSING and opened:
                start = opened.pop()
                typecode = self.typecode([each.token for each in found[start:]])
                if typecode is not None:
                    found[start:] = [self.one(typecode, found[start:])]
        return tuple(found)

    def around(self, signs: Signs) -> Iterator[Signs]:
        """The signs with brackets around each stretch that is a part with them."""
        for start in range(len(signs) - 1):
            for end in range(start + 2, min(len(signs), start + MOST_AROUND) + 1):
                inside = signs[start:end]
                tokens = [OPENING, *(sign.token for sign in inside), CLOSING]
                if OPENING not in tokens[1:-1] and CLOSING not in tokens[1:-1]:
                    typecode = self.typecode(tokens)
                    if typecode is not None:
                        both = Sign(OPENING, (OPENING,)), Sign(CLOSING, (CLOSING,))
                        part = self.one(typecode, [both[0], *inside, both[1]])
                        yield (*signs[:start], part, *signs[end:])

    def one(self, typecode: str, signs: Sequence[Sign]) -> Sign:
        """Signs as one that is a part."""
        symbols = tuple(symbol for sign in signs for symbol in sign.symbols)
        return Sign(self.token(typecode), symbols)

    def typecode(self, tokens: Sequence[str]) -> str | None:
        """The typecode of which tokens are a part; None where they are none."""
        for typecode in self.typecodes:
            with suppress(NotRead):
                self.grammar.tree(typecode, tokens, self.kinds)
                return typecode
        return None
