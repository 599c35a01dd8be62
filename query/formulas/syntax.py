"""The syntax of a database: the grammar that its syntax axioms are, and what is read by it."""

from __future__ import annotations

from collections.abc import Iterable, Iterator

from query.formulas.grammar import Grammar, Part, Tree
from query.texts.assertions import Assertion

PROVABLE, WFF, CLASS, SETVAR = "|-", "wff", "class", "setvar"


def read_as(one: Assertion) -> tuple[list[str], dict[str, str]]:
    """The symbols of an assertion's formula without its typecode, and the typecodes of its
    variables."""
    floating = (each.formula for each in one.frame().hypotheses() if each.kind == "f")
    variables = {name: kind for kind, _, name in (each.partition(" ") for each in floating)}
    return one.formula.split(" ")[1:], variables


def syntax_of(assertions: Iterable[Assertion]) -> Grammar:
    """The grammar of all axioms but those of typecode `|-`."""
    grammar = Grammar()
    for one in assertions:
        if one.letter == "a" and one.typecode != PROVABLE:
            grammar.add(one.label, one.typecode, *read_as(one))
    return grammar


def parts_within(tree: Tree, root: Part, variables: bool = False) -> Iterator[Part]:
    """The parts of a part, itself too, and with them variables where these are wanted."""
    left = [root]
    while left:
        part = left.pop()
        if variables or part in tree.rules:
            yield part
        left += tree.below.get(part, ())
