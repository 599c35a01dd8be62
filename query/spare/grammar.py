"""The syntax of a database: its own syntax axioms, by which formulas are parsed, as forms of trees.

A formula that isn't one of the syntax, or of which there are two trees, has a form of its own.
"""

from __future__ import annotations

from collections.abc import Mapping, Sequence
from dataclasses import dataclass

from query.formulas.grammar import Grammar as Axioms, Part, Tree, Unbuilt
from query.spare.trees import Trees

MOST_TYPECODES = 20
"""So many typecodes are tried for what is behind the one of what is proved."""

Item = str | int
"""A constant, or the number of a place that a part fills."""


@dataclass(frozen=True, slots=True)
class Form:
    """What has parts: a syntax axiom of this label, or the form of a whole formula that isn't
    parsed, without a label and a typecode."""

    label: str | None
    typecode: str | None
    items: tuple[Item, ...]
    typecodes: tuple[str, ...]
    """Those of its parts."""


class Forms:
    """The forms of a database, which make trees."""

    def __init__(self, trees: Trees) -> None:
        self.trees = trees
        self.forms: list[Form] = []
        self.variables: list[tuple[str, str]] = []
        """The typecode and the symbol of each variable."""
        self._axioms = Axioms()
        self._numbers: dict[tuple[str, str], int] = {}
        self._flat: dict[Form, int] = {}
        self._by_label: dict[str, tuple[int, tuple[int, ...]]] = {}
        self._typecodes: list[str] = []

    def variable(self, typecode: str, symbol: str) -> int:
        """The tree of a variable."""
        name = (typecode, symbol)
        if name not in self._numbers:
            self._numbers[name] = len(self.variables)
            self.variables.append(name)
            self.note(typecode)
        return self.trees.made((~self._numbers[name],))

    def note(self, typecode: str) -> None:
        """Notes a typecode of the syntax."""
        if len(self._typecodes) < MOST_TYPECODES and typecode not in self._typecodes:
            self._typecodes.append(typecode)

    def typecode(self, tree: int) -> str | None:
        """The typecode of what a tree stands for."""
        head = self.trees.heads[tree]
        return self.variables[~head][0] if head < 0 else self.forms[head].typecode

    def add(self, form: Form) -> int:
        """Adds a syntax axiom. Returns the number of its form."""
        number = len(self.forms)
        self.forms.append(form)
        assert form.typecode is not None and form.label is not None
        self.note(form.typecode)
        order = tuple(item for item in form.items if isinstance(item, int))
        self._by_label[form.label] = (number, order)
        names = [f"${item}" if isinstance(item, int) else item for item in form.items]
        kinds = {f"${place}": typecode for place, typecode in enumerate(form.typecodes)}
        self._axioms.add(form.label, form.typecode, names, kinds)
        return number

    def parsed(
        self, typecode: str | None, symbols: Sequence[str], leaves: Mapping[str, int]
    ) -> int:
        """The tree of a formula of a typecode of the syntax; None where that isn't known. NotRead
        where it has none, or several."""
        kinds = {symbol: self.typecode(leaf) or "" for symbol, leaf in leaves.items()}
        if typecode is not None:
            return self.made(self._axioms.tree(typecode, symbols, kinds), symbols, leaves)
        for one in self._typecodes:
            try:
                tree = self._axioms.tree(one, symbols, kinds)
            except Unbuilt:
                continue
            self._typecodes.remove(one)  # the next formula is likely of this typecode, too
            self._typecodes.insert(0, one)
            return self.made(tree, symbols, leaves)
        raise Unbuilt

    def made(self, tree: Tree, symbols: Sequence[str], leaves: Mapping[str, int]) -> int:
        """A tree that was read."""
        found: dict[Part, int] = {}
        for part, label in reversed(tree.rules.items()):
            number, order = self._by_label[label]
            below = [
                found[each] if each in found else leaves[symbols[each.start]]
                for each in tree.below[part]
            ]
            filled = dict(zip(order, below))
            found[part] = self.trees.made((number, *map(filled.__getitem__, sorted(filled))))
        return found[tree.root] if tree.root in found else leaves[symbols[0]]

    def flat(self, symbols: Sequence[str], leaves: Mapping[str, int]) -> int:
        """The tree of a formula that isn't parsed."""
        items: list[Item] = []
        parts: list[int] = []
        for symbol in symbols:
            leaf = leaves.get(symbol)
            items.append(symbol if leaf is None else len(parts))
            parts += [] if leaf is None else [leaf]
        typecodes = tuple(self.typecode(part) or "" for part in parts)
        form = Form(None, None, tuple(items), typecodes)
        if form not in self._flat:
            self._flat[form] = len(self.forms)
            self.forms.append(form)
        return self.trees.made((self._flat[form], *parts))

    def written(self, tree: int, most: int) -> list[str]:
        """The symbols of a tree; where there are more, the first of them and `...`."""
        symbols: list[str] = []
        left: list[str | int] = [tree]
        while left:
            one = left.pop()
            if len(symbols) == most:
                return [*symbols, "..."]
            if isinstance(one, str):
                symbols.append(one)
                continue
            head = self.trees.heads[one]
            if head < 0:
                symbols.append(self.variables[~head][1])
                continue
            parts = self.trees.parts[one]
            for item in reversed(self.forms[head].items):
                left.append(item if isinstance(item, str) else parts[item])
        return symbols
