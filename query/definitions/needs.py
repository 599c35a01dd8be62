"""What a statement speaks of: its forms, the definitions of these, the forms of those, and so on
down to forms that have no definition.

A form is a syntax axiom, such as `wceq` for `class = class`. A definition on trust is one too: it
is taken as that of the form which it brings, or where it brings none as that of its left side. So a
form may come under itself, and each is gone into once.
"""

from __future__ import annotations

from array import array
from collections.abc import Callable, Iterable, Iterator
from dataclasses import dataclass

from query.answers.errors import NoAnswer
from query.citations import subgraphs
from query.citations.graph import Graph, Lists
from query.definitions.soundness import Broken, Definitions, is_definition
from query.formulas.grammar import NotRead, Part, Tree
from query.formulas.syntax import parts_within, read_as
from query.texts.assertions import Assertion


@dataclass(frozen=True)
class Need:
    """A form that is needed. `depth` is the least number of definitions between it and the
    statement, `definition` the label of its own, None where it is primitive."""

    form: str
    depth: int
    definition: str | None


@dataclass(frozen=True)
class Branch:
    """A form in the tree of what is needed. `depth` counts from the statement's own forms;
    `is_above` is whether what comes under it stands further up already."""

    need: Need
    depth: int
    is_above: bool


class Needs:
    """What statements need."""

    def __init__(self, judged: Definitions) -> None:
        self.judged = judged
        self.definitions: dict[str, str] = {}
        """The definition of each form that has one."""
        self.under: dict[str, list[str]] = {}
        """For each such form the forms of its definition, as they come in it."""
        for one, tree in judged.read_axioms:
            if is_definition(one) and not isinstance(tree, Broken):
                self.add(one, tree)

    def add(self, one: Assertion, tree: Tree) -> None:
        """Adds a definition, if it is one of a form."""
        sides = tree.below.get(tree.root, [])
        is_equation = tree.rules.get(tree.root) in self.judged.equalities.values()
        parts = [sides[1]] if is_equation else [tree.root]
        if one.label in self.judged.trusted:
            form = self.of_trusted(one, tree, sides[0] if is_equation else tree.root)
        else:
            form = tree.rules.get(sides[0]) if sides else None
            if form is None or self.judged.definers.get(form) != one.label:
                return
        if form is not None and form not in self.definitions:
            self.definitions[form] = one.label
            self.under[form] = [each for each in forms_in(tree, parts) if each != form]

    def of_trusted(self, one: Assertion, tree: Tree, left: Part) -> str | None:
        """The form that a definition on trust brings, or that of its left side."""
        brought = [each for each in forms_in(tree, [tree.root]) if self.judged.first[each] is one]
        return brought[0] if brought else tree.rules.get(left)

    def forms_of(self, one: Assertion) -> list[str]:
        """The forms of a statement and its `$e`, as they come. NoAnswer where it can't be read."""
        _, variables = read_as(one)
        given = [each.formula for each in one.frame().essential()]
        found: dict[str, None] = {}
        for formula in (*given, one.formula):
            typecode, *symbols = formula.split(" ")
            try:
                tree = self.judged.tree(typecode, symbols, variables)
            except NotRead as why:
                raise NoAnswer(f"{one.label} can't be read: {why}") from None
            found.update(dict.fromkeys(forms_in(tree, [tree.root])))
        return list(found)

    def says(self, form: str) -> str:
        """A form with its typecode, and typecodes in place of variables."""
        grammar = self.judged.grammar
        return " ".join((grammar.typecodes[form], *grammar.shapes[form]))

    def all(self, forms: Iterable[str]) -> dict[str, Need]:
        """All that these forms need, themselves included, the nearest first."""
        found: dict[str, Need] = {}
        depth, nexts = 0, list(forms)
        while nexts:
            new = [form for form in dict.fromkeys(nexts) if form not in found]
            for form in new:
                found[form] = Need(form, depth, self.definitions.get(form))
            nexts = [each for form in new for each in self.under.get(form, ())]
            depth += 1
        return found

    def tree(self, forms: Iterable[str]) -> Iterator[Branch]:
        """The same as a tree: under each form those of its definition, where it stands first."""
        forms = list(forms)
        needs = self.all(forms)
        gone_into: set[str] = set()
        left = [(form, 0) for form in reversed(forms)]
        while left:
            form, depth = left.pop()
            below = self.under.get(form, [])
            is_above = form in gone_into and bool(below)
            yield Branch(needs[form], depth, is_above)
            if not is_above:
                gone_into.add(form)
                left += [(each, depth + 1) for each in reversed(below)]

    def part(self, one: Assertion, passes: Callable[[str], bool]) -> subgraphs.Part:
        """The same as a graph, without the forms that don't pass: what has arrows are the forms
        that have a definition, and at last the statement, each to its forms in file order. A syntax
        axiom is its own form."""
        forms = self.forms_of(one)
        needed = {form for form in self.all(forms) if passes(form)} - {one.label}
        in_order = [form for form in self.judged.grammar.shapes if form in needed]
        place_of = {form: place for place, form in enumerate(in_order)}
        heads = [*(form for form in in_order if form in self.under), one.label]
        labels = [*heads, *(form for form in in_order if form not in self.under)]
        numbers = {label: number for number, label in enumerate(labels)}
        below = self.under | {one.label: self.under.get(one.label, forms)}
        places, targets = array("I", [0]), array("I")
        for head in heads:
            others = {*below[head]} & needed - {head}
            targets.extend(numbers[form] for form in sorted(others, key=place_of.__getitem__))
            places.append(len(targets))
        return subgraphs.whole(Graph(one.label, labels, len(heads), Lists(places, targets)))


def forms_in(tree: Tree, parts: Iterable[Part]) -> list[str]:
    """The forms of parts, each once, as they come: an outer one before those in it."""
    within = [each for part in parts for each in parts_within(tree, part)]
    within.sort(key=lambda part: (part.start, -part.end))
    return list(dict.fromkeys(tree.rules[part] for part in within))
