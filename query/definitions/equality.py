"""What the theorems of a database say of its equalities: that one is reflexive, that equals may be
put into a form, that a bound variable may have another name.

An equality is a form of typecode `wff` for two parts of one typecode, as `( ph <-> ps )` and
`A = B`. Theorems are found by their shape and not by their labels. docs/SOUNDNESS.md says which
shapes there are, and what each is needed for.
"""

from __future__ import annotations

from collections.abc import Iterable, Iterator, Mapping, Sequence
from dataclasses import dataclass
from typing import Any, NamedTuple, TypeGuard

from query.formulas.grammar import Grammar, NotRead, Tree
from query.formulas.syntax import PROVABLE, SETVAR, WFF
from query.platform import progress
from query.texts.assertions import Assertion

MOST_SYMBOLS, MOST_GIVEN = 40, 16
"""Longer theorems, and those with more `$e`, aren't looked at."""
MOST_FOUND = 8
"""So many theorems of one kind are kept."""

Property = tuple[str, ...]
"""What is said, and of what: `("reflexive", "wb")`, `("respects", "wi", "0")`."""


@dataclass(frozen=True)
class ParsedTheorem:
    """A theorem or an axiom, its formulas as trees: a tree is a variable, or a tuple of a form and
    its parts."""

    label: str
    given: tuple[object, ...]
    said: object
    kinds: Mapping[str, str]
    pairs: frozenset[tuple[str, str]]


class Form(NamedTuple):
    """A form as a property needs it: the typecode of its formulas, and those of its parts."""

    typecode: str
    arguments: tuple[str, ...]


def term_of(tree: Tree, symbols: Sequence[str]) -> object:
    """The tree of a formula, as nested tuples."""
    built: dict[object, object] = {}
    left = [tree.root]
    while left:
        part = left[-1]
        if part not in tree.rules:
            built[left.pop()] = symbols[part.start]
            continue
        missing = [each for each in tree.below[part] if each not in built]
        left += missing
        if not missing:
            built[left.pop()] = (tree.rules[part], *(built[each] for each in tree.below[part]))
    return built[tree.root]


def variables_in(term: object) -> Iterator[str]:
    """The variables of a tree, each as often as it stands there."""
    left = [term]
    while left:
        each = left.pop()
        if isinstance(each, tuple):
            left += each[1:]
        else:
            yield str(each)


def is_of(term: object, form: str) -> TypeGuard[tuple[Any, ...]]:
    """Whether a tree is of a form."""
    return isinstance(term, tuple) and term[0] == form


class ParsedTheorems:
    """The theorems of a database that can say something of its equalities."""

    def __init__(
        self,
        grammar: Grammar,
        assertions: Sequence[Assertion],
        forms: Iterable[str],
        typecode: str = WFF,
    ) -> None:
        self.grammar = grammar
        wanted = {each for form in forms for each in grammar.constants(form)}
        all_constants = {each for form in grammar.shapes for each in grammar.constants(form)}
        self.others = all_constants - wanted
        self.typecode = typecode
        counted = progress.counted(assertions, "reading what says something of equalities")
        self.all = [theorem for one in counted if (theorem := self.parsed(one)) is not None]

    def parsed(self, one: Assertion) -> ParsedTheorem | None:
        """An assertion with its formulas as trees; None where it can't be of use."""
        formula = one.formula.split(" ")
        if one.is_open or not self.is_wanted(formula):
            return None
        frame = one.frame()
        hypotheses = frame.hypotheses()
        given = [each.formula.split(" ") for each in hypotheses if each.kind == "e"]
        if len(given) > MOST_GIVEN or not all(map(self.is_wanted, given)):
            return None
        floating = (each.formula.partition(" ") for each in hypotheses if each.kind == "f")
        kinds = {name: kind for kind, _, name in floating}
        try:
            terms = [self.term(each[1:], kinds) for each in (*given, formula)]
        except NotRead:
            return None
        return ParsedTheorem(
            one.label, tuple(terms[:-1]), terms[-1], kinds, frozenset(frame.pairs())
        )

    def is_wanted(self, formula: Sequence[str]) -> bool:
        """Whether a formula has only constants that can be of use, and not too many symbols."""
        return (
            formula[0] == PROVABLE
            and len(formula) <= MOST_SYMBOLS
            and self.others.isdisjoint(formula)
        )

    def term(self, symbols: Sequence[str], kinds: Mapping[str, str]) -> object:
        """The tree of a formula."""
        return term_of(self.grammar.tree(self.typecode, symbols, kinds), symbols)


class Known:
    """What the theorems say. `equalities` are the labels of the equalities by typecode. `found` has
    for each property the labels of theorems that say it; `implication` is the form of which there
    is a rule of detachment, and `turned` what says that two variables of typecode `setvar` are
    equal, with 0 and 1 in their place."""

    def __init__(
        self,
        theorems: Sequence[ParsedTheorem],
        forms: Mapping[str, Form],
        equalities: Mapping[str, str],
    ) -> None:
        self.forms = forms
        self.equalities = equalities
        self.found: dict[Property, list[str]] = {}
        self.turned: object = None
        self.implication = next(self.implications(theorems), "")
        for theorem in theorems:
            for each in self.properties(theorem):
                labels = self.found.setdefault(each, [])
                if len(labels) < MOST_FOUND:
                    labels.append(theorem.label)
        self.renaming(theorems)

    def has_equal_formulas(self) -> bool:
        """Whether there is an equality of formulas, and not just one of what these speak of."""
        return WFF in self.equalities

    def implications(self, theorems: Sequence[ParsedTheorem]) -> Iterator[str]:
        """The forms for which there is a rule of detachment, and that aren't equalities."""
        for theorem in theorems:
            one = theorem.said
            for given in theorem.given:
                if is_rule(theorem, 2) and isinstance(given, tuple) and len(given) == 3:
                    other = given[1]
                    is_there = isinstance(other, str) and other != one and other in theorem.given
                    if is_there and given[2] == one and given[0] not in self.equalities.values():
                        yield given[0]

    def equality(self, term: object) -> tuple[str, object, object] | None:
        """The typecode and the two sides of an equation."""
        if isinstance(term, tuple) and len(term) == 3:
            for typecode, form in self.equalities.items():
                if term[0] == form:
                    return typecode, term[1], term[2]
        return None

    def properties(self, theorem: ParsedTheorem) -> Iterator[Property]:
        """What a theorem says, but for bound variables."""
        said, given, imp = theorem.said, theorem.given, self.implication
        if is_rule(theorem, 2) and isinstance(said, str):
            for one, other in (given, given[::-1]):
                if one != said and isinstance(one, str):
                    if other == (imp, one, said):
                        yield ("detaches",)
                    if other == (self.equalities.get(WFF), one, said):
                        yield ("replaces",)
        if imp and is_of(said, imp) and not theorem.pairs:
            yield from self.of_implication(theorem)
        equation = self.equality(said)
        if equation is not None and not theorem.pairs:
            yield from self.of_equation(theorem, *equation)
        yield from self.of_form(theorem)
        if not self.has_equal_formulas():
            yield from self.of_rule(theorem)

    def of_implication(self, theorem: ParsedTheorem) -> Iterator[Property]:
        """What a theorem says of the implication."""
        said, given, imp = theorem.said, theorem.given, self.implication
        assert isinstance(said, tuple)
        _, one, other = said
        if not given and one == other and isinstance(one, str):
            yield ("identity",)
        if len(given) == 1 and given[0] == other and are_variables(one, other):
            yield ("weakens",)
        if not given and is_of(other, imp) and other[2] == one and are_variables(one, other[1]):
            yield ("weakens",)
        inner = self.equality(other)
        if inner is None or not isinstance(one, str) or len(given) != 2:
            return
        typecode, left, right = inner
        for first, second in (given, given[::-1]):
            if is_of(first, imp) and is_of(second, imp) and first[1] == second[1] == one:
                before, after = self.equality(first[2]), self.equality(second[2])
                if before is not None and after is not None and before[2] == after[1]:
                    if before[:2] == (typecode, left) and after[::2] == (typecode, right):
                        if are_variables(one, left, right, before[2]):
                            yield "chained", self.equalities[typecode]

    def of_equation(
        self, theorem: ParsedTheorem, typecode: str, left: object, right: object
    ) -> Iterator[Property]:
        """What a theorem says of an equality alone."""
        form, given = self.equalities[typecode], theorem.given
        if not given and left == right and isinstance(left, str):
            yield "reflexive", form
        if given == ((form, right, left),) and are_variables(left, right):
            yield "symmetric", form
        if len(given) == 2:
            for one, other in (given, given[::-1]):
                if is_of(one, form) and is_of(other, form) and one[2] == other[1]:
                    if (one[1], other[2]) == (left, right):
                        if are_variables(left, right, one[2]):
                            yield "transitive", form

    def of_form(self, theorem: ParsedTheorem) -> Iterator[Property]:
        """That an equality goes through a form, at each part for which a theorem says it."""
        condition, given, equation = self.under(theorem)
        sides = None if equation is None or not given else self.sides_of(equation)
        if sides is None:
            return
        form, pairs = sides
        changed = {place: each for place, each in pairs.items() if each[0] != each[1]}
        names = [name for each in pairs.values() for name in dict.fromkeys(each)]
        if isinstance(condition, str):
            names.append(condition)
        wanted = {
            (self.equalities.get(self.forms[form].arguments[place]), *each)
            for place, each in changed.items()
        }
        if not are_variables(*names) or {*given} != wanted:
            return
        if self.are_allowed(theorem, form, pairs, condition):
            for place in changed:
                yield "respects", form, str(place)
                if self.equality(theorem.said) is None:
                    yield "respects under", form, str(place)

    def of_rule(self, theorem: ParsedTheorem) -> Iterator[Property]:
        """That what equals a part of a formula may stand in its place: from `a = b` and `b =< c`
        follows `a =< c`."""
        said = theorem.said
        if not is_rule(theorem, 2) or not isinstance(said, tuple) or said[0] not in self.forms:
            return
        for one, other in (theorem.given, theorem.given[::-1]):
            equation = self.equality(other)
            if equation is None or not is_of(one, said[0]):
                continue
            pairs = list(zip(one[1:], said[1:]))
            changed = [place for place, (before, after) in enumerate(pairs) if before != after]
            names = [name for each in pairs for name in dict.fromkeys(each)]
            if len(changed) == 1 and are_variables(*names):
                place = changed[0]
                typecode = self.forms[said[0]].arguments[place]
                if equation in ((typecode, *pairs[place]), (typecode, *pairs[place][::-1])):
                    yield "carries", said[0], str(place)

    def under(
        self, theorem: ParsedTheorem
    ) -> tuple[object, tuple[object, ...], tuple[str, object, object] | None]:
        """A theorem that says an equation as a rule, or under a condition, or as an implication:
        the variable of the condition, what is given, and the equation."""
        said, given, imp = theorem.said, theorem.given, self.implication
        equation = self.equality(said)
        if equation is not None or not imp or not is_of(said, imp):
            return None, given, equation
        _, condition, inner = said
        equation = self.equality(inner)
        if not given:
            return None, (condition,), equation
        if not isinstance(condition, str):
            return None, (), None
        freed = tuple(each[2] for each in given if is_of(each, imp) and each[1] == condition)
        return condition, freed if len(freed) == len(given) else (), equation

    def are_allowed(
        self,
        theorem: ParsedTheorem,
        form: str,
        pairs: Mapping[int, tuple[object, object]],
        condition: object,
    ) -> bool:
        """Whether a theorem has no `$d` but those of what holds before and a bound variable."""
        kinds = self.forms[form].arguments
        bound = {pairs[place][0] for place, kind in enumerate(kinds) if kind == SETVAR}
        return all(condition in each and bound & {*each} for each in theorem.pairs)

    def sides_of(
        self, equation: tuple[str, object, object]
    ) -> tuple[str, dict[int, tuple[object, object]]] | None:
        """The form of which both sides are, and their parts by pairs."""
        _, left, right = equation
        if not isinstance(left, tuple) or not isinstance(right, tuple) or left[0] != right[0]:
            return None
        if left[0] not in self.forms:
            return None
        return left[0], dict(enumerate(zip(left[1:], right[1:])))

    def renaming(self, theorems: Sequence[ParsedTheorem]) -> None:
        """Finds which forms let their bound variable have another name, and in which a variable may
        be replaced by an equal one."""
        names: dict[object, dict[Property, list[str]]] = {}
        for theorem in theorems:
            for turned, each in self.renames(theorem):
                names.setdefault(turned, {}).setdefault(each, []).append(theorem.label)
        if not names:
            return
        self.turned = max(names, key=lambda turned: len(names[turned]))
        self.found |= {each: found[:MOST_FOUND] for each, found in names[self.turned].items()}
        for form, (typecode, arguments) in self.forms.items():
            for place, kind in enumerate(arguments):
                equality = self.equalities.get(typecode)
                if kind == SETVAR and arguments == (SETVAR,) and equality:
                    if self.turned == (equality, (form, "0"), (form, "1")):
                        found = self.found.get(("identity",), [])
                        self.found["substitutes", form, str(place)] = found
        for theorem in theorems:
            for each in self.substitutes(theorem):
                self.found.setdefault(each, []).append(theorem.label)

    def renames(self, theorem: ParsedTheorem) -> Iterator[tuple[object, Property]]:
        """That a form lets its bound variable have another name: from `( x = y -> ( ph <-> ps ) )`
        follows `( A. x ph <-> A. y ps )`."""
        equation, imp = self.equality(theorem.said), self.implication
        if equation is None or len(theorem.given) != 1 or not is_of(theorem.given[0], imp):
            return
        sides = self.sides_of(equation)
        given = theorem.given[0]
        assert isinstance(given, tuple)
        inner = self.equality(given[2])
        if sides is None or inner is None or not imp:
            return
        form, pairs = sides
        kinds = self.forms[form].arguments
        if len(kinds) != 2 or {*kinds} != {SETVAR, inner[0]}:
            return
        one, other = pairs[kinds.index(SETVAR)]
        left, right = pairs[kinds.index(inner[0])]
        if inner[1:] != (left, right) or not are_variables(one, other, left, right):
            return
        allowed = {frozenset(each) for each in ((one, other), (one, right), (other, left))}
        if all(frozenset(each) in allowed for each in theorem.pairs):
            turned = with_numbers(given[1], one, other)
            if turned is not None:
                yield turned, ("renames", form)

    def substitutes(self, theorem: ParsedTheorem) -> Iterator[Property]:
        """That a variable of a form may be replaced by an equal one: `( x = y -> ( x = z <-> y = z
        ) )`."""
        if theorem.given or theorem.pairs or not is_of(theorem.said, self.implication):
            return
        said = theorem.said
        assert isinstance(said, tuple)
        equation = self.equality(said[2])
        sides = None if equation is None else self.sides_of(equation)
        if sides is None:
            return
        form, pairs = sides
        changed = [place for place, (one, other) in pairs.items() if one != other]
        names = [name for each in pairs.values() for name in dict.fromkeys(each)]
        if len(changed) == 1 and are_variables(*names):
            place = changed[0]
            if self.forms[form].arguments[place] == SETVAR:
                if with_numbers(said[1], *pairs[place]) == self.turned:
                    yield "substitutes", form, str(place)


def is_rule(theorem: ParsedTheorem, count: int) -> bool:
    """Whether a theorem has so many `$e` and no `$d`."""
    return len(theorem.given) == count and not theorem.pairs


def are_variables(*terms: object) -> bool:
    """Whether these are different variables."""
    return len({*terms}) == len(terms) and all(isinstance(each, str) for each in terms)


def with_numbers(term: object, one: object, other: object) -> object:
    """A tree with 0 and 1 in the place of two variables; None where it has others, or not both."""
    names = {one: "0", other: "1"}
    if {*variables_in(term)} != {one, other}:
        return None
    return replaced(term, names)


def replaced(term: object, names: Mapping[object, str]) -> object:
    """A tree with other variables. A theorem is short, so its tree isn't deep."""
    if isinstance(term, tuple):
        return (term[0], *(replaced(each, names) for each in term[1:]))
    return names[term]
