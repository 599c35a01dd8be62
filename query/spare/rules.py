"""The assertions of a database as rules, which proofs apply, with the trees of their formulas."""

from __future__ import annotations

from array import array
from collections.abc import Iterator, Mapping, Sequence
from dataclasses import dataclass, field
from itertools import chain
from typing import NamedTuple

from query.answers.errors import NoAnswer
from query.formulas.grammar import NotRead
from query.platform import cache, progress
from query.reports.database import Database, result_key
from query.spare.grammar import Form, Forms
from query.spare.trees import Code, Trees
from query.texts.assertions import PAIR, Assertion, Hypothesis
from query.texts.floating import floating_of
from query.texts.text import Text

MOST_ASSERTIONS, MOST_VARIABLES, MOST_MARKS = 500_000, 5000, 2_000_000_000
"""With more assertions or variables, or more pairs of an assertion and an axiom, there is no
answer: sets of them are the bits of numbers."""
FORM = 2
"""Counts the forms in which trees are kept, and the ways in which formulas are parsed."""
UNREAD = "{} formulas aren't read by the syntax axioms, so less may be found; the first is of {}"


class MandatoryHypothesis(NamedTuple):
    """A `$f`, which `is_floating` and whose `number` is that of its variable, or a `$e`, whose
    `number` is that of its tree."""

    is_floating: bool
    number: int
    label: str


@dataclass(slots=True)
class Rule:
    """An assertion as a rule. `tree` is that of its formula, -1 where it can be no step of a proof
    that is changed; `hypotheses` are its mandatory ones, and `mandatory_variables` those of its
    `$f`, both in the order of the database; `form` is that of a syntax axiom. `is_logical` is
    whether its formula has the typecode of what is proved."""

    number: int
    label: str
    is_logical: bool
    tree: int
    hypotheses: list[MandatoryHypothesis]
    mandatory_variables: list[int]
    form: int | None = None
    code: Code | None = field(default=None)

    def essential(self) -> list[MandatoryHypothesis]:
        """The `$e` hypotheses."""
        return [each for each in self.hypotheses if not each.is_floating]


class Rules:
    """All assertions of a text as rules, by their numbers. `typecode` is that of what is proved;
    all others are of the syntax. `kept` is what was found before of the same text."""

    def __init__(self, text: Text, typecode: str, kept: Mapping[str, bytes] | None = None) -> None:
        self.text = text
        self.typecode_proved = typecode
        self.trees = Trees()
        self.grammar = Forms(self.trees)
        self.floating = floating_of(text.data)
        self.unread: list[str] = []
        """The assertions with a formula that has no tree by the syntax, and why it hasn't."""
        self._parsed: dict[tuple[str, str], int] = {}
        self._known = self.restored(kept) if kept is not None else iter(())
        self._rules: list[Rule] = []
        self._has_fixed_typecodes = has_fixed_typecodes(self.floating)
        for assertion in progress.counted(text.assertions, "reading the formulas"):
            self._rules.append(self.rule(assertion))

    def __len__(self) -> int:
        return len(self._rules)

    def __getitem__(self, number: int) -> Rule:
        return self._rules[number]

    def __iter__(self) -> Iterator[Rule]:
        return iter(self._rules)

    def rule(self, assertion: Assertion) -> Rule:
        """An assertion as a rule. All before it are there already."""
        frame = assertion.frame()
        given = frame.hypotheses()
        leaves = {}
        variables = []
        for each in given:
            if each.kind == "f":
                typecode, symbol = each.formula.split(" ")
                leaves[symbol] = self.grammar.variable(typecode, symbol)
                variables.append(~self.trees.heads[leaves[symbol]])
        scope = "" if self._has_fixed_typecodes else " ".join(each.formula for each in given)
        hypotheses = [self.hypothesis(assertion, each, leaves, scope) for each in given]
        is_logical = assertion.typecode == self.typecode_proved
        rule = Rule(assertion.number, assertion.label, is_logical, -1, hypotheses, variables)
        has_only_floating = len(variables) == len(hypotheses)
        is_syntax = not is_logical and has_only_floating and not frame.disjoint
        if is_syntax and assertion.kind == "a":
            rule.form = self.grammar.add(form_of(assertion, given))
            parts = [self.trees.made((~variable,)) for variable in variables]
            rule.tree = self.trees.made((rule.form, *parts))
        elif is_logical or is_syntax:
            rule.tree = self.parsed(assertion, assertion.formula, leaves, scope)
        return rule

    def hypothesis(
        self, assertion: Assertion, one: Hypothesis, leaves: dict[str, int], scope: str
    ) -> MandatoryHypothesis:
        """A mandatory hypothesis. A `$e` of the syntax has the tree -1."""
        if one.kind == "f":
            variable = ~self.trees.heads[leaves[one.formula.split(" ")[1]]]
            return MandatoryHypothesis(True, variable, one.label)
        if one.formula.split(" ", 1)[0] != self.typecode_proved:
            return MandatoryHypothesis(False, -1, one.label)
        tree = self.parsed(assertion, one.formula, leaves, scope)
        return MandatoryHypothesis(False, tree, one.label)

    def parsed(self, assertion: Assertion, formula: str, leaves: dict[str, int], scope: str) -> int:
        """The tree of a formula of an assertion. One that has none by the syntax has a form of its
        own."""
        key = (formula, scope)
        found = self._parsed.get(key)
        if found is None:
            found = next(self._known, None)
            if found is None:
                typecode, *symbols = formula.split(" ")
                kind = None if typecode == self.typecode_proved else typecode
                try:
                    found = self.grammar.parsed(kind, symbols, leaves)
                except NotRead as why:
                    self.unread.append(f"{assertion.label}: {why}")
                    found = self.grammar.flat(symbols, leaves)
            self._parsed[key] = found
        return found

    def parts(self) -> dict[str, bytes] | None:
        """What can be kept of all trees: what they are made of, and which are the formulas that
        were parsed, in order. None where a formula isn't one of the syntax."""
        if any(form.label is None for form in self.grammar.forms):
            return None
        trees = self.trees
        return {
            "heads": array("q", trees.heads).tobytes(),
            "counts": array("q", map(len, trees.parts)).tobytes(),
            "parts": array("q", chain.from_iterable(trees.parts)).tobytes(),
            "formulas": array("q", self._parsed.values()).tobytes(),
        }

    def restored(self, kept: Mapping[str, bytes]) -> Iterator[int]:
        """Makes the trees that were kept. Returns those of the formulas."""
        numbers = {name: array("q") for name in kept}
        for name, each in numbers.items():
            each.frombytes(kept[name])
        start = 0
        for head, count in zip(numbers["heads"], numbers["counts"]):
            self.trees.made((head, *numbers["parts"][start : start + count]))
            start += count
        return iter(numbers["formulas"])

    def code(self, rule: Rule) -> Code:
        """The pattern of a rule's formula."""
        if rule.code is None:
            rule.code = self.trees.code(rule.tree, rule.mandatory_variables)
        return rule.code

    def scope(self, rule: Rule) -> Scope:
        """What binds the proof of a theorem."""
        return Scope(self, rule)

    def pairs(self, rule: Rule) -> list[tuple[int, int]]:
        """The pairs of a rule's variables that must be distinct."""
        names = {self.grammar.variables[each][1]: each for each in rule.mandatory_variables}
        frame = self.text.assertions[rule.number].frame()
        return [(names[one], names[other]) for one, other in frame.pairs()]


def see_size(database: Database) -> None:
    """NoAnswer where a database has too much of something."""
    axioms, assertions = len(database.content.columns), len(database.text.assertions)
    variables = len({*floating_of(database.data()).values()})
    for number, most, what in (
        (assertions, MOST_ASSERTIONS, "assertions"),
        (variables, MOST_VARIABLES, "variables"),
        (axioms * assertions, MOST_MARKS, "pairs of an assertion and an axiom"),
    ):
        if number > most:
            raise NoAnswer(f"{database.name}: has more than {most} {what}, too many to search")


def rules_of(database: Database, typecode: str) -> Rules:
    """The rules of a database, whose trees are kept. NoAnswer where these would be too many."""
    see_size(database)
    progress.now(f"reading the formulas of {database.name}")
    key = result_key(FORM, "trees", database.key, typecode)
    kept = cache.load(key) if database.uses_cache else None
    rules = Rules(database.text, typecode, kept)
    parts = rules.parts() if database.uses_cache and kept is None else None
    if parts is not None:
        cache.store(key, parts)
    return rules


class Scope:
    """The variables that the proof of a theorem may have, with the labels of their `$f`, and which
    of them are distinct."""

    def __init__(self, rules: Rules, rule: Rule) -> None:
        self.labels = {each.number: each.label for each in rule.hypotheses if each.is_floating}
        self.names = {rules.grammar.variables[each][1]: each for each in rule.mandatory_variables}
        self.said = rules.text.assertions[rule.number].said
        self._apart: dict[int, int] | None = None

    def add_dummy(self, variable: int, symbol: str, label: str) -> None:
        """Adds a dummy variable."""
        self.labels.setdefault(variable, label)
        self.names.setdefault(symbol, variable)

    def apart(self) -> dict[int, int]:
        """For each variable the bits of those from which it is distinct."""
        if self._apart is None:
            self._apart = {}
            for pair in PAIR.findall(self.said):
                if pair[0] in self.names and pair[1] in self.names:
                    one, other = (self.names[name] for name in pair)
                    self._apart[one] = self._apart.get(one, 0) | 1 << other
                    self._apart[other] = self._apart.get(other, 0) | 1 << one
        return self._apart


def form_of(assertion: Assertion, given: Sequence[Hypothesis]) -> Form:
    """The form of a syntax axiom."""
    typecodes, symbols = zip(*(each.formula.split(" ") for each in given)) if given else ((), ())
    indices = {symbol: index for index, symbol in enumerate(symbols)}
    items = tuple(indices.get(symbol, symbol) for symbol in assertion.formula.split(" ")[1:])
    return Form(assertion.label, assertion.typecode, items, tuple(typecodes))


def has_fixed_typecodes(floating: Mapping[str, tuple[str, str]]) -> bool:
    """Whether no variable has `$f` of several typecodes, so that a formula has the same tree under
    all hypotheses."""
    return len({*floating.values()}) == len({variable for _, variable in floating.values()})
