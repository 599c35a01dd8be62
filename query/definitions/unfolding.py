"""Definitions unfolded: the statement of a theorem in primitive forms, and a database without one
of its definitions.

The second needs no belief: what comes out is verified. It is made for definitions without dummies,
whose right side has all variables of the left one. Then each formula has the right side in place of
the left one, and so has each proof where it builds a formula. What the definition said is that the
right side equals itself, for which there is a theorem. A dummy would need other names in each
place, and these would have to be proved to make no difference.
"""

from __future__ import annotations

import re
from collections.abc import Iterator, Mapping, Sequence
from dataclasses import dataclass, field
from typing import NamedTuple

from query.answers.errors import NoAnswer
from query.definitions.soundness import YES, Definition, Definitions
from query.formulas.grammar import NotRead, Part, Tree
from query.formulas.syntax import read_as
from query.platform import progress
from query.program.refusals import Refused
from query.program.source import Source
from query.proofs.layout import Made, laid_out, letters_in, line_width
from query.proofs.letters import numbers_of
from query.reports.database import Database
from query.texts.assertions import Assertion
from query.texts.floating import floating_in
from query.texts.text import Text
from query.texts.uncommented import without_comments

MOST_SYMBOLS, MOST_CHANGED = 3_000_000, 30_000_000
"""So many symbols and parts are gone through at the most, to unfold a statement, and to take a
definition out of a database."""
SIGNS_OF_SYMBOL = 16
"""A symbol counts as one more for so many of its signs."""
STRETCH, FORMULAS_TOLD, PROOFS_TOLD = 100_000, 10_000, 100
"""After so many of these it is told how far it is; of a database after so many formulas, and after
so many proofs that are changed."""
STATEMENT = re.compile(rb"\$[eap](?=\s)")


class Closed(NamedTuple):
    """A part of a formula, with what stands for its variables: other parts, or names."""

    tree: Tree
    symbols: Sequence[str]
    part: Part
    values: Mapping[str, "Closed | str"]


class Unfolder:
    """Unfolds definitions, which are given by their forms. Dummies get names that are none of the
    symbols `known`. It writes at most `most` symbols altogether."""

    def __init__(self, by_form: Mapping[str, Definition], known: set[str], most: int) -> None:
        self.by_form = by_form
        self.known = known
        self.most = self.left = most
        self.count = 0
        self.told = 0

    def take(self, count: int = 1) -> None:
        """Counts what is written. NoAnswer where it is too much."""
        self.left -= count
        if self.left < 0:
            raise NoAnswer("unfolded, it would be too long")
        done = self.most - self.left
        if done >= self.told + STRETCH:
            self.told = done
            progress.now(f"unfolding, {done} of at most {self.most} symbols and parts are done")

    def unfolded(self, tree: Tree, symbols: Sequence[str]) -> list[str]:
        """The symbols of a formula in which the definitions are unfolded."""
        found: list[str] = []
        left: list[Closed | str] = [Closed(tree, symbols, tree.root, {})]
        while left:
            each = left.pop()
            self.take()
            if isinstance(each, str):
                self.take(len(each) // SIGNS_OF_SYMBOL)
                found.append(each)
            elif each.part not in each.tree.rules:
                name = each.symbols[each.part.start]
                left.append(each.values.get(name, name))
            elif each.tree.rules[each.part] in self.by_form:
                left.append(self.opened(each, self.by_form[each.tree.rules[each.part]]))
            else:
                left += reversed([*in_order(each)])
        return found

    def opened(self, each: Closed, definition: Definition) -> Closed:
        """The right side of a definition, for a part that is of the form which it defines."""
        parts = each.tree.below[each.part]
        values: dict[str, Closed | str] = {
            name: each._replace(part=part) for name, part in zip(definition.left, parts)
        }
        for dummy in definition.dummies():
            self.count += 1
            values[dummy] = new_name(dummy, self.count, self.known)
        return Closed(definition.tree, definition.symbols, definition.right, values)


def new_name(dummy: str, count: int, known: set[str]) -> str:
    """A name for a dummy that nothing else has."""
    name = f"{dummy}_{count}"
    while name in known:
        name += "_"
    return name


def in_order(closed: Closed) -> Iterator[Closed | str]:
    """The symbols and parts of a part."""
    place = closed.part.start
    for part in closed.tree.below[closed.part]:
        yield from closed.symbols[place : part.start]
        yield closed._replace(part=part)
        place = part.end
    yield from closed.symbols[place : closed.part.end]


def statement(judged: Definitions, one: Assertion) -> Iterator[str]:
    """The `$e` of an assertion and what it says, each as a line, with all sound definitions
    unfolded. NoAnswer where they would be too long."""
    by_form = {
        each.defined: each
        for label, each in judged.definitions.items()
        if judged.verdicts[label].sound == YES
    }
    _, variables = read_as(one)
    given = [each.formula for each in one.frame().essential()]
    known = {*judged.symbols(), *variables}
    unfolder = Unfolder(by_form, known, MOST_SYMBOLS)
    for formula in (*given, one.formula):
        typecode, *symbols = formula.split(" ")
        try:
            tree = judged.tree(typecode, symbols, variables)
        except NotRead as why:
            raise NoAnswer(f"{one.label} can't be read: {why}") from None
        yield " ".join((typecode, *unfolder.unfolded(tree, symbols)))


@dataclass
class Steps:
    """The steps of a proof, by numbers."""

    nodes: dict[int, Made] = field(default_factory=dict)

    def add(self, label: str, parts: Sequence[int] = ()) -> int:
        """Adds a step, which takes others. Returns its number."""
        number = len(self.nodes)
        self.nodes[number] = Made(label, list(parts))
        return number

    def compressed(self, root: int, mandatory: Sequence[str]) -> tuple[list[str], str]:
        """The labels and the letters of the proof that ends with a step."""
        numbers = {label: place for place, label in enumerate(mandatory)}
        left = [root]
        while left:
            node = self.nodes[left.pop()]
            node.uses += 1
            if node.uses == 1:
                numbers.setdefault(node.label, len(numbers))
                left += reversed(node.parts)
        return list(numbers)[len(mandatory) :], letters_in(self.nodes, root, numbers)


class Without:
    """Makes a database without a definition."""

    def __init__(self, text: Text, judged: Definitions, label: str, name: str) -> None:
        self.text = text
        self.judged = judged
        self.label = label
        self.each = self.found(label, name)
        theorem = judged.grounds.theorem_for(("reflexive", judged.equalities[self.each.typecode]))
        assert theorem is not None  # since the definition is sound
        self.reflexive = theorem
        self.signs = set(judged.grammar.constants(self.each.defined))
        self.frames: dict[str, list[str]] = {}
        self.unfolder = Unfolder({self.each.defined: self.each}, set(), MOST_CHANGED)

    def found(self, label: str, name: str) -> Definition:
        """The definition. NoAnswer where it can't be taken out."""
        verdict = self.judged.verdicts.get(label)
        if verdict is None:
            raise NoAnswer(f"{name}: {label} is no definition")
        if verdict.sound != YES:
            raise NoAnswer(f"{name}: {label} is `{verdict.sound}`: {verdict.why}")
        each = self.judged.definitions[label]
        if each.dummies():
            names = ", ".join(each.dummies())
            raise NoAnswer(
                f"{name}: {label} has dummies ({names}), whose names would have to change"
            )
        lacking = [one for one in each.left if one not in each.on_the_right()]
        if lacking:
            raise NoAnswer(f"{name}: the right side of {label} lacks {lacking[0]}")
        return each

    def data(self) -> bytes:
        """The new database."""
        bare_text = without_comments(self.text.data)
        edits = [*self.statements(bare_text), *self.proofs(bare_text)]
        for gone in (self.label, self.each.defined):
            one = self.text.by_label[gone]
            edits = [each for each in edits if not one.place <= each[0] < one.end]
            edits.append((one.place, one.end, b""))
        parts = []
        place = 0
        for start, end, new in sorted(edits):
            parts += [self.text.data[place:start], new]
            place = end
        return b"".join([*parts, self.text.data[place:]])

    def statements(self, bare_text: bytes) -> Iterator[tuple[int, int, bytes]]:
        """What has to stand in place of formulas: from where to where, and what."""
        kinds: dict[str, str] = {}
        for each in floating_in(bare_text):
            if kinds.setdefault(each.variable, each.typecode) != each.typecode:
                raise NoAnswer(f"the variable {each.variable} is of two typecodes")
        for number, match in enumerate(STATEMENT.finditer(bare_text)):
            if number % FORMULAS_TOLD == 0:
                progress.now(f"unfolding formulas, {number} were looked at")
            end = bare_text.index(b"$", match.end())
            typecode, *symbols = bare_text[match.end() : end].decode("latin-1").split()
            if self.signs <= {*symbols}:
                formula = self.formula(typecode, symbols, kinds)
                if formula is not None:
                    yield match.end(), end, f" {typecode} {' '.join(formula)} ".encode("latin-1")

    def formula(
        self, typecode: str, symbols: list[str], kinds: Mapping[str, str]
    ) -> list[str] | None:
        """A formula without the form; None where it hasn't it."""
        try:
            tree = self.judged.tree(typecode, symbols, kinds)
        except NotRead as why:
            raise NoAnswer(f"a formula can't be read: {why}") from None
        if self.each.defined not in tree.rules.values():
            return None
        return self.unfolder.unfolded(tree, symbols)

    def proofs(self, bare_text: bytes) -> Iterator[tuple[int, int, bytes]]:
        """The same of proofs."""
        changed: list[tuple[int, int, Assertion, list[str]]] = []
        wanted = {self.label, self.each.defined}
        for one in self.text.assertions:
            if one.letter != "p":
                continue
            start = bare_text.index(b"$=", one.place) + 2
            words = bare_text[start : one.end - 2].decode("latin-1").split()
            if not wanted.isdisjoint(words):
                changed.append((start, one.end - 2, one, words))
        width = line_width(self.text.data[start:end] for start, end, _, _ in changed)
        for number, (start, end, one, words) in enumerate(changed):
            if number % PROOFS_TOLD == 0:
                progress.now(f"unfolding proofs, {number} of {len(changed)} are done")
            if one.number < self.text.by_label[self.reflexive].number and self.label in words:
                raise NoAnswer(f"{one.label} stands before {self.reflexive} and cites {self.label}")
            labels, letters = self.proof(one, words)
            yield start, end, laid_out(labels, letters, self.text.data[start:end], width)

    def proof(self, one: Assertion, words: list[str]) -> tuple[list[str], str]:
        """The labels and letters of a proof without the definition."""
        mandatory = [each.label for each in one.frame().hypotheses()]
        steps = Steps()
        stack: list[int] = []
        marked: list[int] = []
        if words[0] != "(":
            for word in words:
                self.step(steps, stack, word)
            return steps.compressed(stack[-1], mandatory)
        end = words.index(")")
        labels = [*mandatory, *words[1:end]]
        for number in numbers_of("".join(words[end + 1 :])):
            if number < 0:
                marked.append(stack[-1])
            elif number < len(labels):
                self.step(steps, stack, labels[number])
            else:
                stack.append(marked[number - len(labels)])
        return steps.compressed(stack[-1], mandatory)

    def step(self, steps: Steps, stack: list[int], label: str) -> None:
        """Carries out a step, which is another one where it builds the form or cites the
        definition."""
        names = self.names(label)
        parts = stack[len(stack) - len(names) :]
        del stack[len(stack) - len(names) :]
        if label == self.label:
            right = self.built(steps, dict(zip(names, parts)))
            stack.append(steps.add(self.reflexive, [right]))
        elif label == self.each.defined:
            own, _ = read_as(self.text.by_label[label])
            ordered = [each for each in own if each in names]
            by_name = dict(zip(names, parts))
            values = {name: by_name[each] for name, each in zip(self.each.left, ordered)}
            stack.append(self.built(steps, values))
        else:
            stack.append(steps.add(label, parts))

    def built(self, steps: Steps, values: Mapping[str, int]) -> int:
        """The step that builds the right side, of those that build what stands for variables."""
        each, made = self.each, dict[Part, int]()
        left = [each.right]
        while left:
            part = left[-1]
            if part not in each.tree.rules:
                made[left.pop()] = values[each.symbols[part.start]]
                continue
            below = each.tree.below[part]
            missing = [one for one in below if one not in made]
            left += missing
            if not missing:
                rule = each.tree.rules[part]
                own, _ = read_as(self.text.by_label[rule])
                names = self.names(rule)
                by_name = dict(zip((one for one in own if one in names), below))
                self.unfolder.take()
                made[left.pop()] = steps.add(rule, [made[by_name[name]] for name in names])
        return made[each.right]

    def names(self, label: str) -> list[str]:
        """What a step takes: for a `$f` its variable, for a `$e` its label."""
        if label not in self.frames:
            one = self.text.by_label.get(label)
            given = [] if one is None else one.frame().hypotheses()
            self.frames[label] = [
                each.formula.split(" ")[-1] if each.kind == "f" else each.label for each in given
            ]
        return self.frames[label]


def without(database: Database, judged: Definitions, label: str) -> bytes:
    """A database without a definition, which is verified. NoAnswer where there is none."""
    text = database.text
    made = Without(text, judged, label, database.name)
    data = made.data()
    new = Database(Source("the new database", data), database.options, False)
    try:
        after = new.text
    except Refused as refused:
        raise NoAnswer(f"{database.name}: without {label} {refused.said()}") from None
    gone = {label, made.each.defined}
    kept = [one for one in text.assertions if one.label not in gone]
    if [one.label for one in kept] != [one.label for one in after.assertions]:
        raise NoAnswer(f"{database.name}: without {label} there are other statements")
    for one, other in zip(kept, after.assertions):
        typecode, *symbols = one.formula.split(" ")
        _, variables = read_as(one)
        wanted = symbols
        if made.signs <= {*symbols}:
            wanted = made.formula(typecode, symbols, variables) or symbols
        if other.formula != " ".join((typecode, *wanted)):
            raise NoAnswer(f"{database.name}: without {label} {one.label} says something else")
    return data
