"""On what definitions rest: on definitions that are sound themselves, and on theorems that don't
need the definition which is to be taken out of proofs by them.

What a definition needs is a list of facts, each a tuple of words. That a definition can be taken
out of proofs is one, `("df-", LABEL)`; what a theorem says is another, such as `("reflexive",
"wb")`. `("under", FORM)` is that equals under a condition may be put into a form, unfolded, and
that the variables which it binds may have other names; `("through", FORM)` that equals may be put
into it. `("proved", LABEL)` is that an assertion rests on nothing but axioms and sound definitions.
What holds is the least that the rules allow, so nothing rests on itself.
"""

from __future__ import annotations

from collections.abc import Callable, Collection, Iterable, Iterator, Mapping, Sequence
from dataclasses import dataclass

from query.definitions.clauses import Clauses
from query.definitions.equality import Known
from query.formulas.syntax import PROVABLE, SETVAR, WFF
from query.texts.assertions import Assertion

BEGINNING = "df-"

FOUND_BY_OTHERS = ("under", "through", "proved")
"""Facts that are found by rules over others of their kind."""

Need = tuple[str, ...]
Cites = Callable[[str], Collection[str]]
"""For the label of a theorem what it cites; for an axiom, or one that is left open, nothing."""


@dataclass(frozen=True)
class Ground:
    """A definition as it is seen here. `equality` is that by which it is one, and `forms` are those
    of its right side. `equation` has the symbols of `RIGHT = RIGHT` with other dummies on its right
    side, and `kinds` the typecodes of its variables; `left` are those of the left side. `doubt` is
    what a theorem has to justify: a condition, and why."""

    label: str
    defined: str
    equality: str
    forms: frozenset[str]
    has_dummies: bool
    equation: Sequence[str]
    kinds: Mapping[str, str]
    left: frozenset[str]
    doubt: tuple[str, str] | None


class Grounds:
    """Finds which definitions are sound. `definers` has for each form that is defined the label of
    its definition; `trusted` are definitions that are axioms, and `unproved` theorems that are left
    open."""

    def __init__(
        self,
        grounds: Sequence[Ground],
        known: Known,
        definers: Mapping[str, str],
        cites: Cites,
        trusted: Collection[str],
        unproved: Collection[str],
    ) -> None:
        self.known = known
        self.definers = definers
        self.cites = cites
        self.trusted = trusted
        self.unproved = unproved
        self.clauses: Clauses[Need] = Clauses()
        self.needs: dict[Need, list[Need]] = {}
        """What each fact needs that isn't a theorem's."""
        self.because: dict[Need, Need] = {}
        self.grounds = grounds

    def found(self, assertions: Sequence[Assertion]) -> set[Need]:
        """All that holds."""
        for each in self.grounds:
            self.add(each)
        for said, theorems in sorted(self.known.found.items()):
            self.clauses.add(("exists", *said), [])
            for theorem in theorems:
                self.clauses.add(said, [self.proved(theorem)])
        holds = self.clauses.implied()
        left = [each for each in self.grounds if each.has_dummies and of(each) not in holds]
        wanted: dict[Need, list[Ground]] = {}
        for each in left:
            wanted.setdefault(with_typecodes(each.equation, each.kinds), []).append(each)
        for key, theorem in justifications(wanted, assertions):
            self.clauses.add(("justified", *key), [self.proved(theorem)])
        for key, grounds in wanted.items():
            for each in grounds:
                # What it needs besides is what it needs without its dummies.
                self.clauses.add(of(each), [*self.plain(each), ("justified", *key)])
        self.holds = self.clauses.implied() if left else holds
        return self.holds

    def add(self, each: Ground) -> None:
        """Adds what a definition needs, and what has to hold for its form."""
        for word in ("under", "through"):
            self.rule((word, each.defined), [(word, form) for form in sorted(each.forms)])
        for form in each.forms:
            if form not in self.definers:
                self.primitive(form)
        needs = [*self.plain(each), *(self.for_dummies(each) if each.has_dummies else ())]
        if each.doubt is None:
            self.rule(of(each), needs)
        else:
            self.needs[of(each)] = needs

    def rule(self, head: Need, needs: list[Need]) -> None:
        """Adds a rule. A form may have several definitions, and the first one counts."""
        if head not in self.needs:
            self.needs[head] = needs
            self.clauses.add(head, needs)

    def primitive(self, form: str) -> None:
        """Adds what has to hold for a form without a definition."""
        if ("under", form) in self.needs:
            return
        arguments = self.known.forms[form].arguments
        under: list[Need] = []
        through: list[Need] = []
        for place, kind in enumerate(arguments):
            if kind != SETVAR:
                under.append(("respects under", form, str(place)))
                through.append(("exists", "respects", form, str(place)))
            elif {*arguments} == {SETVAR}:
                under.append(("substitutes", form, str(place)))
            else:
                under.append(("renames", form))
        self.rule(("under", form), under)
        self.rule(("through", form), through)

    def is_open(self, form: str) -> bool:
        """Whether theorems say that equals may be put into a form without a definition. Of formulas
        without an equality they say so by rules."""
        typecode, arguments = self.known.forms[form]
        is_rule = typecode == WFF and not self.known.has_equal_formulas()
        return all(
            ("carries" if is_rule else "respects", form, str(place)) in self.known.found
            for place, kind in enumerate(arguments)
            if kind != SETVAR
        )

    def plain(self, each: Ground) -> Iterator[Need]:
        """What a definition needs that has no dummies."""
        for form in sorted(each.forms):
            if form in self.definers:
                yield BEGINNING, self.definers[form]
        yield "reflexive", each.equality
        if self.known.has_equal_formulas():
            yield "exists", "replaces"
        for form in self.known.equalities.values():
            yield "exists", "symmetric", form
            yield "exists", "transitive", form
        for form in sorted(each.forms):
            yield "through", form

    def for_dummies(self, each: Ground) -> Iterator[Need]:
        """What it needs besides where it has some."""
        yield from (("exists", "replaces"), ("detaches",), ("weakens",))
        for form in self.known.equalities.values():
            yield from ((word, form) for word in ("symmetric", "transitive", "chained"))
        for form in sorted(each.forms):
            yield "under", form

    def proved(self, label: str) -> Need:
        """That an assertion is proved by what is sound. Adds what this needs, and what all needs
        that it rests on, once each."""
        left = [label]
        while left:
            fact = "proved", left.pop()
            if fact not in self.needs:
                self.rule(fact, self.needed_to_prove(fact[1]))
                left += [each[1] for each in self.needs[fact] if each[0] == "proved"]
        return "proved", label

    def needed_to_prove(self, label: str) -> list[Need]:
        """What a theorem cites; the definition that an axiom is, if it isn't on trust; and what
        never holds for a theorem that is left open."""
        if label in self.unproved:
            return [("unproved", label)]
        if cited := self.cites(label):
            return [("proved", each) for each in cited]
        is_definition = label.startswith(BEGINNING) and label not in self.trusted
        return [(BEGINNING, label)] if is_definition else []

    def theorem_for(self, said: Need) -> str | None:
        """The first theorem that says something, and rests on nothing but what is sound."""
        return next(
            (
                theorem
                for theorem in self.known.found.get(said, ())
                if ("proved", theorem) in self.holds
            ),
            None,
        )

    def lacking(self, each: Ground) -> tuple[str, str]:
        """Why a definition isn't sound: the condition, and more."""
        if each.doubt is not None:
            return each.doubt
        if each.has_dummies and not self.known.has_equal_formulas():
            why = f"there is no equality of typecode {WFF}, by which what equals a theorem is one"
            return "equality", f"it has a dummy, and {why}"
        need = self.first_lacking(of(each))
        if need[0] == BEGINNING:
            return "rests", f"its right side has a form of {need[1]}, which isn't seen to be sound"
        condition = "equality"
        if need[0] not in ("exists", "reflexive"):
            condition = "renaming"
        said = need[1:] if need[0] == "exists" else need
        theorems = self.known.found.get(said, ())
        if not theorems:
            return condition, f"no theorem is found which says that {in_words(said)}"
        bad = self.first_lacking(("proved", theorems[0]))
        return condition, f"{theorems[0]}, which says that {in_words(said)}, rests on {bad[1]}"

    def first_lacking(self, head: Need) -> Need:
        """The first of what a fact needs that doesn't hold, itself, or what a form or a proof
        needs."""
        way = []
        need = head
        while need == head or need[0] in FOUND_BY_OTHERS:
            way.append(need)
            if need in self.because:
                need = self.because[need]
                break
            need = next(each for each in self.needs[need] if each not in self.holds)
        self.because |= dict.fromkeys(way, need)
        return need


def of(each: Ground) -> Need:
    """That a definition can be taken out of proofs."""
    return BEGINNING, each.label


def justifications(
    wanted: Mapping[Need, Sequence[Ground]], assertions: Iterable[Assertion]
) -> Iterator[tuple[Need, str]]:
    """The theorems that say of a right side that it equals itself with other dummies, each with
    what it says, by which the definitions are found that it justifies. Which of its variables are
    dummies is the same for all of these."""
    lengths = {len(grounds[0].equation) for grounds in wanted.values()}
    for one in assertions if wanted else ():
        formula = one.formula
        if one.typecode != PROVABLE or one.is_open or formula.count(" ") not in lengths:
            continue
        frame = one.frame()
        hypotheses = [each.formula.split(" ") for each in frame.hypotheses()]
        kinds = {each[-1]: each[0] for each in hypotheses}
        if all(each.kind == "f" for each in frame.hypotheses()):
            symbols = formula.split(" ")[1:]
            key = with_typecodes(symbols, kinds)
            if key in wanted and do_pairs_allow(wanted[key][0], symbols, frame.pairs()):
                yield key, one.label


def with_typecodes(symbols: Sequence[str], kinds: Mapping[str, str]) -> tuple[str, ...]:
    """The symbols of a formula, in which each variable is the number of its first occurrence, with
    its typecode."""
    numbers: dict[str, str] = {}
    for symbol in symbols:
        if symbol in kinds:
            numbers.setdefault(symbol, f"{len(numbers)} {kinds[symbol]}")
    return tuple(numbers.get(each, each) for each in symbols)


def do_pairs_allow(
    ground: Ground, symbols: Sequence[str], pairs: Iterable[tuple[str, str]]
) -> bool:
    """Whether the `$d` of a theorem are about dummies, and these are variables of typecode setvar
    alone."""
    names = dict(zip(symbols, ground.equation))
    dummies = {each for each in names if names[each] in ground.kinds.keys() - ground.left}
    is_plain = all(ground.kinds[names[each]] == SETVAR for each in dummies)
    return all(is_plain and dummies & {*each} for each in pairs)


def in_words(said: Need) -> str:
    """What a theorem says, after `that`."""
    form = said[1] if said[1:] else ""
    part = f" in the place of its variable {int(said[2]) + 1}" if said[2:] else ""
    words = {
        "reflexive": f"{form} is reflexive",
        "symmetric": f"{form} is symmetric",
        "transitive": f"{form} is transitive",
        "chained": f"{form} is transitive under a condition",
        "replaces": f"what equals a theorem of typecode {WFF} is one",
        "carries": f"what equals something may stand for it in {form}{part}",
        "detaches": "what a theorem implies is one",
        "weakens": "a theorem is implied by anything",
        "identity": "a formula implies itself",
        "respects": f"equals may be put into {form}{part}",
        "respects under": f"equals under a condition may be put into {form}{part}",
        "renames": f"the variable that {form} binds may have another name",
        "substitutes": f"an equal variable may be put into {form}{part}",
    }
    return words[said[0]]
