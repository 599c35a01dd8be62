"""Whether definitions are definitions: whether whatever is proved with them, and doesn't speak of
what they define, can be proved without them.

A definition is an axiom of typecode `|-` whose label begins with `df-`. It says that a form, which
a syntax axiom has brought, stands for something else: `( LEFT <-> RIGHT )` or `LEFT = RIGHT`. A
variable of RIGHT that LEFT lacks is a dummy. docs/SOUNDNESS.md has the theorem, the conditions from
which it follows, which are those of `CONDITIONS`, and the proof.
"""

from __future__ import annotations

from bisect import bisect_right
from collections.abc import Collection, Container, Iterable, Iterator, Mapping, Sequence
from dataclasses import dataclass, field, replace

from query.citations.graph import Graph
from query.definitions.equality import Form, Known, ParsedTheorems
from query.definitions.foundations import BEGINNING, Cites, Ground, Grounds, in_words
from query.formulas.ambiguity import Ambiguity, ambiguity
from query.formulas.grammar import Grammar, NotRead, Part, Tree, Twofold
from query.formulas.syntax import CLASS, PROVABLE, SETVAR, WFF, parts_within, read_as
from query.platform import progress
from query.texts.assertions import Assertion

EQUATIONS = {("(", WFF, "<->", WFF, ")"), (CLASS, "=", CLASS)}
"""The forms that are equalities where none are named, by typecodes in place of variables. Where a
database has none of them, those of formulas of another typecode T are that are written `T = T`."""
TRUSTED = ("df-bi", "df-clab", "df-cleq", "df-clel")
"""The definitions that are axioms where none are named: those for which, as set.mm's page
`conventions` says, its rules are too strict."""
NO_EQUALITY = (
    "there is no equality, ( wff <-> wff ), class = class, or T = T of another typecode;"
    " `definitions --equality` names the syntax axioms of others"
)
MOST_LEFT_VARIABLES = MOST_DUMMIES = 100
"""Of more variables nothing is judged, since each two of them are looked at."""
MOST_EQUALITIES = 10
"""So many are found where none are named, since each definition needs what theorems say of all."""

CONDITIONS = {
    "grammar": "each formula has one tree, by all syntax axioms of the database",
    "syntax": "a syntax axiom has no $e, no $d, and no variable twice, and no variable is of |-",
    "setvar": "no syntax axiom is of typecode setvar",
    "read": "each axiom is built by the syntax axioms",
    "form": "it is LEFT = RIGHT, by an equality, without a $e",
    "left": "LEFT is a form with variables, which are all different",
    "new": "the form is in no axiom before, and not in RIGHT",
    "rests": "the forms of RIGHT are primitive, or their definitions are sound",
    "distinct": "no $d is of two variables of LEFT, and each dummy has one with all others",
    "dummy": "a dummy is of typecode setvar, or a theorem justifies it",
    "bound": "a dummy is bound wherever it stands, or a theorem justifies it",
    "renaming": "theorems say that the dummies may have other names",
    "pairs": "where a dummy needs it, no axiom has a $d of two variables other than of setvar",
    "equality": "theorems say that the equality is one",
}
"""What a definition has to keep, in the order in which it is looked at, by the name of each."""
SHAPE = ("form", "left", "new")
"""Those by which an axiom is an equation that says what a new form stands for."""

YES, NO, UNKNOWN, TRUST = "yes", "no", "not judged", "on trust"
NO_VARIABLE = ""
"""No variable is like that."""


@dataclass(frozen=True)
class Verdict:
    """What is found of a definition: `sound` is one of the four words, `condition` the one that it
    breaks, or that isn't seen to be kept, and `why` says more. `defines` is the syntax axiom of the
    form that it defines."""

    label: str
    sound: str
    condition: str | None = None
    why: str | None = None
    defines: str | None = None

    def is_refused(self) -> bool:
        """Whether it is wrong, or isn't seen to have the shape of a definition, so that it may be
        any axiom that is only called one."""
        return self.sound == NO or (self.sound == UNKNOWN and self.condition in SHAPE)


class Broken(Exception):
    """A definition breaks a condition, by what shows that it is wrong. Where it `is_unknown`, it
    isn't seen to keep the condition, or isn't of the form that is judged."""

    def __init__(self, condition: str, why: str, is_unknown: bool = False) -> None:
        super().__init__(why)
        self.condition = condition
        self.is_unknown = is_unknown

    def verdict(self, label: str, defines: str | None = None) -> Verdict:
        """What is found then."""
        sound = UNKNOWN if self.is_unknown else NO
        return Verdict(label, sound, self.condition, str(self), defines)


@dataclass(frozen=True)
class Binding:
    """What a syntax axiom binds, by the numbers of its variables from 0: `free` are those of
    typecode `setvar` that are free in it, and `binds` has for others those in which they are bound.
    `dropped` are the variables that it lacks, unfolded."""

    free: frozenset[int]
    binds: Mapping[int, frozenset[int]]
    dropped: frozenset[int] = frozenset()


def undefined_form(arguments: Sequence[str]) -> Binding:
    """What a syntax axiom binds that has no definition, if it binds what it can."""
    setvars = [number for number, each in enumerate(arguments) if each == SETVAR]
    others = frozenset(number for number, each in enumerate(arguments) if each != SETVAR)
    if not others or len(arguments) > MOST_LEFT_VARIABLES:
        return Binding(frozenset(setvars), {})
    return Binding(frozenset(), dict.fromkeys(setvars, others))


@dataclass
class Definition:
    """A definition that is an equation. `typecode` is that of its sides, `defined` is the label of
    the syntax axiom of its left side, `left` has the variables of that in order, and `right` is the
    right side."""

    one: Assertion
    symbols: list[str]
    variables: dict[str, str]
    tree: Tree
    typecode: str
    defined: str
    left: list[str]
    right: Part
    doubt: tuple[str, str] | None = None
    """What a theorem has to justify: a condition, and why it isn't seen to be kept."""

    def on_the_right(self) -> dict[str, str]:
        """The variables of the right side in order, with their typecodes."""
        symbols = self.symbols[self.right.start : self.right.end]
        return {each: self.variables[each] for each in symbols if each in self.variables}

    def dummies(self) -> dict[str, str]:
        """Those that the left side lacks."""
        return {each: kind for each, kind in self.on_the_right().items() if each not in self.left}

    def equals_anything(self) -> bool:
        """Whether the right side is a dummy alone, so that anything equals the left one."""
        return self.right not in self.tree.rules and bool(self.dummies())

    def forms(self) -> set[str]:
        """The forms of the right side."""
        return {self.tree.rules[part] for part in parts_within(self.tree, self.right)}


@dataclass
class Scopes:
    """What is bound where on a right side. For each variable of typecode `setvar`, `bound` are the
    stretches of symbols in which it is. `free` has the places where it is free, unless a stretch
    of `bound` covers them, or one of `dropped`, which the right side hasn't, unfolded. `places` are
    those of all variables. `known` keeps the answers of `stretches`."""

    bound: dict[str, list[tuple[int, int]]] = field(default_factory=dict)
    dropped: list[tuple[int, int]] = field(default_factory=list)
    free: dict[str, list[int]] = field(default_factory=dict)
    places: dict[str, list[int]] = field(default_factory=dict)
    known: dict[str, tuple[list[int], list[int]]] = field(default_factory=dict)

    def stretches(self, variable: str) -> tuple[list[int], list[int]]:
        """Where the stretches begin in which a variable is bound, or that are dropped, rising, and
        for each where what was begun before or there has ended."""
        if variable not in self.known:
            starts: list[int] = []
            ends: list[int] = []
            for start, end in sorted([*self.bound.get(variable, ()), *self.dropped]):
                starts.append(start)
                ends.append(max(end, ends[-1]) if ends else end)
            self.known[variable] = starts, ends
        return self.known[variable]

    def are_within(self, places: Sequence[int], variable: str = NO_VARIABLE) -> bool:
        """Whether a variable is bound at each of these places, or they are dropped."""
        starts, ends = self.stretches(variable)
        numbers = ((bisect_right(starts, place) - 1, place) for place in places)
        return all(number >= 0 and place < ends[number] for number, place in numbers)

    def is_free(self, variable: str) -> bool:
        """Whether a variable is free somewhere."""
        return not self.are_within(self.free.get(variable, ()), variable)


class Definitions:
    """Judges the definitions of a database. `cites` says what a theorem cites; `trusted` are
    definitions that are taken as axioms, and `equalities` the syntax axioms of the equalities,
    where these aren't `( wff <-> wff )` and `class = class`. Theorems that are left open are axioms
    here."""

    def __init__(
        self,
        assertions: Sequence[Assertion],
        cites: Cites,
        trusted: Collection[str] = TRUSTED,
        equalities: Sequence[str] = (),
    ) -> None:
        axioms = [one for one in assertions if one.letter != "p"]
        self.cites = cites
        self.trusted = frozenset(trusted)
        self.typecodes = {WFF, *(kind for one in axioms for kind in read_as(one)[1].values())}
        self.grammar, self.backward = Grammar(), Grammar()
        self.broken: list[Broken] = []
        """What is broken in the database, so that no definition is sound."""
        if PROVABLE in self.typecodes:
            why = f"a variable is of typecode {PROVABLE}, so anything that is proved may replace it"
            self.broken.append(Broken("syntax", why, True))
        for one in axioms:
            if self.is_syntax(one):
                self.add_syntax(one)
        self.ambiguity = self.see_grammar()
        self.equalities = self.found_equalities(equalities)
        self.first: dict[str, Assertion] = {}
        """For each form the first axiom that has it, itself or in a `$e`."""
        self.pair: str | None = None
        """A `$d` of an axiom for two variables of another typecode than `setvar`."""
        self.read_axioms: list[tuple[Assertion, Tree | Broken]] = []
        """All but those of the syntax, each with its tree, or why it has none."""
        for one in progress.counted(axioms, "reading axioms"):
            if not self.is_syntax(one):
                self.read(one)
        self.forms: dict[str, Binding] = {
            form: undefined_form(arguments) for form, arguments in self.grammar.arguments.items()
        }
        self.definitions: dict[str, Definition] = {}
        self.definers: dict[str, str] = {}
        """For each form that is defined the label of the first definition that does so."""
        self.verdicts: dict[str, Verdict] = {}
        self.judge(assertions)

    def is_syntax(self, one: Assertion) -> bool:
        """Whether an axiom is one of the syntax: of a typecode that variables have."""
        return one.typecode != PROVABLE and one.typecode in self.typecodes

    def add_syntax(self, one: Assertion) -> None:
        """Adds a syntax axiom to the grammar."""
        symbols, variables = read_as(one)
        self.grammar.add(one.label, one.typecode, symbols, variables)
        self.backward.add(one.label, one.typecode, symbols[::-1], variables)
        frame = one.frame()
        if frame.essential():
            self.broken.append(Broken("syntax", f"the syntax axiom {one.label} has a $e", True))
        elif next(frame.pairs(), None) is not None:
            self.broken.append(Broken("syntax", f"the syntax axiom {one.label} has a $d", True))
        elif one.label in self.grammar.equal:
            why = f"the syntax axiom {one.label} has a variable twice"
            self.broken.append(Broken("syntax", why, True))
        if one.typecode == SETVAR:
            why = f"{one.label} is of typecode {SETVAR}, so a {SETVAR} needn't be a variable"
            self.broken.append(Broken("setvar", why, True))

    def see_grammar(self) -> Ambiguity:
        """Whether the grammar is unambiguous."""
        found = ambiguity(self.grammar, self.backward)
        if found.is_unambiguous is False:
            self.broken.append(Broken("grammar", found.why, True))
        elif found.is_unambiguous is None:
            why = f"it isn't known whether each formula has one tree: {found.why}"
            self.broken.append(Broken("grammar", why, True))
        return found

    def found_equalities(self, named: Sequence[str]) -> dict[str, str]:
        """The equalities by typecode: those that are named, or else the usual ones, or else what is
        written as one."""
        shapes = self.grammar.shapes
        usual = [label for label, shape in shapes.items() if shape in EQUATIONS]
        others = [label for label, shape in shapes.items() if is_written_as_equality(shape)]
        others = others[:MOST_EQUALITIES]
        found: dict[str, str] = {}
        for label in [label for label in shapes if label in named] if named else usual or others:
            arguments = self.grammar.arguments[label]
            is_formula = self.grammar.typecodes[label] == WFF
            if is_formula and len(arguments) == 2 and arguments[0] == arguments[1]:
                found.setdefault(arguments[0], label)
        return found

    def read(self, one: Assertion) -> None:
        """Reads an axiom and its `$e`, and notes which forms it has."""
        try:
            trees = self.trees(one)
        except NotRead as why:
            condition = "grammar" if isinstance(why, Twofold) else "read"
            broken = Broken(condition, f"{one.label} can't be read: {why}", True)
            self.broken.append(broken)
            self.read_axioms.append((one, broken))
            return
        self.read_axioms.append((one, trees[0]))
        for tree in trees:
            for form in tree.rules.values():
                self.first.setdefault(form, one)
        variables = read_as(one)[1]
        may_have_pair = sum(kind != SETVAR for kind in variables.values()) > 1
        for name, other in one.frame().pairs() if may_have_pair and self.pair is None else ():
            if SETVAR not in (variables[name], variables[other]):
                self.pair = f"{one.label} has a $d of {name} and {other}"
                break

    def trees(self, one: Assertion) -> list[Tree]:
        """The trees of an axiom and of its `$e`. NotRead where one has none."""
        symbols, variables = read_as(one)
        found = [self.tree(one.typecode, symbols, variables)]
        for each in one.frame().essential():
            typecode, *given = each.formula.split(" ")
            found.append(self.tree(typecode, given, variables))
        return found

    def tree(self, typecode: str, symbols: Sequence[str], variables: Mapping[str, str]) -> Tree:
        """The tree of a formula: of `|-` as a wff, of a typecode that no variable has as what it
        can be read as."""
        if typecode == PROVABLE:
            return self.grammar.tree(WFF, symbols, variables)
        if typecode in self.typecodes:
            return self.grammar.tree(typecode, symbols, variables)
        found = []
        for each in sorted(self.typecodes):
            try:
                found.append(self.grammar.tree(each, symbols, variables))
            except NotRead as why:
                if isinstance(why, Twofold):
                    raise
        if len(found) != 1:
            raise NotRead(f"it is of typecode {typecode}, which no variable has")
        return found[0]

    def judge(self, assertions: Sequence[Assertion]) -> None:
        """Judges all definitions."""
        found = [(one, tree) for one, tree in self.read_axioms if is_definition(one)]
        equations: dict[str, Definition | Broken] = {}
        for one, tree in found:
            try:
                if isinstance(tree, Broken):
                    raise tree
                self.note_definer(one, tree)
                equations[one.label] = self.equation(one, tree)
            except Broken as broken:
                equations[one.label] = broken
        for one, _ in progress.counted(found, "judging definitions"):
            equation_or_not = equations[one.label]
            if isinstance(equation_or_not, Broken):
                self.verdicts[one.label] = equation_or_not.verdict(one.label)
                continue
            try:
                self.see(equation_or_not)
                self.definitions[one.label] = equation_or_not
            except Broken as broken:
                verdict = broken.verdict(one.label, equation_or_not.defined)
                self.verdicts[one.label] = verdict
        self.known = self.found_theorems(assertions)
        self.weigh(assertions)
        for label in self.trusted & self.verdicts.keys():
            self.verdicts[label] = replace(self.verdicts[label], sound=TRUST)
        self.verdicts = {one.label: self.verdicts[one.label] for one, _ in found}

    def note_definer(self, one: Assertion, tree: Tree) -> None:
        """Notes the form of which a definition wants to be one. What other axioms have before is
        primitive, whatever is said of it later."""
        parts = tree.below.get(tree.root)
        form = tree.rules.get(parts[0]) if parts else None
        if form is not None and one.label not in self.trusted:
            user = self.first[form]
            if is_definition(user) and user.label not in self.trusted:
                self.definers.setdefault(form, one.label)

    def equation(self, one: Assertion, tree: Tree) -> Definition:
        """The definition that a formula is. Broken where it is none."""
        symbols, variables = read_as(one)
        if not self.equalities:
            raise Broken("form", NO_EQUALITY, True)
        rule = tree.rules.get(tree.root)
        if rule is None or rule not in self.equalities.values():
            raise Broken("form", f"it is {self.no_equation()}", True)
        if one.frame().essential():
            raise Broken("form", "it has a $e", True)
        left, right = tree.below[tree.root]
        if left not in tree.rules:
            raise variable_as_left(symbols[left.start], symbols[right.start : right.end])
        if any(part in tree.rules for part in tree.below[left]):
            why = "its left side has more than a form and variables"
            if self.leaves_out_cases(one, tree, left):
                raise Broken("left", f"{why}, so it leaves out cases")
            raise Broken("left", why, True)
        names = [symbols[part.start] for part in tree.below[left]]
        if len(set(names)) < len(names):
            raise Broken("left", "its left side has a variable twice")
        defined = tree.rules[left]
        return Definition(one, symbols, variables, tree, left.typecode, defined, names, right)

    def leaves_out_cases(self, one: Assertion, tree: Tree, left: Part) -> bool:
        """Whether a left side that has forms within can only define the outer one, which no axiom
        has before, as one has each of the others. Otherwise it may say what one within is."""
        outer = tree.rules[left]
        within = {tree.rules[part] for part in parts_within(tree, left)} - {outer}
        return self.first[outer] is one and all(self.first[form] is not one for form in within)

    def sides(self, label: str) -> tuple[str, str] | None:
        """The left and the right side of a definition; None where it isn't seen to be an
        equation."""
        each = self.definitions.get(label)
        if each is None:
            return None
        left = each.tree.below[each.tree.root][0]
        parts = (each.symbols[part.start : part.end] for part in (left, each.right))
        one, other = (" ".join(part) for part in parts)
        return one, other

    def spoken_of(self, passed_over: Container[str], opened: Iterable[Assertion]) -> dict[str, str]:
        """For each form that the axioms have, themselves or unfolded by what is sound, the first
        such axiom. Theorems that are left open are among them, sound definitions aren't, and what
        is passed over doesn't count."""
        found: dict[str, str] = {}
        for one in (*(one for one, _ in self.read_axioms if not self.is_sound(one.label)), *opened):
            left = [] if one.label in passed_over else self.forms_of(one)
            while left:
                form = left.pop()
                if form not in found:
                    found[form] = one.label
                    definer = self.definers.get(form, "")
                    left += self.definitions[definer].forms() if self.is_sound(definer) else ()
        return found

    def forms_of(self, one: Assertion) -> list[str]:
        """The forms of an assertion and of its `$e`; none where it can't be read."""
        try:
            return [form for each in self.trees(one) for form in each.rules.values()]
        except NotRead:
            return []

    def is_sound(self, label: str) -> bool:
        """Whether a label is that of a definition which is sound."""
        return label in self.verdicts and self.verdicts[label].sound == YES

    def no_equation(self) -> str:
        """That a formula is no equation, in words."""
        shapes = []
        for typecode, form in sorted(self.equalities.items(), reverse=True):
            sides = iter(("LEFT", "RIGHT"))
            shape = self.grammar.shapes[form]
            shapes.append(" ".join(next(sides) if each == typecode else each for each in shape))
        return f"neither {' nor '.join(shapes)}" if len(shapes) > 1 else f"not {shapes[0]}"

    def see(self, each: Definition) -> None:
        """Broken where a definition doesn't keep what is seen of itself and what is before it."""
        self.see_new(each)
        if len(each.left) > MOST_LEFT_VARIABLES:
            why = f"the left side has more than {MOST_LEFT_VARIABLES} variables"
            raise Broken("left", why, True)
        if len(each.dummies()) > MOST_DUMMIES:
            raise Broken("distinct", f"it has more than {MOST_DUMMIES} dummies", True)
        see_distinct(each)
        self.see_forms(each)
        self.see_bound(each)
        is_closed = SETVAR not in (each.variables[name] for name in each.left)
        if each.dummies() and is_closed and self.pair is not None:
            raise Broken("pairs", f"it has a dummy, and {self.pair}", True)

    def see_new(self, each: Definition) -> None:
        """Broken where the form is used before, or on the right side."""
        if each.defined == self.equalities[each.typecode]:
            raise Broken(
                "new", f"its left side has the form {each.defined}, by which it is an equation"
            )
        if each.defined in each.forms():
            raise Broken("new", f"its right side has the form {each.defined}, which it defines")
        user = self.first[each.defined]
        if user.number < each.one.number:
            raise Broken(
                "new", f"{user.label} before it has the form {each.defined}, which it defines"
            )
        if each.defined in self.equalities.values():
            raise Broken("new", f"its left side has the form of an equality, {each.defined}", True)

    def see_forms(self, each: Definition) -> None:
        """Broken where a form of the right side has a definition that isn't one."""
        for form in sorted(each.forms()):
            definer = self.definers.get(form)
            if definer is not None and definer not in self.definitions:
                later = definer not in self.verdicts
                why = "only comes after it" if later else f"is `{self.verdicts[definer].sound}`"
                raise Broken(
                    "rests", f"its right side has the form {form}, and {definer} {why}", True
                )

    def see_bound(self, each: Definition) -> None:
        """Broken where a dummy isn't bound on the right side. Where that isn't seen, a theorem has
        to say that it does no harm. Notes what the form binds."""
        scopes = self.scopes(each)
        for name, kind in each.dummies().items():
            if kind != SETVAR:
                what = f"the dummy {name} is no {SETVAR}"
                if each.equals_anything():
                    what = f"its right side is just the dummy {name}, so it equals anything"
                why = f"{what}, and no theorem is found which justifies it"
                each.doubt = each.doubt or ("dummy", why)
            elif scopes.is_free(name):
                if name not in scopes.bound:
                    raise Broken("bound", f"nothing binds the dummy {name}")
                why = f"the dummy {name} stands also where nothing binds it"
                each.doubt = each.doubt or ("bound", why)
        self.forms[each.defined] = binding_of(each, scopes)

    def scopes(self, each: Definition) -> Scopes:
        """What is bound where on the right side."""
        found = Scopes()
        for part in parts_within(each.tree, each.right, variables=True):
            rule = each.tree.rules.get(part)
            if rule is None:
                found.places.setdefault(each.symbols[part.start], []).append(part.start)
                continue
            arguments, form = each.tree.below[part], self.forms[rule]
            for number in form.dropped:
                found.dropped.append((arguments[number].start, arguments[number].end))
            for number, argument in enumerate(arguments):
                variable = each.symbols[argument.start]
                if number in form.free:
                    found.free.setdefault(variable, []).append(argument.start)
                for other in form.binds.get(number, ()):
                    stretch = arguments[other].start, arguments[other].end
                    found.bound.setdefault(variable, []).append(stretch)
        return found

    def symbols(self) -> set[str]:
        """The symbols of all axioms that aren't of the syntax, and the constants of those."""
        constants = (self.grammar.constants(form) for form in self.grammar.shapes)
        found = {symbol for each in constants for symbol in each}
        return found.union(*(one.formula.split(" ") for one, _ in self.read_axioms))

    def primitives(self) -> list[str]:
        """The forms that have no definition, or one that is on trust."""
        return [form for form in self.grammar.shapes if form not in self.definers]

    def found_theorems(self, assertions: Sequence[Assertion]) -> Known:
        """What theorems say of the equalities and the primitive forms."""
        forms = {
            label: Form(self.grammar.typecodes[label], tuple(self.grammar.arguments[label]))
            for label in self.primitives()
        }
        parsed = ParsedTheorems(self.grammar, assertions, forms).all if self.definitions else []
        return Known(parsed, forms, self.equalities)

    def weigh(self, assertions: Sequence[Assertion]) -> None:
        """Finds which definitions rest on nothing but what is sound without them."""
        seen = [self.ground(each) for each in self.definitions.values()]
        unproved = {one.label for one in assertions if one.is_open}
        grounds = Grounds(seen, self.known, self.definers, self.cites, self.trusted, unproved)
        holds = grounds.found(assertions)
        self.grounds = grounds
        for each in seen:
            if (BEGINNING, each.label) not in holds:
                condition, why = grounds.lacking(each)
                sound = NO if self.definitions[each.label].equals_anything() else UNKNOWN
                verdict = Verdict(each.label, sound, condition, why, each.defined)
            elif self.broken:
                verdict = self.broken[0].verdict(each.label, each.defined)
            else:
                verdict = Verdict(each.label, YES, defines=each.defined)
            self.verdicts[each.label] = verdict

    def basis(self) -> Iterator[tuple[str, str | None, str]]:
        """On what the verdicts rest: what it is, its label, and what it says."""
        yield "grammar", None, self.ambiguity.why or "each formula has one tree"
        for label, verdict in self.verdicts.items():
            if verdict.sound == TRUST:
                yield TRUST, label, verdict.why or "it would be a definition"
        for form in self.equalities.values():
            yield "equality", form, " ".join(self.grammar.shapes[form])
        for form in self.primitives():
            shape = " ".join((self.grammar.typecodes[form], *self.grammar.shapes[form]))
            closed = "; no theorem is found which says that equals may be put into it"
            if self.grounds.is_open(form):
                closed = ""
            yield "primitive", form, shape + closed
        for said in self.known.found:
            theorem = self.grounds.theorem_for(said)
            if theorem is not None and (said[0] != "respects" or self.is_needed(said)):
                yield "theorem", theorem, in_words(said)

    def is_needed(self, said: tuple[str, ...]) -> bool:
        """Whether that equals may be put into a form isn't said under a condition too."""
        return ("respects under", *said[1:]) not in self.known.found

    def ground(self, each: Definition) -> Ground:
        """A definition as `Grounds` sees it."""
        dummies = each.dummies()
        right = each.symbols[each.right.start : each.right.end]
        # No symbol has a space, so these are new ones.
        others = {name: f"{name} " for name in dummies}
        sides = iter((right, [others.get(symbol, symbol) for symbol in right]))
        equality = self.equalities[each.typecode]
        equation: list[str] = []
        for part in self.grammar.shapes[equality] if dummies else ():
            equation += next(sides) if part == each.typecode else [part]
        kinds = each.variables | {others[name]: kind for name, kind in dummies.items()}
        return Ground(
            each.one.label,
            each.defined,
            equality,
            frozenset(each.forms()),
            bool(dummies),
            equation,
            kinds,
            frozenset(each.left),
            each.doubt,
        )


def is_written_as_equality(shape: Sequence[str]) -> bool:
    """Whether a form, by typecodes in place of variables, is `T = T`. A variable of typecode
    `setvar` is no formula."""
    return len(shape) == 3 and shape[1] == "=" and shape[0] == shape[2] != SETVAR


def variable_as_left(name: str, right: Container[str]) -> Broken:
    """What is found where a left side is just a variable. Where the right one lacks it, all is
    equal; `( ph <-> -. -. ph )` may be right, and defines nothing."""
    if name in right:
        return Broken("left", "its left side is a variable", True)
    return Broken("left", "its left side is a variable, so anything equals the right one")


def binding_of(each: Definition, scopes: Scopes) -> Binding:
    """What the form of a definition binds."""
    setvars = [number for number, name in enumerate(each.left) if each.variables[name] == SETVAR]
    binds = {}
    for number in setvars:
        name = each.left[number]
        places = {
            other: (scopes.free if other in setvars else scopes.places).get(each.left[other], ())
            for other in range(len(each.left))
            if other != number
        }
        binds[number] = frozenset(
            other for other, those in places.items() if scopes.are_within(those, name)
        )
    free = frozenset(number for number in setvars if scopes.is_free(each.left[number]))
    names = enumerate(each.left)
    dropped = (number for number, name in names if scopes.are_within(scopes.places.get(name, ())))
    return Binding(free, binds, frozenset(dropped))


def see_distinct(each: Definition) -> None:
    """Broken where there is a `$d` that mustn't be, or none that has to be."""
    pairs = set(each.one.frame().pairs())
    left = set(each.left)
    for one, other in sorted(pairs):
        if one in left and other in left:
            why = f"a $d keeps {one} and {other} of its left side distinct, so it leaves out cases"
            raise Broken("distinct", why)
    dummies = each.dummies()
    for dummy in dummies:
        for other in [*each.left, *dummies]:
            if other != dummy and tuple(sorted((dummy, other))) not in pairs:
                why = f"no $d says that the dummy {dummy} is distinct from {other}"
                raise Broken("distinct", why)


def cites_by(graph: Graph) -> Cites:
    """What a theorem cites, by the citations of a database."""

    def cites(label: str) -> list[str]:
        node = graph.index.get(label)
        return [] if node is None else [graph.labels[each] for each in graph.cites[node]]

    return cites


def is_definition(one: Assertion) -> bool:
    """Whether an assertion is called a definition."""
    return one.kind == "a" and one.typecode == PROVABLE and one.label.startswith(BEGINNING)
