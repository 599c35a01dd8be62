"""The search for proofs that can do without axioms.

A formula of a proof is *free* of axioms where it is a hypothesis; or where what the proof cites for
it doesn't rest on them, and its premises are free; or where some statement before the theorem
becomes it, doesn't rest on them, has its premises among the free formulas, and keeps the conditions
of distinct variables. This is repeated until nothing is added. A statement is only cited where the
theorem rests on all of its axioms anyway, so nothing is gained; or where it may gain the others.
"""

from __future__ import annotations

from collections import defaultdict
from collections.abc import Callable, Collection, Iterable, Mapping, Sequence
from dataclasses import dataclass

from query.citations.bits import bits_of, joined
from query.platform import progress
from query.spare.conventions import Conventions
from query.spare.index import Budget, Index, Key, keys_for, pattern_key
from query.spare.proofs import Proof, Step
from query.spare.rules import Rule, Rules
from query.spare.trees import Binding, Code, Trees

MOST_NEW = 20_000
"""So many formulas are tried as new steps of one proof."""
MOST_TRIED = 5000
"""So many formulas are tried as premises of one statement for one formula."""
STEPS, STEPS_OF_FORMULA = 200_000, 100_000
"""So many steps, and so many for each formula of a proof, are taken to search it; with more it is
given up. Of 360 proofs of set.mm none took more than a quarter. A step is less than a look at a
statement or at a premise."""
MOST_KEYS = 20_000_000
"""For so many pairs of a statement and a key of hypotheses it is noted which statements need
which."""

Steps = dict[int, Step | None]
"""For each free formula the step by which it is; None for a hypothesis."""


@dataclass(slots=True)
class Premise:
    """A `$e` hypothesis of a statement that may be cited: its tree, its index among the `$e`, its
    key, its variables, its code, and which variable its first part is, and its last; -1 where that
    is none."""

    pattern: int
    index: int
    key: Key | None
    variables: frozenset[int]
    code: Code
    first: int
    last: int


@dataclass(slots=True)
class Citable:
    """A statement that may be cited. `variables` are those of its formula in the order of the
    index, `premises` its `$e`, first those that have no other variables, `keys` those of these, and
    `pairs` those of its variables that must be distinct."""

    rule: Rule
    variables: list[int]
    premises: list[Premise]
    keys: list[Key | None]
    pairs: list[tuple[int, int]]


class State:
    """On which axioms each assertion rests, while proofs are changed. Axioms are bits."""

    def __init__(self, rests: list[int]) -> None:
        self.rests = rests
        self.all = 0
        for bits in rests:
            self.all |= bits
        flags = {axiom: bytearray(len(rests) // 8 + 1) for axiom in bits_of(self.all)}
        for number, bits in enumerate(rests):
            for axiom in bits_of(bits):
                flags[axiom][number >> 3] |= 1 << (number & 7)
        self.columns = {axiom: int.from_bytes(each, "little") for axiom, each in flags.items()}
        self.changed: list[int] = []
        """The assertions that came to rest on others than at first, in order."""
        self._blocked: dict[int, int] = {}

    def rest(self, number: int, rests: int) -> None:
        """An assertion rests on these now."""
        if rests == self.rests[number]:
            return
        for axiom in bits_of(self.rests[number] & ~rests):
            self.columns[axiom] &= ~(1 << number)
        for axiom in bits_of(rests & ~self.rests[number]):
            self.columns[axiom] |= 1 << number
        self.rests[number] = rests
        self.changed.append(number)
        self._blocked.clear()

    def blocked(self, allowed: int) -> int:
        """The assertions that rest on an axiom that isn't allowed."""
        found = self._blocked.get(allowed)
        if found is None:
            found = 0
            for axiom in bits_of(self.all & ~allowed):
                found |= self.columns[axiom]
            self._blocked[allowed] = found
        return found


class Shelf:
    """All statements that may be cited, by their formulas."""

    def __init__(self, rules: Rules, conventions: Conventions) -> None:
        self.rules = rules
        self.conventions = conventions
        self.index = Index(rules.trees, rules.grammar)
        self.citable: dict[int, Citable] = {}
        needing: dict[Key, list[int]] = {}
        citable = [*bits_of(conventions.citable)]
        for number in progress.counted(citable, "sorting statements that may be cited"):
            for key in self.add(rules[number]):
                needing.setdefault(key, []).append(number)
        most = MOST_KEYS // (len(rules) + 1)
        often = sorted(needing, key=lambda key: len(needing[key]), reverse=True)[:most]
        self.needing = {key: joined(needing[key]) for key in often}

    def add(self, rule: Rule) -> set[Key]:
        """Adds a statement. Returns the keys of its hypotheses."""
        variables = self.index.add(rule.number, rule.tree)
        essential = enumerate(each.number for each in rule.essential())
        premises = [self.premise(index, pattern) for index, pattern in essential]
        bound = set(variables)
        premises.sort(key=lambda each: not each.variables <= bound)
        keys = [each.key for each in premises]
        pairs = self.rules.pairs(rule)
        self.citable[rule.number] = Citable(rule, variables, premises, keys, pairs)
        return {key for key in keys if key is not None}

    def premise(self, index: int, pattern: int) -> Premise:
        """A hypothesis of a statement."""
        trees = self.rules.trees
        variables = frozenset(bits_of(trees.variables(pattern)))
        code, key = trees.open_code(pattern), pattern_key(trees, pattern)
        return Premise(pattern, index, key, variables, code, *ends_of(trees, pattern))

    def lacking(self, keys: set[Key]) -> int:
        """The statements with a hypothesis that no formula with these keys becomes, as far as the
        keys are noted."""
        found = 0
        for key, bits in self.needing.items():
            if key not in keys:
                found |= bits
        return found


def ends_of(trees: Trees, pattern: int) -> tuple[int, int]:
    """Which variables are the first and the last part of a pattern; -1 where none is."""
    parts = trees.parts[pattern]
    if not parts:
        return -1, -1
    first, last = trees.heads[parts[0]], trees.heads[parts[-1]]
    return max(-1, ~first), max(-1, ~last)


class Free:
    """The free formulas of a proof, in order: all, by their keys, and by their head with the first
    or the last part. For each key it is known when a formula with it came last; 0 for never."""

    def __init__(self, trees: Trees) -> None:
        self.trees = trees
        self.steps: Steps = {}
        self.order: list[int] = []
        self.by_key: dict[Key, list[int]] = {}
        self.by_first: dict[tuple[int, int], list[int]] = {}
        self.by_last: dict[tuple[int, int], list[int]] = {}
        self.came: defaultdict[Key | None, int] = defaultdict(int)

    def add(self, tree: int, step: Step | None, keys: set[Key]) -> None:
        """Adds a formula."""
        self.steps[tree] = step
        self.order.append(tree)
        self.came[None] = len(self.steps)
        for key in keys:
            self.by_key.setdefault(key, []).append(tree)
            self.came[key] = len(self.steps)
        parts = self.trees.parts[tree]
        if parts:
            head = self.trees.heads[tree]
            self.by_first.setdefault((head, parts[0]), []).append(tree)
            self.by_last.setdefault((head, parts[-1]), []).append(tree)

    def like(self, premise: Premise, binding: Binding) -> Sequence[int]:
        """The formulas that a premise may be, not many more than it can be."""
        if premise.variables <= binding.keys():
            known = self.trees.known_instance(premise.code, binding)
            return () if known is None or known not in self.steps else (known,)
        key = premise.key
        if key is None:
            return self.order
        least: Sequence[int] = self.by_key.get(key, ())
        for variable, by_part in ((premise.first, self.by_first), (premise.last, self.by_last)):
            part = binding.get(variable)
            if part is not None:
                found = by_part.get((key[0], part), ())
                least = found if len(found) < len(least) else least
        return least


class Search:
    """The search in one proof. With `closed`, the statements without hypotheses of which instances
    may be new steps. None of those in `barred` is cited but where the proof does already."""

    closed = 0

    def __init__(
        self, shelf: Shelf, state: State, theorem: Rule, proof: Proof, barred: int = 0
    ) -> None:
        self.shelf = shelf
        self.state = state
        self.theorem = theorem
        self.proof = proof
        self.trees = shelf.rules.trees
        self.keys = {tree: keys_for(self.trees, tree) for tree in (*proof.given, *proof.steps)}
        self.budget = Budget(STEPS + STEPS_OF_FORMULA * len(self.keys))
        lacking = shelf.lacking(set[Key]().union(*self.keys.values()))
        self.allowed = shelf.conventions.allowed(theorem.number) & ~barred
        self.may_be = self.allowed & ~lacking
        self.candidates: dict[int, list[tuple[Citable, tuple[int, ...]]]] = {}
        self.tried: dict[int, int] = {}
        self.free = Free(self.trees)
        self.left = 0
        self.asked = (0, 0)
        self.wanted, self.flags, self.wanted_closed = 0, "", 0
        self.new: dict[int, bool] = {}

    def without(self, axioms: int, rests: int) -> Steps | None:
        """A proof that does without these axioms, and rests on no others than `rests`; None where
        none is found."""
        may_be = self.allowed if self.closed else self.may_be
        self.asked = (axioms, rests)
        self.wanted = wanted = may_be & ~self.state.blocked(rests & ~axioms)
        self.flags = flags = f"{wanted:0{self.theorem.number}b}"[::-1]
        self.wanted_closed = wanted & self.closed
        self.candidates, self.tried, self.new = {}, {}, {}
        self.free = Free(self.trees)
        for tree in self.proof.given:
            self.free.add(tree, None, self.keys[tree])
        left = list(self.proof.steps)
        while True:
            before = len(left)
            left = [tree for tree in left if not self.is_freed(tree, axioms, wanted, flags)]
            if self.proof.root in self.free.steps:
                return self.free.steps
            if len(left) == before:
                return None

    def is_freed(self, tree: int, axioms: int, wanted: int, flags: str) -> bool:
        """Whether a formula is free now."""
        self.budget.take(len(self.proof.steps[tree]))
        step = self.own(tree, axioms)
        if step is None:
            step = self.other(tree, wanted, flags)
        if step is not None:
            self.free.add(tree, step, self.keys[tree])
        return step is not None

    def own(self, tree: int, axioms: int) -> Step | None:
        """A step of the proof itself by which a formula is free."""
        free = self.free.steps
        for step in self.proof.steps[tree]:
            if not self.state.rests[step.rule] & axioms and all(
                premise in free for premise in step.premises
            ):
                return step
        return None

    def other(self, tree: int, wanted: int, flags: str) -> Step | None:
        """A step with another statement by which a formula is free. What was tried before is tried
        again only where a formula came that a premise may be."""
        free = self.free
        if tree not in self.candidates:
            found = self.shelf.index.find(tree, wanted, flags, self.budget)
            citable = self.shelf.citable
            self.candidates[tree] = [(citable[number], bound) for number, bound in sorted(found)]
        before = self.tried.get(tree, -1)
        self.tried[tree] = count = len(free.steps)
        if before == count:
            return None
        self.budget.take(len(self.candidates[tree]))
        when = free.came.__getitem__
        for one, bound in self.candidates[tree]:
            came = [*map(when, one.keys)]
            is_worth = before < 0 if not came else min(came) > 0 and max(came) > before
            if is_worth or (before < 0 and self.wanted_closed):
                step = self.cited(one, bound)
                if step is not None:
                    return step
        return None

    def cited(self, citable: Citable, bound: tuple[int, ...]) -> Step | None:
        """The step in which a statement is cited; None where a premise isn't free, or variables
        aren't distinct."""
        binding = dict(zip(citable.variables, bound))
        self.left = MOST_TRIED
        self.budget.take(len(citable.premises) + len(citable.pairs))
        premises: list[int] = [-1] * len(citable.premises)
        if not self.has_premises(citable, citable.premises, binding, premises):
            return None
        return step_of(citable.rule, binding, premises)

    def is_enough(self, citable: Citable, binding: Binding, premises: list[int]) -> bool:
        """Whether this step is taken, where there may be others with the same statement."""
        return True

    def leave_untried(self) -> None:
        """Is called where not all premises of a statement are tried, since they are too many. Here
        nothing is lost but a proof that might have been found."""

    def has_premises(
        self, citable: Citable, left: list[Premise], binding: Binding, premises: list[int]
    ) -> bool:
        """Finds the premises that are left among the free formulas, next the one that can be the
        fewest, and binds the variables that only they have. There are at most as many, one
        within the other, as `MOST_PREMISES` of `conventions.py` says."""
        if not left:
            is_one = self.keeps_distinct(citable, binding)
            return is_one and self.is_enough(citable, binding, premises)
        chosen, formulas = self.fewest(left, binding)
        if chosen is None:
            return False
        left = [premise for premise in left if premise is not chosen]
        for formula in formulas:
            self.left -= 1
            self.budget.take(1 + len(chosen.code) // 16)
            if self.left < 0:
                self.leave_untried()
                return False
            new = self.match(chosen.pattern, formula, binding)
            if new is None:
                continue
            premises[chosen.index] = formula
            if self.has_premises(citable, left, binding, premises):
                return True
            for variable in new:
                del binding[variable]
        return False

    def fewest(self, left: list[Premise], binding: Binding) -> tuple[Premise | None, Sequence[int]]:
        """The premise that the fewest formulas can be, and these; None where one can be none."""
        self.budget.take(sum(len(premise.code) for premise in left) // 8)
        chosen: Premise | None = None
        least: Sequence[int] = ()
        for premise in left:
            formulas = self.free.like(premise, binding)
            if not formulas and self.wanted_closed:
                formulas = self.new_step(premise, binding)
                if not formulas and not premise.variables <= binding.keys():
                    continue
            if not formulas:
                return None, ()
            if not least or len(formulas) < len(least):
                least, chosen = formulas, premise
            if len(least) == 1:
                break
        return chosen, least

    def new_step(self, premise: Premise, binding: Binding) -> Sequence[int]:
        """A premise whose variables are bound, as a new step that cites a statement without
        hypotheses; nothing where there is none."""
        if not premise.variables <= binding.keys() or len(self.new) >= MOST_NEW:
            return ()
        tree = self.trees.instance(premise.code, binding)
        if tree not in self.new:
            self.new[tree] = False
            found = self.shelf.index.find(tree, self.wanted_closed, self.flags, self.budget)
            for number, bound in found:
                citable = self.shelf.citable[number]
                filled = dict(zip(citable.variables, bound))
                if not citable.premises and self.keeps_distinct(citable, filled):
                    self.new[tree] = True
                    self.free.add(
                        tree, step_of(citable.rule, filled, []), keys_for(self.trees, tree)
                    )
                    break
        return (tree,) if self.new[tree] else ()

    def match(self, pattern: int, formula: int, binding: Binding) -> list[int] | None:
        """Binds the variables of a premise's pattern."""
        if self.trees.heads[pattern] < 0:
            typecode = self.shelf.rules.grammar.typecode
            if typecode(pattern) != typecode(formula):
                return None
        return self.trees.match(pattern, formula, binding)

    def keeps_distinct(self, citable: Citable, binding: Binding) -> bool:
        """Whether the theorem has the conditions of distinct variables that a citation needs."""
        if not citable.pairs:
            return True
        apart = self.proof.scope.apart()
        return distinct(self.trees, citable.pairs, binding, lambda each: apart.get(each, 0))


class AllSteps(Search):
    """All steps by which the formulas of a proof follow from one another, its own and others; or
    some of its formulas, if it is said which."""

    def __init__(
        self,
        shelf: Shelf,
        state: State,
        theorem: Rule,
        proof: Proof,
        rests: int,
        barred: int = 0,
        only: Collection[int] | None = None,
    ) -> None:
        super().__init__(shelf, state, theorem, proof, barred)
        self.rests = rests
        self.steps: dict[int, dict[Step, None]] = {}
        for tree in self.keys:
            self.free.add(tree, None, self.keys[tree])
        self.tree = -1
        wanted = self.may_be & ~state.blocked(rests)
        flags = f"{wanted:0{theorem.number}b}"[::-1]
        for self.tree in proof.steps if only is None else only:
            self.steps[self.tree] = dict(proof.steps[self.tree])
            for number, bound in shelf.index.find(self.tree, wanted, flags, self.budget):
                self.cited(shelf.citable[number], bound)

    def is_enough(self, citable: Citable, binding: Binding, premises: list[int]) -> bool:
        """Notes a step, and goes on."""
        if self.tree not in premises:
            self.steps[self.tree][step_of(citable.rule, binding, premises)] = None
        return False

    def doing_without(self, axioms: int) -> dict[int, dict[Step, None]]:
        """The steps that don't cite what rests on these axioms."""
        rests = self.state.rests
        return {
            tree: {step: None for step in steps if not rests[step.rule] & axioms}
            for tree, steps in self.steps.items()
        }

    def losable(self) -> int:
        """The axioms that the theorem can do without, each of them alone."""
        rests = self.state.rests
        resting = dict.fromkeys(self.steps, self.rests)
        resting.update(dict.fromkeys(self.proof.given, 0))
        is_changed = True
        while is_changed:
            is_changed = False
            for tree, steps in self.steps.items():
                self.budget.take(len(steps))
                least = resting[tree]
                for step in steps:
                    needed = rests[step.rule]
                    for premise in step.premises:
                        needed |= resting[premise]
                    least &= needed
                if least != resting[tree]:
                    resting[tree] = least
                    is_changed = True
        return self.rests & ~resting[self.proof.root]

    def shortest(self) -> Steps:
        """A proof with as few steps as there can be, where each is counted as often as it is
        used."""
        count: dict[int, int] = dict.fromkeys(self.proof.given, 0)
        found: Steps = dict.fromkeys(self.proof.given)
        is_changed = True
        while is_changed:
            is_changed = False
            for tree, steps in self.steps.items():
                self.budget.take(len(steps))
                for step in steps:
                    if all(premise in count for premise in step.premises):
                        size = 1 + sum(count[premise] for premise in step.premises)
                        if tree not in count or size < count[tree]:
                            count[tree], found[tree] = size, step
                            is_changed = True
        return found


def closed_of(shelf: Shelf) -> int:
    """The statements without hypotheses, as bits."""
    return joined(number for number, one in shelf.citable.items() if not one.premises)


def distinct(
    trees: Trees,
    pairs: Iterable[tuple[int, int]],
    binding: Mapping[int, int],
    apart: Callable[[int], int],
) -> bool:
    """Whether what stands for these pairs of variables has no variable in common, and each variable
    of the one is apart from each of the other. `apart` has the bits of those from which one is."""
    for one, other in pairs:
        some, others = trees.variables(binding[one]), trees.variables(binding[other])
        if some & others or any(others & ~apart(first) for first in bits_of(some)):
            return False
    return True


def step_of(rule: Rule, binding: Mapping[int, int], premises: Sequence[int]) -> Step:
    """The step in which a statement is cited, with these trees for its variables and its `$e`."""
    essential = iter(premises)
    trees = (
        binding[each.number] if each.is_floating else next(essential) for each in rule.hypotheses
    )
    return Step(rule.number, tuple(trees), tuple(premises))
