"""What the search of `spare` finds in databases made by chance, against trying everything."""

import itertools
import random
from dataclasses import dataclass, field

from query.arguments.context import Context
from query.reports.choice import Options
from query.spare.changes import Changer, Wanted
from query.spare.judge import judge_changes, rewritten
from query.spare.kept import Change
from query.spare.proofs import run
from query.spare.search import AllSteps
from query.tests.world import World
from query.texts.assertions import Assertion
from query.texts.text import Text

Term = str | tuple["Term", ...]
"""A variable, or the words of a form with terms between them."""

HEAD = """$c ( ) -> A. |- wff set $.
$v p q r x y z $.
wp $f wff p $. wq $f wff q $. wr $f wff r $.
vx $f set x $. vy $f set y $. vz $f set z $.
wi $a wff ( p -> q ) $.
wa $a wff A. x p $.
"""
LABELS = {"p": "wp", "q": "wq", "r": "wr", "x": "vx", "y": "vy", "z": "vz"}
FORMULAS, SETS = ("p", "q", "r"), ("x", "y", "z")


def imp(one: Term, other: Term) -> Term:
    """An implication."""
    return ("->", one, other)


def every(variable: Term, one: Term) -> Term:
    """A quantified formula."""
    return ("A.", variable, one)


def said(term: Term) -> str:
    """The symbols of a term."""
    if isinstance(term, str):
        return term
    word, one, other = term
    return f"A. {said(one)} {said(other)}" if word == "A." else f"( {said(one)} -> {said(other)} )"


def built(term: Term) -> str:
    """The proof steps that build a term."""
    if isinstance(term, str):
        return LABELS[term]
    word, one, other = term
    if word == "A.":  # in the order in which variables are declared: the formula comes first
        return f"{built(other)} {built(one)} wa"
    return f"{built(one)} {built(other)} wi"


def variables(term: Term) -> set[str]:
    """The variables of a term."""
    if isinstance(term, str):
        return {term}
    return variables(term[1]) | variables(term[2])


def filled(term: Term, binding: dict[str, Term]) -> Term:
    """A term with others for its variables."""
    if isinstance(term, str):
        return binding[term]
    return (term[0], filled(term[1], binding), filled(term[2], binding))


def fits(pattern: Term, term: Term, binding: dict[str, Term]) -> bool:
    """Whether a pattern becomes a term; binds its variables."""
    if isinstance(pattern, str):
        if pattern in SETS and term not in SETS:
            return False
        return binding.setdefault(pattern, term) == term
    if isinstance(term, str) or pattern[0] != term[0]:
        return False
    return all(fits(one, other, binding) for one, other in zip(pattern[1:], term[1:]))


@dataclass
class Known:
    """An assertion that was made."""

    label: str
    given: list[tuple[str, Term]]
    term: Term
    apart: set[frozenset[str]] = field(default_factory=set)

    def names(self) -> list[str]:
        """Its variables, in the order of their declaration."""
        terms = [self.term, *(each for _, each in self.given)]
        found = set().union(*map(variables, terms))
        return [each for each in LABELS if each in found]


class Maker:
    """Makes a database."""

    def __init__(self, seed: int) -> None:
        self.chance = random.Random(seed)
        self.known: list[Known] = []
        self.lines = [HEAD]

    def term(self, depth: int = 1) -> Term:
        """A formula."""
        kind = self.chance.random()
        if depth == 0 or kind < 0.6:
            return self.chance.choice(FORMULAS)
        if kind < 0.7:
            return every(self.chance.choice(SETS), self.term(depth - 1))
        return imp(self.term(depth - 1), self.term(depth - 1))

    def declared(self, one: Known, proof: str | None) -> None:
        """Writes an assertion."""
        parts = [f"$d {' '.join(sorted(pair))} $." for pair in sorted(one.apart, key=sorted)]
        parts += [f"{label} $e |- {said(term)} $." for label, term in one.given]
        end = (
            f"$a |- {said(one.term)} $."
            if proof is None
            else f"$p |- {said(one.term)} $= {proof} $."
        )
        self.lines.append(f"${{ {' '.join(parts)} {one.label} {end} $}}")
        self.known.append(one)

    def axioms(self) -> None:
        """Some axioms: those of implication, and two with a condition."""
        p, q, r = FORMULAS
        self.declared(Known("mp", [("mp.1", p), ("mp.2", imp(p, q))], q), None)
        self.declared(Known("k", [], imp(p, imp(q, p))), None)
        self.declared(Known("five", [], imp(p, every("x", p)), {frozenset("xp")}), None)
        self.declared(Known("gen", [("gen.1", p)], every("x", p)), None)
        self.declared(Known("bad", [("bad.1", p)], imp(q, p)), None)
        self.declared(Known("tr", [("tr.1", imp(p, q)), ("tr.2", imp(q, r))], imp(p, r)), None)

    def theorem(self, number: int) -> None:
        """A theorem, proved by steps that are chosen by chance."""
        terms = {self.term() for _ in range(self.chance.randrange(3))}
        given = [(f"t{number}.{place}", each) for place, each in enumerate(sorted(terms, key=said))]
        proofs = {term: label for label, term in given}
        apart: set[frozenset[str]] = set()
        last: Term | None = None
        for _ in range(self.chance.randrange(2, 7)):
            made = self.step(list(proofs), apart)
            if made is not None and made[0] not in proofs:
                cited, binding, premises = made[1:]
                steps = [built(binding[name]) for name in cited.names()]
                steps += [proofs[each] for each in premises]
                last = made[0]
                proofs[last] = " ".join([*steps, cited.label])
        if last is not None and len(proofs[last]) < 4000:
            self.declared(Known(f"t{number}", given, last, apart), proofs[last])

    def step(
        self, pool: list[Term], apart: set[frozenset[str]]
    ) -> tuple[Term, Known, dict[str, Term], list[Term]] | None:
        """A step over what is proved: an assertion with what stands for its variables."""
        cited = self.chance.choice(self.known)
        binding: dict[str, Term] = {}
        premises: list[Term] = []
        for _, pattern in cited.given:
            self.chance.shuffle(pool)
            fit = next((each for each in pool if fits(pattern, each, dict(binding))), None)
            if fit is None:
                return None
            fits(pattern, fit, binding)
            premises.append(fit)
        for name in cited.names():
            free = self.chance.choice(SETS) if name in SETS else self.term()
            binding.setdefault(name, free)
        for pair in cited.apart:
            if not pair <= binding.keys():
                continue  # a dummy variable of its proof
            one, other = (variables(binding[name]) for name in pair)
            if one & other:
                return None
            apart |= {frozenset(each) for each in itertools.product(one, other)}
        return filled(cited.term, binding), cited, binding, premises

    def text(self, theorems: int) -> str:
        """The database. Of the theorems some have the label of one that nothing new cites."""
        self.axioms()
        for number in range(theorems):
            self.theorem(number)
        return "\n".join(self.lines) + "\n"


class Everything:
    """All replacements, tried."""

    def __init__(self, text: Text, rests: dict[str, set[str]]) -> None:
        self.text = text
        self.rests = rests
        self.terms = {one.label: parsed(one.formula) for one in text.assertions}
        self.frames = {one.label: one.frame().hypotheses() for one in text.assertions}

    def is_freed(
        self, theorem: Assertion, axiom: str, may_gain: frozenset[str] = frozenset()
    ) -> bool:
        """Whether a proof of the theorem's formulas does without the axiom, and gains none but
        these."""
        given = {each.label: parsed(each.formula) for each in self.frames[theorem.label]}
        steps = self.steps(theorem, given)
        formulas = {term for term, _, _ in steps}
        own = set().union(*(self.rests[label] for _, label, _ in steps)) if steps else set()
        free = {given[each.label] for each in self.frames[theorem.label] if each.kind == "e"}
        allowed = (own | may_gain) - {axiom}
        before = [
            one.label
            for one in self.text.assertions[: theorem.number]
            if one.typecode == "|-" and self.rests[one.label] <= allowed
        ]
        parts = sorted({part for each in formulas | free for part in subterms(each)}, key=said)
        size = -1
        while size < len(free):
            size = len(free)
            for term, label, premises in steps:
                if axiom not in self.rests[label] and free.issuperset(premises):
                    free.add(term)
            for label, term in itertools.product(before, formulas - free):
                if self.has_step(theorem, label, term, free, parts):
                    free.add(term)
        return self.terms[theorem.label] in free

    def has_step(
        self, theorem: Assertion, label: str, term: Term, free: set[Term], parts: list[Term]
    ) -> bool:
        """Whether an assertion proves a term from free ones, with any terms for its variables."""
        names = [each.formula.split()[1] for each in self.frames[label] if each.kind == "f"]
        binding: dict[str, Term] = {}
        if not fits(self.terms[label], term, binding):
            return False
        left = [name for name in names if name not in binding]
        for chosen in itertools.product(parts, repeat=len(left)):
            whole = {**binding, **dict(zip(left, chosen))}
            if any((name in SETS) != (whole[name] in SETS) for name in left):
                continue
            given = [parsed(each.formula) for each in self.frames[label] if each.kind == "e"]
            if all(filled(each, whole) in free for each in given):
                if self.keeps(theorem, label, whole):
                    return True
        return False

    def keeps(self, theorem: Assertion, label: str, binding: dict[str, Term]) -> bool:
        """Whether the conditions of distinct variables hold."""
        said_apart = [word.split(" ")[:2] for word in theorem.said.split(" $d ")[1:]]
        apart = {frozenset(pair) for pair in said_apart}
        for one, other in self.text.by_label[label].frame().pairs():
            for pair in itertools.product(variables(binding[one]), variables(binding[other])):
                if frozenset(pair) not in apart or pair[0] == pair[1]:
                    return False
        return True

    def steps(
        self, theorem: Assertion, given: dict[str, Term]
    ) -> list[tuple[Term, str, list[Term]]]:
        """The steps of a normal proof whose formulas are proved."""
        stack: list[Term] = []
        found = []
        named = {label: name for name, label in LABELS.items()}
        for word in self.text.proof(theorem):
            if word not in self.frames:
                stack.append(given[word] if word in given else named[word])
                continue
            frame = self.frames[word]
            entries = stack[len(stack) - len(frame) :]
            del stack[len(stack) - len(frame) :]
            binding = {
                each.formula.split()[1]: entry
                for each, entry in zip(frame, entries)
                if each.kind == "f"
            }
            stack.append(filled(self.terms[word], binding))
            if self.text.by_label[word].typecode == "|-":
                premises = [entry for each, entry in zip(frame, entries) if each.kind == "e"]
                found.append((stack[-1], word, premises))
        return found


def parsed(formula: str) -> Term:
    """The term of a formula."""
    words = formula.split(" ")[1:]

    def term() -> Term:
        word = words.pop(0)
        if word == "A.":
            variable = words.pop(0)
            return every(variable, term())
        if word != "(":
            return word
        one = term()
        words.pop(0)
        other = term()
        words.pop(0)
        return imp(one, other)

    return term()


def subterms(term: Term) -> set[Term]:
    """A term and its parts."""
    if isinstance(term, str):
        return {term}
    found = subterms(term[1]) | subterms(term[2])
    found.add(term)
    return found


class ByChance(World):
    """The same theorems are freed."""

    def freed(
        self,
        path: str,
        axioms: tuple[str, ...],
        new_steps: bool = False,
        may_gain: frozenset[str] = frozenset(),
        at_once: int = 1,
        theorems: frozenset[str] | None = None,
    ) -> tuple[list[Change], Text, bytes]:
        """What the search finds, judged."""
        database = Context(uses_cache=False).database(path, Options())
        wanted = Wanted("|-", axioms, theorems=theorems, has_new_steps=new_steps, may_gain=may_gain)
        changer = Changer(database, wanted, at_once)
        changes = list(changer.changes())
        data = rewritten(database.text, changes)
        judge_changes(database, data, changes, changer.gainable)
        return changes, database.text, data

    def marks(self, path: str) -> dict[str, set[str]]:
        """On which axioms of what is proved everything rests."""
        dependence = Context(uses_cache=False).database(path, Options()).dependence()
        found = {label: {label} for label in dependence.axioms}
        for row, label in enumerate(dependence.theorems):
            found[label] = {dependence.axioms[column] for column in dependence.rests(row)}
        return found

    def test_one_axiom(self) -> None:
        direct = cascades = kept = 0
        for seed in range(40):
            path = str(self.folder / self.write("chance.mm", Maker(seed).text(50)))
            for axiom in ("bad", "five", "tr"):
                changes, text, data = self.freed(path, (axiom,))
                new = str(self.folder / self.write("new.mm", data))
                before, after = self.marks(path), self.marks(new)
                everything = Everything(text, after)
                lost = {each.theorem: each for each in changes if axiom in each.loses}
                for one in text.assertions:
                    if one.kind == "p" and axiom in before[one.label]:
                        wanted = everything.is_freed(one, axiom)
                        self.assertEqual(one.label in lost, wanted, f"{seed} {axiom} {one.label}")
                        kept += not wanted
                direct += sum(each.proof is not None for each in changes)
                cascades += sum(each.proof is None for each in changes)
        self.assertGreater(min(direct, cascades, kept), 40)

    def test_some_theorems(self) -> None:
        """Of those whose proofs may be changed all are freed that replacements free, and of the
        others those that cite nothing else. What is freed alone is freed among others."""
        direct = outside = refused = 0
        for seed, axiom in itertools.product(range(12), ("bad", "five")):
            path = str(self.folder / self.write("chance.mm", Maker(seed).text(40)))
            before = self.marks(path)
            every = self.freed(path, (axiom,))[0]
            new = [each.theorem for each in every if each.proof is not None]
            left_out = {each.theorem for each in every if each.proof is None} | {*new[1::3]}
            some = frozenset(before).difference(left_out)
            changes, text, data = self.freed(path, (axiom,), theorems=some)
            after = self.marks(str(self.folder / self.write("new.mm", data)))
            everything = Everything(text, after)
            for one in text.assertions:
                if one.kind != "p" or axiom not in before[one.label]:
                    continue
                is_lost = axiom not in after[one.label]
                keeps = any(axiom in after.get(word, ()) for word in text.proof(one))
                wanted = everything.is_freed(one, axiom) if one.label in some else not keeps
                self.assertEqual(is_lost, wanted, f"{seed} {axiom} {one.label}")
                outside += is_lost and one.label not in some
                refused += not is_lost and one.label in left_out
            found = [change for change in changes if change.proof is not None]
            self.assertLessEqual({change.theorem for change in found}, some)
            for change in found[:1]:
                alone = frozenset([change.theorem])
                self.assertIn(change, self.freed(path, (axiom,), theorems=alone)[0])
            direct += len(found)
        self.assertGreater(direct, 10)
        self.assertGreater(min(outside, refused), 3)

    def test_what_may_be_gained(self) -> None:
        """By all replacements that gain no others; what gains is said, and no more is gained."""
        more = gaining = 0
        for seed in range(15):
            path = str(self.folder / self.write("chance.mm", Maker(seed).text(40)))
            before = self.marks(path)
            axioms = {axiom for rests in before.values() for axiom in rests}
            for axiom, gain in (("bad", {"k"}), ("bad", axioms), ("tr", axioms), ("five", axioms)):
                may_gain = frozenset(gain - {axiom})
                changes, text, data = self.freed(path, (axiom,), may_gain=may_gain)
                new = str(self.folder / self.write("new.mm", data))
                after = self.marks(new)
                everything = Everything(text, after)
                told = {each.theorem: each for each in changes}
                for one in text.assertions:
                    if one.kind != "p":
                        continue
                    change = told.get(one.label)
                    gained = after[one.label] - before[one.label]
                    logic = set(change.gains) & axioms if change is not None else set()
                    self.assertEqual(gained, logic)
                    gaining += bool(gained)
                    if axiom in before[one.label]:
                        is_lost = axiom not in after[one.label]
                        wanted = everything.is_freed(one, axiom, may_gain)
                        self.assertEqual(is_lost, wanted, f"{seed} {axiom} {gain} {one.label}")
                        more += is_lost and not everything.is_freed(one, axiom)
                shared, _, other = self.freed(path, (axiom,), may_gain=may_gain, at_once=3)
                self.assertEqual((shared, other), (changes, data))
        self.assertGreater(min(more, gaining), 10)

    def test_each_axiom(self) -> None:
        """Which axioms a theorem can do without one by one, found for all of them at once."""
        counts = [0, 0]
        for seed in range(15):
            path = str(self.folder / self.write("chance.mm", Maker(seed).text(30)))
            database = Context(uses_cache=False).database(path, Options())
            changer = Changer(database, Wanted("|-", tuple(database.axioms())))
            before = self.marks(path)
            everything = Everything(changer.text, before)
            for one in changer.text.assertions:
                if one.kind == "a":
                    continue
                rule = changer.rules[one.number]
                proof = run(changer.rules, changer.numbers, rule, changer.text.proof(one))
                rests = changer.state.rests[one.number]
                all_steps = AllSteps(changer.shelf, changer.state, rule, proof, rests)
                found = all_steps.losable()
                for axiom in before[one.label]:
                    is_lost = bool(found & changer.bit_of[axiom])
                    wanted = everything.is_freed(one, axiom)
                    self.assertEqual(is_lost, wanted, f"{seed} {axiom} {one.label}")
                    counts[wanted] += 1
        self.assertGreater(min(counts), 20)

    def test_several_axioms_and_shorter_proofs(self) -> None:
        """What is found is judged, and proofs that get shorter do."""
        found = shorter = 0
        for seed in range(15):
            path = str(self.folder / self.write("chance.mm", Maker(seed).text(50)))
            changes, _, data = self.freed(path, ("bad", "five", "tr", "k"))
            found += len(changes)
            database = Context(uses_cache=False).database(path, Options())
            several = list(Changer(database, Wanted("|-", is_shorter=True)).changes())
            judge_changes(database, rewritten(database.text, several), several)
            for each in several:
                if each.proof is not None:
                    self.assertLess(len(each.proof), each.old_length)
                    shorter += 1
        self.assertGreater(min(found, shorter), 20)

    def test_new_steps(self) -> None:
        """With new steps more is found, and it is judged."""
        found = more = 0
        for seed in range(20):
            path = str(self.folder / self.write("chance.mm", Maker(seed).text(40)))
            for axiom in ("bad", "tr"):
                found += len(self.freed(path, (axiom,))[0])
                more += len(self.freed(path, (axiom,), True)[0])
        self.assertGreater(more, found)
