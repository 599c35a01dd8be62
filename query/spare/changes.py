"""The proofs of a database changed, so that theorems rest on fewer axioms: the theorems in file
order, each with what those before it lost."""

from __future__ import annotations

import time
from collections.abc import Callable, Collection, Iterator, Sequence
from dataclasses import KW_ONLY, asdict, dataclass, replace
from functools import cached_property

from query.citations.bits import bits_of, joined
from query.definitions.foundations import BEGINNING
from query.platform import progress
from query.platform.parallel import number_at_once
from query.proofs.layout import beginning, laid_out, line_width
from query.reports.content import ReportContent
from query.reports.database import Database, result_key
from query.spare import kept as kept_changes
from query.spare.active import Active
from query.spare.conventions import conventions_of
from query.spare.index import GivenUp
from query.spare.kept import Change, Replaced
from query.spare.proofs import Proof, Step, Unfit, run
from query.spare.ranking import Rank, Ranking
from query.spare.rules import Rule, rules_of
from query.spare.search import AllSteps, Shelf, State, Steps, closed_of
from query.spare.seeking import Answer, Seeker
from query.spare.sharing import searched
from query.spare.shorter import Shorter
from query.spare.steps import first_steps, may_cite, other_steps, resting_by, used
from query.spare.writing import Writer
from query.texts.discouraged import is_discouraged, is_proof_discouraged
from query.texts.uncommented import without_comments

SECONDS = 60
"""After so many seconds what was found is kept."""
SHOWN_SYMBOLS = 400
"""Of a formula so many symbols are shown."""


@dataclass(frozen=True)
class Wanted:
    """What is asked for, and what of the conventions is set aside."""

    typecode: str
    axioms: tuple[str, ...] = ()
    _: KW_ONLY
    theorems: frozenset[str] | None = None
    """Whose proofs may be changed; None for all."""
    cites_discouraged: bool = False
    cites_old: bool = False
    cites_mathboxes: bool = False
    changes_discouraged: bool = False
    has_new_steps: bool = False
    """Whether instances of statements without hypotheses may be new steps."""
    is_all: bool = False
    """Whether these are all axioms."""
    is_shorter: bool = False
    """Whether proofs are wanted that are shorter, whatever they lose."""
    may_gain: frozenset[str] = frozenset()
    """The axioms on which theorems may come to rest."""

    def fields(self) -> dict[str, object]:
        """What tells it from others."""
        theorems = None if self.theorems is None else sorted(self.theorems)
        return {**asdict(self), "theorems": theorems, "may_gain": sorted(self.may_gain)}


class ProofRange:
    """Where the proof of a theorem stands: `start` is the byte behind its `$=`, `end` that of its
    `$.`."""

    def __init__(self, data: bytes, place: int, end: int) -> None:
        text = without_comments(data[place:end])
        self.start = place + text.index(b"$=") + 2
        self.end = end - 2
        self.has_comment = text != data[place:end] and b"$(" in data[self.start : self.end]


@dataclass(frozen=True, slots=True)
class Written:
    """A change, and the axioms on which its theorem rests then, as bits."""

    change: Change
    rests: int


class Changer:
    """Changes the proofs of a database."""

    def __init__(self, database: Database, wanted: Wanted, at_once: int | None = 1) -> None:
        self.text = database.text
        self.ranking = Ranking(database)
        self.wanted = wanted
        self.at_once = at_once
        self.rules = rules_of(database, wanted.typecode)
        self.numbers = {rule.label: rule.number for rule in self.rules}
        self.names = [rule.label for rule in self.rules]
        content = database.content
        assert content.marks is not None
        self.columns, self.typecodes = content.columns, content.typecodes
        self.cites = cites_by_number(content, self.numbers)
        self.bit_of = {label: 1 << bit for bit, label in enumerate(self.columns)}
        self.state = State(self.rests(content.theorems))
        self.old_rests = list(self.state.rests)
        conventions = conventions_of(
            self.rules, wanted.cites_discouraged, wanted.cites_old, wanted.cites_mathboxes
        )
        self.shelf = Shelf(self.rules, conventions)
        self.writer = Writer(self.rules, self.syntax())
        self.width = line_width(self.proofs())
        self.closed = 0  # the statements that may be new steps, as bits
        if wanted.has_new_steps:
            self.closed = closed_of(self.shelf)
        self.axioms = self.bits(wanted.axioms)  # those that proofs shall do without
        self.gainable = gainable(database, wanted)
        self.seeker = Seeker(
            self.shelf,
            self.state,
            self.old_rests,
            Active(self.text.data),
            [self.bit_of[label] for label in wanted.axioms],
            self.closed,
            self.discouraged(),
            wanted.has_new_steps and not wanted.is_all,
        )
        self.may_gain = self.bits(self.gainable)  # those on which they may come to rest
        fields = [f"{name} {value}" for name, value in sorted(wanted.fields().items())]
        key = result_key(kept_changes.FORM, "changes", database.key, *fields)
        self.key = key if database.uses_cache else None

    def bits(self, axioms: Collection[str]) -> int:
        """The axioms of these labels as bits."""
        found = 0
        for label in axioms:
            found |= self.bit_of[label]
        return found

    def rests(self, theorems: list[str]) -> list[int]:
        """For each assertion the axioms on which it rests."""
        found = [self.bit_of.get(label, 0) for label in self.names]
        for label in theorems:
            number = self.numbers[label]
            for cited in self.cites[number]:
                found[number] |= found[cited]
        return found

    def discouraged(self) -> int:
        """The statements whose new usage is discouraged, as bits, if they may be cited."""
        if not self.wanted.cites_discouraged:
            return 0
        return joined(one.number for one in self.text.assertions if is_discouraged(self.text, one))

    @cached_property
    def definitions(self) -> int:
        """The axioms that are called definitions, as bits."""
        return self.bits([label for label in self.columns if label.startswith(BEGINNING)])

    @cached_property
    def hiding(self) -> int:
        """The definitions that may hide an axiom, as bits."""
        return self.bits(list(filter(self.ranking.is_hiding, self.columns)))

    def hides(self, proof: Proof, steps: Steps, replaced: Collection[int]) -> tuple[str, ...]:
        """The definitions that may hide an axiom on which formulas rest by steps that are replaced,
        and didn't in the old proof."""
        old = resting_by(first_steps(proof), replaced, self.old_rests)
        new = resting_by(steps, replaced, self.state.rests)
        more = 0
        for tree in replaced:
            more |= new[tree] & ~old[tree]
        more &= self.definitions
        return tuple(self.columns[bit] for bit in bits_of(more and more & self.hiding))

    def syntax(self) -> list[int]:
        """The theorems of the syntax that any proof may cite."""
        return [
            one.number
            for one in self.text.assertions
            if one.kind == "p"
            and one.typecode != self.wanted.typecode
            and self.text.box(one) is None
            and not is_discouraged(self.text, one)
        ]

    def proofs(self) -> Iterator[bytes]:
        """The proofs that are compressed, as they stand."""
        data = self.text.data
        for one in self.text.assertions:
            if one.kind == "p":
                proof_range = ProofRange(data, one.place, one.end)
                proof = data[proof_range.start : proof_range.end]
                if proof.lstrip().startswith(b"("):
                    yield proof

    def changes(self) -> Iterator[Change]:
        """What becomes of each theorem that loses one of the axioms, or whose proof gets shorter.
        It is kept from time to time."""
        begun, kept = kept_changes.load(self.key) if self.key is not None else (0, {})
        found: list[Change] = []
        done = new = 0
        stored = time.monotonic()
        progress.now("searching")
        try:
            for done, change in enumerate(self.theorems(begun, kept), 1):
                if change is not None:
                    new += change.proof is not None
                    found.append(change)
                    yield change
                if done % 100 == 0:
                    progress.now(f"{done} of {len(self.cites)} theorems done, {new} new proofs")
                if done > begun and time.monotonic() - stored >= SECONDS:
                    self.keep(done, found)
                    stored = time.monotonic()
        finally:
            if done > begun:
                self.keep(done, found)

    def keep(self, done: int, found: list[Change]) -> None:
        """Keeps what was found in so many theorems, where results are kept."""
        if self.key is not None:
            kept_changes.store(self.key, done, found)

    def theorems(self, begun: int, kept: dict[str, Change]) -> Iterator[Change | None]:
        """What becomes of each theorem; of so many it is known."""
        numbers = list(self.cites)
        for number in numbers[:begun]:
            yield self.known(number, kept.get(self.names[number]))
        at_once = number_at_once() if self.at_once is None else self.at_once
        yield from searched(self, numbers[begun:], at_once)

    def known(self, number: int, change: Change | None) -> Change | None:
        """What is known already of a theorem."""
        cited = self.cites[number]
        if change is not None and change.proof is not None:
            cited = [self.numbers[each] for each in change.labels() if each in self.numbers]
        self.state.rest(number, self.resting(cited))
        return change

    def is_sought(self, number: int) -> bool:
        """Whether the proof of a theorem is searched, as far as is seen at once."""
        is_wanted = self.wanted.is_shorter or bool(self.old_rests[number] & self.axioms)
        return is_wanted and self.may_change(number)

    def may_differ(self, number: int, others: set[int]) -> bool:
        """Whether what becomes of a theorem may depend on what these rest on: where it cites one,
        or one of them becomes a formula of its proof."""
        if not others.isdisjoint(self.cites[number]):
            return True
        if not self.is_sought(number):
            return False
        allowed, rests = self.shelf.conventions.allowed(number), self.resting(self.cites[number])
        citable = [
            self.shelf.citable[other]
            for other in others
            if allowed >> other & 1 and (self.may_gain or not self.state.rests[other] & ~rests)
        ]
        if not citable:
            return False
        if self.closed and any(not each.premises for each in citable):
            return True
        first = len(self.rules.trees)
        try:
            return may_cite(self.rules.trees, self.proof(number), citable, bool(self.closed))
        except Unfit:
            return False
        finally:
            self.rules.trees.forget(first)

    def proof(self, number: int) -> Proof:
        """The proof of a theorem. Unfit where it isn't of the kind that is changed."""
        words = self.text.proof(self.text.assertions[number])
        return run(self.rules, self.numbers, self.rules[number], words)

    def change(self, number: int) -> Change | None:
        """What becomes of a theorem."""
        old = self.old_rests[number]
        is_sought = bool(old & self.axioms) or self.wanted.is_shorter
        if not is_sought and not self.may_gain:
            return None
        rests = self.resting(self.cites[number])
        change, is_given_up = None, False
        if is_sought and (rests & self.axioms or self.wanted.is_shorter):
            try:
                change = self.changed(number, rests, self.axioms)
            except GivenUp:
                is_given_up = True
        if change is None:
            self.state.rest(number, rests)
            if rests != old or is_given_up:
                change = Change(self.names[number], (), is_given_up=is_given_up)
        return None if change is None else self.finished(change, self.state.rests[number])

    def rank(self, change: Change, rests: int) -> Rank:
        """How a change ranks among others, after which its theorem rests on these axioms."""
        return self.ranking.rank(change, (rests & self.axioms).bit_count())

    def ranked(self, changes: Sequence[Change]) -> list[Change]:
        """The new proofs by their rank, each followed by the theorems that keep their proofs and
        name it as the best one by which they lose or gain axioms. What is equal is in file
        order."""
        new = [change for change in changes if change.proof is not None]
        rests = self.state.rests
        ranks = {
            change.theorem: (self.rank(change, rests[self.numbers[change.theorem]]), place)
            for place, change in enumerate(new)
        }
        last = (max(ranks.values())[0], len(new)) if ranks else ((0, 0, 0, 0), 0)

        def place(change: Change) -> tuple[tuple[Rank, int], bool]:
            named = [ranks[each] for each in change.sources if each in ranks]
            own = ranks.get(change.theorem, last)
            return min(named, default=own), change.proof is None

        return sorted(changes, key=place)

    def finished(self, change: Change, rests: int) -> Change:
        """A change with what its theorem loses and gains, which rests on these axioms then."""
        old = self.old_rests[self.numbers[change.theorem]]
        change.loses = tuple(self.columns[bit] for bit in bits_of(old & ~rests))
        change.gains = tuple(self.columns[bit] for bit in bits_of(rests & ~old))
        return change

    def resting(self, cited: list[int]) -> int:
        """The axioms on which rests what cites these."""
        rests = 0
        for number in cited:
            rests |= self.state.rests[number]
        return rests

    def changed(self, number: int, rests: int, wanted: int) -> Change | None:
        """The change of a theorem whose proof can be another one; None where none is found. `rests`
        are the axioms on which it rests with its old one."""
        one = self.text.assertions[number]
        rule = self.rules[number]
        if not rule.is_logical or one.is_open or not self.may_change(number):
            return None
        proof_range = ProofRange(self.text.data, one.place, one.end)
        first = len(self.rules.trees)
        try:
            if proof_range.has_comment:
                return None
            proof = self.proof(number)
            found = self.sought(rule, proof, wanted, rests)
            if found is None:
                return None
            found = self.shortened(rule, proof, found, proof_range)
            written = self.written(rule, proof, found, proof_range, rests)
            if written is None:
                return None
            self.state.rest(number, written.rests)
            return written.change
        except Unfit:
            return None
        finally:
            self.rules.trees.forget(first)

    def sought(self, rule: Rule, proof: Proof, wanted: int, rests: int) -> Answer | None:
        """Another proof: the old one, where it is to get shorter. One that gains less is sought
        first."""
        if self.wanted.is_shorter:
            return Answer(first_steps(proof), rests | self.may_gain)
        if not self.needs(proof, wanted):
            return None
        for gained in dict.fromkeys([0, self.may_gain & ~self.hiding, self.may_gain]):
            found = self.seeker.best(rule, proof, wanted & rests, rests | gained)
            if found is not None:
                return found
        return None

    def shortened(self, rule: Rule, proof: Proof, found: Answer, proof_range: ProofRange) -> Answer:
        """A proof that ranks before another one by other steps for the same formulas: for those
        that have another step than in the old proof, or for all, where it is to get shorter."""
        is_all = self.wanted.is_shorter
        only = list(proof.steps) if is_all else other_steps(proof, found.steps)
        allowed, barred = found.rests & ~found.lost, self.seeker.barred(proof)
        try:
            steps = AllSteps(self.shelf, self.state, rule, proof, allowed, barred, only)
            starts = [found.steps, steps.shortest()] if is_all else [found.steps]
            rank = self.rank_of(rule, proof, proof_range)
            shorter = Shorter(proof.root, steps.doing_without(found.lost), rank, steps.budget)
            best = min(map(shorter.steps, starts), key=lambda each: each[1])
        except GivenUp:
            if is_all:
                raise
            return found
        return replace(found, steps=best[0])

    def may_change(self, number: int) -> bool:
        """Whether the proof of a theorem may be changed."""
        one = self.text.assertions[number]
        if self.wanted.theorems is not None and one.label not in self.wanted.theorems:
            return False
        return self.wanted.changes_discouraged or not is_proof_discouraged(self.text, one)

    def needs(self, proof: Proof, wanted: int) -> bool:
        """Whether a step whose formula is proved cites what rests on these axioms."""
        rests = self.state.rests
        return any(rests[step.rule] & wanted for steps in proof.steps.values() for step in steps)

    def text_of(
        self, rule: Rule, proof: Proof, steps: Steps, proof_range: ProofRange
    ) -> tuple[bytes, int]:
        """What stands in place of an old proof, and the axioms on which the theorem rests then."""
        old = self.text.data[proof_range.start : proof_range.end]
        room = self.width - len(beginning(old)[1])
        labels, letters = self.writer.words(rule, proof, steps, room)
        numbers = [self.numbers[label] for label in labels if label in self.numbers]
        return laid_out(labels, letters, old, self.width), self.resting(numbers)

    def rank_of(self, rule: Rule, proof: Proof, proof_range: ProofRange) -> Callable[[Steps], Rank]:
        """How the proof by some steps ranks."""

        def rank(steps: Steps) -> Rank:
            text, rests = self.text_of(rule, proof, steps, proof_range)
            change = Change(rule.label, (), text, proof_range.end - proof_range.start)
            change.hides = self.hides(proof, steps, other_steps(proof, steps))
            return self.rank(self.finished(change, rests), rests)

        return rank

    def written(
        self, rule: Rule, proof: Proof, found: Answer, proof_range: ProofRange, rests: int
    ) -> Written | None:
        """The change of a proof into other steps; None where it would rest on what it didn't, or
        isn't shorter where that is wanted."""
        steps = found.steps
        text, new = self.text_of(rule, proof, steps, proof_range)
        if new & ~(rests | self.may_gain):
            return None
        change = Change(rule.label, (), text, proof_range.end - proof_range.start)
        change.hides = self.hides(proof, steps, other_steps(proof, steps))
        formulas = used(proof, steps)
        for tree in formulas:
            step = steps[tree]
            was = proof.steps.get(found.instead.get(tree, tree), {})
            if step is None or step in was:
                continue
            if tree not in found.instead or all(each.rule != step.rule for each in was):
                change.replaced.append(self.replaced(tree, step, was))
        if self.wanted.is_shorter:
            left = sum(steps[tree] is not None for tree in formulas)
            has_other_steps = change.replaced or left < len(proof.steps)
            if not has_other_steps or len(text) >= change.old_length:
                return None
        return Written(change, new)

    def replaced(self, tree: int, step: Step, was: dict[Step, None]) -> Replaced:
        """What stands in place of the steps by which a formula was proved."""
        symbols = self.rules.grammar.written(tree, SHOWN_SYMBOLS)
        formula = " ".join([self.wanted.typecode, *symbols])
        labels = dict.fromkeys(self.names[each.rule] for each in was)
        return Replaced(tuple(labels), self.names[step.rule], formula)


def cites_by_number(content: ReportContent, numbers: dict[str, int]) -> dict[int, list[int]]:
    """What each theorem cites, by the numbers of both."""
    cites = content.cites
    assert cites is not None
    nodes = content.theorems + content.columns
    return {
        numbers[label]: [numbers[nodes[node]] for node in cites[row]]
        for row, label in enumerate(content.theorems)
    }


def gainable(database: Database, wanted: Wanted) -> frozenset[str]:
    """The axioms on which theorems may come to rest: those that are named, and where there are some
    all rules of syntax, without which these would be of little use."""
    if not wanted.may_gain:
        return frozenset()
    found = database.content
    pairs = zip(found.columns, found.typecodes)
    return wanted.may_gain | {label for label, kind in pairs if kind != wanted.typecode}
