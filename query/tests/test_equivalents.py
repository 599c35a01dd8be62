"""`equivalents`, against all chains of links that there are; and each answer as a proof, which the
program verifies."""

from __future__ import annotations

import itertools
import os
import random
import unittest
from collections.abc import Iterator, Sequence
from dataclasses import dataclass, field
from unittest import mock

from query.tests.world import DATABASES, World, answered, asked_rows, built_program, invented

NAMES = "x y z u v w t s r q p o n m l k".split()
BASE = f"""$c wff setvar |- ( ) -> <-> A. R Q Foo Bar $.
$v ph ps {' '.join(NAMES)} $.
wph $f wff ph $. wps $f wff ps $.
{' '.join(f'f{name} $f setvar {name} $.' for name in NAMES)}
wi $a wff ( ph -> ps ) $.
wb $a wff ( ph <-> ps ) $.
wal $a wff A. x ph $.
wr $a wff R x y $.
wq $a wff Q x $.
wfoo $a wff Foo $.
wbar $a wff Bar $.
${{ min $e |- ph $. maj $e |- ( ph -> ps ) $. ax-mp $a |- ps $. $}}
${{ mpbi.1 $e |- ph $. mpbi.2 $e |- ( ph <-> ps ) $. mpbi $a |- ps $. $}}
${{ mpbir.1 $e |- ps $. mpbir.2 $e |- ( ph <-> ps ) $. mpbir $a |- ph $. $}}
${{ gen.1 $e |- ph $. gen $a |- A. x ph $. $}}
${{ spi.1 $e |- A. x ph $. spi $a |- ph $. $}}
"""
POOL = ["R x y", "A. x R x y", "R x x", "Q x", "Foo", "( Q x -> R x y )", "Bar", "( Q x -> Q y )"]
DETACHED = {"->": "ax-mp", "<->": "mpbi", "<-": "mpbir"}

Words = tuple[str, ...]
Pair = frozenset[str]


def variables(words: Sequence[str]) -> list[str]:
    """The variables of a formula, as they come."""
    return list(dict.fromkeys(word for word in words if word in NAMES))


def stripped(words: Sequence[str]) -> Words:
    """A formula without what is quantified before all of it."""
    while words[0] == "A.":
        words = words[2:]
    return tuple(words)


def key(words: Sequence[str]) -> Words:
    """What is the same of formulas that are the same statement."""
    names = {name: f"#{number}" for number, name in enumerate(variables(stripped(words)))}
    return tuple(names.get(word, word) for word in stripped(words))


def built(words: Sequence[str]) -> list[str]:
    """The steps that build a formula."""
    steps, end = built_from(words, 0)
    assert end == len(words)
    return steps


def built_from(words: Sequence[str], place: int) -> tuple[list[str], int]:
    """The steps that build the formula at a place, and the place behind it."""
    word = words[place]
    if word == "A.":
        steps, end = built_from(words, place + 2)
        return [*steps, f"f{words[place + 1]}", "wal"], end
    if word == "(":
        one, middle = built_from(words, place + 1)
        other, end = built_from(words, middle + 1)
        return [*one, *other, {"->": "wi", "<->": "wb"}[words[middle]]], end + 1
    count = {"R": 2, "Q": 1}.get(word, 0)
    names = [f"f{name}" for name in words[place + 1 : place + 1 + count]]
    return [*names, f"w{word.lower()}"], place + 1 + count


@dataclass(frozen=True)
class Said:
    """An assertion: its formula, its `$e` if it has one, and its pairs of distinct variables."""

    label: str
    formula: Words
    given: Words | None = None
    pairs: frozenset[Pair] = frozenset()

    def text(self, proof: str | None = None) -> str:
        """Its block."""
        said = " ".join(self.formula)
        parts = [f"$d {' '.join(sorted(pair))} $." for pair in sorted(self.pairs, key=sorted)]
        if self.given is not None:
            parts.append(f"{self.label}.h $e |- {' '.join(self.given)} $.")
        kind = "$a" if proof is None else "$p"
        parts.append(f"{self.label} {kind} |- {said}{'' if proof is None else f' $= {proof}'} $.")
        return f"${{ {' '.join(parts)} $}}\n"

    def floating(self) -> list[str]:
        """Its variables, in the order in which a proof fills them."""
        used = {*self.formula, *(self.given or ())}
        return [name for name in NAMES if name in used]


@dataclass(frozen=True)
class Step:
    """A way to get from one formula to another by an assertion; `how` is `$e` where that has a
    hypothesis, and otherwise what detaches."""

    said: Said
    how: str
    start: Words
    end: Words


def steps_of(said: Said) -> Iterator[Step]:
    """The links that an assertion is."""
    if said.given is not None:
        yield Step(said, "$e", said.given, said.formula)
        return
    for place in range(2, len(said.formula) - 1):
        one, other = said.formula[1:place], said.formula[place + 1 : -1]
        if said.formula[0] == "(" and said.formula[place] in ("->", "<->") and is_whole(one):
            yield Step(said, said.formula[place], one, other)
            if said.formula[place] == "<->":
                yield Step(said, "<-", other, one)


def is_whole(words: Sequence[str]) -> bool:
    """Whether these are a formula."""
    try:
        return built_from(words, 0)[1] == len(words)
    except (IndexError, KeyError):
        return False


@dataclass
class Proof:
    """A proof by steps, one after the other: its labels, the pairs that must be distinct for it,
    and names for what is in no goal."""

    spare: list[str] = field(default_factory=lambda: list(NAMES))
    needed: set[Pair] = field(default_factory=set)
    dummies: set[str] = field(default_factory=set)

    def filled(self, said: Said, names: dict[str, str]) -> list[str]:
        """What fills the variables of an assertion; those without a name get one."""
        for name in said.floating():
            if name not in names:
                names[name] = self.spare.pop()
                self.dummies.add(names[name])
        self.needed |= {frozenset(names[name] for name in pair) for pair in said.pairs}
        return [f"f{names[name]}" for name in said.floating()]

    def of(self, goal: Words, chain: Sequence[Step], first: Said) -> list[str]:
        """The labels that prove a formula by a chain of steps from an assertion."""
        end = chain[-1].end if chain else first.formula
        names = dict(zip(variables(stripped(end)), variables(stripped(goal))))
        if not chain:
            steps = [*self.filled(first, names), first.label]
        else:
            steps = self.by_step(chain, names, first)
        said = tuple(names.get(word, word) for word in end)
        while said[0] == "A.":
            steps = [*built(said[2:]), f"f{said[1]}", *steps, "spi"]
            said = said[2:]
        count = len(goal) - len(stripped(goal))
        for place in range(count - 2, -2, -2):
            steps = [*built(goal[place + 2 :]), f"f{goal[place + 1]}", *steps, "gen"]
        return steps

    def by_step(self, chain: Sequence[Step], names: dict[str, str], first: Said) -> list[str]:
        """The labels that prove the end of the last step."""
        step = chain[-1]
        floating = self.filled(step.said, names)
        start, end = (
            tuple(names.get(word, word) for word in words) for words in (step.start, step.end)
        )
        premise = self.of(start, chain[:-1], first)
        if step.how == "$e":
            return [*floating, *premise, step.said.label]
        sides = [*built(end), *built(start)] if step.how == "<-" else [*built(start), *built(end)]
        return [*sides, *premise, *floating, step.said.label, DETACHED[step.how]]


ADVICE = "; --without la gives more of them up"
"""What is said behind the statement that proves an axiom by another one, `la`."""


class Chosen:
    """A database made by chance, with the axiom `ax`."""

    def __init__(self, seed: int) -> None:
        self.chance = random.Random(seed)
        self.axiom = self.said("ax", self.statement(POOL[:2]), self.chance.choice([0, 0.5]))
        self.free = [self.said(f"l{number}", *self.link()) for number in range(9)]
        self.stated: list[Said] = []
        self.lines = [BASE, self.axiom.text()]
        for number, each in enumerate(self.free):
            self.lines.append(each.text())
            if each.given is not None and key(each.given) == key(self.axiom.formula):
                self.add_theorem(f"t{number}", each)

    def statement(self, pool: Sequence[str] = POOL) -> Words:
        """A statement with names by chance."""
        words = self.chance.choice(pool).split()
        names = dict(zip(variables(words), self.chance.sample(NAMES[:4], 4)))
        quantified = [f"A. {self.chance.choice(NAMES[:4])}"] * (self.chance.random() < 0.3)
        return tuple(" ".join([*quantified, *(names.get(word, word) for word in words)]).split())

    def link(self) -> tuple[Words, float, Words | None]:
        """The formula of a link, how likely pairs are distinct, and its `$e`."""
        one, other = self.statement(), self.statement()
        how = self.chance.choice(["->", "<->", "$e"])
        if how == "$e":
            return other, 0.5, one
        return ("(", *one, how, *other, ")"), 0.5, None

    def said(self, label: str, formula: Words, likely: float, given: Words | None = None) -> Said:
        """An assertion, some of its variables distinct."""
        used = variables([*formula, *(given or ())])
        pairs = (frozenset(pair) for pair in itertools.combinations(used, 2))
        return Said(
            label,
            formula,
            given,
            frozenset(pair for pair in pairs if self.chance.random() < likely),
        )

    def add_theorem(self, label: str, link: Said) -> None:
        """Adds a theorem that a link proves of the axiom."""
        (step,) = steps_of(link)
        proof = Proof()
        labels = proof.of(link.formula, [step], self.axiom)
        pairs = proof.needed | all_pairs(proof.dummies, {*variables(link.formula)})
        theorem = Said(label, link.formula, None, frozenset(pairs))
        self.lines.append(theorem.text(" ".join(labels)))
        self.stated.append(replace_pairs(theorem))

    def other(self, number: int) -> Said:
        """Another axiom, which often states the axiom, or from what a link leads on."""
        starts = [each.given or next(steps_of(each)).start for each in self.free]
        start = self.chance.choice([self.axiom.formula, *starts, *starts])
        given = ("Bar",) if self.chance.random() < 0.2 else None
        return self.said(f"o{number}", start, 0.4, given)

    def steps(self) -> list[Step]:
        """All links."""
        return [step for said in self.free for step in steps_of(said)]


def replace_pairs(said: Said) -> Said:
    """An assertion with those pairs alone that are of its own variables."""
    own = {*variables(said.formula)}
    pairs = frozenset(pair for pair in said.pairs if pair <= own)
    return Said(said.label, said.formula, said.given, pairs)


def all_pairs(dummies: set[str], others: set[str]) -> set[Pair]:
    """All pairs with a dummy."""
    names = dummies | others
    return {frozenset((one, other)) for one in dummies for other in names if one != other}


def chains(steps: Sequence[Step], start: Words, end: Words, most: int) -> Iterator[list[Step]]:
    """The chains of steps from one statement to another, at most so long."""
    if start == end:
        yield []
    if most:
        for step in steps:
            if key(step.start) == start:
                for rest in chains(steps, key(step.end), end, most - 1):
                    yield [step, *rest]


def key_of(row: dict[str, object]) -> Words:
    """What is the same of rows about the same statement."""
    return key(str(row["statement"]).split())


def labels_in(field: object) -> list[str]:
    """The labels of a field of JSON."""
    assert isinstance(field, list)
    return [*map(str, field)]


class Equivalents(World):
    """What gives an axiom back."""

    def setUp(self) -> None:
        super().setUp()
        patch = mock.patch.dict(os.environ, {"MMDEPEND": built_program()})
        patch.start()
        self.addCleanup(patch.stop)

    def rows(self, text: str, *words: str) -> list[dict[str, object]]:
        """The answer about the axiom `ax`."""
        self.write("db.mm", text)
        return asked_rows("equivalents", str(self.folder / "db.mm"), "ax", *words)

    def test_each_answer_is_a_proof(self) -> None:
        """A database in which the statements are axioms proves the axiom by each of them, and
        without itself."""
        tried = dict.fromkeys(("equivalent", "stronger", "stated"), 0)
        for seed in range(60):
            chosen = Chosen(seed)
            rows = self.rows("".join(chosen.lines))
            lines = list(chosen.lines)
            for number, row in enumerate(rows):
                lines += self.proofs(chosen, row, number)
                tried[str(row["how"])] += 1
                tried["stated"] += row["label"] is not None
            path = str(self.folder / self.write("again.mm", "".join(lines)))
            self.assertIn("valid", answered("text", "verify", path).decode(), seed)
            again = [f"again{number}" for number in range(len(rows))]
            rests = [row["axiom"] for row in asked_rows("rests", path, *again)] if again else []
            self.assertNotIn("ax", rests)
        self.assertGreater(min(tried.values()), 15, tried)

    def proofs(self, chosen: Chosen, row: dict[str, object], number: int) -> list[str]:
        """The statement of a row as an axiom, and what it proves; before it, where the axiom gives
        it by links, the theorem that it is."""
        formula = tuple(str(row["statement"]).split())
        lines = []
        stated = next((each for each in chosen.stated if each.label == row["label"]), None)
        pairs: frozenset[Pair] = frozenset()
        if stated is not None:
            self.assertEqual(stated.formula, formula)
            pairs = stated.pairs
        elif row["how"] == "equivalent":
            theorem, pairs = self.forward(chosen, row, formula, number)
            lines.append(theorem)
        statement = Said(f"new{number}", formula, None, pairs)
        own = {*variables(chosen.axiom.formula)}
        for chain in self.named_chains(chosen, labels_in(row["by"]), formula, chosen.axiom.formula):
            proof = Proof()
            steps = proof.of(chosen.axiom.formula, chain, statement)
            if {pair for pair in proof.needed if pair <= own} <= chosen.axiom.pairs:
                pairs = chosen.axiom.pairs | all_pairs(proof.dummies, own)
                again = Said(f"again{number}", chosen.axiom.formula, None, pairs)
                return [*lines, statement.text(), again.text(" ".join(steps))]
        raise AssertionError(f"no chain of {row} gives the axiom")

    def named_chains(
        self, chosen: Chosen, labels: Sequence[str], start: Words, end: Words
    ) -> Iterator[list[Step]]:
        """The chains by links of these labels from one statement to another."""
        steps = chosen.steps()
        ways = ([step for step in steps if step.said.label == label] for label in labels)
        for chain in itertools.product(*ways):
            ends = [start, *(word for step in chain for word in (step.start, step.end)), end]
            pairs = zip(ends[::2], ends[1::2])
            if all(key(one) == key(other) for one, other in pairs):
                yield list(chain)

    def forward(
        self, chosen: Chosen, row: dict[str, object], formula: Words, number: int
    ) -> tuple[str, frozenset[Pair]]:
        """A theorem by which the axiom gives a statement, and what has to be distinct for it."""
        labels = labels_in(row["from"])
        first, names = chosen.axiom, labels
        for each in chosen.stated:
            if labels and each.label == labels[0]:
                first, names = each, labels[1:]
        found = []
        for chain in self.named_chains(chosen, names, first.formula, formula):
            proof = Proof()
            steps = proof.of(formula, chain, first)
            own = {*variables(formula)}
            pairs = frozenset(pair for pair in proof.needed if pair <= own)
            every = pairs | all_pairs(proof.dummies, own)
            theorem = Said(f"from{number}", formula, None, every)
            found.append((theorem.text(" ".join(steps)), pairs))
        return found[0]

    def test_all_that_links_say_is_found(self) -> None:
        """Of what follows from the axiom just that is listed from which links lead back, if what
        they ask of distinct variables is no more than what the axiom asks; by all chains of at most
        four links."""
        tried = {True: 0, False: 0}
        for seed in range(60):
            chosen = Chosen(seed)
            told = {
                key(str(row["statement"]).split()): len(str(row["by"]).split(","))
                for row in self.rows("".join(chosen.lines))
            }
            steps, axiom = chosen.steps(), key(chosen.axiom.formula)
            for start in {key(step.start) for step in steps} - {axiom}:
                ways = list(chains(steps, start, axiom, 4))
                if not ways or not any(chains(steps, axiom, start, 4)):
                    continue
                works = any(self.gives(chosen, chain) for chain in ways)
                if works or told.get(start, 0) < 5:
                    self.assertEqual(start in told, works, (seed, start))
                    tried[works] += 1
        self.assertGreater(min(tried.values()), 5, tried)

    def gives(self, chosen: Chosen, chain: Sequence[Step]) -> bool:
        """Whether a chain gives the axiom, with what it says of distinct variables."""
        return self.proves(chosen, chain, Said("new", chain[0].start))

    def test_by_hand(self) -> None:
        text = (
            BASE + "ax $a |- Q x $. la $a |- ( Foo <-> A. y Q y ) $. ma $a |- ( Bar -> Foo ) $.\n"
        )
        text += "na $a |- ( R x x -> Bar ) $. ta $p |- Q y $= fy ax $.\n"
        self.write("db.mm", text)
        lines = self.answers("equivalents", "db.mm", "ax", "--format=tsv", "--axioms=la,ma")
        self.assertEqual(lines[1:], [
            "equivalent\tta\t\tta\tQ y\t",
            "equivalent\t\tla\tla\tFoo\tla",
            "stronger\t\tma la\t\tBar\tla ma",
        ])  # fmt: skip
        done = self.query("equivalents", "db.mm", "wal")
        self.assertEqual((done.status, done.out), (2, ""))
        self.refuses("equivalents", "db.mm", "none", why="neither a theorem nor an axiom 'none'")
        self.refuses("equivalents", "db.mm", "ax-mp", why="ax-mp has a $e")
        done = self.query("equivalents", "db.mm", "na")
        self.assertEqual(done.out, "")
        self.assertIn("no statement is found that gives na back", done.err)

    def test_what_others_give(self) -> None:
        """A statement that doesn't rest on the axiom, and gives it back."""
        text = BASE + "ax $a |- Foo $. be $a |- Bar $. la $a |- ( Bar -> Foo ) $.\n"
        self.write("db.mm", text)
        lines = self.answers("equivalents", "db.mm", "ax", "--format=tsv")
        self.assertEqual(lines[1:], ["proved\tbe\tla\tbe\tBar\tax-mp gen spi be la"])
        done = self.query("equivalents", "db.mm", "ax")
        said = "the others give ax, by be; --without be gives more of them up"
        self.assertEqual(done.err, f"mmquery: db.mm: {said}\n")
        done = self.query("equivalents", "db.mm", "ax", "--without=be", "--format=tsv")
        self.assertEqual(done.lines()[1].split("\t")[0], "stronger")

    def test_only_restatements(self) -> None:
        """Where no link leads to the axiom, standard error says so, on one line with the rest."""
        text = BASE + "ax $a |- Q x $. ta $p |- Q y $= fy ax $.\n"
        only = "only restatements are found: no link leads to ax from another statement, and proofs"
        only += " that are more than chains of links aren't looked for"
        proved = "be $a |- A. y Q y $.\n"
        for more, said in (
            ("", only),
            (proved, f"the others give ax, by be; --without be gives more of them up; {only}"),
            ("la $a |- ( Foo -> Q x ) $.\n", None),
        ):
            self.write("db.mm", text + more)
            done = self.query("equivalents", "db.mm", "ax")
            self.assertEqual(done.err, f"mmquery: db.mm: {said}\n" if said else "")
        self.write("db.mm", BASE + "ax $a |- Q x $.\n")
        self.assertNotIn("restatements", self.query("equivalents", "db.mm", "ax").err)
        both = "be $a |- Bar $. ${ r1 $e |- Q x $. r2 $e |- Bar $. ra $a |- Foo $. $}\n"
        both += "${ s1 $e |- Foo $. s2 $e |- Bar $. sa $a |- Q y $. $}\n"
        through = "tn $p |- Foo $= fx fx ax be ra $. tz $p |- Q y $= fy tn be sa $.\n"
        self.write("db.mm", BASE + "ax $a |- Q x $.\n" + both + through)
        said = f"{only}; a proof of tn without ax would prove ax"
        self.assertEqual(self.query("equivalents", "db.mm", "ax").err, f"mmquery: db.mm: {said}\n")

    def test_proved_in_any_order(self) -> None:
        """A statement that another theorem states, which rests on the axiom, is proved whichever of
        both comes first."""
        text = BASE + "ax $a |- Foo $. be $a |- Bar $. la $a |- ( Bar -> Foo ) $.\n"
        both = ["one $p |- Foo $= ax $.\n", "two $p |- Foo $= wbar wfoo be la ax-mp $.\n"]
        for lines in (both, both[::-1]):
            self.write("db.mm", text + "".join(lines))
            done = self.query("equivalents", "db.mm", "ax", "--format=csv")
            self.assertEqual(done.err, f"mmquery: db.mm: the others give ax, by two{ADVICE}\n")
            found = [line.split(",")[:5] for line in done.lines()[1:]]
            self.assertEqual(found[0], ["proved", "two", "", "two", "Foo"])
            self.assertEqual(found[1:], [["proved", "be", "la", "be", "Bar"]])
            rows = self.rows(text + "".join(lines), "--without", "be")
            self.assertEqual([row["how"] for row in rows], ["equivalent", "stronger"])
            self.assertEqual([row["label"] for row in rows], ["one", "be"])

    def test_what_proves_it(self) -> None:
        """An assertion that asks for more distinct variables, or has a `$e`, doesn't prove it; nor
        does the axiom itself stand among the answers, from which a link leads to it."""
        text = BASE + "ax $a |- R x y $. on $p |- R y x $= fy fx ax $.\n"
        given = "${ more.h $e |- Foo $. more $a |- R x y $. $}\n"
        distinct = "${ $d x y $. apart $a |- R y x $. $}\n"
        mathbox = "$( (New usage is discouraged.) $) free $a |- A. z R z x $.\n"
        for lines, wanted in (
            (given + distinct, ("equivalent", "on")),
            (given + distinct + mathbox, ("proved", "free")),
        ):
            rows = self.rows(text + lines)
            told = [(row["how"], row["label"]) for row in rows]
            self.assertEqual(told, [wanted, ("stronger", None)])
        apart = BASE + "${ $d x y $. ax $a |- R x y $. $}\n" + distinct
        self.assertEqual([row["label"] for row in self.rows(apart)], ["apart"])
        turned = BASE + "ax $a |- R x y $. la $a |- ( R y x -> R x y ) $.\n"
        self.assertEqual(self.rows(turned), [])

    def test_proved_by_another_chain(self) -> None:
        """Where an assertion asks for other distinct variables than the axiom does at the end of a
        short chain, but not at the end of a longer one, it proves the statement by this, behind
        what has a short one."""
        text = BASE + "$c T $. wt $a wff T x y z $.\n${ $d x y $. ax $a |- T x y z $. $}\n"
        text += "la $a |- ( ( T x y z -> Foo ) -> T x y z ) $.\n"
        text += "lb $a |- ( ( T y z x -> Foo ) -> ( T x y z -> Foo ) ) $.\n"
        text += "${ $d x z $. be $a |- ( T x y z -> Foo ) $. $}\n"
        text += "lc $a |- ( T x y z -> ( T x y z -> Foo ) ) $.\n"
        text += "ld $a |- ( Bar -> T x y z ) $.\n"
        rows = self.rows(text)
        self.assertEqual(
            [(row["how"], row["by"]) for row in rows],
            [("stronger", ["ld"]), ("proved", ["lb", "la"])],
        )
        rows = self.rows(text, "--without", "be")
        self.assertEqual(
            [(row["how"], row["by"]) for row in rows],
            [("equivalent", ["la"]), ("stronger", ["ld"])],
        )

    def test_what_asks_for_less(self) -> None:
        """Of two theorems that state the same, links go on from the one that asks for fewer
        distinct variables, whichever comes first."""
        text = BASE + "ax $a |- ( Q x -> Q y ) $. la $a |- ( R x y -> ( Q x -> Q y ) ) $.\n"
        text += "lb $a |- ( R x y -> ( Q x -> R x y ) ) $.\n"
        text += "lc $a |- ( ( Q x -> R x y ) -> ( Q x -> Q y ) ) $.\n"
        text += (
            "${ ra.1 $e |- ( Q x -> Q y ) $. ra.2 $e |- ( Q x -> Q y ) $. ra $a |- R x y $. $}\n"
        )
        proof = "$p |- R x y $= fx fy fx fy ax fx fy ax ra $. $}\n"
        both = [f"${{ one {proof}", f"${{ $d x y $. two {proof}"]
        for lines in (both, both[::-1]):
            told = [
                (row["how"], row["by"], row["from"]) for row in self.rows(text + "".join(lines))
            ]
            self.assertEqual(
                told,
                [("equivalent", ["la"], ["one"]), ("equivalent", ["lc"], ["one", "lb"])],
            )

    def test_what_is_proved(self) -> None:
        """Just that is proved which an assertion states from which a chain of at most four links
        gives the axiom, wherever it stands in the file."""
        tried = {True: 0, False: 0}
        for seed in range(60):
            chosen = Chosen(seed)
            axiom, lines = key(chosen.axiom.formula), chosen.lines
            others = [chosen.other(number) for number in range(3)]
            texts = [each.text() for each in others]
            steps = [step for each in (*chosen.free, *others) for step in steps_of(each)]
            told, again = (
                {key_of(row): row for row in self.rows("".join(text))}
                for text in ([lines[0], *texts, *lines[1:]], [*lines, *texts])
            )
            lengths = [len(labels_in(row["by"])) for row in told.values()]
            self.assertEqual(lengths, sorted(lengths))
            self.assertEqual(
                {name for name, row in told.items() if row["how"] == "proved"},
                {name for name, row in again.items() if row["how"] == "proved"},
            )
            for start, row in told.items():
                ways = [*chains(steps, start, axiom, 4)]
                proving = {
                    each.label
                    for each in others
                    if each.given is None and key(each.formula) == start
                    if any(self.proves(chosen, chain, each) for chain in ways)
                }
                if proving or len(labels_in(row["by"])) < 5:
                    self.assertEqual(row["how"] == "proved", bool(proving), (seed, row))
                    tried[bool(proving)] += 1
                if len(labels_in(row["by"])) < 5 and proving:
                    self.assertIn(row["label"], proving)
        self.assertGreater(min(tried.values()), 15, tried)

    def proves(self, chosen: Chosen, chain: Sequence[Step], stated: Said) -> bool:
        """Whether a chain from an assertion gives the axiom, with what both say of distinct
        variables."""
        proof = Proof()
        proof.of(chosen.axiom.formula, chain, stated)
        own = {*variables(chosen.axiom.formula)}
        return {pair for pair in proof.needed if pair <= own} <= chosen.axiom.pairs

    def test_another_axiom_is_given_up(self) -> None:
        """What another axiom states counts as proved, until that is given up too: then the answers
        are those of the database without it, and it has the label of its statement."""
        tried = dict.fromkeys(("equivalent", "stronger"), 0)
        for seed in range(60):
            chosen = Chosen(seed)
            lines = "".join(chosen.lines)
            without = {key_of(row): row for row in self.rows(lines)}
            step = chosen.chance.choice(chosen.steps())
            other = Said("other", stripped(step.start))
            own = key(other.formula)
            is_stated = any(key(each.formula) == own for each in chosen.stated)
            given_up = {
                key_of(row): row for row in self.rows(lines + other.text(), "--without", "other")
            }
            for name, row in without.items():
                self.assertEqual(given_up[name]["how"], row["how"], (seed, name))
                if is_stated or name != own:
                    self.assertEqual(given_up[name]["label"], row["label"], (seed, name))
            if own not in given_up or is_stated:
                continue
            self.assertEqual(given_up[own]["label"], "other")
            proved = {key_of(row): row for row in self.rows(lines + other.text())}
            self.assertEqual((proved[own]["how"], proved[own]["label"]), ("proved", "other"))
            tried[str(given_up[own]["how"])] += 1
        self.assertGreater(min(tried.values()), 3, tried)

    def test_what_rests_on_both(self) -> None:
        """By a theorem that rests on the other axiom nothing is seen to follow from this one."""
        text = BASE + "ax $a |- Foo $. other $a |- Bar $. la $a |- ( A. x Q x -> Foo ) $.\n"
        text += "lb $a |- ( Bar -> A. x Q x ) $.\n"
        text += "both $p |- A. x Q x $= wbar fx wq fx wal other fx lb ax-mp $.\n"
        self.write("db.mm", text)
        for words, wanted in (
            ((), ["proved\tboth\tla\tboth\tA. x Q x", "proved\tother\tlb la\tother\tBar"]),
            (
                ("--without=other",),
                ["stronger\tboth\tla\t\tA. x Q x", "stronger\tother\tlb la\t\tBar"],
            ),
        ):
            lines = self.answers("equivalents", "db.mm", "ax", "--format=tsv", *words)
            told = ["\t".join(line.split("\t")[:5]) for line in lines[1:]]
            self.assertEqual(told, wanted)
        self.refuses("equivalents", "db.mm", "ax", "--without=no", why="nor an axiom 'no'")

    @unittest.skipUnless((DATABASES / "set.mm").exists(), "there is no set.mm")
    def test_choice(self) -> None:
        """What set.mm proves to be the axiom of choice: the table of its theorem `dfac`-s."""
        path = str(DATABASES / "set.mm")
        rows = self.query("equivalents", path, "ax-ac2", "--format=json").rows()
        first = {labels_in(row["by"])[0] for row in rows if row["how"] != "stronger" and row["by"]}
        self.assertLessEqual(
            {"dfackm", "df-ac", "dfac3", "dfac4", "dfac5", "dfac8", "dfac9", "dfac10", "dfac12",
             "dfac13", "dfac14", "dfac21", "dfacbasgrp", "dfacfin7", "ttac"},
            first,
        )  # fmt: skip
        stronger = {str(row["statement"]) for row in rows if row["how"] == "stronger"}
        self.assertIn("GCH = _V", stronger)

    @unittest.skipUnless((DATABASES / "set.mm").exists(), "there is no set.mm")
    def test_what_groth_proves(self) -> None:
        """What ax-groth proves is proved, also where other theorems state it by the axiom."""
        path = str(DATABASES / "set.mm")
        for words, wanted in (
            (("ax-ac2", "--without=ax-ac"), ("proved", "grothac", "dom card = _V")),
            (("ax-pow",), ("proved", "grothpw")),
        ):
            rows = self.query("equivalents", path, *words, "--format=json").rows()
            told = [(row["how"], row["label"], row["statement"])[: len(wanted)] for row in rows]
            self.assertIn(wanted, told)


if __name__ == "__main__":
    unittest.main()


RESTATED = """$c |- wff ( -> ) $. $v p q r $.
wp $f wff p $. wq $f wff q $. wr $f wff r $.
wi $a wff ( p -> q ) $.
a1 $a |- ( p -> ( q -> p ) ) $.
a2 $a |- ( r -> ( p -> r ) ) $.
a3 $a |- ( p -> p ) $.
${ m1 $e |- p $. m2 $e |- ( p -> q ) $. mp $a |- q $. $}
${ n1 $e |- r $. n2 $e |- ( r -> p ) $. np $p |- p $= wr wp n1 n2 mp $. $}
${ o2 $e |- ( p -> q ) $. o1 $e |- p $. mo $a |- q $. $}
t1 $p |- ( q -> ( p -> q ) ) $= wq wp a1 $.
t3 $p |- ( q -> q ) $= wq a3 $.
${ $d p q $. d1 $a |- ( p -> ( q -> q ) ) $. $}
d2 $a |- ( r -> ( p -> p ) ) $.
"""


class Restated(World):
    """Axioms that something states which doesn't rest on them."""

    def test_by_hand(self) -> None:
        """But for the names of variables, with the hypotheses in their order, and with no more
        distinct variables."""
        self.write("db.mm", RESTATED)
        rows = self.query("equivalents", "db.mm", "--format=json").rows()
        self.assertEqual(
            [(row["axiom"], row["label"]) for row in rows],
            [("a1", "a2"), ("a2", "a1"), ("d1", "d2")],
        )
        same = RESTATED.replace(
            "o2 $e |- ( p -> q ) $. o1 $e |- p $.", "o1 $e |- p $. o2 $e |- ( p -> q ) $."
        )
        self.write("db.mm", same)
        lines = self.answers("equivalents", "db.mm", "--format=tsv")
        self.assertEqual(lines[1:], ["a1\ta2", "a2\ta1", "mp\tmo", "mo\tmp", "d1\td2"])
        lines = self.answers("equivalents", "db.mm", "--format=tsv", "--axioms=d")
        self.assertEqual(lines[1:], ["d1\td2"])
        self.write("db.mm", RESTATED.split("a2 $a")[0])
        done = self.query("equivalents", "db.mm")
        self.assertEqual((done.out, done.status), ("", 0))
        self.assertIn("db.mm: no assertion states an axiom on which it doesn't rest", done.err)
        self.refuses("equivalents", "db.mm", "--without=a1", why="so it wants AX")

    def test_by_chance(self) -> None:
        """Each assertion says the same, so another one states an axiom that doesn't rest on it."""
        for seed in range(4):
            database = invented(random.Random(seed), 8)
            self.write("db.mm", database.text)
            rows = self.query("equivalents", "db.mm", "--format=json").rows()
            others = [*database.axioms, *database.theorems()]
            order = {label: database.text.index(f"{label} $") for label in others}
            for axiom in database.axioms:
                free = [
                    label
                    for label in sorted(others, key=order.__getitem__)
                    if label != axiom and axiom not in database.rests(label)
                ]
                found = [row["label"] for row in rows if row["axiom"] == axiom]
                self.assertEqual(found, free[:1], (seed, axiom))

    @unittest.skipUnless((DATABASES / "nf.mm").exists(), "there is no nf.mm")
    def test_nf(self) -> None:
        path = str(DATABASES / "nf.mm")
        rows = self.query("equivalents", path, "--format=json").rows()
        self.assertEqual(len(rows), 25)
        for row in rows:
            self.assertNotIn(row["axiom"], self.answers("rests", path, str(row["label"])))
