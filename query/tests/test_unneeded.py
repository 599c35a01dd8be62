"""`unneeded`, against what the program says of databases from which something is taken away."""

import itertools
import random
import re
import subprocess
import unittest
from collections import Counter
from dataclasses import dataclass, replace
from unittest import mock

from query.platform.parallel import Copy
from query.proofs import unneeded
from query.proofs.letters import letters_of
from query.proofs.unneeded import Unneeded, read_text, unneeded_of
from query.proofs.unneeded_through import unneeded_through
from query.tests import shapes
from query.tests.replay import Frame, frames
from query.tests.test_spare_search import Known, Maker
from query.tests.world import DATABASES, World, built_program, database_text
from query.texts.assertions import Assertion
from query.texts.text import Text
from query.texts.uncommented import without_comments

HEAD = """$c ( ) -> |- wff spare few typed $.
$( $c hidden $. $)
$v p q r unused dull lone dummy $.
wp $f wff p $. wq $f wff q $. wr $f wff r $.
wdull $f wff dull $. wlone $f typed lone $. wdummy $f wff dummy $.
wi $a wff ( p -> q ) $.
ax $a |- ( p -> p ) $.
${ $d p q $. ay $a |- ( p -> ( q -> p ) ) $. $}
az $a |- ( q -> ( p -> p ) ) $.
${ mp.1 $e |- p $. mp.2 $e |- ( p -> q ) $. mp $a |- q $. $}
"""
TEXT = (
    HEAD
    + """
${ $d p q r $. $d dull p $. t1.1 $e |- p $. t1 $p |- ( q -> ( r -> q ) ) $= wq wr ay $. $}
${ $d p q $. $d q r $. t2.1 $e |- p $. t2.2 $e |- r $.
   t2 $p |- ( q -> p ) $= ( wi ay mp ) ABAFDABGH $. $}
${ t3.1 $e |- few $. t3 $p |- ( p -> p ) $=
   wdummy wdummy wi wp wp wi wdummy ax wp wdummy wdummy wi az mp $. $}
"""
)
ROWS = [
    ["hypothesis", "t1", "t1.1", ""],
    ["pair", "t1", "p q", ""],
    ["pair", "t1", "p r", ""],
    ["hypothesis", "t2", "t2.2", ""],
    ["pair", "t2", "q r", ""],
    ["hypothesis", "t3", "t3.1", ""],
    ["constant", "", "spare", ""],
    ["variable", "", "unused", ""],
    ["variable", "", "dull", "wdull"],
    ["variable", "", "lone", "wlone"],
]


def is_valid(text: str) -> bool:
    """Whether the program accepts a database."""
    words = [built_program(), "--report=statements"]
    return subprocess.run(words, input=text.encode(), capture_output=True).returncode == 0


def told(text: Text) -> dict[str, Unneeded]:
    """What is told of each theorem."""
    _, _, proofs = read_text(text)
    theorems = [one for one in text.assertions if one.letter == "p"]
    return dict(unneeded_of(proofs, theorems, True, True))


class Small(World):
    """Over a small database."""

    def rows(self, *words: str) -> list[list[str]]:
        """The rows of an answer."""
        lines = self.answers("unneeded", "--format", "tsv", *words)
        self.assertEqual(lines[0].split("\t"), ["what", "theorem", "unneeded", "floating"])
        return [line.split("\t") for line in lines[1:]]

    def test_each(self) -> None:
        self.write("db.mm", TEXT)
        self.assertEqual(self.rows("db.mm"), ROWS)
        for option, kinds in (
            ("--hypotheses", ["hypothesis"]),
            ("--disjoint", ["pair"]),
            ("--symbols", ["constant", "variable"]),
        ):
            wanted = [row for row in ROWS if row[0] in kinds]
            self.assertEqual(self.rows("db.mm", option), wanted)

    def test_variable_of_a_compressed_proof(self) -> None:
        """The `$f` that a compressed proof alone names is needed."""
        start = TEXT.index("wdummy wdummy wi")
        text = TEXT[:start] + "( wdummy wi ax az mp ) CCDAADCEACCDFG $. $}\n"
        self.write("db.mm", text)
        self.assertEqual(self.rows("db.mm"), ROWS)
        text = text[: text.index("${ t3.1")]
        self.write("db.mm", text)
        symbols = [row[2] for row in self.rows("db.mm", "--symbols")]
        self.assertEqual(symbols, ["spare", "few", "unused", "dull", "lone", "dummy"])

    def test_through(self) -> None:
        """With `--through` also what only fills hypotheses that are listed."""
        proofs = {"u": "wq ax", "v": "wp wq v.1 u", "w": "( v ) ABCD", "x": "wp wq x.1 w"}
        text = HEAD + "".join(
            f"${{ {label}.1 $e |- p $. {label} $p |- ( q -> q ) $= {proof} $. $}}\n"
            for label, proof in proofs.items()
        )
        self.write("db.mm", text)
        wanted = [["hypothesis", "u", "u.1", ""]]
        self.assertEqual(self.rows("db.mm", "--hypotheses"), wanted)
        wanted += [["through", label, f"{label}.1", ""] for label in "vwx"]
        self.assertEqual(self.rows("db.mm", "--hypotheses", "--through"), wanted)
        self.assertEqual(self.rows("db.mm", "--through", "--like", "w"), wanted[2:3])
        why = "--through is about hypotheses, so it wants --hypotheses"
        self.refuses("unneeded", "db.mm", "--disjoint", "--through", why=why)

    def test_filters(self) -> None:
        self.write("db.mm", TEXT)
        self.assertEqual(self.rows("db.mm", "--like", "t2"), ROWS[3:5])
        why = "--symbols exclude one another"
        self.refuses("unneeded", "db.mm", "--symbols", "--like", "t2", why=why)

    def test_empty(self) -> None:
        self.write("db.mm", "$c a $. ax $a a $. t $p a $= ax $.\n")
        done = self.query("unneeded", "db.mm")
        self.assertEqual((done.status, done.out), (0, ""))
        self.assertIn("nothing was found that isn't needed", done.err)

    def test_open(self) -> None:
        """A proof that isn't whole says nothing of what it needs."""
        self.write("db.mm", HEAD + "${ h $e |- p $. t $p |- ( p -> p ) $= ? $. $}\n")
        self.refuses("unneeded", "db.mm", why="E32")
        rows = self.rows("db.mm", "--open", "--hypotheses", "--disjoint")
        self.assertEqual(rows, [])

    def test_report(self) -> None:
        self.write("db.mm", TEXT)
        self.write("report", self.report("db.mm"))
        self.refuses("unneeded", "report", why="a report, where the database is wanted")


class Lavish(Maker):
    """Makes databases whose theorems have hypotheses and conditions too many."""

    def declared(self, one: Known, proof: str | None) -> None:
        """Writes an assertion."""
        if proof is not None:
            if self.chance.random() < 0.4:
                one.given.append((f"{one.label}.more", self.term()))
            for pair in itertools.combinations(one.names(), 2):
                if self.chance.random() < 0.15:
                    one.apart.add(frozenset(pair))
        super().declared(one, proof)


Tree = tuple[str, tuple["Tree", ...]]
"""A step with those that it takes."""


def compressed(frame: Frame, sizes: dict[str, int]) -> str:
    """A normal proof as a compressed one, in which what stands twice is marked."""
    given = [label for label, *_ in frame.mandatory]
    labels = [*given, *dict.fromkeys(word for word in frame.words if word not in given)]
    stack: list[Tree] = []
    counts: Counter[Tree] = Counter()
    for word in frame.words:
        size = sizes.get(word, 0)
        tree: Tree = (word, tuple(stack[len(stack) - size :]))
        stack[len(stack) - size :] = [tree]
        counts[tree] += 1
    marks: dict[Tree, int] = {}

    def letters(tree: Tree) -> str:
        if tree in marks:
            return letters_of(len(labels) + marks[tree])
        found = "".join(map(letters, tree[1])) + letters_of(labels.index(tree[0]))
        if tree[1] and counts[tree] > 1:
            marks[tree] = len(marks)
            found += "Z"
        return found

    return f"( {' '.join(labels[len(given):])} ) {letters(stack[0])}"


Gone = dict[str, dict[str, bool]]
"""For each theorem the `$e` that are taken away, each with whether its proof uses it."""


def without_told(text: Text) -> Gone:
    """What `--through` tells of each theorem."""
    _, _, proofs = read_text(text)
    return dict(unneeded_through(proofs, [one for one in text.assertions if one.letter == "p"]))


def rewritten(text: str, gone: Gone) -> tuple[str, list[tuple[str, str]]]:
    """A database of normal proofs, in which each assertion is a line, without some `$e` and the
    steps that fill them; and the `$e` that are left of theorems. The steps are cut out by what both
    databases say of hypotheses."""
    old = mandatory_in(text)
    lines = text.splitlines()
    for number, line in enumerate(lines):
        match = re.search(r" (\S+) \$p ", line)
        for label in gone.get(match[1], ()) if match else ():
            line = re.sub(rf" {re.escape(label)} \$e [^$]*\$\.", "", line)
        lines[number] = line
    new = mandatory_in("\n".join(lines))
    for number, line in enumerate(lines):
        match = re.search(r" \$p .*\$= (.*) \$\.", line)
        if match:
            words = " ".join(left_of(match[1].split(), old, new))
            lines[number] = line[: match.start(1)] + words + line[match.end(1) :]
    kept = [
        (label, each)
        for label, hypotheses in new.items()
        for each in hypotheses
        if f"{each} $e" in text and f" {label} $p" in text
    ]
    return "\n".join(lines) + "\n", kept


def mandatory_in(text: str) -> dict[str, list[str]]:
    """The mandatory hypotheses of each assertion, in order."""
    return {each.label: [one[0] for one in each.mandatory] for each in frames(text)}


def left_of(words: list[str], old: dict[str, list[str]], new: dict[str, list[str]]) -> list[str]:
    """A normal proof without the steps that fill what is gone."""
    stack: list[list[str]] = []
    for word in words:
        taken = old.get(word, [])
        filling = stack[len(stack) - len(taken) :] if taken else []
        del stack[len(stack) - len(taken) :]
        left = [each for name, each in zip(taken, filling) if name in new.get(word, [])]
        stack.append([one for each in left for one in each] + [word])
    return stack[-1]


class ByChance(World):
    """What is told can be taken away, and nothing else can."""

    def test_hypotheses_and_pairs(self) -> None:
        counts: Counter[tuple[str, bool]] = Counter()
        for seed in range(8):
            lines = Lavish(seed).text(25).splitlines()
            found = told(database_text("\n".join(lines).encode()))
            for number, line in enumerate(lines):
                match = re.search(r" (\S+) \$p ", line)
                if match is None:
                    continue
                each = found.get(match[1], Unneeded([], []))
                before = "\n".join(lines[:number])
                for what, is_told in self.drops(line, each):
                    text = f"{before}\n{line.replace(what, '')}\n"
                    self.assertEqual(is_valid(text), is_told, f"{seed} {match[1]} {what}")
                    counts[what[:2], is_told] += 1
                rest = line
                for what, is_told in self.drops(line, each):
                    rest = rest.replace(what, "") if is_told else rest
                self.assertTrue(is_valid(f"{before}\n{rest}\n"))
        counted = Counter[tuple[bool, bool]]()
        for (start, is_told), count in counts.items():
            counted[start == "$d", is_told] += count
        self.assertEqual(len(counted), 4)
        self.assertGreater(min(counted.values()), 20, counted)

    def test_hypotheses_through(self) -> None:
        """Without all `$e` that are told, and the steps that fill them, the database is valid. A
        `$e` that isn't told is needed: with it away, and each step that would fill a told one,
        nothing proves the theorem by the same citations."""
        counts: Counter[str] = Counter()
        for seed in range(12):
            text = Lavish(seed).text(25)
            data = text.encode()
            found = without_told(database_text(data))
            shorter, kept = rewritten(text, found)
            self.assertTrue(is_valid(shorter), (seed, shorter))
            counts["told"] += sum(map(len, found.values()))
            counts["through"] += sum(
                is_used for each in found.values() for is_used in each.values()
            )
            for label, hypothesis in kept:
                more = {**found, label: {**found.get(label, {}), hypothesis: True}}
                self.assertFalse(is_valid(rewritten(text, more)[0]), (seed, label, hypothesis))
                counts["kept"] += 1
        self.assertGreater(min(counts[each] for each in ("told", "through", "kept")), 5, counts)

    def drops(self, line: str, each: Unneeded) -> list[tuple[str, bool]]:
        """The `$e` of a theorem, and its `$d` that are mandatory, each with whether it is told."""
        *_, frame = frames(HEAD_OF_MAKER + line)
        found = [
            (match[0], match[1] in each.hypotheses)
            for match in re.finditer(r"(\S+) \$e [^$]*\$\. ", line)
        ]
        pairs = {frozenset(pair) for pair in each.pairs}
        self.assertLessEqual(pairs, {pair for pair in frame.apart if pair <= frame.variables})
        for pair in sorted(frame.apart, key=sorted):
            if pair <= frame.variables:
                found.append((f"$d {' '.join(sorted(pair))} $. ", pair in pairs))
        return found

    def test_compressed_proofs(self) -> None:
        """The same is told of compressed proofs; and by several processes."""
        marks = 0
        for seed in range(8):
            text = Lavish(seed).text(25)
            short, sizes = text, dict[str, int]()
            for frame in frames(text):
                sizes[frame.label] = len(frame.mandatory)
                if frame.words:
                    new = compressed(frame, sizes)
                    marks += new.count("Z")
                    start = f"{frame.label} $p {frame.formula} $= "
                    self.assertIn(start, short)
                    old = f"{start}{' '.join(frame.words)} $."
                    short = short.replace(old, f"{start}{new} $.")
            self.assertNotEqual(short, text)
            found = told(database_text(short.encode()))
            self.assertEqual(found, told(database_text(text.encode())))
            with (
                mock.patch.object(unneeded, "PIECE", 500),
                mock.patch.object(unneeded, "begun", lambda work, size: Copy(work)),
            ):
                self.assertEqual(told(database_text(text.encode())), found)
        self.assertGreater(marks, 30)


HEAD_OF_MAKER = Maker(0).lines[0]


@dataclass
class Statement:
    """A statement: its label, its keyword, and its words."""

    label: str
    keyword: str
    words: list[str]
    before: str = ""
    """A brace that stands before it."""

    def without(self, name: str) -> "Statement | None":
        """The same where a symbol is no longer declared, nor has a `$f`."""
        if self.keyword == "$f" and self.words[1] == name:
            return None
        if self.keyword not in ("$c", "$v", "$d"):
            return self
        words = [word for word in self.words if word != name]
        least = 2 if self.keyword == "$d" else 1
        return replace(self, words=words) if len(words) >= least else None


def joined(statements: list[Statement]) -> str:
    """A database of these statements."""
    lines = (
        f"{one.before} {one.label} {one.keyword} {' '.join(one.words)} $." for one in statements
    )
    return "\n".join(lines) + "\n"


class Symbols(World):
    """The symbols that are told need no declaration, and the others do."""

    def made(self, chance: random.Random) -> list[Statement]:
        """A database in which each symbol stands somewhere, or nowhere."""
        constants = [f"c{number}" for number in range(8)]
        variables = [f"v{number}" for number in range(8)]
        found = [
            Statement("", "$c", ["wff", "|-", *constants[:3]]),
            *(Statement("", "$c", [name]) for name in constants[3:]),
            Statement("", "$v", ["a", *variables]),
            Statement("fa", "$f", ["wff", "a"]),
        ]
        floating = [name for name in variables if chance.random() < 0.8]
        for name in floating:
            typecode = "wff" if chance.random() < 0.8 else chance.choice(constants)
            found.append(Statement(f"f{name}", "$f", [typecode, name]))
        wffs = [each.words[1] for each in found[8:] if each.words[0] == "wff"]
        found.append(Statement("", "$d", ["a", *chance.sample(variables, 2)]))
        found.append(Statement("any", "$a", ["|-", "a"]))
        found.append(Statement("e", "$e", ["|-", "a"], "${"))
        found.append(Statement("erase", "$a", ["|-", "c0"]))
        return self.ended(found, chance, wffs, constants)

    def ended(
        self, found: list[Statement], chance: random.Random, wffs: list[str], constants: list[str]
    ) -> list[Statement]:
        """The same with a proof, an axiom and a hypothesis of chance."""
        name = chance.choice(wffs)
        proof = [f"f{name}", f"f{name}", "any", "erase"]
        found.append(Statement("t", "$p", ["|-", "c0", "$=", *proof], "$}"))
        said = [chance.choice([*wffs, *constants]) for _ in range(2)]
        found.append(Statement("u", "$a", ["|-", *said]))
        found.append(Statement("h", "$e", ["|-", chance.choice(constants)]))
        return found

    def test_by_chance(self) -> None:
        counts: Counter[tuple[str, bool]] = Counter()
        for seed in range(12):
            statements = self.made(random.Random(seed))
            text = joined(statements)
            self.assertTrue(is_valid(text), text)
            declared, bare_text, _ = read_text(database_text(text.encode()))
            found = {symbol.name for symbol in declared.unneeded(bare_text)}
            names = [
                word for one in statements for word in one.words if one.keyword in ("$c", "$v")
            ]
            for name in names:
                left = [each for one in statements if (each := one.without(name)) is not None]
                self.assertEqual(is_valid(joined(left)), name in found, f"{seed} {name}")
                counts[name[0], name in found] += 1
        self.assertGreater(counts["c", True], 10)
        self.assertGreater(counts["c", False], 10)
        self.assertGreater(counts["v", True], 10)
        self.assertGreater(counts["v", False], 10)


class Apart:
    """A theorem of a database at the end of what stands before it, in a block of its own."""

    def __init__(self, text: Text, one: Assertion) -> None:
        self.one = one
        before = text.data[: one.place].decode("latin-1")
        bare_text = without_comments(before.encode("latin-1"))
        depth = bare_text.count(b"${") - bare_text.count(b"$}")
        self.before = before + " $}" * depth
        self.frame = one.frame()
        self.proof = " ".join(text.proof(one))

    def text(self, pairs: list[tuple[str, str]], doubled: str = "") -> str:
        """The database in which it has these pairs, and in which a hypothesis says something else.
        Variables of its proof alone are distinct from all others."""
        _, _, dummies = self.one.said.partition(" $v ")
        names = dummies.partition(" $")[0].split() if dummies else []
        own = [each.formula.split(" ")[1] for each in self.frame.hypotheses() if each.kind == "f"]
        every = [*pairs, *itertools.combinations(names, 2), *itertools.product(names, own)]
        parts = [f"$d {one} {other} $." for one, other in every]
        for number, each in enumerate(self.frame.hypotheses()):
            if each.kind == "e":
                typecode, _, rest = each.formula.partition(" ")
                again = f" {rest}" if each.label == doubled else ""
                parts.append(f"apart.{number} $e {typecode} {rest}{again} $.")
        return (
            f"{self.before} ${{ {' '.join(parts)} {self.one.label} $p {self.one.formula}"
            f" $= {self.proof} $. $}}\n"
        )


@unittest.skipUnless((DATABASES / "nf.mm").exists(), "there are no databases")
class OfDebian(World):
    """Over databases of Debian, each theorem by itself."""

    def test_theorems(self) -> None:
        counts: Counter[tuple[str, bool]] = Counter()
        for name, step in (("hol.mm", 3), ("ql.mm", 40), ("nf.mm", 350)):
            text = database_text((DATABASES / name).read_bytes())
            found = told(text)
            theorems = [one for one in text.assertions if one.letter == "p"]
            some = theorems[::step] + [text.by_label[label] for label in [*found][:: step // 3]]
            for one in some:
                self.see(Apart(text, one), found.get(one.label, Unneeded([], [])), counts)
        self.assertEqual(len(counts), 4, counts)
        self.assertGreater(min(counts.values()), 4, counts)

    def see(self, apart: Apart, each: Unneeded, counts: Counter[tuple[str, bool]]) -> None:
        """Tries each pair of a theorem, and each hypothesis."""
        pairs = [*apart.frame.pairs()]
        label = apart.one.label
        self.assertTrue(is_valid(apart.text(pairs)), label)
        for pair in pairs[:6]:
            left = [other for other in pairs if other != pair]
            is_told = pair in each.pairs
            self.assertEqual(is_valid(apart.text(left)), is_told, f"{label} {pair}")
            counts["pair", is_told] += 1
        left = [pair for pair in pairs if pair not in each.pairs]
        self.assertTrue(is_valid(apart.text(left)), label)
        for given in apart.frame.hypotheses():
            if given.kind == "e":
                is_told = given.label in each.hypotheses
                self.assertEqual(is_valid(apart.text(pairs, given.label)), is_told, given.label)
                counts["hypothesis", is_told] += 1


RULES = """$c ( ) -> |- wff $. $v p q r $. wp $f wff p $. wq $f wff q $. wr $f wff r $.
wi $a wff ( p -> q ) $. any $a |- p $. ${ erase.1 $e |- p $. erase $a |- ( q -> r ) $. $}
"""


class Hostile(World):
    """Texts that are made to hurt."""

    def answer(self, text: str) -> tuple[list[str], str]:
        """The lines of an answer, which has to take no more than its length allows, and what
        standard error has."""
        self.write("db.mm", text)
        words = ["unneeded", "db.mm", "--format=tsv", "--hypotheses", "--disjoint"]
        took = shapes.ran(words, self.folder, 20, self.surroundings())
        self.assertEqual(took.status, 0, took)
        self.assertLess(took.memory, 500_000_000)
        return self.answers(*words), took.said

    def test_long_formulas(self) -> None:
        """A proof of few letters, each of whose formulas is twice as long as the one before."""
        last = letters_of(5 + 16)
        twice = "".join(f"{letters_of(5 + number)}CZ" for number in range(16))
        proof = f"( wi any erase ) AACZ{twice}AB{last}DE"
        lines, said = self.answer(RULES + f"${{ $d p q $. t $p |- ( p -> q ) $= {proof} $. $}}\n")
        self.assertEqual(lines[1:], ["pair\tt\tp q\t"])
        self.assertEqual(said, "")

    def test_long_proof(self) -> None:
        """A proof of many letters, with a stack of many entries."""
        many = 100_000
        proof = f"( wi any erase ) ABCZAB{'FAB' * many}FD{'E' * (many + 1)}"
        lines, _ = self.answer(RULES + f"${{ $d p q $. t $p |- ( p -> q ) $= {proof} $. $}}\n")
        self.assertEqual(lines[1:], ["pair\tt\tp q\t"])

    def test_many_pairs(self) -> None:
        """Steps that ask for many pairs are given up, which is said, and is linear."""
        names = [f"v{number}" for number in range(800)]
        floats = "\n".join(f"f{name} $f wff {name} $." for name in names)
        head = RULES + f"$v {' '.join(names)} $.\n{floats}\n"
        big = f"${{ $d {' '.join(names)} $. big $a wff ( {' '.join(names)} ) $. $}}\n"
        each = "".join(letters_of(2 + number) for number in range(800))
        first, count = 803, 12
        letters = f"{each}{letters_of(first)}"
        building = letters + "".join(f"{letters}{letters_of(first + 1)}" for _ in range(count))
        proof = f"( big wi any erase ) {building}ZAB{letters_of(first + 4)}"
        proof += letters_of(first + 2) + letters_of(first + 3)
        theorem = f"${{ $d p {' '.join(names)} $. t.1 $e |- ( {' '.join(names)} ) $."
        lines, said = self.answer(f"{head}{big}{theorem} t $p |- ( p -> q ) $= {proof} $. $}}\n")
        self.assertEqual(lines[1:], ["hypothesis\tt\tt.1\t"])
        why = "of 1 theorems it takes too long to say which pairs they need; the first is t\n"
        self.assertTrue(said.endswith(why), said)


if __name__ == "__main__":
    unittest.main()
