"""`search`, against all that may be put in place of variables, and against metamath.exe."""

import itertools
import random
import re
import shutil
import unittest
from collections.abc import Iterator, Mapping, Sequence
from types import MappingProxyType

from query.formulas.bracketed import MOST_AROUND, MOST_TRIED, bracketed
from query.formulas.search import conclusions, pattern_of
from query.formulas.syntax import syntax_of
from query.tests.test_equivalents import BASE, NAMES
from query.tests.world import DATABASES, SMALL, World, database_text
from tests.shared import metamath

WFFS = ("ph", "ps")


def formula(chance: random.Random, depth: int) -> str:
    """A formula made by chance."""
    if depth == 0:
        names = chance.choices(NAMES[:3], k=2)
        return chance.choice([f"R {names[0]} {names[1]}", f"Q {names[0]}", "Foo", "ph", "ps"])
    one, other = (formula(chance, depth - 1) for _ in range(2))
    quantified = f"A. {chance.choice(NAMES[:3])} {one}"
    return chance.choice([f"( {one} -> {other} )", f"( {one} <-> {other} )", quantified])


def end_of(words: Sequence[str], place: int) -> int | None:
    """Where the formula ends that begins at a place; None where none does."""
    word = words[place] if place < len(words) else ""
    if word in (*WFFS, "Foo"):
        return place + 1
    if word in ("R", "Q"):
        last = place + (3 if word == "R" else 2)
        return last if last <= len(words) and {*words[place + 1 : last]} <= {*NAMES} else None
    if word == "A." and place + 1 < len(words) and words[place + 1] in NAMES:
        return end_of(words, place + 2)
    middle = end_of(words, place + 1) if word == "(" else None
    if middle is None or middle >= len(words) or words[middle] not in ("->", "<->"):
        return None
    end = end_of(words, middle + 1)
    return end + 1 if end is not None and end < len(words) and words[end] == ")" else None


def is_formula(words: Sequence[str]) -> bool:
    """Whether symbols are a formula."""
    return end_of(words, 0) == len(words)


def ways(pattern: Sequence[str], words: Sequence[str]) -> Iterator[dict[str, tuple[str, ...]]]:
    """The ways to put something in place of the variables of a pattern so that it becomes these
    symbols, by all ways to cut them."""
    if not pattern:
        if not words:
            yield {}
        return
    for end in range(1, len(words) + 1):
        head = tuple(words[:end])
        if pattern[0] in WFFS:
            fits = is_formula(head)
        elif pattern[0] in NAMES:
            fits = end == 1 and head[0] in NAMES
        else:
            fits = head == (pattern[0],)
        if fits:
            for way in ways(pattern[1:], words[end:]):
                if pattern[0] not in (*WFFS, *NAMES) or way.get(pattern[0], head) == head:
                    yield {**way, pattern[0]: head}


def has(pattern: Sequence[str], words: Sequence[str]) -> bool:
    """Whether a formula has a pattern, by all its stretches."""
    stretches = itertools.combinations(range(len(words) + 1), 2)
    return any(any(ways(pattern, words[start:end])) for start, end in stretches)


def concluded(words: Sequence[str]) -> Iterator[Sequence[str]]:
    """What a formula without its typecode concludes: itself, and what an arrow leads to."""
    yield words
    middle = end_of(words, 1) if words[0] == "(" else None
    if middle is not None and words[middle] == "->":
        yield from concluded(words[middle + 1 : -1])


def formulas_with_hypotheses(
    chance: random.Random,
) -> tuple[dict[str, str], dict[str, dict[str, str]]]:
    """What statements say, and their `$e`, which have parts in common."""
    said, given = {}, {}
    for label in (f"t{number}" for number in range(12)):
        one, two, three = (formula(chance, chance.choice([0, 0, 1])) for _ in range(3))
        said[label] = f"( {one} -> {chance.choice([one, two, three])} )"
        other = f"( {two} <-> {chance.choice([one, two, three])} )"
        given[label] = {f"{label}.1": chance.choice([one, two, three]), f"{label}.2": other}
    return said, given


def stretch(chance: random.Random, formulas: dict[str, str]) -> list[str]:
    """Some symbols of one of these formulas."""
    words = ["|-", *chance.choice([*formulas.values()]).split()]
    start = chance.randrange(len(words))
    return words[start : start + chance.randint(1, 6)]


def agree(
    wanted: Sequence[tuple[Sequence[str], Sequence[str]]],
    bound: Mapping[str, tuple[str, ...]] = MappingProxyType({}),
) -> bool:
    """Whether each pattern is in one of its formulas, with the same in place of each variable, by
    trying all ways."""
    if not wanted:
        return True
    pattern, formulas = wanted[0]
    for words in (["|-", *each.split()] for each in formulas):
        for start, end in itertools.combinations(range(len(words) + 1), 2):
            for way in ways(pattern, words[start:end]):
                is_same = all(bound.get(name, part) == part for name, part in way.items())
                if is_same and agree(wanted[1:], {**bound, **way}):
                    return True
    return False


class Searched(World):
    """What is found."""

    def found(self, *words: str) -> list[tuple[object, object]]:
        """The labels and the `$e` of an answer."""
        done = self.query("search", "--format=json", *words)
        self.assertEqual(done.status, 0, done.err)
        self.assertEqual(done.err != "", done.out == "[]\n")
        return [(row["label"], row["given"]) for row in done.rows()]

    def test_by_chance(self) -> None:
        tried = 0
        for seed in range(6):
            chance = random.Random(seed)
            said = {f"t{number}": formula(chance, 3) for number in range(12)}
            given = {f"t{number}": formula(chance, 2) for number in range(0, 12, 4)}
            lines = [BASE]
            for label, each in said.items():
                before = f"{label}.h $e |- {given[label]} $. " if label in given else ""
                lines.append(f"${{ {before}{label} $a |- {each} $. $}}\n")
            self.write("db.mm", "".join(lines))
            formulas = [
                (label, which, ["|-", *each.split()])
                for label, one in said.items()
                for which, each in ((None, one), (f"{label}.h", given.get(label)))
                if each is not None
            ]
            for _ in range(8):
                words = ["|-", *formula(chance, chance.choice([1, 2])).split()]
                start = chance.randrange(len(words) - 1)
                pattern = words[start : start + chance.randint(1, 7)]
                wanted = [(label, which) for label, which, each in formulas if has(pattern, each)]
                found = self.found("--like=t*", "--", "db.mm", " ".join(pattern))
                self.assertEqual(found, wanted, (pattern, formulas))
                tried += 0 < len(wanted) < len(formulas)
                text = " ".join(pattern)
                wanted = [
                    (label, which)
                    for label, which, each in formulas
                    if f" {text} " in f" {' '.join(each)} "
                ]
                self.assertEqual(self.found("db.mm", f'"{text}"', "--like=t*"), wanted)
        self.assertGreater(tried, 12)

    def test_several_by_chance(self) -> None:
        """Several patterns, also of `$e`: a variable stands for the same in all of them."""
        tried = 0
        for seed in range(4):
            chance = random.Random(seed)
            said, given = formulas_with_hypotheses(chance)
            lines = [BASE]
            for label, each in said.items():
                before = [f"{which} $e |- {one} $." for which, one in given[label].items()]
                lines.append(f"${{ {' '.join(before)} {label} $a |- {each} $. $}}\n")
            self.write("db.mm", "".join(lines))
            for _ in range(12):
                patterns = [stretch(chance, said) for _ in range(chance.randint(1, 2))]
                conditions = [
                    stretch(chance, chance.choice([*given.values()]))
                    for _ in range(chance.randint(0, 2))
                ]
                wanted = [
                    (label, which)
                    for label in said
                    for which, each in ((None, said[label]), *given[label].items())
                    if agree(
                        [*((one, [each]) for one in patterns)]
                        + [(one, [*given[label].values()]) for one in conditions]
                    )
                ]
                options = [f"--given={' '.join(each)}" for each in conditions]
                words = [*options, "--like=t*", "--", "db.mm", *map(" ".join, patterns)]
                self.assertEqual(self.found(*words), wanted, words)
                own = [pair for pair in wanted if pair[1] is None]
                self.assertEqual(self.found("--no-hypotheses", *words), own, words)
                tried += 0 < len(wanted) < len(said)
        self.assertGreater(tried, 12)

    def test_lacking_by_chance(self) -> None:
        """Statements whose `$e` don't have patterns, by a loop over all statements that tries all
        ways; a variable stands for the same as in the other patterns."""
        fewer, of_several = 0, 0
        for seed in range(4):
            chance = random.Random(100 + seed)
            said, given = formulas_with_hypotheses(chance)
            lines = [BASE]
            for label, each in said.items():
                before = [f"{which} $e |- {one} $." for which, one in given[label].items()]
                lines.append(f"${{ {' '.join(before)} {label} $a |- {each} $. $}}\n")
            self.write("db.mm", "".join(lines))
            for _ in range(12):
                pattern = stretch(chance, said)
                given_too, *lacked = (
                    stretch(chance, chance.choice([*given.values()]))
                    for _ in range(chance.randint(2, 3))
                )
                conditions = [given_too] * chance.randint(0, 1)
                rows = [
                    (label, which, [(one, [*given[label].values()]) for one in conditions]
                     + [(pattern, [each])])
                    for label in said
                    for which, each in ((None, said[label]), *given[label].items())
                ]  # fmt: skip
                having = [row for row in rows if agree(row[2])]
                wanted = [
                    (label, which)
                    for label, which, others in having
                    if not any(agree([*others, (one, [*given[label].values()])]) for one in lacked)
                ]
                options = [f"--given={' '.join(each)}" for each in conditions]
                options += [f"--not-given={' '.join(each)}" for each in lacked]
                words = [*options, "--like=t*", "--", "db.mm", " ".join(pattern)]
                self.assertEqual(self.found(*words), wanted, words)
                fewer += 0 < len(wanted) < len(having)
                of_several += len(wanted) < len(having) and len(lacked) > 1
        self.assertGreater(min(fewer, of_several), 3, (fewer, of_several))

    def test_lacking_by_hand(self) -> None:
        self.write("small.mm", SMALL)
        every = ["ax-mp", "a1i", "a2"]

        def labels(*words: str) -> list[object]:
            """What is found, by labels."""
            found = self.found("small.mm", *words, "--like=ax-mp,a1i,a2", "--no-hypotheses")
            return [label for label, _ in found]

        self.assertEqual(labels("|-"), every)
        self.assertEqual(labels("|-", "--not-given", "-> q"), ["a1i", "a2"])
        self.assertEqual(labels("|-", "--not-given", "|- p"), [])
        # A variable of both stands for the same: no `$e` is the formula itself.
        self.assertEqual(labels("|- q", "--not-given", "|- ( p -> q )"), ["a1i", "a2"])
        self.assertEqual(labels("|- q", "--not-given", "|- q"), every)
        self.assertEqual(labels("-> p )", "--not-given", '"|- p"'), [])
        self.assertEqual(labels("|- q", "--given", "|- p", "--not-given", "->"), ["a1i", "a2"])
        done = self.query("search", "small.mm", "( p ->", "|- q", "--not-given=|-", "--like=a2")
        self.assertEqual((done.status, done.out), (0, ""))
        self.assertIn("no formula has that among what passes --like a2\n", done.err)
        self.refuses("search", "small.mm", "p", "--not-given=x", why="has the symbol 'x'")

    def test_by_hand(self) -> None:
        self.write("small.mm", SMALL)
        self.assertEqual(self.found("small.mm", "( p -> q ) )"), [("ax-1", None), ("wi2", None),
                         ("ax1", None), ("a2", None)])  # fmt: skip
        self.assertEqual(self.found("small.mm", '"|- p"'), [("ax-mp", "min"), ("a1i", "h"),
                         ("a2", "g")])  # fmt: skip
        several = self.found("small.mm", "( p -> ( q -> p ) )", "|-")
        self.assertEqual(several, [("ax-1", None), ("ax1", None)])
        self.assertEqual(self.found("small.mm", "( p -> ( p ->"), [("a2", None)])
        self.assertEqual(self.found("small.mm", "( p -> ( p -> ( p"), [])
        self.assertEqual(self.found("small.mm", "wff q"), [("wi", None), ("wi2", None)])
        given = ("small.mm", "|- q", "--given=|- p", "--given=|- ( p -> q )")
        self.assertEqual(self.found(*given), [("ax-mp", None)])
        self.assertEqual(self.found("small.mm", '"|- p"', "--no-hypotheses"), [])
        done = self.query("search", "small.mm", '"|- p"', "--no-hypotheses")
        self.assertEqual(done.err, "mmquery: small.mm: no formula of a statement itself has that\n")
        lines = self.answers(
            "search", "small.mm", "( q -> p )", "|- (", "--no-hypotheses", "--like=a1*"
        )
        self.assertEqual(lines, ["label  formula", "a1i    |- ( q -> p )"])
        self.refuses("search", "small.mm", "p", "--given=x", why="no statement has the symbol 'x'")
        self.refuses("search", "small.mm", "( p <-> q )", why="no statement has the symbol '<->'")
        self.refuses("search", "small.mm", '""', why="wants at least one symbol")
        self.refuses("search", "small.mm", "  ", why="wants at least one symbol")
        self.write("report", self.report("small.mm"))
        self.refuses("search", "report", "p")

    def test_what_begins_with_a_dash(self) -> None:
        """A word that no option can be is a PATTERN. What an option may be meant by is refused."""
        more = "wn $a wff -. p $. n1 $a |- -. p $.\n"
        self.write("small.mm", SMALL.replace("wff |-", "wff |- -u -.") + more)
        self.assertEqual(self.found("small.mm", "-. p"), [("wn", None), ("n1", None)])
        self.refuses("search", "-. p", "small.mm", why="DATABASE stands before it")
        wanted = self.found("--", "small.mm", "-> p")
        self.assertIn(("a1i", None), wanted)
        for words in (("small.mm", "-> p"), ("small.mm", "->", "p"), ("small.mm", "->", "-> p")):
            self.assertLessEqual({*wanted}, {*self.found(*words)}, words)
        given = self.found("small.mm", "|- q", "--given", "-> q")
        self.assertEqual(given, [("ax-mp", None)])
        self.assertEqual(self.found("small.mm", "|- q", "--given=-> q"), given)
        for word, why in (
            ("--under-x", "there is no option --under-x; did you mean --under?"),
            ("--given-x=p q", "there is no option --given-x; did you mean --given?"),
            ("--no-hypotheses p", "there is no option --no-hypotheses p"),
            ("-q", "there is no option -q"),
            ("-u", "there is no option -u; a formula that looks like an option stands behind --"),
            ("-x=p q", "there is no option -x"),
        ):
            self.refuses("search", "small.mm", "p", word, why=why)
            self.refuses("search", word, "small.mm", "p", why=why)
        self.refuses("search", "small.mm", "-u p", why="no statement has the symbol '-u'")
        self.refuses("search", "small.mm", "--", "-u", why="no statement has the symbol '-u'")
        self.refuses("verify", "-> p", "small.mm", why="there is no option -> p")

    def has_none(self, pattern: str, said: str) -> None:
        """No statement `b..` has a pattern, and this is said besides."""
        done = self.query("search", "--like=b*", "--", "db.mm", pattern)
        self.assertEqual((done.status, done.out), (0, ""), pattern)
        nothing = f"no formula has that among what passes --like 'b*'{said}"
        self.assertEqual(done.err, f"mmquery: db.mm: {nothing}\n", pattern)

    def test_the_sides_of_an_arrow(self) -> None:
        """Where nothing has a pattern with one arrow, it is said how many have both its sides."""
        lines = "b1 $a |- ( Foo <-> Q x ) $. b2 $a |- ( ( Foo -> Q x ) <-> R x y ) $.\n"
        self.write("db.mm", BASE + lines)
        for pattern, said in (
            ("R x y -> Q x", "; 1 formula has 'R x y' and 'Q x', as two PATTERNs"),
            ("Q x -> Foo", "; 2 formulas have 'Q x' and 'Foo', as two PATTERNs"),
            ("Q x -> A. x Foo", ""),
            ("R x y ->", ""),
            ("Q x -> Foo -> ph", ""),
            ('"Q x -> Foo"', ""),
        ):
            self.has_none(pattern, said)
        self.assertEqual(self.found("--like=b*", "db.mm", "Foo -> Q x"), [("b2", None)])

    def test_brackets_that_are_left_out(self) -> None:
        """Where nothing has a pattern, it is said how many have it with more brackets."""
        lines = "b1 $a |- ( Foo -> ( Q x -> Foo ) ) $. b2 $a |- A. x ( Foo -> Q x ) $.\n"
        lines += "b3 $a |- ( ( Foo -> Q x ) -> ( ( Q x -> Q y ) -> R x y ) ) $.\n"
        self.write("db.mm", BASE + lines)
        for pattern, said in (
            ("Foo -> Q x -> Foo", "; 1 formula has 'Foo -> ( Q x -> Foo )'"),
            ("|- A. x Foo -> Q y", "; 1 formula has '|- A. x ( Foo -> Q y )'"),
            ("( Foo -> Q x ) -> Q x -> Q y -> ph",
             "; 1 formula has '( Foo -> Q x ) -> ( ( Q x -> Q y ) -> ph )'"),
            ("Foo -> Q x -> R x y", ""),
            ("( Foo -> Q x ) -> Q x", ""),
            ('"Foo -> Q x -> Foo"', ""),
        ):  # fmt: skip
            self.has_none(pattern, said)
            if said:
                self.assertEqual(len(self.found("--like=b*", "db.mm", said.split("'")[1])), 1)

    def test_brackets_by_chance(self) -> None:
        """Whatever pair of brackets is left out of a formula, it is among what is tried; each way
        has the same symbols but for brackets, and all of them are closed."""
        text = database_text(BASE.encode())
        grammar = syntax_of(text.assertions)
        kinds = pattern_of(text, "db.mm", " ".join([*WFFS, *NAMES])).kinds
        chance, left_out = random.Random(7), 0
        for _ in range(60):
            words = formula(chance, chance.randint(1, 2)).split()
            pairs = [place for place, word in enumerate(words) if word == "("]
            if not pairs:
                continue
            start = chance.choice(pairs)
            end = end_of(words, start)
            assert end is not None
            typed = words[:start] + words[start + 1 : end - 1] + words[end:]
            ways_found = [*bracketed(grammar, typed, kinds)]
            plain = [word for word in words if word not in "()"]
            for way in ways_found:
                self.assertEqual([word for word in way if word not in "()"], plain)
                self.assertEqual(way.count("("), way.count(")"))
                self.assertGreater(way.count("("), typed.count("("))
            if len(ways_found) < MOST_TRIED and end - start - 2 <= MOST_AROUND:
                self.assertIn(words, ways_found, typed)
                left_out += 1
        self.assertGreater(left_out, 20)
        self.assertEqual([*bracketed(grammar, ["ph"] * 41, kinds)], [])
        self.assertEqual([*bracketed(grammar, ["("] * 40, kinds)], [])
        self.assertLessEqual(len([*bracketed(grammar, "ph -> ".split() * 20, kinds)]), MOST_TRIED)

    def test_the_typecode_that_is_left_out(self) -> None:
        """Where nothing has a pattern that begins with a typecode, it is said how many have it
        without that, also with more brackets."""
        lines = "b1 $a |- ( Foo -> ( Q x -> Foo ) ) $. b2 $a |- A. x ( Foo -> Q x ) $.\n"
        self.write("db.mm", BASE + lines)
        for pattern, said in (
            ("|- ( Q x -> Foo )", "; 1 formula has '( Q x -> Foo )'"),
            ("|- Q x", "; 2 formulas have 'Q x'"),
            ("|- Q x -> Foo", "; 1 formula has 'Q x -> Foo'"),
            ("|- A. x Q x -> Foo", ""),
            ("|- Q x -> A. y ph -> ps", ""),
            ("|- R x y", ""),
            ('"|- Q x"', ""),
        ):
            self.has_none(pattern, said)
        lines = "b1 $a |- ( Foo -> ( ( Q x -> Q y ) -> Foo ) ) $.\n"
        self.write("db.mm", BASE + lines)
        err = self.query("search", "--like=b*", "db.mm", "|- Q x -> Q y -> ph").err
        self.assertEqual(err.partition("; ")[2], "1 formula has '( Q x -> Q y ) -> ph'\n")

    def test_conclusions_by_chance(self) -> None:
        """Against all conclusions of each formula, and all ways to put something in place of
        variables."""
        behind, fewer = 0, 0
        for seed in range(6):
            chance = random.Random(50 + seed)
            said = {}
            for number in range(16):
                parts = [formula(chance, 1) for _ in range(chance.randint(1, 3))]
                begins = "".join(f"( {part} -> " for part in parts[1:])
                ends = f"{parts[0]}{' )' * (len(parts) - 1)}"
                said[f"t{number}"] = f"{begins}{ends}".split()
            lines = [f"{label} $a |- {' '.join(each)} $.\n" for label, each in said.items()]
            self.write("db.mm", BASE + "".join(lines))
            for _ in range(8):
                pattern = chance.choice([*concluded(chance.choice([*said.values()]))])
                pattern = chance.choice([pattern, pattern, formula(chance, 1).split()])
                text = " ".join(pattern)
                typed = chance.choice(["", "|- "]) + text
                wanted = [
                    (label, None)
                    for label, words in said.items()
                    if any(any(ways(pattern, each)) for each in concluded(words))
                ]
                words = ["--conclusion", "--like=t*", "db.mm", "--", typed]
                self.assertEqual(self.found(*words), wanted, pattern)
                behind += any(not any(ways(pattern, said[str(label)])) for label, _ in wanted)
                fewer += len(wanted) < sum(has(pattern, each) for each in said.values())
                wanted = [
                    (label, None)
                    for label, each in said.items()
                    if pattern in [[*words] for words in concluded(each)]
                ]
                self.assertEqual(self.found(*words[:-1], f'"{typed}"'), wanted, pattern)
        self.assertGreater(min(behind, fewer), 5, (behind, fewer))

    def test_conclusions_by_hand(self) -> None:
        """A `$e` has a conclusion as well; what stands elsewhere is none, and neither is a part of
        one; and other patterns are of any part."""
        lines = "b1 $a |- ( Foo -> ( Q x -> R x y ) ) $. b2 $a |- ( R x y -> Foo ) $.\n"
        lines += "${ b3.1 $e |- ( Foo -> R x y ) $. b3 $a |- ( Foo <-> R x y ) $. $}\n"
        lines += "b4 $a |- A. x R x y $. b5 $a |- R x y $.\n"
        self.write("db.mm", BASE + lines)
        words = ("--conclusion", "--like=b*", "db.mm")
        has_it = [("b1", None), ("b3", "b3.1"), ("b5", None)]
        self.assertEqual(self.found(*words, "R x y"), has_it)
        self.assertEqual(self.found(*words, "|- R y x"), has_it)
        self.assertEqual(self.found(*words, '"R y x"'), [])
        self.assertEqual(self.found(*words, "|-"), [])
        self.assertEqual(self.found(*words, "( ph -> R x y )"), has_it[:2])
        own = [pair for pair in has_it if pair[1] is None]
        self.assertEqual(self.found(*words, "R x y", "ph", "--no-hypotheses"), own)
        both = [("b3", None), ("b3", "b3.1")]
        self.assertEqual(self.found(*words, "ph", "--given=Foo -> R"), both)
        done = self.query("search", *words, "ph -> R x y")
        said = "no formula has that as its conclusion among what passes --like 'b*'"
        said += "; 2 formulas have '( ph -> R x y )'"
        self.assertEqual((done.out, done.err), ("", f"mmquery: db.mm: {said}\n"))

    def test_conclusions_of_odd_formulas(self) -> None:
        """What isn't `( X -> Y )` is its own conclusion, and a deep formula takes no long."""
        for words in (
            "|- ( p <-> q )", "|- ( p -> q", "|- ( p -> q ) r", "|- p -> q", "|- ( p -> q -> r )",
            "|- ) -> (", "|- ( ( p -> q ) )", "|- ( p ) -> ( q )",
        ):  # fmt: skip
            symbols = words.split()
            self.assertEqual(conclusions(symbols), {1: len(symbols)}, words)
        self.assertEqual(conclusions("|- ( ( p -> q ) -> r )".split()), {1: 10, 8: 9})
        count = 100_000
        symbols = ["|-", *["(", "p", "->"] * count, "q", *[")"] * count]
        self.assertEqual(len(conclusions(symbols)), count + 1)

    def test_a_label_is_no_symbol(self) -> None:
        self.write("db.mm", BASE + "b1 $a |- Foo $.\n")
        self.refuses("search", "db.mm", "b1", why="'b1' is a label, and a PATTERN has symbols")

    def test_what_is_not_read(self) -> None:
        """Of a formula without a tree only variables are parts."""
        self.write("db.mm", SMALL + "odd $a |- ( p q $.\n")
        done = self.query("search", "db.mm", "( p q", "--format=tsv")
        self.assertEqual(done.lines()[1:], ["odd\t\t|- ( p q"])
        self.assertIn("1 formulas aren't read", done.err)

    @unittest.skipUnless(shutil.which("metamath"), "there is no metamath.exe")
    @unittest.skipUnless((DATABASES / "iset.mm").exists(), "there is no iset.mm")
    def test_metamath(self) -> None:
        """Text in quotes, as metamath.exe finds it in statements."""
        path = DATABASES / "iset.mm"
        for text in ("A ~~ B ->", "|- ( ph -> ( ph", "E! x A. y"):
            (said,) = metamath.asked(path, [f'search * "{text}"'])
            wanted = re.findall(r"^\d+ (\S+) \$[ap]", said, re.M)
            rows = self.query("search", str(path), f'"{text}"', "--format=json").rows()
            found = [row["label"] for row in rows if row["given"] is None]
            self.assertEqual(found, wanted, text)
            self.assertTrue(wanted, text)


if __name__ == "__main__":
    unittest.main()
