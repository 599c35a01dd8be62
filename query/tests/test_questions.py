"""What the question commands answer, against trying everything on databases made by chance."""

import itertools
import os
import random
import unittest
from collections.abc import Iterator
from fnmatch import fnmatchcase
from unittest import mock

from query.citations.graph import Graph
from query.commands.chains import MOST_RESTATED
from query.tests import shapes
from query.tests.world import HOSTILE, SMALL, Invented, World, asked, built_program, invented


def first(rows: list[list[str]]) -> list[str]:
    """The first field of each row."""
    return [row[0] for row in rows]


def second(rows: list[list[str]]) -> list[str]:
    """The second field of each row."""
    return [row[1] for row in rows]


class Questions(World):
    """Each command over twelve databases, four of them with hostile labels."""

    def setUp(self) -> None:
        super().setUp()
        patch = mock.patch.dict(os.environ, {"MMDEPEND": built_program()})
        patch.start()
        self.addCleanup(patch.stop)

    def databases(self, count: int = 12) -> list[tuple[Invented, str, random.Random]]:
        """Databases, each with its path and what chooses in it."""
        found = []
        for seed in range(count):
            chance = random.Random(seed)
            labels = random.Random(seed).sample(HOSTILE, len(HOSTILE)) if seed % 3 == 2 else None
            database = invented(chance, chance.randint(4, 10), labels)
            self.write(f"{seed}.mm", database.text)
            found.append((database, str(self.folder / f"{seed}.mm"), chance))
        return found

    def test_rests(self) -> None:
        for database, path, _ in self.databases():
            for label in database.labels():
                rests = database.rests(label) | ({label} if label not in database.cites else set())
                logic = [axiom for axiom in database.axioms if axiom in rests]
                every = [axiom for axiom in database.syntax + database.axioms if axiom in rests]
                theorems = [theorem for theorem in database.cites if theorem in rests - {label}]
                self.assertEqual(first(asked("rests", path, "--", label)), logic)
                self.assertEqual(first(asked("rests", "--all", path, "--", label)), every)
                self.assertEqual(first(asked("rests", "--theorems", path, "--", label)), theorems)

    def test_rests_by_the_logical_part(self) -> None:
        tried = 0
        for database, path, _ in self.databases():
            for label in database.cites:
                rests = database.rests(label, True)
                every = [axiom for axiom in database.syntax + database.axioms if axiom in rests]
                words = ("rests", "--all", "--essential", path, "--", label)
                self.assertEqual(first(asked(*words)), every)
                tried += rests != database.rests(label)
        self.assertGreater(tried, 5)

    def test_rests_of_several(self) -> None:
        for database, path, chance in self.databases(6):
            labels = chance.sample(database.theorems(), 3)
            rests = set().union(*(database.rests(label) for label in labels))
            wanted = [axiom for axiom in database.axioms if axiom in rests]
            rows = asked("rests", path, "--", *labels)
            self.assertEqual(first(rows), wanted)
            for axiom, whose in rows:
                mine = [label for label in labels if axiom in database.rests(label)]
                self.assertEqual(whose, " ".join(mine))

    def test_falls(self) -> None:
        for database, path, chance in self.databases():
            users = {label: set(database.users(label)) for label in database.labels()}
            for label in database.labels():
                wanted = [each for each in database.cites if each in users[label]]
                self.assertEqual(first(asked("falls", path, "--", label)), wanted)
            for _ in range(6):
                one, two, other = chance.sample(database.labels(), 3)
                for word, both in (
                    ("--any-of", users[one] | users[two]),
                    ("--all-of", users[one] & users[two]),
                ):
                    words = ("falls", path, word, f"--without={other}", "--", one, two)
                    wanted = [each for each in database.cites if each in both - users[other]]
                    rows = asked(*words)
                    self.assertEqual(first(rows), wanted)
                    for each, on in rows:
                        resting = [label for label in (one, two) if each in users[label]]
                        self.assertEqual(on, " ".join(resting))

    def test_how_many_fall(self) -> None:
        """By counting the lists of `falls`, each label's own and that of all together."""
        for database, path, chance in self.databases():
            users = {label: set(database.users(label)) for label in database.labels()}
            for count in (1, 2, 3):
                *labels, other = chance.sample(database.labels(), count + 1)
                for options, left in (
                    ((), {*database.cites}),
                    ((f"--without={other}",), database.cites.keys() - users[other]),
                ):
                    one_by_one = [[len(users[each] & left), each] for each in labels]
                    for word, together in (
                        ("--any-of", set.union(*map(users.__getitem__, labels))),
                        ("--all-of", set.intersection(*map(users.__getitem__, labels))),
                    ):
                        last = [[len(together & left), " ".join(labels)]] if count > 1 else []
                        rows = asked("falls", path, "--count", word, *options, "--", *labels)
                        wanted = [*one_by_one, *last]
                        self.assertEqual(rows, [[str(number), each] for number, each in wanted])
        self.write("db.mm", SMALL)
        self.assertEqual(self.answers("falls", "db.mm", "ax-1", "--count"), ["3"])
        self.assertEqual(self.answers("falls", "db.mm", "a2", "a2", "--count"), ["0"])
        for option, numbers in (
            ("--like=a1*", [1, 1, 1]),
            ("--not=a2", [2, 1, 1]),
            ("--after=a2", [0, 0, 0]),
            ("--before=a1i", [1, 0, 0]),
        ):
            words = ("falls", "db.mm", "ax-1", "ax-mp", "--count", "--all-of", option)
            counts = [row["theorems"] for row in self.query(*words, "--format=json").rows()]
            self.assertEqual(counts, numbers, option)
        lines = self.answers("falls", "db.mm", "ax1", "ax-1", "--count")
        self.assertEqual(lines[1:], ["       0  ax1", "       3  ax-1", "       3  ax1 ax-1"])
        self.refuses("falls", "db.mm", "ax-9", "--count", why="an axiom 'ax-9'")

    def test_a_symbol_in_place_of_a_label(self) -> None:
        """It is told that a word is a symbol, and not that of a hypothesis' label."""
        self.write("db.mm", SMALL + "$c R1 $. $v h1 $. fh $f wff h1 $. r1 $a |- ( h1 -> p ) $.\n")
        says = "; it is a symbol, and `mmquery search` finds the statements that have it"
        for words in (
            ("falls", "db.mm", "{}"),
            ("rests", "db.mm", "{}"),
            ("cites", "db.mm", "{}"),
            ("within", "db.mm", "{}"),
            ("same", "db.mm", "{}"),
            ("chapters", "db.mm", "{}"),
            ("order", "db.mm", "--columns={}"),
            ("move", "db.mm", "{}"),
            ("move", "db.mm", "--ready={}"),
            ("steps", "db.mm", "{}"),
            ("uncited", "db.mm", "--before={}"),
        ):
            for word, is_symbol in (
                *(("h1", True), ("->", True), ("wff", True), (")", True), ("p", True)),
                *(("R1", False), ("fh", False), ("wp", False), ("min", False), ("$a", False)),
                *(("p ", False), ("", False), ("\xe9", False), ("p q", False), ("nothing", False)),
            ):
                if not word and words[0] == "order":
                    continue  # which wants an AXIOM then
                told = [each.format(word) for each in words]
                if word == "->" and "{}" in words:
                    told = [told[0], "--", *told[1:]]
                err = self.refuses(*told, why="has n")
                self.assertEqual(says in err, is_symbol, (told, err))
        self.write("report", self.report("db.mm", "--report=usage,citations"))
        self.assertNotIn(says, self.refuses("falls", "report", "h1"))

    def test_cites_and_cited_by(self) -> None:
        for database, path, chance in self.databases():
            for label in database.labels():
                self.assertEqual(
                    second(asked("cites", path, "--", label)), database.cites.get(label, [])
                )
                users = [each for each in database.cites if label in database.cites[each]]
                self.assertEqual(first(asked("cited-by", path, "--", label)), users)
                on = chance.choice(database.labels())
                brings = [
                    each
                    for each in database.cites.get(label, [])
                    if each == on or on in database.rests(each)
                ]
                found = second(asked("cites", path, f"--on={on}", "--", label))
                self.assertEqual(found, brings)
            uncited = [
                label
                for label in database.cites
                if not any(label in cited for cited in database.cites.values())
            ]
            self.assertEqual(first(asked("uncited", path)), uncited)

    def test_what_a_plan_frees(self) -> None:
        """Of how many theorems, and how many of these are kept."""
        lines = [shapes.theorem(*labels) for labels in (("k", "ax"), ("m", "k"), ("n", "m"))]
        self.write("db.mm", shapes.HEAD + "".join(lines))
        done = self.query("frees", "db.mm", "ax", "--keep=k", "--plan=1")
        states = "{} states what ax states but for the variables, and --keep-wrappers"
        said = f"free are then 2 of the 3 that rest on ax; 1 of these is kept; {states.format('m')}"
        self.assertIn(f"mmquery: db.mm: {said}", done.err)
        done = self.query("frees", "db.mm", "ax", "--keep=k", "--keep-wrappers", "--plan=1")
        self.assertNotIn("but for the variables", done.err)
        for steps, end in ((1, ""), (2, "; no further theorem frees more")):
            done = self.query("frees", "db.mm", "ax", f"--plan={steps}")
            said = f"free are then 3 of the 3 that rest on ax{end}; {states.format('k')}"
            self.assertIn(f"mmquery: db.mm: {said}", done.err)

    def test_an_axiom_that_states_a_theorem(self) -> None:
        """Where there is no chain, since an axiom takes the place of a theorem that has one."""
        lines = [shapes.theorem(*labels) for labels in (("u", "ax"), ("v", "other"))]
        self.write("db.mm", shapes.HEAD + "".join(lines))
        done = self.query("why", "db.mm", "v", "ax")
        said = "v doesn't rest on ax, but on other; u, which says the same, rests on ax"
        self.assertEqual((done.out, done.err), ("", f"mmquery: {said}\n"))
        done = self.query("why", "db.mm", "v", "u")
        self.assertEqual(
            done.err, "mmquery: v doesn't rest on u, but on other, which says the same\n"
        )
        # A theorem that rests on the axiom itself takes nobody anywhere.
        lines = [shapes.theorem(*labels) for labels in (("u", "ax", "other"), ("v", "other"))]
        self.write("db.mm", shapes.HEAD + "".join(lines))
        done = self.query("why", "db.mm", "v", "ax")
        self.assertEqual(done.err, "mmquery: v doesn't rest on ax\n")

    def test_many_axioms_that_state_a_theorem(self) -> None:
        """That there are others is said. However many there are, few of them are looked at."""
        labels = [f"x{number}" for number in range(2 * MOST_RESTATED)]
        axioms = "".join(f"{label} $a |- p $.\n" for label in labels)
        for cited, end in (
            (("ax",), ", but on x0; u, which says the same, rests on ax, as with other axioms"),
            (("ax", *labels), ""),
        ):
            lines = [shapes.theorem("u", *cited), shapes.theorem("v", *labels)]
            path = self.folder / self.write("db.mm", shapes.HEAD + axioms + "".join(lines))
            with (
                mock.patch("query.arguments.context.Context.tell") as tell,
                mock.patch.object(Graph, "above", autospec=True, side_effect=Graph.above) as above,
            ):
                asked("why", str(path), "v", "ax")
            tell.assert_called_once_with(f"v doesn't rest on ax{end}")
            self.assertLess(above.call_count, MOST_RESTATED + 5)

    def test_why_wants_on(self) -> None:
        self.write("db.mm", SMALL)
        for words in ((), ("--all",), ("--unavoidable",)):
            self.refuses("why", "db.mm", "a2", *words, why="why wants ON")

    def test_where_a_longest_chain_ends(self) -> None:
        """At an axiom of |- or of another typecode that is chosen; and how long it is."""
        self.write("db.mm", SMALL)
        for words, chain, told in (
            (("a2",), ["a2", "a1i", "ax-1"], "db.mm: 2 citations from a2 to ax-1"),
            (("a2", "--only=wff"), ["a2", "a1i", "wi"], "db.mm: 2 citations from a2 to wi"),
            (("ax1",), ["ax1", "ax-1"], "db.mm: 1 citation from ax1 to ax-1"),
            (("ax-1",), ["ax-1"], "db.mm: 0 citations from ax-1 to ax-1"),
            (("a2", "ax-mp"), ["a2", "a1i", "ax-mp"], "db.mm: 2 citations from a2 to ax-mp"),
            (("wi2",), [], "wi2 rests on no axiom of typecode '|-'; --only T chooses others"),
            (("wi",), [], "wi rests on no axiom of typecode '|-'; --only T chooses others"),
        ):
            done = self.query("why", "db.mm", *words, "--longest")
            self.assertEqual((done.status, done.lines()), (0, chain))
            self.assertEqual(done.err, f"mmquery: {told}\n")
        self.refuses("why", "db.mm", "a2", "--longest", "--only=x", why="no axiom of typecode 'x'")
        self.refuses("why", "db.mm", "a2", "ax-1", "--only=wff", why="so why takes no ON with it")

    def test_cited_few_times(self) -> None:
        """Beside the citations of each theorem; and labels by patterns."""
        for database, path, _ in self.databases():
            counts = {
                label: sum(label in cited for cited in database.cites.values())
                for label in database.theorems()
            }
            for most in (1, 2):
                wanted = [[str(count), label] for label, count in counts.items() if count <= most]
                self.assertEqual(asked("uncited", path, "--at-most", str(most)), wanted)
            for pattern in ("*1", "l?", "*"):
                if not any(fnmatchcase(label, pattern) for label in database.labels()):
                    continue
                found = asked("cited-by", path, "--", pattern)
                pairs = [
                    [theorem, label]
                    for theorem, cited in database.cites.items()
                    for label in cited
                    if fnmatchcase(label, pattern)
                ]
                self.assertEqual(sorted(found), sorted(pairs))
        self.write("db.mm", SMALL)
        self.refuses("cited-by", "db.mm", "*OLD", why="db.mm: has no label like '*OLD'")
        self.assertEqual(
            self.answers("cited-by", "db.mm", "ax-m?", "--format=csv")[1:], ["a1i,ax-mp"]
        )

    def test_why(self) -> None:
        tried = 0
        for database, path, chance in self.databases():
            for _ in range(12):
                label, on = chance.choice(database.theorems()), chance.choice(database.labels())
                chains = all_chains(database, label, on) if label != on else []
                with mock.patch("query.arguments.context.Context.tell") as tell:
                    chain = first(asked("why", path, "--", label, on))
                    edges = asked("why", path, "--all", "--", label, on)
                    common = first(asked("why", path, "--unavoidable", "--", label, on))
                self.assertEqual(tell.called, not chains)
                longest = first(asked("why", path, "--longest", "--", label, on))
                on_all = (
                    [each for each in chains[0] if all(each in one for one in chains)]
                    if chains
                    else []
                )
                self.assertEqual(common, on_all)
                if chains:
                    self.assertIn(longest, chains)
                    self.assertEqual(len(longest), max(map(len, chains)))
                else:
                    self.assertEqual(longest, [])
                if chains:
                    self.assertIn(chain, chains)
                    self.assertEqual(len(chain), min(map(len, chains)))
                    tried += len(chain) > 2
                else:
                    self.assertEqual(chain, [])
                for only, ends in (("|-", database.axioms), ("wff", database.syntax)):
                    downs = [each for end in ends for each in all_chains(database, label, end)]
                    longest = first(asked("why", path, "--longest", "--only", only, "--", label))
                    self.assertIn(longest, downs or [[]])
                    self.assertEqual(len(longest), max(map(len, downs), default=0))
                pairs = {pair for each in chains for pair in itertools.pairwise(each)}
                self.assertEqual({tuple(edge) for edge in edges}, pairs)
                self.assertEqual(len(edges), len(pairs))
        self.assertGreater(tried, 10)

    def test_way_out(self) -> None:
        tried = 0
        for database, path, chance in self.databases(8):
            for _ in range(4):
                label, on = chance.choice(database.theorems()), chance.choice(database.labels())
                rows = asked("way-out", path, "--", label, on)
                if on not in database.rests(label):
                    self.assertEqual(rows, [])
                    continue
                size = smallest_cut(database, label, on)
                for word in ("first", "last"):
                    cut = {(row[2], row[3]) for row in rows if row[1] == word}
                    self.assertEqual(len(cut), size)
                    self.assertFalse(still_rests(database, label, on, cut))
                between = {each for chain in all_chains(database, label, on) for each in chain}
                applies = [
                    each
                    for each in database.cites
                    if each in between and on in database.cites[each]
                ]
                self.assertEqual([row[2] for row in rows if row[1] == "applies"], applies)
                self.assertEqual({row[0] for row in rows}, {label})
                tried += size > 1
        self.assertGreater(tried, 3)

    def test_way_out_of_all(self) -> None:
        tried = 0
        for database, path, _ in self.databases(8):
            edges = [(one, cited) for one in database.cites for cited in database.cites[one]]
            for on in database.axioms:
                rows: dict[str, list[list[str]]] = {}
                for label, *row in asked("way-out", path, "--", on):
                    rows.setdefault(label, []).append(row)
                for label in database.users(on):
                    single = [e for e in edges if not still_rests(database, label, on, {e})]
                    self.assertEqual(label in rows, bool(single))
                    if single:
                        self.assertEqual([row[0] for row in rows[label]], ["first", "last"])
                        ends = [tuple(row[1:]) for row in rows[label]]
                        self.assertIn(ends[0], single)
                        self.assertIn(ends[1], single)
                        tried += len(single) > 1
        self.assertGreater(tried, 5)

    def test_frees(self) -> None:
        tried = 0
        for database, path, chance in self.databases(20):
            on = chance.choice(database.labels())
            numbers = {}
            for label in database.users(on):
                wanted = freed(database, on, {label})
                self.assertEqual(second(asked("frees", path, "--", on, label)), wanted)
                numbers[label] = len(wanted)
                tried += len(wanted) > 1
            most = asked("frees", path, "--most", "99", "--", on)
            self.assertEqual({label: int(count) for count, label in most}, numbers)
            counts = [int(count) for count, _ in most]
            self.assertEqual(counts, sorted(counts, reverse=True))
            some = chance.sample(database.theorems(), 2)
            wanted = freed(database, on, set(some))
            found = asked("frees", path, "--", on, *some)
            self.assertEqual(second(found), wanted)
            self.assertEqual(
                {label: int(count) for count, label in found}.items() - numbers.items(), set()
            )
        self.assertGreater(tried, 5)

    def rested_on(
        self, count: int
    ) -> Iterator[tuple[Invented, str, random.Random, str, list[str]]]:
        """Databases, each with each label on which at least three theorems rest, and these."""
        for database, path, chance in self.databases(count):
            for on in database.labels():
                users = database.users(on)
                if len(users) > 2:
                    yield database, path, chance, on, users

    def test_frees_given(self) -> None:
        """What some theorems free beside those that have proofs already, by trying each."""
        tried = 0
        for database, path, chance, on, users in self.rested_on(20):
            given = set(chance.sample(users, 2))
            already = set(freed(database, on, given))
            words = ("frees", path, f"--given={','.join(given)}")
            wanted = {}
            for label in users:
                more = set(freed(database, on, {label} | given)) - already
                self.assertEqual({*second(asked(*words, "--", on, label))}, more)
                if more:
                    wanted[label] = len(more)
            most = asked(*words, "--most", "99", "--", on)
            self.assertEqual({label: int(count) for count, label in most}, wanted)
            tried += len(already) > 2 and len(wanted) > 1
        self.assertGreater(tried, 5)

    def test_plan(self) -> None:
        """Each step is the best of all that could be taken next, and the first of these in the
        file; the plan ends where nothing is left."""
        tried = 0
        for database, path, chance, on, users in self.rested_on(9):
            given = set(chance.sample(users, len(users) // 4))
            words = ["frees", path, *(f"--given={label}" for label in given), "--plan=99", "--", on]
            already = set(freed(database, on, given))
            rows = asked(*words)
            for more, total, label in rows:
                gains = {
                    each: len(set(freed(database, on, {each} | given)) - already)
                    for each in users
                    if each not in already
                }
                best = max(gains.values())
                self.assertEqual(label, next(each for each in users if gains.get(each) == best))
                given.add(label)
                already = set(freed(database, on, given))
                self.assertEqual((int(more), int(total)), (best, len(already)))
            self.assertEqual(len(already), len(users))
            tried += len(rows) > 2
        self.assertGreater(tried, 9)

    def test_a_plan_that_drops_its_first_choice(self) -> None:
        """`g` frees most at first; but `b` and `c` together free what cites both of them."""
        both = "".join(f"d{n} $p |- p $= wp wp b wp c both $.\n" for n in range(5))
        above = "".join(f"e{n} $p |- p $= wp g $.\n" for n in range(2))
        self.write(
            "choice.mm",
            "$c |- wff $. $v p $. wp $f wff p $. ax $a |- p $.\n"
            "${ m $e |- p $. n $e |- p $. both $a |- p $. $}\n"
            + "".join(f"{name} $p |- p $= wp ax $.\n" for name in "bcg")
            + both
            + above,
        )
        plan = asked("frees", str(self.folder / "choice.mm"), "--plan=2", "--", "ax")
        self.assertEqual([row[2] for row in plan], ["b", "c"])
        self.assertEqual([row[1] for row in plan], ["1", "7"])
        first_one = asked("frees", str(self.folder / "choice.mm"), "--plan=1", "--", "ax")
        self.assertEqual([row[1:] for row in first_one], [["3", "g"]])

    def test_no_exchange_frees_more(self) -> None:
        """Another theorem in place of one of a plan doesn't free more than that, and the plan frees
        what it says."""
        tried = 0
        for database, path, chance, on, users in self.rested_on(9):
            steps = chance.randrange(2, 4)
            rows = asked("frees", path, f"--plan={steps}", "--", on)
            labels = [row[2] for row in rows]
            total = len(freed(database, on, set(labels)))
            self.assertEqual(int(rows[-1][1]), total)
            for one in labels:
                for other in set(users) - set(labels):
                    exchanged = {*labels, other} - {one}
                    self.assertLessEqual(len(freed(database, on, exchanged)), total, exchanged)
            tried += total < len(users)
        self.assertGreater(tried, 3)

    def test_a_better_choice(self) -> None:
        """Where more is left to be freed, another choice may free more, and that is said."""
        lines = [shapes.theorem(name, "ax") for name in "abg"]
        self.write("db.mm", shapes.HEAD + "".join(lines))
        path = str(self.folder / "db.mm")
        done = self.query("frees", path, "ax", "--plan=2")
        self.assertIn("free are then 2 of the 3 that rest on ax; another choice of 2", done.err)
        for steps in (1, 3, 4):
            done = self.query("frees", path, "ax", f"--plan={steps}")
            self.assertNotIn("another choice", done.err)

    def test_plan_by_dropping(self) -> None:
        """What a plan says is free doesn't rest on it any more in the database in which the
        theorems of the plan are left open, and nothing else is free there."""
        tried = 0
        for number, (database, path, _, on, users) in enumerate(self.rested_on(6)):
            rows = asked("frees", path, "--plan=2", "--", on)
            labels = second([row[1:] for row in rows])
            changed = database.text
            for label in labels:
                changed = without_proof(changed, label)
            other = str(self.folder / self.write(f"open{number}.mm", changed))
            left = first(asked("falls", "--open", other, "--", on))
            wanted = [label for label in users if label not in left]
            self.assertEqual(second(asked("frees", path, "--", on, *labels)), wanted)
            self.assertEqual(int(rows[-1][1]), len(wanted))
            tried += len(wanted) > 2
        self.assertGreater(tried, 9)

    def test_plan_by_filters(self) -> None:
        """A plan takes only theorems that pass the filters."""
        for database, path, chance, on, users in self.rested_on(2):
            label = chance.choice(users)
            self.write("names", f"{label}\n")
            words = ("frees", path, "--plan=9", "--among=names", "--format=tsv", "--", on)
            wanted = len(freed(database, on, {label}))
            self.assertEqual(self.answers(*words)[1:], [f"{wanted}\t{wanted}\t{label}"])
        self.write("names", "none\n")
        done = self.query("frees", path, "--plan=9", "--among=names", "--", on)
        self.assertEqual((done.out, done.status), ("", 0))
        self.assertIn(f"none that rests on {on} passes the filters", done.err)

    def test_what_frees_refuses(self) -> None:
        database, path, _, on, users = next(self.rested_on(1))
        for words, why in (
            (("--plan=2", on, users[0]), "--plan chooses the theorems itself"),
            (("--plan=2", "--most=2", on), "not allowed with argument"),
            ((f"--given={users[0]}", f"--keep={users[0]}", on), "is kept, so --given can't"),
            ((f"--given={on}", on), "--given can't name it" if on in database.cites else "axiom"),
            (("--given=none", on), "neither a theorem nor an axiom 'none'"),
        ):
            self.refuses("frees", path, *words, why=why)

    def test_keep(self) -> None:
        """What is kept is as an axiom that is given up together with the one that is asked for."""
        tried = 0
        for database, path, chance in self.databases(20):
            on = chance.choice(database.labels())
            users = database.users(on)
            if len(users) < 3:
                continue
            kept = chance.choice(users)
            cites = {**database.cites, kept: [on]}
            keep = f"--keep={kept}"
            others = [label for label in users if label != kept]
            numbers = {}
            for label in others:
                wanted = kept_freed(cites, on, kept, {label})
                self.assertEqual(second(asked("frees", path, keep, "--", on, label)), wanted)
                numbers[label] = len(wanted)
                rows = asked("way-out", path, keep, "--", label, on)
                cut = {(row[2], row[3]) for row in rows if row[1] == "first"}
                self.assertTrue(cut)
                self.assertFalse(kept in {one for one, _ in cut})
                left = {
                    one: [each for each in cited if (one, each) not in cut]
                    for one, cited in cites.items()
                }
                self.assertFalse({on, kept} & reached(left, label))
                tried += len(cut) > 1
            most = asked("frees", path, "--most", "99", keep, "--", on)
            self.assertEqual({label: int(count) for count, label in most}, numbers)
            self.assertEqual(asked("way-out", path, keep, "--", kept, on), [])
        self.assertGreater(tried, 3)

    def test_top(self) -> None:
        for database, path, _ in self.databases():
            sizes = [(len(database.users(axiom)), axiom) for axiom in database.axioms]
            best = sorted(sizes, key=lambda pair: -pair[0])[:2]
            found = asked("top", path, "2")
            self.assertEqual(found, [[str(count), label] for count, label in best])
            heavy = [
                (sum(axiom in database.rests(label) for axiom in database.axioms), label)
                for label in database.cites
            ]
            best = sorted(heavy, key=lambda pair: -pair[0])[:3]
            found = asked("top", path, "--theorems", "3")
            self.assertEqual(found, [[str(count), label] for count, label in best])
            few = [[str(count), label] for count, label in sizes if count < 3]
            self.assertEqual(asked("top", path, "--below", "3"), few)

    def test_within_and_same(self) -> None:
        for database, path, chance in self.databases():
            logic = {
                label: {axiom for axiom in database.axioms if axiom in database.rests(label)}
                for label in database.cites
            }
            allowed = set(chance.sample(database.axioms, 2))
            wanted = [label for label in database.cites if logic[label] <= allowed]
            self.assertEqual(first(asked("within", path, "--", *allowed)), wanted)
            label = chance.choice(database.theorems())
            same = [
                other for other in database.cites if other != label and logic[other] == logic[label]
            ]
            self.assertEqual(first(asked("same", path, "--", label)), same)

    def test_graph(self) -> None:
        for database, path, chance in self.databases(6):
            edges = [[one, cited] for one in database.cites for cited in database.cites[one]]
            found = [line[0].split(" ") for line in asked("graph", path, "--as", "edges")]
            self.assertEqual(found, edges)
            label, on = chance.choice(database.theorems()), chance.choice(database.axioms)
            below = database.rests(label) | {label}
            found = [line[0].split(" ") for line in asked("graph", path, "--as=edges", "--", label)]
            self.assertEqual(found, [edge for edge in edges if edge[0] in below])
            chains = all_chains(database, label, on)
            pairs = {pair for chain in chains for pair in itertools.pairwise(chain)}
            lines = asked("graph", path, "--as=edges", "--", label, on)
            self.assertEqual({tuple(line[0].split(" ")) for line in lines}, pairs)


def all_chains(database: Invented, label: str, on: str) -> list[list[str]]:
    """All chains of citations from one assertion to another."""
    if label == on:
        return [[on]]
    return [
        [label, *rest]
        for cited in database.cites.get(label, [])
        for rest in all_chains(database, cited, on)
    ]


def reached(cites: dict[str, list[str]], label: str) -> set[str]:
    """What a label leads to."""
    found = {label}
    left = [label]
    while left:
        for cited in cites.get(left.pop(), []):
            if cited not in found:
                found.add(cited)
                left.append(cited)
    return found


def kept_freed(cites: dict[str, list[str]], on: str, kept: str, again: set[str]) -> list[str]:
    """What no longer rests on an assertion, or on what is kept, if some theorems cite nothing."""
    ends = {on, kept}
    left = {one: [] if one in again else cited for one, cited in cites.items()}
    return [
        one
        for one in cites
        if one not in ends and ends & reached(cites, one) and not ends & reached(left, one)
    ]


def still_rests(database: Invented, label: str, on: str, gone: set[tuple[str, str]]) -> bool:
    """Whether a theorem rests on an assertion without some of the citations."""
    return any(
        (label, cited) not in gone and (cited == on or still_rests(database, cited, on, gone))
        for cited in database.cites.get(label, [])
    )


def smallest_cut(database: Invented, label: str, on: str) -> int:
    """How many citations have to go, at least."""
    chains = [list(itertools.pairwise(chain)) for chain in all_chains(database, label, on)]
    edges = {edge for chain in chains for edge in chain}
    for size in range(1, len(edges) + 1):
        for some in itertools.combinations(edges, size):
            if all(not set(some).isdisjoint(chain) for chain in chains):
                return size
    return 0


def without_proof(text: str, label: str) -> str:
    """A database in which a theorem is left open."""
    lines = text.splitlines(keepends=True)
    number = next(place for place, line in enumerate(lines) if f" {label} $p " in line)
    before, sign, _ = lines[number].partition("$= ")
    lines[number] = f"{before}{sign}? $. $}}\n"
    return "".join(lines)


def freed(database: Invented, on: str, again: set[str]) -> list[str]:
    """What no longer rests on an assertion where these theorems cite nothing that does."""
    gone = {(label, cited) for label in again for cited in database.cites[label]}
    return [label for label in database.users(on) if not still_rests(database, label, on, gone)]


if __name__ == "__main__":
    unittest.main()
