"""`graph --depth`, `--through` and `--landmarks`, against all chains of citations; what a graph
without an arrow says; and the picture as SVG."""

import itertools
import random
import re
import unittest
import xml.etree.ElementTree as Xml

from query.tests.test_questions import all_chains
from query.tests.world import SMALL, Invented, World, invented

Edge = tuple[str, str]
CUT = re.compile(
    r"mmquery: db\.mm: the graph ends behind \d+ citations: \w+ rests on (?P<more>\d+) more"
    r" assertions(?:, the axioms (?P<axioms>[^\n]*?)(?:\.\.)? among them)?\n"
)


def within(database: Invented, label: str, depth: int) -> set[str]:
    """What at most so many citations lead to from a theorem."""
    near = {label}
    for _ in range(depth):
        near |= {each for one in near for each in database.cites.get(one, [])}
    return near


class Parts(World):
    """Parts of the graph."""

    def edges(self, *words: str) -> list[Edge]:
        """The arrows that are written."""
        done = self.query("graph", "db.mm", "--as=edges", *words)
        self.assertEqual(done.status, 0, done.err)
        found = []
        for line in done.lines():
            one, other = line.split(" ")
            found.append((one, other))
        self.assertEqual(len(found), len({*found}))
        self.cut = re.search(CUT, done.err)
        self.assertEqual(bool(found), not re.sub(CUT, "", done.err))
        return found

    def asked(self, seed: int, theorems: int) -> tuple[Invented, random.Random]:
        """A database by chance."""
        chance = random.Random(seed)
        database = invented(chance, theorems)
        self.write("db.mm", database.text)
        return database, chance

    def test_depth(self) -> None:
        tried = 0
        for seed in range(8):
            database, chance = self.asked(seed, 10)
            for _ in range(3):
                label, depth = chance.choice(database.theorems()), chance.randint(1, 3)
                near = within(database, label, depth)
                wanted = {
                    (one, cited)
                    for one in near
                    for cited in database.cites.get(one, [])
                    if cited in near
                }
                found = self.edges("--depth", str(depth), label)
                self.assertEqual({*found}, wanted)
                farther = database.rests(label) - near
                self.assertEqual(int(self.cut["more"]) if self.cut else 0, len(farther))
                axioms = farther - {*database.theorems()}
                self.assertEqual({*((self.cut and self.cut["axioms"]) or "").split()}, axioms)
                tried += near != {label} | database.rests(label)
        self.assertGreater(tried, 5)

    def test_through(self) -> None:
        tried = 0
        for seed in range(8):
            database, chance = self.asked(seed, 9)
            for _ in range(4):
                label = chance.choice(database.theorems()[-4:])
                middle, on = chance.sample(database.labels(), 2)
                if chance.random() < 0.6:
                    middle = chance.choice([*database.rests(label), middle])
                ends = [on] if chance.random() < 0.5 else database.syntax + database.axioms
                chains = [chain for end in ends for chain in all_chains(database, label, end)]
                if ends != [on]:
                    chains += all_chains(database, label, middle)
                wanted = {
                    pair
                    for chain in chains
                    if middle in chain and chain[0] != chain[-1]
                    for pair in itertools.pairwise(chain)
                }
                words = ["--through", middle, label, *([on] if ends == [on] else [])]
                found = self.edges(*words)
                self.assertEqual({*found}, wanted, words)
                tried += bool(wanted)
        self.assertGreater(tried, 5)

    def test_landmarks(self) -> None:
        tried = 0
        for seed in range(16):
            database, chance = self.asked(seed, 14)
            for _ in range(2):
                label, count = chance.choice(database.theorems()[-6:]), chance.randint(1, 4)
                on = chance.choice(database.axioms) if chance.random() < 0.5 else None
                if on is not None and on not in database.rests(label):
                    on = None
                nodes = nodes_of(database, label, on)
                kept = chosen(database, nodes, label, on, count)
                found = self.edges("--landmarks", str(count), label, *([on] if on else []))
                self.assertEqual({*found}, arrows(database, nodes, kept))
                tried += len(found) > 2
        self.assertGreater(tried, 8)

    def test_dashes(self) -> None:
        """An arrow is dashed where it is no citation."""
        for seed in range(6):
            database, _ = self.asked(seed, 14)
            label = database.theorems()[-1]
            lines = self.answers("graph", "db.mm", "--landmarks=4", label)
            found = [
                re.fullmatch(r'  "(.*)" -> "(.*)"( \[style=dashed\])?;', line) for line in lines
            ]
            for match in found:
                if match is not None:
                    is_cited = match[2] in database.cites[match[1]]
                    self.assertEqual(match[3] is None, is_cited)
            edges = {(match[1], match[2]) for match in found if match is not None}
            self.assertEqual(edges, {*self.edges("--landmarks=4", label)})

    def test_a_picture_is_made_by_another_program(self) -> None:
        self.write("db.mm", SMALL)
        why = "no picture is drawn; `--as dot | dot -Tsvg` does, with Graphviz"
        self.refuses("graph", "db.mm", "a2", "--as", "svg", why=why)
        self.refuses("graph", "db.mm", "a2", "--as", "gif", why="invalid choice: 'gif'")

    def test_upwards(self) -> None:
        """With an axiom alone, what rests on it, which is written as any other part."""
        tried = 0
        for seed in range(8):
            database, _ = self.asked(seed, 10)
            for axiom in database.axioms:
                above = {one for one in database.theorems() if axiom in database.rests(one)}
                wanted = {
                    (one, cited)
                    for one in above
                    for cited in database.cites.get(one, [])
                    if cited in above | {axiom}
                }
                self.assertEqual({*self.edges(axiom)}, wanted)
                tried += len(above) < len(database.theorems())
        self.assertGreater(tried, 5)
        self.write("db.mm", SMALL)
        axiom = "ax-1"
        dot = self.query("graph", "db.mm", axiom).lines()
        self.assertEqual(dot[0], f'digraph "{axiom}" {{')
        self.assertIn(f'  "{axiom}" [shape=box];', dot)
        for option in ("--depth=1", "--through=ax", "--landmarks=2"):
            self.refuses("graph", "db.mm", axiom, option, why="about the graph of a THEOREM")

    def test_nothing(self) -> None:
        self.write("db.mm", "$c a $. b $a a $.\n")
        done = self.query("graph", "db.mm", "b", "--as=edges")
        self.assertEqual((done.out, done.err), ("", "mmquery: db.mm: nothing rests on b\n"))
        self.write("db.mm", SMALL)
        for words, why in (
            (("ax1", "wi"), "ax1 doesn't rest on wi"),
            (("a2", "--through", "ax1"), "no chain from a2 leads through ax1"),
            (("a2", "ax-1", "--through", "ax-mp"), "no chain from a2 to ax-1 leads through ax-mp"),
            (("a2", "ax-1", "--depth", "1", "--landmarks", "3"), "the graph ends before ax-1"),
        ):
            for form in ("dot", "edges", "graphml"):
                done = self.query("graph", "db.mm", *words, "--as", form)
                self.assertEqual(done.status, 0)
                self.assertIn(f"db.mm: {why}", done.err)
                if form == "edges":
                    self.assertEqual(done.out == "", "ends before" not in why)
        self.write("db.mm", SMALL + "last $p wff p $= wp $.\n")
        done = self.query("graph", "db.mm", "last", "--as=edges")
        self.assertEqual(done.err, "mmquery: db.mm: last cites nothing\n")
        self.write("db.mm", "$c a $. b $a a $.\n")
        done = self.query("graph", "db.mm")
        self.assertEqual(done.err, "mmquery: db.mm: no theorem cites anything\n")
        for option in ("--depth=1", "--through=b", "--landmarks=2"):
            self.refuses("graph", "db.mm", option, why="about the graph of a THEOREM")
        self.write("db.mm", SMALL)
        self.refuses("graph", "db.mm", "a2", "--landmarks=1001", why="at most 1000")
        self.refuses("graph", "db.mm", "a2", "--through=x", why="neither a theorem nor an axiom")

    def test_it_ends_before_what_is_asked_for(self) -> None:
        """Standard error says where no chain is as short as the depth, and how long one is."""
        told = 0
        for seed in range(8):
            database, chance = self.asked(seed, 14)
            label = next(each for each in database.theorems()[::-1] if database.rests(each))
            end = chance.choice(sorted(database.rests(label)))
            far, near = 0, {label}
            while end not in near:
                near = {each for one in near for each in database.cites.get(one, [])}
                far += 1
            for depth in range(1, far + 2):
                done = self.query("graph", "db.mm", label, end, "--as=edges", f"--depth={depth}")
                said = (
                    f"mmquery: db.mm: the graph ends before {end}: a shortest chain from {label}"
                    f" has {far} citations\n"
                )
                cut = (
                    f"mmquery: db.mm: the graph ends behind {depth} citations: longer chains to"
                    f" {end} are cut\n"
                )
                is_cut = any(
                    len(chain) - 1 > depth and not {*chain} <= within(database, label, depth)
                    for chain in all_chains(database, label, end)
                )
                self.assertEqual(done.err, said if depth < far else cut if is_cut else "")
                told += depth < far
        self.assertGreater(told, 3)

    def test_svg(self) -> None:
        """The dots of an SVG file are those of the PBM file."""
        self.write("db.mm", "$(\n#*#*#*#\n  A <title> & more\n#*#*#*#\n$)\n" + SMALL)
        space = "{http://www.w3.org/2000/svg}"
        for words in (("--all",), ("--all", "--across=2", "--down=2")):
            tree = Xml.fromstring(self.query("picture", "db.mm", "--svg", *words).out)
            names = [each.text for each in tree.iter(f"{space}text")]
            self.assertIn("A <title> & more", names)
            drawn = next(each.get("d") or "" for each in tree if "scale" in str(each.attrib))
            dots = set()
            for x, y, wide in re.findall(r"M(\d+) (\d+)h(\d+)v1h-\3z", drawn):
                dots |= {(each, int(y)) for each in range(int(x), int(x) + int(wide))}
            data = self.query("picture", "db.mm", *words).out
            width, height = map(int, data.split("\n")[1].split())
            rows = data.split("\n", 2)[2]
            black = {
                (x, y) for y in range(height) for x in range(width) if ord(rows[y]) & 0x80 >> x
            }
            self.assertEqual(dots, black)
        self.refuses("picture", "db.mm", "--svg", "--png", why="not allowed with argument")


def nodes_of(database: Invented, label: str, on: str | None) -> set[str]:
    """What is on the chains from a theorem."""
    below = {label} | database.rests(label)
    if on is None:
        return below
    return {each for each in below if each == on or on in database.rests(each)} | {label}


def reached(database: Invented, nodes: set[str], label: str, without: str) -> set[str]:
    """The nodes to which chains lead that don't pass one of them."""
    found, left = set(), [label] if label != without else []
    while left:
        one = left.pop()
        if one not in found:
            found.add(one)
            left += [each for each in database.cites.get(one, []) if each in nodes - {without}]
    return found


def chosen(database: Invented, nodes: set[str], label: str, on: str | None, count: int) -> set[str]:
    """The landmarks, by taking out each node."""
    hanging = {each: nodes - reached(database, nodes, label, each) for each in nodes}
    weights = {
        each: len(found) - max((len(hanging[other]) for other in found - {each}), default=0)
        for each, found in hanging.items()
    }
    theorems = [each for each in database.cites if each in nodes - {label, on or label}]
    theorems.sort(key=lambda each: -weights[each])
    return {label, *theorems[:count], *([on] if on else [])}


def arrows(database: Invented, nodes: set[str], kept: set[str]) -> set[Edge]:
    """The arrows between landmarks, by all chains."""
    leads = {
        (one, other)
        for one in kept & {*database.cites}
        for other in kept - {one}
        for chain in all_chains(database, one, other)
        if nodes >= {*chain} and not kept & {*chain[1:-1]}
    }
    longer = {
        (one, other)
        for one, other in leads
        for chain in all_chains(database, one, other)
        if nodes >= {*chain} and kept & {*chain[1:-1]}
    }
    return leads - longer


if __name__ == "__main__":
    unittest.main()
