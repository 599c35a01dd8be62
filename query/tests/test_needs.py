"""`needs`: the definitions under a statement, against what its symbols tell, and against the
statement with all definitions unfolded."""

import os
import random
import re
import unittest
import xml.etree.ElementTree as Xml
from unittest import mock

from query.tests.test_definitions import LOGIC
from query.tests.unsound import BASE
from query.tests.world import DATABASES, World, asked_rows, built_program

PRIMITIVE = {"->": "wi", "F.": "wfal"}
"""Forms of the language of `chained` that have no definition, by the constant that tells them."""


def formula(chance: random.Random, arity: dict[str, int], depth: int) -> str:
    """A formula made by chance of these forms, of `->` and of `F.`."""
    if depth == 0 or chance.random() < 0.2:
        return chance.choice(["ph", "ps", "F."])
    name = chance.choice(["->", *arity])
    parts = [formula(chance, arity, depth - 1) for _ in range(arity.get(name, 2))]
    return f"( {parts[0]} -> {parts[1]} )" if name == "->" else " ".join([name, *parts])


def chained(chance: random.Random) -> tuple[str, dict[str, str], dict[str, str]]:
    """A database whose forms are each defined by those before it; the right side of each form, and
    the statements, by their labels."""
    lines, arity = [BASE], dict[str, int]()
    right: dict[str, str] = {}
    for number in range(chance.randint(3, 12)):
        name = f"K{number}"
        of = chance.randint(0, 2)
        left = " ".join([name, *["ph", "ps"][:of]])
        said = formula(chance, arity, 3)
        right[name] = said.replace("ps", "F.") if of < 2 else said
        right[name] = right[name].replace("ph", "F.") if of < 1 else right[name]
        lines.append(f"$c {name} $. w{name} $a wff {left} $.")
        lines.append(f"df-{name} $a |- ( {left} <-> {right[name]} ) $.")
        arity[name] = of
    said_by = {f"t{number}": formula(chance, arity, 4) for number in range(6)}
    for label, each in said_by.items():
        lines.append(f"{label} $a |- {each} $.")
    return "\n".join(lines) + "\n", right, said_by


def by_symbols(right: dict[str, str], said: str) -> dict[str, int]:
    """The forms that a formula needs, by what its symbols are, each with how many definitions there
    are between."""
    found: dict[str, int] = {}
    words, depth = set(said.split()), 0
    while words:
        new = {PRIMITIVE.get(word) or f"w{word}": word for word in words & {*right, *PRIMITIVE}}
        new = {form: word for form, word in new.items() if form not in found}
        found.update(dict.fromkeys(new, depth))
        words = {each for word in new.values() for each in right.get(word, "").split()}
        depth += 1
    return found


class Needed(World):
    """What statements need."""

    def setUp(self) -> None:
        super().setUp()
        patch = mock.patch.dict(os.environ, {"MMDEPEND": built_program()})
        patch.start()
        self.addCleanup(patch.stop)

    def needs(self, *words: str) -> list[dict[str, object]]:
        """The rows of an answer."""
        return asked_rows("needs", str(self.folder / "db.mm"), *words)

    def test_it_says_how_far_it_is(self) -> None:
        """Of how many axioms and statements, at each stage that goes through all of them."""
        text = chained(random.Random(1))[0]
        many = "".join(f"more{number} $a |- ph $.\n" for number in range(250))
        path = str(self.folder / self.write("db.mm", text + many))
        said: list[str] = []
        with (
            mock.patch.dict(os.environ, {"MMDEPEND": built_program()}),
            mock.patch("query.platform.progress.now", said.append),
        ):
            asked_rows("needs", path, "t0")
        told = [re.fullmatch("(.*), ([0-9]+) of ([0-9]+) are done", each) for each in said]
        stages: dict[str, list[tuple[int, int]]] = {}
        for match in filter(None, told):
            stages.setdefault(match[1], []).append((int(match[2]), int(match[3])))
        self.assertLess({"reading axioms", "judging definitions"}, {*stages})
        for stage, numbers in stages.items():
            self.assertEqual(len({whole for _, whole in numbers}), 1, stage)
            self.assertEqual([done for done, _ in numbers], [*range(0, numbers[0][1], 100)], stage)

    def test_by_chance(self) -> None:
        deepest = 0
        for seed in range(12):
            text, right, said_by = chained(random.Random(seed))
            self.write("db.mm", text)
            for label, said in said_by.items():
                wanted = by_symbols(right, said)
                rows = self.needs(label)
                self.assertEqual({row["form"]: row["depth"] for row in rows}, wanted)
                for row in rows:
                    name = str(row["form"])[1:]
                    definition = f"df-{name}" if name in right else None
                    self.assertEqual(row["definition"], definition)
                    self.assertEqual(row["sound"], "yes" if definition else None)
                deepest = max(deepest, *wanted.values(), 0)
                self.see_tree(right, label, said, set(wanted))
        self.assertGreater(deepest, 2)

    def see_tree(self, right: dict[str, str], label: str, said: str, wanted: set[str]) -> None:
        """The tree has under each form those of its definition, and goes into each form once."""
        rows = self.needs(label, "--tree")
        self.assertEqual({row["form"] for row in rows}, wanted)
        below: dict[str, list[str]] = {}
        chain: list[str] = []
        for row in rows:
            form, depth = str(row["form"]), int(str(row["depth"]))
            chain = [*chain[:depth], form]
            self.assertEqual(len(chain), depth + 1)
            below.setdefault(chain[-2] if depth else "", []).append(form)
        words = {"": said, **{f"w{name}": each for name, each in right.items()}}
        names = {**PRIMITIVE, **{name: f"w{name}" for name in right}}
        for form, found in below.items():
            told = dict.fromkeys(names[word] for word in words[form].split() if word in names)
            self.assertEqual(sorted(found), sorted(told))
        repeated = [row["form"] for row in rows if row["above"]]
        for form in below:
            if form:
                first = [row["above"] for row in rows if row["form"] == form]
                self.assertEqual(first.count(False), 1, form)
        self.assertLessEqual(set(repeated), set(below))

    def test_graph(self) -> None:
        """The forms of `--as` have the arrows of the tree."""
        arrows_of_all = 0
        for seed in range(4):
            text, right, said_by = chained(random.Random(seed))
            self.write("db.mm", text)
            names = {**PRIMITIVE, **{name: f"w{name}" for name in right}}
            for label, said in said_by.items():
                needed = by_symbols(right, said)
                words = {label: said} | {f"w{name}": each for name, each in right.items()}
                wanted = {
                    (head, names[word])
                    for head in (label, *needed)
                    for word in words.get(head, "").split()
                    if word in names
                }
                done = self.query("needs", "db.mm", label, "--as=edges")
                found = [tuple(line.split(" ")) for line in done.lines()]
                self.assertEqual({*found}, wanted)
                self.assertEqual(len(found), len(wanted))
                self.assertEqual("needs no form besides" in done.err, not wanted)
                self.see_files(label, wanted, right)
                arrows_of_all += len(wanted)
        self.assertGreater(arrows_of_all, 50)

    def see_files(self, label: str, wanted: set[tuple[str, str]], right: dict[str, str]) -> None:
        """The same in DOT and as GraphML, which tell what is primitive."""
        lines = self.answers("needs", "db.mm", label, "--as=dot")
        self.assertEqual((lines[0], lines[-1]), (f'digraph "{label}" {{', "}"))
        told = [re.fullmatch('  "(.*)" -> "(.*)";', line) for line in lines]
        self.assertEqual({match.groups() for match in told if match}, wanted)
        boxes = {line.split('"')[1] for line in lines if line.endswith("[shape=box];")}
        primitive = {form for _, form in wanted if form[1:] not in right}
        self.assertEqual(boxes, primitive)
        space = "{http://graphml.graphdrawing.org/xmlns}"
        tree = Xml.fromstring("\n".join(self.answers("needs", "db.mm", label, "--as=graphml")))
        kinds = {node.get("id"): node[0].text for node in tree.iter(f"{space}node")}
        others = {label, *(form for _, form in wanted)} - primitive
        self.assertEqual(
            kinds, dict.fromkeys(primitive, "primitive") | dict.fromkeys(others, "defined")
        )
        edges = {(each.get("source"), each.get("target")) for each in tree.iter(f"{space}edge")}
        self.assertEqual(edges, wanted)

    def test_graph_by_hand(self) -> None:
        """Of a syntax axiom, of what has filters, and what is asked for beside it."""
        self.write("db.mm", LOGIC)
        self.assertEqual(self.answers("needs", "db.mm", "df-ex", "--as=edges"), [
            "wtru wal", "wtru cv", "wtru wceq", "wex wi", "wex wal", "wex wtru", "df-ex wi",
            "df-ex wb", "df-ex wal", "df-ex wtru", "df-ex wex",
        ])  # fmt: skip
        self.assertEqual(self.answers("needs", "db.mm", "wex", "--as=edges", "--like=w*"), [
            "wtru wal", "wtru wceq", "wex wi", "wex wal", "wex wtru",
        ])  # fmt: skip
        self.assertEqual(
            self.answers("needs", "db.mm", "wal", "--as=dot"), ['digraph "wal" {', '  "wal";', "}"]
        )
        for other in ("--tree", "--format=csv"):
            self.refuses("needs", "db.mm", "df-ex", other, "--as=dot", why="not allowed with")
        self.refuses("needs", "db.mm", "df-ex", "--as=svg", why="--as dot | dot -Tsvg")

    def test_by_hand(self) -> None:
        self.write("db.mm", LOGIC)
        lines = self.answers("needs", "db.mm", "last", "--tree")
        self.assertEqual([line.split()[:2] for line in lines[1:]], [
            ["wss", "df-ss"], ["wal", "-"], ["wi", "-"], ["wcel", "-"], ["cv", "-"],
            ["cfoo", "df-foo"], ["cab", "-"], ["wex", "df-ex"], ["wi", "-"], ["wal", "-"],
            ["wtru", "df-tru"], ["wal", "-"], ["wceq", "-"], ["cv", "-"], ["wcel", "-"],
            ["cv", "-"],
        ])  # fmt: skip
        self.assertEqual([line.index(line.split()[0]) // 2 for line in lines[1:]], [
            0, 1, 1, 1, 1, 0, 1, 1, 2, 2, 2, 3, 3, 3, 1, 1,
        ])  # fmt: skip
        self.assertEqual(self.answers("needs", "db.mm", "last", "--like=wt*")[1:], [
            "wtru  df-tru      yes        2  wff T."
        ])  # fmt: skip

    def test_definitions_on_trust(self) -> None:
        """Each is that of the form which it brings, or that of its left side; and one that isn't
        sound is told."""
        text = LOGIC + "$c bi cl $. wbi $a wff ( ph bi ps ) $. wcl $a wff A cl B $.\n"
        text += "df-bi $a |- ( ( ph bi ps ) -> ( ph -> ps ) ) $.\n"
        text += "e $a |- A cl A $. ${ $d x A $. $d x B $.\n"
        text += "df-clel $a |- ( A cl B <-> E. x ( x = A -> x cl B ) ) $. $}\n"
        text += "ccc $a class cl $. df-cc $a |- cl = x $. f $a |- ( ph bi A cl cl ) $.\n"
        self.write("db.mm", text)
        told = {row["form"]: (row["definition"], row["sound"]) for row in self.needs("f")}
        self.assertEqual(told["wbi"], ("df-bi", "on trust"))
        self.assertEqual(told["wcl"], ("df-clel", "on trust"))
        self.assertEqual(told["ccc"], ("df-cc", "no"))
        self.assertEqual(told["wex"], ("df-ex", "yes"))
        self.assertEqual(told["wtru"], ("df-tru", "yes"))

    def test_nothing(self) -> None:
        self.write("db.mm", LOGIC + "bare $a |- ph $.\n")
        done = self.query("needs", "db.mm", "bare")
        self.assertEqual((done.out, done.status), ("", 0))
        self.assertIn("the statement of bare has variables alone", done.err)
        self.refuses("needs", "db.mm", "none", why="has no assertion 'none'")
        self.write("report", self.report("db.mm"))
        self.refuses("needs", "report", "last")

    @unittest.skipUnless((DATABASES / "set.mm").exists(), "there is no set.mm")
    def test_what_is_left_unfolded(self) -> None:
        """The primitive forms of statements of set.mm are those that stand there when all is
        unfolded, as far as constants tell."""
        path = str(DATABASES / "set.mm")
        for label in ("ax-reg", "df-ss", "zorn", "sbcie"):
            rows = self.query("needs", path, label, "--tree", "--format=json").rows()
            primitive = self.without_trusted(path, label, rows)
            unfolded = self.query("definitions", path, "--expand", label).out.split()
            for form, says in primitive.items():
                for symbol in set(says.split()[1:]) - {"wff", "class", "setvar", ",", "(", ")"}:
                    self.assertIn(symbol, unfolded, form)
            known = {symbol for says in primitive.values() for symbol in says.split()}
            constants = self.constants(path)
            self.assertLessEqual(set(unfolded) & constants - {"|-"}, known, label)

    def constants(self, path: str) -> set[str]:
        """The constants of all syntax axioms of set.mm, as its forms say them."""
        rows = self.query("definitions", path, "--basis", "--format=json").rows()
        says = [str(row["says"]).split(";")[0] for row in rows if row["what"] == "primitive"]
        return {each for said in says for each in said.split()} - {"wff", "class", "setvar"}

    def without_trusted(
        self, path: str, label: str, rows: list[dict[str, object]]
    ) -> dict[str, str]:
        """The forms without a sound definition that are found if nothing is looked up under a
        definition that isn't sound, each with what it says."""
        told = self.query("needs", path, label, "--format=json").rows()
        sound = {row["form"]: row["sound"] == "yes" for row in told}
        found: dict[str, str] = {}
        below: dict[str, list[str]] = {}
        chain: list[str] = []
        for row in rows:
            form, depth = str(row["form"]), int(str(row["depth"]))
            chain = [*chain[:depth], form]
            below.setdefault(chain[-2] if depth else "", []).append(form)
        says = {str(row["form"]): str(row["says"]) for row in rows}
        left = list(below[""])
        while left:
            form = left.pop()
            if form in found:
                continue
            found[form] = says[form]
            if sound[form]:
                left += below.get(form, [])
        return {form: each for form, each in found.items() if not sound[form]}


if __name__ == "__main__":
    unittest.main()
