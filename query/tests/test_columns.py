"""The columns of an answer are the same however many words are given, and values are written by one
rule in each form."""

import csv
import io
import json
import unittest

from query.answers.output import Output, Value
from query.tests.commands import NEWER, WHOLE, keep_in_git
from query.tests.world import SMALL, World

# For each command that takes a number of words, or a word that may be missing, several such.
SEVERAL: dict[str, list[tuple[str, ...]]] = {
    "rests": [("a2",), ("a2", "a1i"), ("wi2",)],
    "falls": [("ax-1",), ("ax-1", "ax-mp"), ("a2",)],
    "cites": [("a2",), ("a2", "a1i"), ("ax-1",)],
    "cited-by": [("ax-1",), ("ax-1", "wi"), ("a2",)],
    "way-out": [("ax-1",), ("a2", "ax-1"), ("wi2", "ax-1")],
    "frees": [("ax-1",), ("ax-1", "a1i"), ("ax-1", "a1i", "a2"), ("a2",)],
    "top": [(), ("1",)],
    "within": [("ax-1",), ("ax-1", "ax-mp")],
    "compare": [("newer.mm",), ("newer.mm", "ax-1"), ("newer.mm", "ax-1", "ax-mp")],
    "history": [("HEAD",), ("HEAD", "ax-1"), ("HEAD", "ax-1", "ax-mp"), ("HEAD..",)],
    "chapters": [(), ("ax-1",), ("ax-1", "ax-mp")],
    "unfinished": [("--open",), ("--open", "todo")],
    "drop": [("a2",), ("a2", "a1i"), ("a*",)],
    "why": [("a2", "ax-1"), ("a2", "--longest")],
}


class Columns(World):
    """Heads of tables."""

    def setUp(self) -> None:
        super().setUp()
        self.write("db.mm", WHOLE)
        self.write("newer.mm", NEWER)
        self.write("open.mm", SMALL + "todo $p |- p $= ? $. new $p |- p $= wp todo $.\n")
        keep_in_git(self.folder)

    def head(self, *words: str) -> str:
        """The names of the columns, which are the same in each form for programs."""
        lines = self.query(*words, "--format=csv").lines()
        self.assertEqual(self.query(*words, "--format=tsv").lines()[0], lines[0].replace(",", "\t"))
        for row in self.query(*words, "--format=json").rows():
            self.assertEqual(list(row), lines[0].split(","), words)
        self.assertNotIn("db.mm", lines[0])
        return lines[0]

    def test_they_do_not_depend_on_the_number_of_words(self) -> None:
        for name, several in SEVERAL.items():
            database = "open.mm" if name == "unfinished" else "db.mm"
            heads = {self.head(name, database, *words) for words in several}
            self.assertEqual(len(heads), 1, f"{name}: {heads}")
        for option in ("--theorems", "--apart"):
            heads = {self.head("rests", "db.mm", option, *each) for each in SEVERAL["rests"]}
            self.assertEqual(len(heads), 1, f"{option}: {heads}")
        heads = {self.head("falls", "db.mm", "--count", *each) for each in SEVERAL["falls"]}
        self.assertEqual(heads, {"theorems,labels"})
        words = ("history", "db.mm", "HEAD", "--of", "a2")
        heads = {self.head(*words, *each) for each in (("ax-1",), ("ax-1", "ax-mp"))}
        self.assertEqual(len(heads), 1)

    def test_a_union_says_whose(self) -> None:
        self.write("small.mm", SMALL)
        rows = self.query("rests", "small.mm", "a2", "ax1", "a2", "--format=json").rows()
        wanted = [{"axiom": "ax-1", "labels": ["a2", "ax1"]}, {"axiom": "ax-mp", "labels": ["a2"]}]
        self.assertEqual(rows, wanted)
        rows = self.query("rests", "small.mm", "a2", "--theorems", "--format=json").rows()
        self.assertEqual(rows, [{"theorem": "a1i", "labels": ["a2"]}])
        rows = self.query("falls", "small.mm", "ax-1", "ax-mp", "--format=json").rows()
        told = {row["theorem"]: row["labels"] for row in rows}
        both = ["ax-1", "ax-mp"]
        self.assertEqual(told, {"ax1": ["ax-1"], "a1i": both, "a2": both})
        rows = self.query("falls", "small.mm", "ax-1", "ax-mp", "--all-of", "--format=json").rows()
        self.assertEqual([row["theorem"] for row in rows], ["a1i", "a2"])
        lines = self.answers("rests", "small.mm", "a2", "ax1", "--apart", "--all", "--format=csv")
        self.assertEqual(lines[0], "kind,axiom,labels")
        self.assertEqual(lines[-1], "logic,ax-mp,a2")

    def test_text_leaves_out_what_says_nothing(self) -> None:
        self.write("small.mm", SMALL)
        self.assertEqual(self.answers("rests", "small.mm", "a2"), ["ax-1", "ax-mp"])
        lines = self.answers("rests", "small.mm", "a2", "ax1")
        self.assertEqual(lines, ["axiom  labels", "ax-1   a2 ax1", "ax-mp  a2"])
        both = self.answers("falls", "small.mm", "ax-1", "ax-mp", "--all-of")
        self.assertEqual(both, ["a1i", "a2"])
        self.assertEqual(self.answers("cites", "small.mm", "a2"), ["wi", "a1i"])
        self.assertEqual(self.answers("cites", "small.mm", "a2", "a2"), ["wi", "a1i"])
        self.assertEqual(self.answers("cited-by", "small.mm", "a1i"), ["a2"])
        self.assertEqual(self.answers("frees", "small.mm", "ax-mp", "a1i"), ["a1i", "a2"])
        rows = self.query("frees", "small.mm", "ax-mp", "a1i", "--format=json").rows()
        self.assertEqual(rows, [{"freed": 2, "theorem": "a1i"}, {"freed": 1, "theorem": "a2"}])


class Values(unittest.TestCase):
    """None, yes and no, numbers and lists in each form."""

    ROW: list[Value] = [None, True, False, 0, "-", ["a", "b"], [], "x"]

    def written(self, form: str) -> str:
        """A table of one row."""
        out = Output(form)
        out.table([f"c{number}" for number in range(len(self.ROW))], [self.ROW])
        return b"".join(out.taken()).decode()

    def test_each_form(self) -> None:
        self.assertEqual(self.written("tsv").splitlines()[1], "\ttrue\tfalse\t0\t-\ta b\t\tx")
        self.assertEqual(self.written("csv").splitlines()[1], ",true,false,0,'-,a b,,x")
        self.assertEqual([*json.loads(self.written("json"))[0].values()], self.ROW)
        fields = self.written("text").splitlines()[1].split("  ")
        wanted = ["-", "yes", "no", "0", "-", "a b", "-", "x"]
        self.assertEqual([each.strip() for each in fields if each.strip()], wanted)

    def test_csv_says_what_json_says(self) -> None:
        """By one rule each field of CSV is the value of JSON."""
        (row,) = csv.DictReader(io.StringIO(self.written("csv")))
        for name, value in json.loads(self.written("json"))[0].items():
            said = "" if value is None else value
            said = " ".join(said) if isinstance(said, list) else said
            said = said if isinstance(said, str) else json.dumps(said)
            self.assertEqual(row[name].removeprefix("'"), said)


if __name__ == "__main__":
    unittest.main()
