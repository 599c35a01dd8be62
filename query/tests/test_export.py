"""`export`: the tables against trying everything, and the queries of docs/SQL.md."""

import os
import random
import re
import sqlite3
import unittest

from query.tests.world import DATABASES, SMALL, TOP, World, invented
from query.texts.contributed import contributed

PARTS = """$c |- wff class -> = $. $v p x y $. wp $f wff p $. vx $f class x $. vy $f class y $.
$( #### Part #### $)
$(
####
  Part | one
####
$)
${ $d x y $. $d p x $. ax.1 $e |- p $. ax.2 $e |- x = y $.
$( A comment
   of (New usage is discouraged.) ~ ax . $) ax $a |- x = x $. $}
$(
####
  Mathbox for O'Neill
####
$)
t $p |- p $= ? $.
"""


class Export(World):
    """Over small databases."""

    def tables(self, name: str, *words: str) -> sqlite3.Connection:
        """The tables of a database."""
        self.answers("export", "--sqlite", "out.db", *words, name)
        connection = sqlite3.connect(self.folder / "out.db")
        self.addCleanup(connection.close)
        return connection

    def test_by_chance(self) -> None:
        for seed in range(5):
            database = invented(random.Random(seed))
            self.write("chance.mm", database.text)
            tables = self.tables("chance.mm", "--all")
            labels = [row[0] for row in tables.execute("SELECT label FROM statement ORDER BY id")]
            self.assertEqual(sorted(labels), sorted(database.labels()))
            names = "JOIN statement AS a ON a.id = {} JOIN statement AS b ON b.id = {}"
            query = f"SELECT a.label, b.label FROM citation {names.format('citing', 'cited')}"
            wanted = {(theorem, cited) for theorem, all in database.cites.items() for cited in all}
            self.assertEqual(set(tables.execute(query)), wanted)
            query = f"SELECT a.label, b.label FROM mark {names.format('theorem', 'axiom')}"
            axioms = {*database.axioms, *database.syntax}
            wanted = {
                (each, axiom) for each in database.cites for axiom in database.rests(each) & axioms
            }
            self.assertEqual(set(tables.execute(query)), wanted)
            kinds = dict(tables.execute("SELECT label, kind FROM statement"))
            self.assertEqual(
                {each for each in kinds if kinds[each] == "theorem"}, set(database.cites)
            )

    def test_columns(self) -> None:
        self.write("parts.mm", PARTS)
        tables = self.tables("parts.mm", "--open")
        self.assertEqual(
            list(tables.execute("SELECT * FROM statement")),
            [
                (1, "ax", "axiom", "|-", "|- x = x", 10, 1, None, 1, 0,
                 "A comment of (New usage is discouraged.) ~ ax .", None, None),
                (2, "t", "open", "|-", "|- p", 16, 2, "O'Neill", 0, 0, "", None, None),
            ],
        )  # fmt: skip
        self.assertEqual(
            list(tables.execute("SELECT * FROM hypothesis")),
            [(1, 1, "ax.1", "|- p"), (1, 2, "ax.2", "|- x = y")],
        )
        self.assertEqual(
            list(tables.execute("SELECT * FROM disjoint")), [(1, "p", "x"), (1, "x", "y")]
        )
        self.assertEqual(
            list(tables.execute("SELECT * FROM chapter")),
            [(1, "1", 0, "Part | one", 1, 1), (2, "2", 0, "Mathbox for O'Neill", 2, 2)],
        )
        about = dict(tables.execute("SELECT key, value FROM about"))
        self.assertEqual((about["database"], about["open"]), ("parts.mm", "true"))

    def test_who_contributed(self) -> None:
        """Whose name a comment has, and the day, as set.mm writes them."""
        for said, wanted in (
            ("(Contributed by NM, 5-Aug-1993.)", ("NM", "1993-08-05")),
            (
                "x (Contributed by\n  Mario  Carneiro,\n 12-Dec-2016.) y",
                ("Mario Carneiro", "2016-12-12"),
            ),
            ("(Contributed by A, B, and C, 1-Jan-2020.)", ("A, B, and C", "2020-01-01")),
            ("(Contributed by X, 31-Feb-2020.)", ("X", None)),
            ("(Contributed by X, 1-Foo-2020.)", ("X", None)),
            ("(Contributed by X.)", ("X", None)),
            (
                "(Contributed by X, 1-Jan-2020.) (Contributed by Y, 2-Jan-2020.)",
                ("X", "2020-01-01"),
            ),
            ("(Revised by X, 1-Jan-2020.)", (None, None)),
            ("(Contributed by (X), 1-Jan-2020.)", (None, None)),
            ("(Contributed by )", (None, None)),
        ):
            self.assertEqual(contributed(said), wanted, said)
        text = SMALL.replace("ax1 $p", "$( Said.  (Contributed by\n NM, 5-Aug-1993.) $)\nax1 $p")
        self.write("small.mm", text)
        tables = self.tables("small.mm")
        query = "SELECT label, contributor, contributed FROM statement WHERE contributor NOT NULL"
        self.assertEqual(list(tables.execute(query)), [("ax1", "NM", "1993-08-05")])

    def test_proofs(self) -> None:
        self.write("small.mm", SMALL)
        tables = self.tables("small.mm")
        query = "SELECT label, steps, depth, bytes FROM proof JOIN statement ON id = theorem"
        wanted = [("wi2", 5, 1, 16), ("ax1", 3, 1, 12), ("a1i", 9, 1, 32), ("a2", 9, 2, 29)]
        self.assertEqual(list(tables.execute(f"{query} ORDER BY id")), wanted)

    def test_which_files_are_replaced(self) -> None:
        self.write("small.mm", SMALL)
        self.answers("export", "--sqlite", "out.db", "small.mm")
        self.answers("export", "--sqlite", "out.db", "--all", "small.mm")
        self.assertEqual(sorted(os.listdir(self.folder)), ["out.db", "small.mm"])
        with sqlite3.connect(self.folder / "other.db") as other:
            other.execute("CREATE TABLE mine (a)")
        for name in ("small.mm", "other.db", "/dev/full", "."):
            before = (self.folder / name).read_bytes() if name in ("small.mm", "other.db") else b""
            self.refuses("export", "--sqlite", name, "small.mm", why="is there already")
            if before:
                self.assertEqual((self.folder / name).read_bytes(), before)
        self.refuses(
            "export", "--sqlite", "no/where.db", "small.mm", why="no/where.db: no such file"
        )
        self.refuses("export", "small.mm", why="--sqlite")
        self.write("bad.mm", SMALL + "$c wff $.")
        self.refuses("export", "--sqlite", "bad.db", "bad.mm", why="refused E13")
        self.assertFalse((self.folder / "bad.db").exists())
        self.assertEqual(
            sorted(os.listdir(self.folder)), ["bad.mm", "other.db", "out.db", "small.mm"]
        )

    def test_files_may_not_grow(self) -> None:
        self.write("small.mm", SMALL)
        words = ["export", "--sqlite", "out.db", "small.mm"]
        done = self.query_by_shell('ulimit -f 8; exec "$@"', *words)
        self.assertEqual(done.status, 2, done)
        self.assertRegex(done.err, r"\Ammquery: out\.db: [^\n]*\n\Z")
        self.assertEqual(os.listdir(self.folder), ["small.mm"])


PAGE = (TOP / "docs" / "SQL.md").read_text()
QUERIES = re.findall(r"```sql\n(.*?)```\n```\n(.*?)```\n", PAGE, re.DOTALL)


class Page(World):
    """The queries of docs/SQL.md."""

    def test_there_are_ten_that_run(self) -> None:
        self.assertEqual(len(QUERIES), 10)
        self.write("small.mm", SMALL)
        self.answers("export", "--sqlite", "out.db", "small.mm")
        connection = sqlite3.connect(self.folder / "out.db")
        self.addCleanup(connection.close)
        for query, _ in QUERIES:
            connection.execute(query).fetchall()

    def test_columns_are_told(self) -> None:
        self.write("small.mm", SMALL)
        self.answers("export", "--sqlite", "out.db", "small.mm")
        connection = sqlite3.connect(self.folder / "out.db")
        self.addCleanup(connection.close)
        names = re.findall(r"^\| (?:`(\w+)` )?\| (.*?) \|", PAGE, re.MULTILINE)
        table, told = "", set()
        for name, columns in names:
            table = name or table
            told |= {(table, column) for column in re.findall(r"`(\w+)`", columns)}
        found = connection.execute(
            "SELECT m.name, c.name FROM sqlite_schema AS m JOIN pragma_table_info(m.name) AS c"
            " WHERE m.type = 'table' AND m.name NOT LIKE 'sqlite%'"
        )
        self.assertEqual(told, set(found))

    @unittest.skipUnless((DATABASES / "set.mm").exists(), "there is no set.mm")
    def test_their_answers(self) -> None:
        words = ("export", "--sqlite", "set.db", str(DATABASES / "set.mm"))
        self.assertIn("\n".join(self.answers(*words)) + "\n```", PAGE)
        connection = sqlite3.connect(self.folder / "set.db")
        self.addCleanup(connection.close)
        for query, answer in QUERIES:
            rows = connection.execute(query).fetchall()
            lines = "".join("|".join(map(str, row)) + "\n" for row in rows)
            self.assertEqual(lines, answer, query)
