"""Answers that are written down: verify, forms of graphs, pictures, open theorems, what changed."""

import os
import pty
import random
import select
import struct
import subprocess
import time
import unittest
import xml.etree.ElementTree as Xml
import zlib

from unittest import mock

from query.tests import world
from query.tests.world import MMQUERY, SMALL, World, asked, invented
from query.texts.uncommented import declared_at, without_comments

OPEN = SMALL.replace("wp wq wp wi h wp wq ax-1 ax-mp $.", "? $.")
DOT = """digraph "small.mm" {
  "wi" [shape=box];
  "wi2" -> "wi";
  "ax-1" [shape=box];
  "ax1" -> "ax-1";
  "a1i" -> "ax-1";
  "ax-mp" [shape=box];
  "a1i" -> "ax-mp";
  "a2" -> "a1i";
}"""


class Answers(World):
    """The small database of the pages."""

    def setUp(self) -> None:
        super().setUp()
        self.write("small.mm", SMALL)
        self.write("open.mm", OPEN)

    def test_verify(self) -> None:
        self.assertEqual(
            self.answers("verify", "small.mm"), ["small.mm: valid, 3 axioms and 4 theorems"]
        )
        self.write("one.mm", "$c a $. b $a a $. t $p a $= b $.\n")
        self.assertEqual(self.answers("verify", "one.mm"), ["one.mm: valid, 1 axiom and 1 theorem"])
        (row,) = self.query("verify", "small.mm", "--format=json").rows()
        self.assertEqual((row["valid"], row["axioms"], row["theorems"]), (True, 3, 4))
        self.assertIsNone(row["code"])
        self.write("broken.mm", SMALL.replace("wi wi $.", "wi $."))
        done = self.query("verify", "broken.mm", "--format=json")
        (row,) = done.rows()
        self.assertEqual(done.status, 1)
        found = [row[name] for name in ("valid", "line", "column", "code", "statement")]
        self.assertEqual(found, [False, 8, 47, "E37", "wi2"])

    def test_verify_each(self) -> None:
        text = SMALL + "bad1 $p |- p $= wp\n wq $.\nbad2 $p wff p $= wp last $.\n"
        text += "good $p wff p $= wp $.\nbad3 $p |- p $= bad1 none $.\nlast $p wff p $= wp $.\n"
        self.write("bad.mm", text)
        done = self.query("verify", "bad.mm", "--each", "--format=json")
        first = SMALL.count("\n") + 1
        wanted = [
            [first + 1, "E37", "bad1", None, None],
            [first + 2, "E33", "bad2", "last", first + 5],
            [first + 4, "E33", "bad3", "none", None],
        ]
        keys = ("line", "code", "statement", "word", "declared")
        self.assertEqual([[row[key] for key in keys] for row in done.rows()], wanted)
        self.assertEqual((done.status, done.err), (1, ""))
        whole = self.query("verify", "bad.mm", "--each").out
        self.assertIn(f"the word          last, which is declared on line {first + 5}\n", whole)
        self.assertIn("the word          none, which is declared nowhere\n", whole)
        self.assertTrue(whole.startswith(self.query("verify", "bad.mm").out))
        done = self.query("verify", "bad.mm", "--each", "--most=2", "--format=json")
        self.assertEqual(len(done.rows()), 2)
        self.assertIn("there may be more faults than these 2", done.err)
        self.write("early.mm", SMALL + "x $a nothing $.\n" + text)
        (row,) = self.query("verify", "early.mm", "--each", "--format=json").rows()
        self.assertEqual(row["code"], "E17")
        self.write("late.mm", text.replace("good $p", "$( x $) x $a nothing $. good $p"))
        done = self.query("verify", "late.mm", "--each", "--format=json")
        found = [(row["code"], row["statement"]) for row in done.rows()]
        self.assertEqual(found, [("E37", "bad1"), ("E33", "bad2"), ("E17", "x")])
        self.assertEqual((done.status, done.err), (1, ""))
        self.write("late.mm", text + "$( never closed")
        done = self.query("verify", "late.mm", "--each", "--format=json")
        self.assertEqual([row["code"] for row in done.rows()], ["E37", "E33", "E33", "E03"])
        self.assertEqual(self.query("verify", "--each", "small.mm").status, 0)

    def test_the_text_is_searched_once(self) -> None:
        """However many proofs have a word that can't be cited, comments are passed over once."""
        bad = "".join(f"bad{number} $p wff p $= no{number % 3} $.\n" for number in range(9))
        path = str(self.folder / self.write("bad.mm", SMALL + bad))
        with (
            mock.patch.dict(os.environ, {"MMDEPEND": world.built_program()}),
            mock.patch("query.proofs.hints.without_comments", wraps=without_comments) as passed,
            mock.patch("query.proofs.hints.declared_at", wraps=declared_at) as searched,
        ):
            rows = asked("verify", path, "--each")
        self.assertEqual([row[5] for row in rows], ["E33"] * 9)
        self.assertEqual((passed.call_count, searched.call_count), (1, 3))

    def test_verify_tells_both_formulas(self) -> None:
        for old, new, proved, wanted in (
            ("wi2 $p wff ( p", "wi2 $p wff ( q", "( p -> ( q -> p ) )", "( q -> ( q -> p ) )"),
            ("a2 $p |- ( q", "a2 $p |- ( p", "( q -> ( q -> p ) )", "( p -> ( q -> p ) )"),
            (
                "a2 $p |- ( q",
                "a2 $p |- p -> ( q",
                "( q -> ( q -> p ) )",
                "p -> ( q -> ( q -> p ) )",
            ),
        ):
            self.write("wrong.mm", SMALL.replace(old, new))
            done = self.query("verify", "wrong.mm")
            self.assertEqual((done.status, done.err), (1, ""))
            self.assertIn("refused E38", done.out)
            shown = [line.split("  ")[-1].split(" ", 1)[1] for line in done.lines()[2:4]]
            self.assertEqual(shown, [proved, wanted])

    def test_verify_tells_both_formulas_of_a_compressed_proof(self) -> None:
        for proof, wanted in (
            ("( wi ax-1 ax-mp ) ABADCABEF", "( q -> p )"),
            ("( wi ax-1 ax-mp ) ABADZCABEF", "( q -> p )"),
            ("( wi ax-1 ax-mp ) ABAZDZCABEF", "( q -> p )"),
            ("( ax-1 ) ABD", "( p -> ( q -> p ) )"),
        ):
            text = SMALL.replace("wp wq wp wi h wp wq ax-1 ax-mp $.", f"{proof} $.")
            text = text.replace("a1i $p |- ( q -> p )", "a1i $p |- ( p -> q )")
            self.write("wrong.mm", text)
            done = self.query("verify", "wrong.mm")
            self.assertIn("refused E38 in 'a1i'", done.out)
            self.assertEqual(done.lines()[2].split("|- ")[1], wanted)

    def test_open_theorems(self) -> None:
        self.refuses("rests", "open.mm", "a2", why="open.mm:10:41: refused E32 in 'a1i'")
        self.assertEqual(self.answers("rests", "--open", "open.mm", "a2"), ["a1i"])
        self.assertEqual(self.answers("rests", "--open", "--all", "open.mm", "a2"), ["wi", "a1i"])
        self.assertEqual(self.answers("falls", "--open", "open.mm", "a1i"), ["a2"])
        self.assertEqual(self.answers("why", "--open", "open.mm", "a2", "a1i"), ["a2", "a1i"])
        rows = self.answers("top", "--open", "open.mm", "--below", "1", "--format=tsv")
        self.assertEqual(rows[1:], ["0\tax-mp"])

    def test_apart(self) -> None:
        rows = self.answers("rests", "--apart", "small.mm", "a1i", "--format=tsv")
        wanted = ["syntax\twi\ta1i", "logic\tax-1\ta1i", "logic\tax-mp\ta1i"]
        self.assertEqual(rows, ["kind\taxiom\tlabels", *wanted])
        rows = self.answers("rests", "--apart", "--only=wff", "small.mm", "a1i", "--format=tsv")
        self.assertEqual(rows[1:], ["logic\twi\ta1i", "syntax\tax-1\ta1i", "syntax\tax-mp\ta1i"])

    def test_what_is_cited_most(self) -> None:
        for seed in range(4):
            database = invented(random.Random(seed), 9)
            self.write("db.mm", database.text)
            some = [*database.axioms, *database.theorems()]
            cited = [each for cites in database.cites.values() for each in cites]
            some.sort(key=lambda label: database.text.index(f"{label} $"))
            some.sort(key=lambda label: -cited.count(label))
            rows = self.query("top", "db.mm", "3", "--cited", "--format=json").rows()
            self.assertEqual(
                [(row["theorems"], row["assertion"]) for row in rows],
                [(cited.count(label), label) for label in some[:3]],
            )
        self.write("report", self.report("db.mm"))
        self.refuses("top", "report", "--cited", why="the report has no section 'citations'")
        self.refuses("top", "db.mm", "--cited", "--theorems", why="not allowed with argument")

    def test_what_changed_in_numbers(self) -> None:
        new = SMALL.replace("wi2 $p", "${ n $e |- p $. ax-n $a |- ( q -> p ) $. $}\nwi2 $p")
        self.write("new.mm", new.replace("wp wq wp wi h wp wq ax-1 ax-mp $.", "wp wq h ax-n $."))
        rows = self.query("top", "new.mm", "--against", "small.mm", "--format=json").rows()
        wanted: list[tuple[int | None, int | None, str]]
        wanted = [(3, 1, "ax-1"), (2, 0, "ax-mp"), (None, 2, "ax-n")]
        self.assertEqual([(row["was"], row["theorems"], row["axiom"]) for row in rows], wanted)
        rows = self.query("top", "small.mm", "--against", "new.mm", "--format=json").rows()
        wanted = [(1, 3, "ax-1"), (0, 2, "ax-mp"), (2, None, "ax-n")]
        self.assertEqual([(row["was"], row["theorems"], row["axiom"]) for row in rows], wanted)
        self.assertEqual(self.answers("top", "small.mm", "--against", "small.mm"), [])
        self.write("report", self.report("small.mm"))
        self.refuses("top", "small.mm", "--against", "report", why="a report beside a database")

    def test_graphs(self) -> None:
        lines = self.answers("graph", "small.mm", "--essential")
        self.assertEqual("\n".join(lines), DOT)
        lines = self.answers("graph", "small.mm", "a2", "ax-1")
        self.assertEqual(
            lines[1:-1], ['  "a2" -> "a1i";', '  "ax-1" [shape=box];', '  "a1i" -> "ax-1";']
        )
        self.assertEqual(
            self.answers("graph", "small.mm", "ax1", "wi"), ['digraph "ax1" {', '  "ax1";', "}"]
        )
        self.write('"]; x', SMALL)
        self.assertEqual(self.answers("graph", '"]; x')[0], 'digraph "_]; x" {')

    def test_graphml(self) -> None:
        space = "{http://graphml.graphdrawing.org/xmlns}"
        tree = Xml.fromstring("\n".join(self.answers("graph", "small.mm", "--as", "graphml")))
        kinds = {node.get("id"): node[0].text for node in tree.iter(f"{space}node")}
        theorems = dict.fromkeys(["wi2", "ax1", "a1i", "a2"], "theorem")
        self.assertEqual(kinds, {**theorems, **dict.fromkeys(["wi", "ax-1", "ax-mp"], "axiom")})
        edges = {(edge.get("source"), edge.get("target")) for edge in tree.iter(f"{space}edge")}
        wanted = [line.split(" ") for line in self.answers("graph", "small.mm", "--as", "edges")]
        self.assertEqual(edges, {(one, other) for one, other in wanted})

    def test_picture(self) -> None:
        done = self.query("picture", "--all", "small.mm")
        head, rows = done.out.split("\n", 2)[:2], done.out.split("\n", 2)[2]
        self.assertEqual(head, ["P4", "3 4"])
        self.assertEqual([f"{ord(row):08b}"[:3] for row in rows], ["100", "010", "111", "111"])
        done = self.query("picture", "--all", "small.mm", "--across", "2", "--down=2")
        self.assertEqual(done.out, "P4\n2 2\n\x80\xc0")
        self.refuses("picture", "small.mm", "--across", "0", why="'0' is no number")

    def test_png(self) -> None:
        headed = "$(\n#*#*#*#\n  A <title>\n#*#*#*#\n$)\n" + SMALL
        self.write("headed.mm", headed)
        for name in ("small.mm", "headed.mm"):
            data = self.query("picture", "--png", name).out.encode("latin-1")
            self.assertEqual(data[:8], b"\x89PNG\r\n\x1a\n")
            width, height = struct.unpack(">II", data[16:24])
            place = data.index(b"IDAT")
            (size,) = struct.unpack(">I", data[place - 4 : place])
            lines = zlib.decompress(data[place + 4 : place + 4 + size])
            self.assertEqual(len(lines), height * (width + 1))
            self.assertIn(0, lines[1 : width * 40])

    def test_a_line_on_a_terminal(self) -> None:
        """On a terminal standard error has a line while it takes longer than a second."""
        script = '#!/bin/sh\n[ "$1" != --version ] || exit 0\nsleep 2\nexit 3\n'
        (self.folder / "slow").write_text(script)
        (self.folder / "slow").chmod(0o755)
        for program, is_shown in ((str(self.folder / "slow"), True), (None, False)):
            leader, follower = pty.openpty()
            surroundings = self.surroundings(**({"MMDEPEND": program} if program else {}))
            process = subprocess.Popen(
                [str(MMQUERY), "uncited", "small.mm", "--no-cache"],
                cwd=self.folder,
                env=surroundings,
                stdout=subprocess.DEVNULL,
                stderr=follower,
            )
            process.wait()
            os.close(follower)
            shown = read_all(leader)
            if is_shown:
                self.assertIn("mmquery: verifying small.mm ..", shown)
                self.assertTrue(
                    shown.endswith(
                        "\r\x1b[Kmmquery: small.mm: the program ended with status 3\r\n"
                    ),
                    repr(shown),
                )
            elif "verifying" not in shown:
                self.assertEqual(shown, "")


def read_all(descriptor: int) -> str:
    """What was written to a terminal that nobody else has open any more."""
    parts = []
    end = time.monotonic() + 5
    while time.monotonic() < end and select.select([descriptor], [], [], 0.2)[0]:
        try:
            parts.append(os.read(descriptor, 4096))
        except OSError:
            break
    os.close(descriptor)
    return b"".join(parts).decode()


if __name__ == "__main__":
    unittest.main()
