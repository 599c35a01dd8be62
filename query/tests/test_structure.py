"""What `chapters`, `order`, `unfinished`, `discouraged`, `mathboxes` and `set-proof` answer."""

import random
import re
import shutil
import subprocess
import unittest

from query.commands.structure import OF_PROOFS
from query.tests.world import DATABASES, SMALL, World, built_program, database_text, invented
from query.texts.assertions import Assertion

PARTS = """$c wff |- ( -> ) $.
$v p q $. wp $f wff p $. wq $f wff q $. wi $a wff ( p -> q ) $.
$(
#*#*#*
  First
#*#*#*
$)
ax-1 $a |- ( p -> ( q -> p ) ) $.
one $p |- ( p -> ( q -> p ) ) $= wp wq ax-1 $.
$(
=-=-=-
  Deeper | <b>
=-=-=-
$)
two $p |- ( p -> ( p -> p ) ) $= wp wp one $.
$(
#*#*#*
  Mathbox for Ann Other
#*#*#*
$)
ax-2 $a |- p $.
three $p |- p $= wp ax-2 $.
$(
#*#*#*
  Mathbox for Bo
#*#*#*
$)
$( (New usage is discouraged.) $)
four $p |- p $= wp three $.
$( (Proof modification is
   discouraged.) (New usage is discouraged.) $)
five $p |- p $= ( four ) AB $.
todo $p |- p $= ? $.
six $p |- ( p -> q ) $= wp wq wi todo $.
"""


class Structure(World):
    """Over a database with headers, mathboxes and an open theorem."""

    def setUp(self) -> None:
        super().setUp()
        self.write("db.mm", PARTS)

    def rows(self, *words: str) -> list[list[str]]:
        """The rows of an answer, without the names."""
        lines = self.answers(words[0], "--open", "--format", "tsv", *words[1:])
        return [line.split("\t") for line in lines[1:]]

    def test_chapters(self) -> None:
        names = self.answers("chapters", "--open", "--format", "tsv", "db.mm", "ax-2", "ax-1")[0]
        self.assertEqual(
            names.split("\t"), ["number", "theorems", "axiom", "rest", "first", "title", "share"]
        )
        rows = self.rows("chapters", "db.mm", "ax-2", "ax-1")
        self.assertEqual(
            rows[::2],
            [
                ["0", "6", "ax-2", "3", "three", "(the whole database)", "50.0"],
                ["0.1", "2", "ax-2", "0", "", "First", "0.0"],
                ["0.1.1", "1", "ax-2", "0", "", "Deeper | <b>", "0.0"],
                ["0.2", "1", "ax-2", "1", "three", "Mathbox for Ann Other", "100.0"],
                ["0.3", "3", "ax-2", "2", "four", "Mathbox for Bo", "66.7"],
            ],
        )
        self.assertEqual(
            [[row[0], *row[2:5]] for row in rows[1::2]],
            [
                ["0", "ax-1", "2", "one"],
                ["0.1", "ax-1", "2", "one"],
                ["0.1.1", "ax-1", "1", "two"],
                ["0.2", "ax-1", "0", ""],
                ["0.3", "ax-1", "0", ""],
            ],
        )
        rows = self.rows("chapters", "db.mm")
        self.assertEqual(rows[0], ["0", "6", "", "", "", "(the whole database)", ""])
        text = self.answers("chapters", "--open", "db.mm")
        self.assertEqual(text[0].split(), ["number", "theorems", "title"])
        left = self.rows("chapters", "db.mm", "ax-2", "ax-1", "--no-empty")
        rows = self.rows("chapters", "db.mm", "ax-2", "ax-1")
        self.assertEqual(left, [row for row in rows if row[3] != "0"])
        self.assertEqual(len(left), 6)
        self.refuses(
            "chapters", "--open", "db.mm", "one", why="has no axiom of typecode '|-' 'one'"
        )
        self.refuses("chapters", "db.mm", why="E32")

    def test_chapters_by_one_of_several_axioms(self) -> None:
        both = self.rows("chapters", "db.mm", "ax-2", "ax-1", "--any")
        self.assertEqual(
            [[row[0], *row[2:5]] for row in both],
            [
                ["0", "ax-2 ax-1", "5", "one"],
                ["0.1", "ax-2 ax-1", "2", "one"],
                ["0.1.1", "ax-2 ax-1", "1", "two"],
                ["0.2", "ax-2 ax-1", "1", "three"],
                ["0.3", "ax-2 ax-1", "2", "four"],
            ],
        )
        self.refuses("chapters", "--open", "db.mm", "--any", why="--any wants an AXIOM")

    def test_levels_shares_and_order(self) -> None:
        """Against the rows of all headers, put in order here."""
        rows = self.rows("chapters", "db.mm", "ax-2", "ax-1")
        for level, dots in (("part", 0), ("chapter", 1), ("section", 2)):
            wanted = [row for row in rows[2:] if row[0].count(".") == dots]
            level_words = ("chapters", "db.mm", "ax-2", "ax-1", "--level", level)
            self.assertEqual(self.rows(*level_words), wanted, level)
            shares = {id(row): int(row[3]) / (int(row[1]) or 1) for row in wanted}
            for by, ranked in (
                ("rest", sorted(wanted, key=lambda row: (-int(row[3]), -shares[id(row)]))),
                ("share", sorted(wanted, key=lambda row: (-shares[id(row)], -int(row[3])))),
            ):
                self.assertEqual(self.rows(*level_words, "--by", by), ranked)
                done = self.query(*level_words, "--by", by, "--most=1", "--open", "--format=tsv")
                self.assertEqual(done.lines()[1:], ["\t".join(row) for row in ranked[:1]])
                more = f"mmquery: db.mm: 1 of {len(ranked)} rows; --most N shows more\n"
                self.assertEqual(done.err, more if len(ranked) > 1 else done.err)
        for words, why in (
            (("--by", "share"), "--by wants an AXIOM"),
            (("--level", "part", "--between", "part"), "not allowed with argument --level"),
        ):
            self.refuses("chapters", "--open", "db.mm", *words, why=why)
        done = self.query("chapters", "db.mm", "--open", "--level=subsection")
        self.assertEqual(done.err, "mmquery: db.mm: has no header of the level 'subsection'\n")

    def test_between(self) -> None:
        self.assertEqual(
            self.rows("chapters", "db.mm", "--between", "chapter"),
            [["0.3", "0.2", "1", "four", "Mathbox for Bo", "Mathbox for Ann Other"]],
        )
        self.assertEqual(self.rows("chapters", "db.mm", "--between", "section"), [])
        two = PARTS.replace("=-=-=-", "#*#*#*")
        self.write("two.mm", two)
        rows = self.rows("chapters", "two.mm", "--between", "chapter")
        self.assertEqual(
            [row[:4] for row in rows], [["0.2", "0.1", "1", "two"], ["0.4", "0.3", "1", "four"]]
        )
        for header in ("0.1", "first", "0.2"):
            self.assertEqual(
                self.rows("chapters", "two.mm", "--between", "chapter", "--of", header), rows[:1]
            )
        for words, why in (
            (
                ("--between", "chapter", "ax-1"),
                "--between is about citations, so it takes no AXIOM",
            ),
            (("--of", "0.1"), "--of wants --between LEVEL"),
            (("--between", "chapter", "--of", "0.1.1"), "the header 0.1.1 is a section"),
            (("--between", "chapter", "--of", "0.9"), "has no header '0.9'"),
            (("--between", "volume"), "invalid choice: 'volume'"),
        ):
            self.refuses("chapters", "--open", "db.mm", *words, why=why)

    def test_between_by_chance(self) -> None:
        """Beside the headers of lines, in databases in which each assertion is a line."""
        found = 0
        for seed in range(5):
            chance = random.Random(seed)
            database = invented(chance, 12)
            lines, header, of = [], "", {}
            for number, line in enumerate(database.text.splitlines()):
                if chance.random() < 0.25:
                    header = f"H{number}"
                    lines.append(f"$(\n#*#*#*\n{header}\n#*#*#*\n$)")
                if chance.random() < 0.1:
                    header = ""
                    lines.append("$(\n####\nPart\n####\n$)")
                lines.append(line)
                own = re.findall(r"(\S+) \$[ap]", line)
                of.update(dict.fromkeys(own, header))
            self.write("chance.mm", "\n".join(lines) + "\n")
            wanted: dict[tuple[str, str], list[str]] = {}
            for theorem, cited in database.cites.items():
                for other in {of[each] for each in cited} - {"", of[theorem]}:
                    if of[theorem]:
                        wanted.setdefault((of[theorem], other), []).append(theorem)
            rows = self.rows("chapters", "chance.mm", "--between", "chapter")
            self.assertEqual(
                sorted((row[4], row[5], row[2], row[3]) for row in rows),
                sorted((*both, str(len(each)), each[0]) for both, each in wanted.items()),
            )
            found += len(rows)
        self.assertGreater(found, 10)

    def test_order(self) -> None:
        self.assertEqual(
            self.rows("order", "db.mm"),
            [
                ["2", "axiom", "wff", "", "wi", ""],
                ["8", "axiom", "|-", "2", "ax-1", "0.1"],
                ["9", "theorem", "|-", "1", "one", "0.1"],
                ["15", "theorem", "|-", "1", "two", "0.1.1"],
                ["21", "axiom", "|-", "3", "ax-2", "0.2"],
                ["22", "theorem", "|-", "1", "three", "0.2"],
                ["29", "theorem", "|-", "1", "four", "0.3"],
                ["32", "theorem", "|-", "1", "five", "0.3"],
                ["33", "open", "|-", "1", "todo", "0.3"],
                ["34", "theorem", "|-", "1", "six", "0.3"],
            ],
        )

    def test_order_of_theorems(self) -> None:
        """The axioms are left out, and where nothing is left it is said."""
        every = self.rows("order", "db.mm")
        theorems = [row for row in every if row[1] != "axiom"]
        self.assertLess(len(theorems), len(every))
        self.assertEqual(self.rows("order", "db.mm", "--theorems"), theorems)
        self.write("axioms.mm", "$c |- x $.\nax $a |- x $.\n")
        done = self.query("order", "axioms.mm", "--theorems")
        said = "mmquery: axioms.mm: has no theorem\n"
        self.assertEqual((done.status, done.out, done.err), (0, "", said))
        self.assertEqual(self.query("order", "axioms.mm").err, "")

    def test_order_by_chance(self) -> None:
        for seed in range(5):
            database = invented(random.Random(seed))
            self.write("chance.mm", database.text)
            rows = self.rows("order", "chance.mm")
            counts = {row[4]: row[3] for row in rows}
            for label in database.cites:
                rests = database.rests(label).intersection(database.axioms)
                self.assertEqual(counts[label], str(len(rests)))
            for label in database.axioms:
                self.assertEqual(counts[label], str(len(database.users(label))))

    def test_columns_of_axioms(self) -> None:
        """Beside all that rests on each axiom, by trying everything."""
        for seed in range(5):
            chance = random.Random(seed)
            names = ["-n", "--help", "1.0", "nan", "end"] if seed % 2 else None
            database = invented(chance, 9, names)
            self.write("chance.mm", database.text)
            axioms = chance.sample(database.axioms, min(3, len(database.axioms)))
            plain = self.query("order", "chance.mm", "--format=json").rows()
            for options in (
                [f"--columns={','.join(axioms)}"],
                [f"--columns={each}" for each in (*axioms, axioms[0])],
            ):
                rows = self.query("order", "chance.mm", *options, "--format=json").rows()
                self.assertEqual([*rows[0]][6:], axioms)
                self.assertEqual([dict([*row.items()][:6]) for row in rows], plain)
                for row in rows:
                    label = str(row["label"])
                    rests = database.rests(label)
                    is_theorem = label in database.cites
                    marks = [each in rests if is_theorem else None for each in axioms]
                    self.assertEqual([row[each] for each in axioms], marks, label)

    def test_columns_of_proofs(self) -> None:
        """They have what `proofs` says, behind those of axioms."""
        text = SMALL.replace("ax1 $p", "$( (Contributed by A B, 5-Aug-1993.) $) ax1 $p")
        self.write("some.mm", text.replace("wi $a", "$( (Contributed by C, 1-Jan-2000.) $) wi $a"))
        words = ("order", "some.mm", "--all", "--columns=ax-1", "--proofs", "--format=json")
        rows = {str(row["label"]): [*row.items()] for row in self.query(*words).rows()}
        self.assertEqual([name for name, _ in rows["wi"][6:]], ["ax-1", *OF_PROOFS])
        self.assertEqual(
            [said for _, said in rows["wi"][7:]], [None, None, None, "C", "2000-01-01"]
        )
        self.assertEqual([said for _, said in rows["ax-1"][7:]], [None] * 5)
        proofs = self.query("proofs", "some.mm", "--most=99", "--format=json").rows()
        self.assertEqual(len(proofs), 4)
        for row in proofs:
            found = dict(rows[str(row["theorem"])])
            self.assertEqual([found[name] for name in OF_PROOFS], [row[name] for name in OF_PROOFS])
        self.write("named.mm", text.replace("ax-1", "depth"))
        self.refuses("order", "named.mm", "--columns=depth", why="the name of another column")

    def test_columns_as_csv(self) -> None:
        words = ("order", "--open", "db.mm", "--columns=ax-2,todo", "--format=csv", "--like=t*,a*")
        self.assertEqual(
            self.answers(*words),
            [
                "line,kind,typecode,count,label,header,ax-2,todo",
                "8,axiom,|-,2,ax-1,0.1,,",
                "15,theorem,|-,1,two,0.1.1,false,false",
                "21,axiom,|-,3,ax-2,0.2,,",
                "22,theorem,|-,1,three,0.2,true,false",
                "33,open,|-,1,todo,0.3,,",
            ],
        )
        for word, why in (
            ("ax-22", "has no axiom of typecode '|-' 'ax-22'; did you mean ax-2?"),
            ("one", "'one'; it is a theorem"),
            ("wi", "'wi'; it is one of another typecode, and --all takes every axiom"),
            ("ax-1,todoo", "'todoo'; did you mean todo?"),
            ("\x1b[31m", "'\\x1b[31m'"),
            ("", "--columns wants an AXIOM"),
            (",", "--columns wants an AXIOM"),
        ):
            self.refuses("order", "--open", "db.mm", f"--columns={word}", why=why)
        self.assertIn("wi", self.answers("order", "--open", "--all", "db.mm", "--columns=wi")[0])
        for name in ("label", "line", "header"):
            self.write("named.mm", PARTS.replace("ax-2", name))
            why = f"named.mm: the axiom {name} has the name of another column"
            self.refuses("order", "--open", "named.mm", f"--columns={name}", why=why)

    def test_unfinished(self) -> None:
        self.assertEqual(self.rows("unfinished", "db.mm"), [["1", "todo"]])
        self.assertEqual(self.rows("unfinished", "db.mm", "todo"), [["", "six"]])
        self.assertEqual(self.answers("unfinished", "--open", "db.mm", "todo"), ["six"])
        self.refuses("unfinished", "db.mm", "five", why="has no open theorem 'five'")
        self.write("small.mm", SMALL)
        self.assertEqual(self.answers("unfinished", "small.mm"), [])
        self.write("report", self.report("small.mm", "--report", "usage"))
        self.refuses("unfinished", "report", why="a report, where the database is wanted")

    def test_discouraged(self) -> None:
        self.assertEqual(
            self.answers("discouraged", "--open", "db.mm"),
            [
                '"four" is used by "five".',
                'New usage of "five" is discouraged (0 uses).',
                'New usage of "four" is discouraged (1 uses).',
                'Proof modification of "five" is discouraged (2 steps).',
            ],
        )
        self.assertEqual(
            self.rows("discouraged", "db.mm"),
            [
                ["use", "four", "five", "", "0.3", "0.3"],
                ["usage", "four", "", "1", "0.3", ""],
                ["usage", "five", "", "0", "0.3", ""],
                ["proof", "five", "", "2", "0.3", ""],
            ],
        )

    def test_discouraged_outside(self) -> None:
        """Uses of what is discouraged from outside of its header, against the numbers of both
        headers, cut at a level."""
        chance = random.Random(3)
        kinds = set()
        for _ in range(6):
            lines: list[str] = []
            for line in invented(chance, 9).text.splitlines():
                if " $p " in line or " $a |-" in line:
                    if chance.random() < 0.5:
                        sign = chance.choice(("####", "#*#*", "=-=-", "-.-."))
                        lines.append(f"$(\n{sign * 4}\n  T\n{sign * 4}\n$)")
                    if chance.random() < 0.6:
                        before, _, behind = line.rpartition(" $p " if " $p " in line else " $a ")
                        label = before.split()[-1]
                        sign = "$p" if " $p " in line else "$a"
                        comment = "$( (New usage is discouraged.) $)"
                        line = f"{before.removesuffix(label)}{comment} {label} {sign} {behind}"
                lines.append(line)
            self.write("db.mm", "\n".join(lines) + "\n")
            uses = [row for row in self.rows("discouraged", "db.mm") if row[0] == "use"]
            places = [*map(str.split, self.answers("order", "db.mm", "--format=tsv", "--all")[1:])]
            numbers = {row[4]: row[5] if len(row) > 5 else "" for row in places}
            padded = {label: f"{each or 0}.0.0.0".split(".") for label, each in numbers.items()}
            for count, level in enumerate(("part", "chapter", "section", "subsection"), 1):
                outside = [row for row in uses if padded[row[1]][:count] != padded[row[2]][:count]]
                self.assertEqual(self.rows("discouraged", "db.mm", "--outside", level), outside)
                kinds.add((level, len(outside) in (0, len(uses))))
            for row in uses:
                self.assertEqual(row[4:], [numbers[row[1]], numbers[row[2]]])
        self.assertGreater(len(kinds), 4)

    def test_mathboxes(self) -> None:
        self.assertEqual(self.rows("mathboxes", "db.mm"), [["four", "Bo", "three", "Ann Other"]])
        self.write("small.mm", SMALL)
        self.assertEqual(self.answers("mathboxes", "small.mm"), [])

    def test_citations_of_one_mathbox(self) -> None:
        """Against all citations, of which those of the name are taken here."""
        text = PARTS + "seven $p |- p $= wp three $. $(\n#*#*#*\nMathbox for Cy\n#*#*#*\n$)\n"
        self.write("boxes.mm", text + "eight $p |- p $= wp four $. nine $p |- p $= wp three $.\n")
        rows = self.rows("mathboxes", "boxes.mm")
        self.assertEqual(len(rows), 4)
        for name, count in (("Ann Other", 3), ("Bo", 1), ("Cy", 0)):
            wanted = [row for row in rows if row[3] == name]
            self.assertEqual(self.rows("mathboxes", "boxes.mm", "--of", name), wanted)
            self.assertEqual(len(wanted), count)
        both = self.rows("mathboxes", "boxes.mm", "--of", "Ann Other", "--mathbox", "Bo")
        self.assertEqual([row[0] for row in both], ["four", "seven"])
        done = self.query("mathboxes", "--open", "boxes.mm", "--of=Cy")
        why = "boxes.mm: nothing cites a statement of the mathbox of Cy from outside it"
        self.assertEqual((done.status, done.out, done.err), (0, "", f"mmquery: {why}\n"))
        for words, why in (
            (("--of", "bo"), "has no mathbox for 'bo'; did you mean Bo?"),
            (("--of", ""), "has no mathbox for ''"),
            (("--of", "Bo", "--ready"), "not allowed with argument"),
        ):
            self.refuses("mathboxes", "--open", "boxes.mm", *words, why=why)

    def test_what_is_ready(self) -> None:
        """A symbol that a mathbox declares keeps a theorem there, whatever its proof cites."""
        added = "six2 $p |- ( q -> ( p -> q ) ) $= wq wp one $.\n"
        added += "$c # $. whash $a wff # p $. ${ h $e |- # p $. seven $p |- # p $= h $. $}\n"
        added += "${ g $e |- p $. eight $p |- p $= g $. $}\n"
        self.write("ready.mm", PARTS + added)
        self.assertEqual(
            self.rows("mathboxes", "ready.mm", "--ready"),
            [["six2", "Bo", "0", "one", "0.1"], ["eight", "Bo", "0", "", ""]],
        )
        self.assertEqual(
            self.rows("mathboxes", "ready.mm", "--ready", "--mathbox", "Ann Other"), []
        )
        self.write("small.mm", SMALL)
        self.assertEqual(self.answers("mathboxes", "small.mm", "--ready"), [])

    def test_what_is_ready_by_chance(self) -> None:
        """What is ready is what is valid behind the main part."""
        ready = 0
        for seed in range(5):
            chance = random.Random(seed)
            database = invented(chance, 12)
            lines = database.text.splitlines()
            place = chance.randint(7, 11)
            header = "$(\n#*#*#*\nMathbox for A\n#*#*#*\n$)"
            self.write("chance.mm", "\n".join([*lines[:place], header, *lines[place:]]) + "\n")
            rows = self.rows("mathboxes", "chance.mm", "--ready")
            boxed = [line for line in lines[place:] if " $p " in line]
            wanted = []
            for line in boxed:
                self.write("main.mm", "\n".join([*lines[:place], line]) + "\n")
                if self.ran(built_program(), "--report=counts", "main.mm").status == 0:
                    wanted.append(line.split(" $p ")[0].split()[-1])
            self.assertEqual([row[0] for row in rows], wanted)
            for label, _, count, after, _ in rows:
                users = [each for each, cited in database.cites.items() if label in cited]
                self.assertEqual(count, str(len(users)))
                cited = database.cites[label]
                self.assertEqual(after, cited[-1] if cited else "")
            ready += len(wanted)
            self.assertLess(len(wanted), len(boxed))
        self.assertGreater(ready, 4)

    def test_set_proof(self) -> None:
        self.write("small.mm", SMALL)
        out = self.query("set-proof", "small.mm", "ax1", "?").out
        self.assertEqual(out, SMALL.replace("$= wp wq ax-1 $.", "$= ? $."))
        self.write("open.mm", out)
        self.assertEqual(
            self.answers("unfinished", "open.mm"), ["theorems  theorem", "       0  ax1"]
        )
        wrong = self.query("set-proof", "small.mm", "a2", "wi2").out
        proof = "wp wq wp wi wi"
        self.assertEqual(wrong.count(f"$= {proof} $."), 2)
        self.write("wrong.mm", wrong)
        self.assertEqual(self.query("verify", "wrong.mm").status, 1)
        right = self.query("set-proof", "wrong.mm", "a2", "ax1").out
        self.assertIn("( q -> ( q -> p ) ) $= wp wq ax-1 $.", right)
        self.refuses("set-proof", "small.mm", "ax-1", "?", why="has no theorem 'ax-1'")
        self.refuses("set-proof", "small.mm", "ax1", "none", why="has no theorem 'none'")
        self.write("bad.mm", SMALL + "$c wff $.")
        self.refuses("set-proof", "bad.mm", "ax1", "?", why="bad.mm:12:4: refused E13")


def is_over(assertion: Assertion, known: set[str]) -> bool:
    """Whether an assertion has only these variables, no `$e`, and no two that must be distinct."""
    frame = assertion.frame()
    hypotheses = frame.hypotheses()
    is_plain = not frame.disjoint and {each.kind for each in hypotheses} <= {"f"}
    return is_plain and known >= {each.formula.split()[1] for each in hypotheses}


@unittest.skipUnless(
    shutil.which("metamath") and (DATABASES / "iset.mm").exists(), "no metamath.exe or no iset.mm"
)
class BesideMetamath(World):
    """What metamath.exe says of iset.mm."""

    def metamath(self, name: str, *commands: str) -> str:
        """What it prints of a database."""
        words = [f"read '{name}'", "set width 9999", *commands, "exit"]
        done = subprocess.run(
            ["metamath", *words], capture_output=True, check=True, cwd=self.folder
        )
        return done.stdout.decode("latin-1")

    def test_discouraged(self) -> None:
        told = self.metamath(str(DATABASES / "iset.mm"), "show discouraged")
        lines = re.findall(r"^SHOW DISCOURAGED:  (.*)$", told, re.MULTILINE)
        self.assertGreater(len(lines), 400)
        self.assertEqual(self.answers("discouraged", str(DATABASES / "iset.mm")), sorted(lines))

    def test_mathboxes(self) -> None:
        data = (DATABASES / "iset.mm").read_bytes()
        text = database_text(data)
        known = {"ph", "ps", "ch", "A", "B", "x", "y"}  # with a `$f` outside of all blocks
        fit = [one for one, _, _ in text.boxed() if is_over(one, known)]
        chosen = random.Random(1).sample(fit, 3)
        line = "#*" * 39 + "#"
        added = f"\n$(\n{line}\n        Mathbox for Zed Tester\n{line}\n$)\n"
        for one in chosen:
            steps = [each.label for each in one.frame().hypotheses()]
            added += f"zz{one.label} $p {one.formula} $= {' '.join([*steps, one.label])} $.\n"
        self.write("iset.mm", data + added.encode())
        told = self.metamath("iset.mm", "verify markup * / date_skip / file_skip")
        box = "in the mathbox for (.*)"
        warning = rf'The proof of "(.*)" {box} references "(.*)" {box}\.'
        wanted = set(re.findall(warning, told))
        self.assertEqual({user for user, *_ in wanted}, {f"zz{one.label}" for one in chosen})
        rows = self.answers("mathboxes", "--format", "tsv", "iset.mm")[1:]
        self.assertEqual({tuple(row.split("\t")) for row in rows}, wanted)
