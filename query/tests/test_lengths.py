"""`proofs`, against metamath.exe and all chains of citations; `sets`, against trying everything;
and what nobody cites and may be cited."""

import random
import re
import shutil
import unittest
from collections import Counter
from pathlib import Path

from query.tests.test_questions import all_chains
from query.tests.world import DATABASES, SMALL, World, invented
from tests.shared import metamath


STEPS = "$c |- a $. ${ m1 $e |- a $. m2 $e |- a $. m $a |- a $. $} ax $a |- a $.\n"
PARTS = """$c |- w $. $v p q $. wp $f w p $. wq $f w q $.
${ i1 $e |- p $. i2 $e |- q $. and $a |- p $. $}
${ a1 $e |- p $. pair $p |- p $= wp wp a1 a1 and $. $}
${ b1 $e |- p $. twice $p |- p $= wp b1 pair $. $}
${ c1 $e |- p $. marked $p |- p $= ( and ) AAAABBCZDC $. $}
${ d1 $e |- p $. one $p |- p $= d1 $. $}
${ e1 $e |- p $. e2 $e |- p $. e3 $e |- p $. first $p |- p $= e1 $. $}
${ f1 $e |- p $. less $p |- p $= ( first and ) AAABBDZEEC $. $}
${ g1 $e |- p $. again $p |- p $= wp g1 less $. $}
"""
PARTS_COUNTS = {
    "pair": 5, "twice": 5, "marked": 8, "one": 1, "first": 1, "less": 3, "again": 3,
}  # fmt: skip
"""How many steps these have. A step of `first` counts for one less four, since it has so many
hypotheses; two of the steps before it in `less` are none, since they repeat a marked one."""


def written_out(chance: random.Random, theorems: list[str], depth: int) -> list[str]:
    """A proof by chance, in which the hypothesis `HYP` stands once, as its first step."""
    found = ["HYP"]
    for _ in range(chance.randint(1, depth)):
        found += [*(["ax"] if chance.random() < 0.5 else ["ax", "ax", "m"]), "m"]
        if theorems:
            found.append(chance.choice(theorems))
    return found


class Lengths(World):
    """Over small databases, and the proofs of one of Debian's."""

    def test_depth(self) -> None:
        """By all chains."""
        for seed in range(6):
            database = invented(random.Random(seed), 9)
            self.write("db.mm", database.text)
            rows = self.query("proofs", "db.mm", "--most=99", "--by=depth", "--format=json").rows()
            self.assertEqual({row["theorem"] for row in rows}, set(database.cites))
            for row in rows:
                label = str(row["theorem"])
                ends = database.axioms + database.syntax
                chains = [chain for end in ends for chain in all_chains(database, label, end)]
                bare = [
                    chain
                    for each in database.cites
                    if not database.cites[each]
                    for chain in all_chains(database, label, each)
                ]
                longest = max([len(chain) - 1 for chain in chains] + [len(chain) for chain in bare])
                self.assertEqual(row["depth"], longest)
            depths = [int(str(row["depth"])) for row in rows]
            self.assertEqual(depths, sorted(depths, reverse=True))

    def test_by_hand(self) -> None:
        text = SMALL + "todo $p |- p $= ? $.\n"
        self.write("db.mm", text)
        lines = self.answers("proofs", "--open", "db.mm", "a2", "a1i", "--format=tsv")
        self.assertEqual(lines[1:], ["9\t1\t32\ta1i\t\t", "9\t2\t29\ta2\t\t"])
        lines = self.answers("proofs", "--open", "db.mm", "--by=bytes", "--most=1", "--format=tsv")
        self.assertEqual(lines[1:], ["9\t1\t32\ta1i\t\t"])
        lines = self.answers("proofs", "--open", "db.mm", "--like=w*", "--format=tsv")
        self.assertEqual(lines[1:], ["5\t1\t16\twi2\t\t"])
        self.refuses("proofs", "--open", "db.mm", "todo", why="'todo' is an axiom")
        self.refuses("proofs", "--open", "db.mm", "ax-1", why="is an axiom")
        self.write("report", self.report("db.mm", "--open"))
        self.refuses("proofs", "report", why="report")

    @unittest.skipUnless(shutil.which("metamath"), "there is no metamath.exe")
    @unittest.skipUnless((DATABASES / "demo0.mm").exists(), "there are no databases")
    def test_metamath(self) -> None:
        """What metamath.exe counts, of theorems of a short and of a long database."""
        for name, labels in (
            ("demo0.mm", ["th1"]),
            ("ql.mm", ["lem3.1", "id", "wr2"]),
            ("iset.mm", ["a1i", "syl", "pm2.01", "exbii", "sbf"]),
        ):
            path = DATABASES / name
            commands = [word for label in labels for word in (
                f"show proof {label} /size", f"show trace_back {label} /count_steps",
            )]  # fmt: skip
            said = [" ".join(each.split()) for each in metamath.asked(path, commands)]
            rows = self.query("proofs", str(path), *labels, "--format=json").rows()
            told = {row["theorem"]: row for row in rows}
            for label, size, count in zip(labels, said[::2], said[1::2]):
                row = told[label]
                self.assertIn(f'source for "{label}" has {row["bytes"]} characters', size)
                self.assertIn(f"actual proof has {row['steps']} steps", count)
                (depth,) = re.findall(r"maximum path length is (\d+)", count)
                self.assertEqual(row["depth"], int(depth), label)

    def test_expanded(self) -> None:
        """Against proofs that are written out, in which each hypothesis stands once."""
        for seed in range(6):
            chance = random.Random(seed)
            text, proofs = STEPS, dict[str, list[str]]()
            for number in range(12):
                proof = written_out(chance, list(proofs), 4)
                text += f"${{ h{number} $e |- a $. t{number} $p |- a $= "
                text += " ".join(proof).replace("HYP", f"h{number}") + " $. $}\n"
                proofs[f"t{number}"] = [
                    step
                    for each in proof
                    for step in (proofs[each][1:] if each in proofs else [each])
                ]
            self.write("db.mm", text)
            rows = self.query(
                "proofs", "db.mm", "--by=expanded", "--most=99", "--format=json"
            ).rows()
            found = {str(row["theorem"]): row["expanded"] for row in rows}
            self.assertEqual(found, {label: len(proof) for label, proof in proofs.items()})
            counts = [int(str(row["expanded"])) for row in rows]
            self.assertEqual(counts, sorted(counts, reverse=True))
            rows = self.query("proofs", "db.mm", "t11", "t3", "--expanded", "--format=json").rows()
            self.assertEqual([row["expanded"] for row in rows], [found["t3"], found["t11"]])

    def test_expanded_by_hand(self) -> None:
        """A hypothesis that is used twice, or never; marked steps; and open theorems."""
        self.write("db.mm", PARTS)
        rows = self.query("proofs", "db.mm", "--expanded", "--most=9", "--format=json").rows()
        self.assertEqual({row["theorem"]: row["expanded"] for row in rows}, PARTS_COUNTS)
        if shutil.which("metamath"):
            said = self.said_by_metamath(self.folder / "db.mm", [*PARTS_COUNTS])
            self.assertEqual(said, PARTS_COUNTS)
        self.write("db.mm", SMALL + "todo $p |- p $= ? $. use $p |- p $= wp todo $.\n")
        (row,) = self.query(
            "proofs", "--open", "db.mm", "use", "--expanded", "--format=json"
        ).rows()
        self.assertEqual(row["expanded"], 2)

    def test_expanded_is_long(self) -> None:
        """Theorems that cite the one before twice; of too many digits it is told, and no more."""
        count = 4000
        text = "$c |- a $.\n${ m1 $e |- a $. m2 $e |- a $. m $a |- a $. $}\nax $a |- a $.\n"
        text += "t0 $p |- a $= ax ax m $.\n"
        text += "".join(f"t{n} $p |- a $= t{n - 1} t{n - 1} m $.\n" for n in range(1, count))
        self.write("db.mm", text)
        words = ("proofs", "db.mm", "--by=expanded", f"--most={count}", "--format=json")
        found = {str(row["theorem"]): row["expanded"] for row in self.query(*words).rows()}
        for number in range(count):
            steps = 2 ** (number + 2) - 1
            told = steps if steps < 10**1000 else "more than 1000 digits"
            self.assertEqual(found[f"t{number}"], told)
        lines = self.answers("proofs", "db.mm", "t9", f"t{count - 1}", "--expanded")
        self.assertRegex(lines[1], r"t9 .* 2047$")
        self.assertRegex(lines[2], r"more than 1000 digits$")
        self.assertEqual(self.answers("proofs", "db.mm", "t9", "--format=tsv")[0].count("\t"), 5)

    def said_by_metamath(self, path: Path, labels: list[str]) -> dict[str, int]:
        """The expanded steps that metamath.exe counts, by a floating point number."""
        commands = [f"show trace_back {label} /count_steps" for label in labels]
        said = [" ".join(each.split()) for each in metamath.asked(path, commands)]
        counts = [
            re.findall(r"would have (-?[0-9]+)(?: =~ [^,]*)? steps if fully", each) for each in said
        ]
        return {label: int(count) for label, (count,) in zip(labels, counts)}

    @unittest.skipUnless(shutil.which("metamath"), "there is no metamath.exe")
    @unittest.skipUnless((DATABASES / "demo0.mm").exists(), "there are no databases")
    def test_expanded_of_debian(self) -> None:
        """What metamath.exe counts; of large numbers as near as it does."""
        for name, labels in (
            ("demo0.mm", ["th1"]),
            ("ql.mm", ["lem3.1", "id", "wr2", "oa3-6lem", "mloa"]),
            ("iset.mm", ["a1i", "syl", "pm2.01", "exbii", "sbf", "zorn", "addcom"]),
            ("set.mm", ["2p2e4", "dummylink", "idi", "pm2.18", "stirling", "hlathil"]),
        ):
            path = DATABASES / name
            asked = self.query("proofs", str(path), *labels, "--expanded", "--format=json")
            if asked.status:
                continue
            told = {str(row["theorem"]): int(str(row["expanded"])) for row in asked.rows()}
            for label, said in self.said_by_metamath(path, [*told]).items():
                if abs(said) < 2**53:
                    self.assertEqual(told[label], said, label)
                self.assertAlmostEqual(told[label] / said, 1, 9, label)
            if name == "set.mm":
                self.assertEqual(told["2p2e4"], 23231431367629)

    def test_sets(self) -> None:
        for seed in range(8):
            database = invented(random.Random(seed), 10)
            self.write("db.mm", database.text)
            rests = {
                label: tuple(axiom for axiom in database.axioms if axiom in database.rests(label))
                for label in database.cites
            }
            counts = Counter(rests.values())
            rows = self.query("sets", "db.mm", "--format=json").rows()
            found = {tuple(map(str, listed(row["axioms"]))): row for row in rows}
            self.assertEqual({each: row["theorems"] for each, row in found.items()}, dict(counts))
            for each, row in found.items():
                self.assertEqual(row["first"], next(one for one in rests if rests[one] == each))
                self.assertEqual(row["size"], len(each))
            order = [
                (-int(str(row["theorems"])), list(rests).index(str(row["first"]))) for row in rows
            ]
            self.assertEqual(order, sorted(order))
            self.assertEqual(self.query("sets", "db.mm", "2", "--format=json").rows(), rows[:2])
            some = database.theorems()[::2]
            self.write("names", " ".join(some))
            rows = self.query("sets", "db.mm", "--among=names", "--format=json").rows()
            wanted = Counter(rests[label] for label in some)
            self.assertEqual(sum(int(str(row["theorems"])) for row in rows), len(some))
            self.assertEqual(len(rows), len(wanted))

    def test_axioms_together(self) -> None:
        """Against the sets of theorems on which each axiom is."""
        for seed in range(8):
            database = invented(random.Random(seed), 10)
            self.write("db.mm", database.text)
            every = database.theorems()
            self.write("names", " ".join(every[1::2]))
            for words, some in (((), every), (("--among=names",), every[1::2])):
                groups: dict[tuple[str, ...], list[str]] = {}
                for axiom in database.axioms:
                    users = tuple(each for each in some if axiom in database.rests(each))
                    groups.setdefault(users, []).append(axiom)
                wanted = [
                    [len(users), len(axioms), users[0], axioms]
                    for users, axioms in groups.items()
                    if users and len(axioms) > 1
                ]
                wanted.sort(key=lambda row: -int(str(row[0])))
                done = self.query("sets", "db.mm", "--together", "--format=json", *words)
                self.assertEqual([list(row.values()) for row in done.rows()], wanted)
                self.assertEqual("no two axioms" in done.err, not wanted)

    def test_whose_they_are(self) -> None:
        said = "$( It says so. (Contributed by Ann Other,\n 5-Aug-1993.) $)\n"
        self.write("db.mm", SMALL.replace("wi2 $p", f"{said}wi2 $p"))
        (row,) = self.query("proofs", "db.mm", "wi2", "--format=json").rows()
        self.assertEqual((row["contributor"], row["contributed"]), ("Ann Other", "1993-08-05"))

    def test_uncited_that_may_be_cited(self) -> None:
        mark = "$( (New usage\n is discouraged.) $) "
        self.write("db.mm", SMALL.replace("ax1 $p", f"{mark}ax1 $p"))
        self.assertEqual(self.answers("uncited", "db.mm"), ["wi2", "ax1", "a2"])
        self.assertEqual(self.answers("uncited", "db.mm", "--not-discouraged"), ["wi2", "a2"])
        self.write("db.mm", "$c a $. " + f"{mark}b $p a $= ? $.")
        done = self.query("uncited", "db.mm", "--open", "--not-discouraged")
        self.assertEqual((done.status, done.out), (0, ""))
        self.assertIn("no theorem that nobody cites and that may be cited", done.err)

    def test_what_mathboxes_alone_cite(self) -> None:
        box = "$(\n#*#*#*#\n  Mathbox for A\n#*#*#*#\n$)\n"
        self.write("db.mm", SMALL.replace("${ g ", f"{box}${{ g "))
        self.assertEqual(self.answers("uncited", "db.mm"), ["wi2", "ax1", "a2"])
        every = ["wi2", "ax1", "a1i", "a2"]
        self.assertEqual(self.answers("uncited", "db.mm", "--outside-mathboxes"), every)
        words = ("uncited", "db.mm", "--outside-mathboxes", "--main")
        self.assertEqual(self.answers(*words), ["wi2", "ax1", "a1i"])

    def test_axioms_on_which_mathboxes_alone_rest(self) -> None:
        """Against trying everything, with the end of a database as a mathbox."""
        alone = 0
        for seed in range(8):
            chance = random.Random(seed)
            database = invented(chance, 10)
            lines = database.text.splitlines()
            first = chance.randrange(6, len(lines))
            lines.insert(first, "$(\n#*#*#*#\n  Mathbox for A\n#*#*#*#\n$)")
            self.write("db.mm", "\n".join(lines))
            main = [each for each in database.cites if f" {each} $p" in "\n".join(lines[:first])]
            counts = []
            for axiom in database.axioms:
                users = database.users(axiom)
                counts.append([len([each for each in users if each in main]), len(users), axiom])
            words = ("top", "db.mm", "--outside-mathboxes", "--format=json")
            rows = [list(row.values()) for row in self.query(*words, "--below=2").rows()]
            self.assertEqual(rows, [row for row in counts if int(str(row[0])) < 2])
            alone += len([row for row in rows if not row[0] and row[1]])
            rows = [list(row.values()) for row in self.query(*words, "3").rows()]
            self.assertEqual(rows, sorted(counts, key=lambda row: -int(str(row[0])))[:3])
        self.assertGreater(alone, 2)
        self.write("db.mm", SMALL)
        asked = ("top", "db.mm", "--outside-mathboxes")
        done = self.query(*asked, "--below=1", "--like=ax-1")
        self.assertIn("typecode '|-' 1 or more rest outside of mathboxes", done.err)
        self.refuses(*asked, "--theorems", why="not allowed with argument")
        self.refuses(*asked, "--against", "db.mm", why="not allowed with argument")


def listed(field: object) -> list[object]:
    """A list of JSON."""
    assert isinstance(field, list)
    return field


if __name__ == "__main__":
    unittest.main()
