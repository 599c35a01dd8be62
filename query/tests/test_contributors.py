"""`contributors`, against counting what comments were given, and against the comments of Debian's
iset.mm as a pattern finds them."""

import random
import re
import unittest
from datetime import date, datetime

from query.tests.world import DATABASES, SMALL, World, invented

NAMES = ["NM", "Ann Other", "G&eacute;rard Lang", "Ann Other and NM", None]
COMMENTED = re.compile(r"\$\(((?:(?!\$\)).)*)\$\)\s+\S+\s+\$p\s", re.DOTALL)
SAID = re.compile(r"\(Contributed by ([^,()]+), (\d+-[A-Z][a-z]+-\d+)\.\)")

Row = list[object]


def rows_of(given: list[tuple[str | None, str | None]]) -> list[Row]:
    """The rows for theorems of these contributors and days, in file order."""
    rows: list[Row] = []
    for name in dict.fromkeys(name for name, _ in given):
        days = [day for each, day in given if each == name]
        known = sorted(day for day in days if day)
        rows.append([len(days), known[0] if known else None, known[-1] if known else None, name])
    return sorted(rows, key=lambda row: -int(str(row[0])))


class Contributors(World):
    """Over databases whose comments are made by chance, and one of Debian's."""

    def rows(self, *words: str) -> list[Row]:
        """The rows of an answer."""
        return [list(each.values()) for each in self.query(*words, "--format=json").rows()]

    def test_by_chance(self) -> None:
        for seed in range(8):
            chance = random.Random(seed)
            database = invented(chance, 14)
            text, given = database.text, {}
            for label in database.cites:
                name = chance.choice(NAMES)
                day = date(1992, 8, 7) + (date(2020, 12, 31) - date(1992, 8, 7)) * chance.random()
                is_dated = chance.random() < 0.7
                given[label] = (name, day.isoformat() if name and is_dated else None)
                when = f",\n  {day.day}-{day.strftime('%b-%Y')}" if is_dated else ""
                said = f"(Contributed by {name}{when}.)" if name else "(Revised by NM, 5-Aug-1993.)"
                text = text.replace(f" {label} $p", f" $( About it. {said} $) {label} $p")
            self.write("db.mm", text)
            wanted = rows_of([*given.values()])
            self.assertEqual(self.rows("contributors", "db.mm"), wanted)
            self.assertEqual(self.rows("contributors", "db.mm", "--most=2"), wanted[:2])
            some = database.theorems()[1::2]
            self.write("names", " ".join(some))
            wanted = rows_of([given[label] for label in some])
            self.assertEqual(self.rows("contributors", "db.mm", "--among=names"), wanted)

    @unittest.skipUnless((DATABASES / "iset.mm").exists(), "there are no databases")
    def test_iset(self) -> None:
        path = DATABASES / "iset.mm"
        given = []
        for comment in COMMENTED.findall(path.read_text("latin-1")):
            match = SAID.search(" ".join(comment.split()))
            assert match is not None
            day = datetime.strptime(match[2], "%d-%b-%Y").date()
            given.append((match[1], day.isoformat()))
        found = self.rows("contributors", str(path))
        self.assertEqual(found, rows_of([*given]))
        self.assertGreater(len(found), 20)

    def test_what_has_no_theorem(self) -> None:
        self.write("db.mm", "$c a $. b $a a $.\n")
        done = self.query("contributors", "db.mm", "--format=tsv")
        self.assertEqual((done.status, done.lines()), (0, ["theorems\tfirst\tlast\tcontributor"]))
        self.assertEqual(done.err, "mmquery: db.mm: has no theorem\n")
        self.write("empty.mm", "")
        self.refuses("contributors", "empty.mm", why="has neither axioms nor theorems")
        self.write("db.mm", SMALL)
        self.assertEqual(self.rows("contributors", "db.mm"), [[4, None, None, None]])
        done = self.query("contributors", "db.mm", "--like=x*")
        self.assertEqual(done.err, "mmquery: db.mm: has no theorem that passes the filters\n")
        self.write("db.mm", SMALL.replace("wi wi $.", "wi $."))
        self.refuses("contributors", "db.mm", why="refused E")
        self.write("report", self.report("db.mm"))
        self.refuses("contributors", "report", why="a report, where the database is wanted")
