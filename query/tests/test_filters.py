"""The filters of lists: each one, all together, and on each command that lists labels."""

import fnmatch
import itertools
import re

from query.arguments.filters import Test
from query.commands import command, names
from query.tests.test_structure import PARTS
from query.tests.world import World

THEOREMS = ["one", "two", "three", "four", "five", "todo", "six"]
BOXES = {"three": "Ann Other", "four": "Bo", "five": "Bo", "todo": "Bo", "six": "Bo"}
LISTS: dict[str, list[str]] = {
    "rests": ["six", "--all"],
    "falls": ["wi"],
    "cites": ["six", "two"],
    "cited-by": ["ax-1", "three"],
    "uncited": [],
    "way-out": ["ax-2"],
    "frees": ["ax-2"],
    "repeats": [],
    "unneeded": [],
    "top": [],
    "within": ["ax-1"],
    "same": ["five"],
    "order": [],
    "unfinished": [],
    "discouraged": [],
    "definitions": [],
    "mathboxes": [],
    "move": ["--ready", "five"],
    "needs": ["two"],
    "proofs": [],
    "search": ["( p ->"],
    "comments": [],
    "obsolete": [],
}
"""Each command that lists labels, with words of a question."""
COUNTING = {"sets", "contributors"}
"""Those whose filters choose what is counted."""
CHANGING = {"spare"}
"""Those whose filters choose what may be changed."""
COLUMNS = {"rests": "axiom", "cites": "cited", "top": "axiom", "order": "label"}
COLUMNS |= {"discouraged": "label", "definitions": "definition", "way-out": "of"}
COLUMNS |= {"needs": "form", "search": "label", "comments": "statement", "obsolete": "label"}
"""The column to which the filters apply, where it isn't `theorem`."""
DATABASES = {"definitions": "definitions.mm", "unneeded": "unneeded.mm", "move": "move.mm"}
DATABASES |= dict.fromkeys(("comments", "obsolete"), "comments.mm")
"""The file of which a command has something to list, where it isn't `db.mm`."""

EARLY = {"wi", "ax-1", "one", "two", "ax-2"}
TESTS: list[tuple[list[str], Test]] = [
    (["--like", "*o*,w*"], lambda label: "o" in label or label[:1] == "w"),
    (["--before", "three"], EARLY.__contains__),
    (["--after", "ax-2"], lambda label: label not in EARLY),
]


DATED = """$( (Contributed by Ann Other, 3-Jan-2013.) $) one $p |- p $= ? $.
$( (Contributed by Bo, 31-Dec-2014.)  (Revised by Ann Other, 1-Jan-2015.) $) two $p |- p $= ? $.
$( (Contributed by Ann
   Other, 1-Jan-2014.) $) three $p |- p $= ? $.
$( (Contributed by Bo, 31-Feb-2014.) $) four $p |- p $= ? $.
$( (Contributed by Bo.) $) five $p |- p $= ? $.
$( Nobody's. $) six $p |- p $= ? $.
"""
"""Theorems with contributors and days; of `four` there is no such day."""


class OfComments(World):
    """Who contributed a theorem, and when."""

    def test_contributors_and_days(self) -> None:
        self.write("db.mm", "$c wff |- $. $v p $. wp $f wff p $.\n" + DATED)
        for words, wanted in (
            ("--contributor=Bo", "two four five"),
            ("--contributor=Ann Other", "one three"),
            ("--since=2014", "two three"),
            ("--until=2014", "one two three"),
            ("--until=2013", "one"),
            ("--since=2013-01-03 --until=2014-01-01", "one three"),
            ("--since=2013-01-04 --until=2014-12-30", "three"),
            ("--contributor=Bo --since=0001", "two"),
            ("--contributor=Bo --until=9999-12-31", "two"),
        ):
            options = words.split(" --")
            given = [options[0], *(f"--{each}" for each in options[1:])]
            found = self.answers("unfinished", "db.mm", *given, "--format=tsv")[1:]
            self.assertEqual([line.split("\t")[1] for line in found], wanted.split(), words)
        why = "db.mm: nothing was contributed by 'Ann Othr'; did you mean Ann Other?"
        self.refuses("unfinished", "db.mm", "--contributor=Ann Othr", why=why)
        for word in ("14", "2014-5-1", "2014-02-30", "20140501", "2014-W01-1", "x", "0000", ""):
            for option in ("--since", "--until"):
                self.refuses("unfinished", "db.mm", f"{option}={word}", why="is no year as 2014")
        none = self.query("unfinished", "db.mm", "--since=2016")
        said = "none of the 6 that there are passes the filters --since 2016-01-01"
        self.assertEqual(none.err, f"mmquery: {said}\n")


class Filtered(World):
    """Over a database with headers and mathboxes."""

    def setUp(self) -> None:
        super().setUp()
        self.write("db.mm", PARTS)
        self.write("definitions.mm", PARTS + "df-x $a |- p $.\ndf-o $a |- p $.\n")
        ready = "nine $p |- ( p -> ( q -> p ) ) $= wp wq one $.\nno $p |- p $= wp four $.\n"
        self.write("move.mm", PARTS + ready)
        unneeded = PARTS.replace("two $p", "${ two.1 $e |- q $. two $p").replace(
            "one $.", "one $. $}"
        )
        unneeded = unneeded.replace("six $p", "${ $d p q $. six $p").replace(
            "todo $.", "todo $. $}"
        )
        self.write("unneeded.mm", unneeded)
        said = "$( Obsolete as of 1-Jan-2020.  See ~ gone . $)\n"
        self.write("comments.mm", re.sub(r"\b(two|four|six) \$p", rf"{said}\1 $p", PARTS))
        self.write("few", "two six  # and no other\nfour\n")
        self.write("others", "one none\n# six\nfive")

    def uncited(self, *filters: str) -> list[str]:
        """The theorems that the filters leave of all."""
        words = ("--open", "db.mm", *filters)
        rows = [line.split("\t") for line in self.answers("order", "--format", "tsv", *words)[1:]]
        return [row[4] for row in rows if row[1] != "axiom"]

    def test_each(self) -> None:
        for words, left in (
            (["--like", "*"], THEOREMS),
            (["--before", "four"], ["one", "two", "three"]),
            (["--before", "one"], []),
            (["--before", "ax-2"], ["one", "two"]),
            (["--after", "four"], ["five", "todo", "six"]),
            (["--after", "wi"], THEOREMS),
            (["--after", "ax-2"], THEOREMS[2:]),
            (["--after", "six"], []),
            (["--after", "two", "--before", "five"], ["three", "four"]),
            (["--after", "five", "--before", "five"], []),
            (["--main"], ["one", "two"]),
            (["--mathbox", "Bo"], ["four", "five", "todo", "six"]),
            (["--mathbox", "Ann Other"], ["three"]),
            (["--under", "0.1"], ["one", "two"]),
            (["--under", "0.1.1"], ["two"]),
            (["--under", "first"], ["one", "two"]),
            (["--under", " Mathbox  for Bo"], ["four", "five", "todo", "six"]),
            (["--like", "t*"], ["two", "three", "todo"]),
            (["--like", "t*,s?x"], ["two", "three", "todo", "six"]),
            (["--like", "one", "--like", "six"], ["one", "six"]),
            (["--not", "t*,f*"], ["one", "six"]),
            (["--not", "T*"], THEOREMS),
            (["--among", "few"], ["two", "four", "six"]),
            (["--not-among", "few"], ["one", "three", "five", "todo"]),
            (["--not-among", "few", "--not-among", "others"], ["three", "todo"]),
            (["--not-among", "few", "--among", "few"], []),
            (["--not-among", "/dev/null"], THEOREMS),
        ):
            self.assertEqual(self.uncited(*words), left, words)

    def test_together(self) -> None:
        """Every choice of three filters leaves what each of them leaves."""
        each: dict[tuple[str, ...], Test] = {
            ("--before", "five"): lambda label: THEOREMS.index(label) < THEOREMS.index("five"),
            ("--after", "one"): lambda label: label != "one",
            ("--mathbox", "Bo"): lambda label: BOXES.get(label) == "Bo",
            ("--main",): lambda label: label not in BOXES,
            ("--not", "*e"): lambda label: not fnmatch.fnmatchcase(label, "*e"),
            ("--among", "few"): lambda label: label in ("two", "four", "six"),
            ("--not-among", "others"): lambda label: label not in ("one", "five"),
        }
        for chosen in itertools.combinations(each.items(), 3):
            words = [word for words, _ in chosen for word in words]
            left = [label for label in THEOREMS if all(test(label) for _, test in chosen)]
            self.assertEqual(self.uncited(*words), left, words)

    def test_every_list(self) -> None:
        """Each command with filters lists what passes, and nothing else, in the same order."""
        filtered = {name for name in names() if command(name).lists}
        self.assertEqual(filtered, {*LISTS, *COUNTING, *CHANGING})
        for name, words in LISTS.items():
            flags = [] if name == "unfinished" else ["--open"]
            database = DATABASES.get(name, "db.mm")
            asked = [name, "--format", "json", *flags, database, *words]
            column = COLUMNS.get(name, "theorem")
            every = self.query(*asked)
            whole = every.rows()
            self.assertTrue(whole, name)
            self.assertEqual(every.status, int(name == "definitions"), name)
            for filters, test in TESTS:
                want = [row for row in whole if test(str(row[column]))]
                done = self.query(*asked, *filters)
                status = every.status if want else 0
                self.assertEqual((done.status, done.rows()), (status, want), (name, filters))
                # Of definitions it says also how many aren't judged, and of what frees most that it
                # may say the axiom in another form.
                if name not in ("definitions", "frees") or not want:
                    said = re.sub(r".* more with --kept --other-mathboxes; .*\n", "", done.err)
                    self.assertEqual(bool(want), not said, (name, filters))

    def test_before_the_number_is_counted(self) -> None:
        """A list that is cut off has as many as are wanted of those that pass."""
        rows = self.query(
            "top", "--open", "db.mm", "1", "--like", "ax-2", "--format", "json"
        ).rows()
        self.assertEqual([row["axiom"] for row in rows], ["ax-2"])
        words = ["frees", "--open", "db.mm", "ax-2", "--most", "1", "--not", "three"]
        self.assertEqual(
            [row["theorem"] for row in self.query(*words, "--format", "json").rows()], ["four"]
        )

    def test_what_is_missing(self) -> None:
        for words, why in (
            (["--before", "zwei"], "has no assertion 'zwei'"),
            (["--before", "threee"], "did you mean three?"),
            (["--mathbox", "Cy"], "has no mathbox for 'Cy'; `mmquery chapters` lists them"),
            (["--mathbox", "bo"], "did you mean Bo?"),
            (["--under", "7"], "has no header '7'"),
            (["--under", "Mathbox to"], "has no header 'Mathbox to'"),
            (["--under", "Mathbox for"], "several headers have in the title 'Mathbox for': 0.2 '"),
            (["--among", "nothing"], "nothing: no such file"),
            (["--after", "sixx"], "has no assertion 'sixx'; did you mean six?"),
            (["--not-among", "nothing"], "nothing: no such file"),
            (["--not-among", "."], ".: is a folder"),
        ):
            self.refuses("uncited", "--open", "db.mm", *words, why=why)
        self.write("report", self.report("db.mm", "--open", "--report=usage,citations"))
        self.refuses("uncited", "report", "--main", why="the database is wanted")
        self.refuses("uncited", "report", "--after", "one", why="the database is wanted")
        self.assertEqual(self.answers("uncited", "report", "--like", "s*"), ["six"])
        self.assertEqual(self.answers("uncited", "report", "--not-among", "few"), ["five"])

    def test_headers_of_one_title(self) -> None:
        """None of them is taken for the one that is meant. A number is."""
        for title, words, left in (
            ("0.2", ["0.2"], ["two"]),
            ("Same", ["0.1"], ["one"]),
        ):
            head = f"$(\n#*#*#*#\n  {title}\n#*#*#*#\n$)\n"
            one = f"{head}a1 $a a $.\none $p a $= a1 $.\n"
            self.write("db.mm", f"$c a $.\n{one}{head}two $p a $= a1 $.\n")
            self.assertEqual(self.answers("uncited", "db.mm", "--under", *words), left)
        self.refuses("uncited", "db.mm", "--under", "same", why="the title 'same': 0.1 'Same'")

    def test_nothing_passes(self) -> None:
        done = self.query("uncited", "--open", "db.mm", "--like", "x*")
        self.assertEqual((done.out, done.status), ("", 0))
        self.assertIn("none of the 3 that there are passes the filters --like 'x*'", done.err)
