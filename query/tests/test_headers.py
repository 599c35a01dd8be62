"""What `falls` and `drop` say of all that stands below a header, against the program and trying
everything; and by which words a header is found."""

import random
from dataclasses import dataclass

from query.tests.world import Invented, World, built_program, invented

LEVELS = ("#*#*", "=-=-", "-.-.")


def heading(level: int, title: str) -> str:
    """The comment of a header."""
    line = LEVELS[level] * 4
    return f"$(\n{line}\n  {title}\n{line}\n$)"


@dataclass
class Chaptered:
    """A database made by chance, in which each assertion is a line, with headers between them."""

    database: Invented
    lines: list[str]
    below: dict[str, list[str]]
    """The labels below each header, by its title."""

    def text(self, gone: set[str]) -> str:
        """The database without some assertions."""
        return "\n".join(line for line in self.lines if label_of(line) not in gone) + "\n"


def label_of(line: str) -> str | None:
    """The label of the assertion of a line."""
    words = line.split()
    for keyword in ("$a", "$p"):
        if keyword in words:
            return words[words.index(keyword) - 1]
    return None


def chaptered(chance: random.Random) -> Chaptered:
    """Makes one."""
    database = invented(chance, chance.randint(5, 9))
    lines: list[str] = []
    below: dict[str, list[str]] = {}
    open_ones: list[tuple[int, str]] = []
    for line in database.text.splitlines():
        label = label_of(line)
        if label is not None and chance.random() < 0.35:
            level, title = chance.randrange(3), f"About {len(below)} things"
            open_ones = [each for each in open_ones if each[0] < level] + [(level, title)]
            below[title] = []
            lines.append(heading(level, title))
        lines.append(line)
        if label is not None:
            for _, title in open_ones:
                below[title].append(label)
    return Chaptered(database, lines, below)


class Below(World):
    """Over databases made by chance."""

    def is_valid(self, text: str) -> bool:
        """Whether the program accepts a database."""
        self.write("left.mm", text)
        return self.ran(built_program(), "--report=counts", "left.mm").status == 0

    def test_by_chance(self) -> None:
        kinds = set()
        for seed in range(7):
            made = chaptered(random.Random(seed))
            self.write("db.mm", made.text(set()))
            for title, labels in made.below.items():
                inside = {*labels}
                wanted = [
                    each
                    for each in made.database.theorems()
                    if each not in inside and inside & made.database.rests(each)
                ]
                rows = self.query("falls", "db.mm", "--under", title, "--format=json").rows()
                self.assertEqual([row["theorem"] for row in rows], wanted, (seed, title))
                for row in rows:
                    own = made.database.cites[str(row["theorem"])]
                    self.assertEqual(row["cited"], self.in_order(made, inside & {*own}))
                count = self.answers("falls", "db.mm", "--under", title, "--count")
                self.assertEqual(count, [str(len(wanted))])
                done = self.query("drop", "db.mm", "--under", title, "--format=json")
                self.assertEqual(self.is_valid(made.text(inside)), done.status == 0)
                self.assertEqual(done.status == 0, not wanted)
                self.see_dropped(made, labels, done.rows())
                kinds.add((bool(wanted), bool(inside & {*made.database.axioms})))
        self.assertEqual(len(kinds), 4)

    def in_order(self, made: Chaptered, labels: set[str]) -> list[str]:
        """Labels as a graph has them: theorems first, and each kind in file order."""
        theorems = [each for each in made.database.theorems() if each in labels]
        return sorted(theorems + [each for each in labels if each not in theorems], key=self.rank)

    def rank(self, label: str) -> int:
        """Where a label stands in the file."""
        text = (self.folder / "db.mm").read_text()
        return min(place for word in "ap" if (place := text.find(f"{label} ${word} ")) >= 0)

    def see_dropped(
        self, made: Chaptered, labels: list[str], rows: list[dict[str, object]]
    ) -> None:
        """What stays is what is cited by what stays, and nothing else."""
        self.assertEqual([row["label"] for row in rows], labels)
        stays = {each for each in made.database.labels() if each not in labels}
        while True:
            cited = {one for each in stays for one in made.database.cites.get(each, ())} - stays
            if not cited:
                break
            stays |= cited
        self.assertEqual({row["label"] for row in rows if row["drop"]}, {*labels} - stays)
        gone = {str(row["label"]) for row in rows if row["drop"]}
        self.assertTrue(self.is_valid(made.text(gone)))

    def test_a_rule_of_syntax(self) -> None:
        """A rule of syntax stays where an axiom outside has the constant that it alone has."""
        symbols = "$c wff |- yes no ( -> ) $. $v p $. wp $f wff p $.\nwi $a wff ( p -> p ) $.\n"
        below = f"{heading(0, 'Below')}\nwyes $a wff yes $.\nwno $a wff no $.\nayes $a |- yes $.\n"
        outside = f"{heading(0, 'Outside')}\nayes2 $a |- ( yes -> yes ) $.\n"
        self.write("db.mm", symbols + below + outside)
        done = self.query("drop", "db.mm", "--under", "below", "--format=csv")
        self.assertEqual(done.lines()[1:], ["wyes,false,ayes2,,,", "wno,true,,,,", "ayes,true,,,,"])
        self.assertEqual(done.status, 1)
        self.write("db.mm", symbols + below + outside.replace("( yes -> yes )", "( no -> no )"))
        done = self.query("drop", "db.mm", "--under", "below", "--format=csv")
        self.assertEqual(done.lines()[1:], ["wyes,true,,,,", "wno,false,ayes2,,,", "ayes,true,,,,"])
        self.write("db.mm", symbols + "wyes2 $a wff yes $.\n" + below + outside)
        self.assertEqual(self.query("drop", "db.mm", "--under", "below").status, 0)

    def test_comments(self) -> None:
        """A `$j` below the header goes with it, and one elsewhere is in the way."""
        mark = "$( $j usage 'a' avoids 'b'; $)\n"
        text = "$c x $.\nb $a x $.\n" + heading(0, "One") + "\na $p x $= b $.\n"
        for place, status in ((text + mark, 0), (text + heading(0, "Two") + "\n" + mark, 1)):
            self.write("db.mm", place + "c $a x $.\n")
            self.assertEqual(self.query("drop", "db.mm", "--under", "one").status, status)

    def test_titles(self) -> None:
        """A part of a title is enough where one header alone has it."""
        titles = ("Zorn's lemma", "Hilbert spaces", "Complex Hilbert spaces", "Version 7")
        text = "$c x $.\nb $a x $.\n" + "".join(
            f"{heading(0, title)}\nt{number} $p x $= b $.\n" for number, title in enumerate(titles)
        )
        self.write("db.mm", text)
        for words, label in (("ZORN", "t0"), ("hilbert  SPACES", "t1"), ("complex", "t2")):
            self.assertEqual(self.answers("uncited", "db.mm", "--under", words), [label])
        said = "several headers have in the title 'spaces': 0.2 'Hilbert spaces', 0.3 'Complex "
        said += "Hilbert spaces'; give the number of one of them"
        self.refuses("uncited", "db.mm", "--under", "spaces", why=said)
        self.refuses("uncited", "db.mm", "--under", "7", why="has no header '7'")
        why = "has no header 'zorns lemna'; near it are 0.1 'Zorn's lemma'"
        self.refuses("uncited", "db.mm", "--under", "zorns lemna", why=why)
        why = "has no header 'xyz'; `mmquery chapters` lists them"
        self.refuses("uncited", "db.mm", "--under", "xyz", why=why)

    def test_what_has_no_answer(self) -> None:
        self.write("db.mm", "$c x $.\nb $a x $.\n" + heading(0, "One") + "\na $p x $= b $.\n")
        self.refuses("falls", "db.mm", why="falls wants a LABEL, or --under HEADER")
        self.refuses("drop", "db.mm", why="drop wants a LABEL, or --under HEADER")
        self.refuses("falls", "db.mm", "--under=one", "--all-of", why="--all-of wants LABELs")
        done = self.query("falls", "db.mm", "--under", "one")
        said = "nothing outside rests on what stands below 0.1 'One'"
        self.assertEqual((done.out, done.err), ("", f"mmquery: db.mm: {said}\n"))

    def test_many_labels_at_once(self) -> None:
        """All labels are looked for at once, in one walk."""
        count = 2000
        lines = ["$c x $.", "t0 $a x $."]
        lines += [f"t{number} $p x $= t{number - 1} $." for number in range(1, count)]
        self.write("db.mm", "\n".join(lines) + "\n")
        labels = [f"t{number}" for number in range(count - 1)]
        words = ["falls", "db.mm", "--only=x", "--count", *labels]
        self.assertEqual(self.answers(*words)[-1].split()[0], str(count - 1))
