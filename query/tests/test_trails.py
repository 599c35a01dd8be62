"""`history --of`: what became of one statement, also where its label changed. The answers are
compared with the log of whoever made the revisions."""

import random
import re
from collections.abc import Sequence
from dataclasses import dataclass, field, replace

from query.tests.repositories import ADDED, BASE, FREED, TAKEN, Repositories, changed

HEAD = """$c wff |- ( -> ) $.
$v p q $.
wp $f wff p $.
wq $f wff q $.
wi $a wff ( p -> q ) $.
any $a |- p $.
other $a |- p $.
"""
CHANGES = ("there", "new", "changed", "renamed", "proof", "gone")
Row = tuple[object, ...]


@dataclass(frozen=True)
class Theorem:
    """A theorem whose formula has so many arrows, all from the same. No other one ever had as many.
    `axiom` is what its proof cites."""

    label: str
    arrows: int
    axiom: str

    def text(self) -> str:
        """Its statement and its proof."""
        formula = "( p -> " * self.arrows + "p" + " )" * self.arrows
        proof = "wp " * (self.arrows + 1) + "wi " * self.arrows
        return f"{self.label} $p |- {formula} $= {proof}{self.axiom} $.\n"


@dataclass
class Log:
    """Revisions that are made by chance, and what was done in each. `then` has for each revision
    the theorems by numbers that stay theirs."""

    chance: random.Random
    then: list[dict[int, Theorem]] = field(default_factory=list)
    count: int = 0
    born: int = 2
    """The number of the theorem that came last."""

    def fresh(self, label: str) -> Theorem:
        """A theorem that says what none said before."""
        self.count += 1
        return Theorem(label, self.count, self.chance.choice(("any", "other")))

    def begin(self) -> None:
        """The first revision."""
        self.then.append({number: self.fresh(f"t{number}") for number in range(3)})

    def add(self) -> None:
        """Another revision."""
        now = dict(self.then[-1])
        number = self.chance.choice([*now])
        one = now[number]
        labels = {each.label for each in now.values()}
        free = [label for label in ("t0", "t1", "t2", "u0", "u1") if label not in labels]
        kind = self.chance.choice(("rename", "rename", "say", "prove", "drop", "add"))
        if kind == "rename":
            now[number] = replace(one, label=self.chance.choice(free))
        elif kind == "say":
            now[number] = self.fresh(one.label)
        elif kind == "prove":
            now[number] = replace(one, axiom="any" if one.axiom == "other" else "other")
        elif kind == "drop" and len(now) > 2:
            del now[number]
        elif len(now) < 5:
            self.born += 1
            now[self.born] = self.fresh(self.chance.choice(free))
        self.then.append(now)

    def text(self) -> str:
        """The database of the last revision."""
        return HEAD + "".join(each.text() for each in self.then[-1].values())

    def life(self, label: str, behind: int | None = None) -> list[Row]:
        """What became of the theorem that has a label in the newest revision in which one has it:
        the number of the revision, the label, what changed, and the label before. Of the revisions
        behind one of them, if it is given: what that one says is known."""
        first = behind or 0
        newest = max(
            (place, number)
            for place, each in enumerate(self.then[first:])
            for number, one in each.items()
            if one.label == label
        )
        rows: list[Row] = []
        before: Theorem | None = None if behind is None else self.then[behind].get(newest[1])
        for place, each in enumerate(self.then):
            if behind is not None and place <= behind:
                continue
            now = each.get(newest[1])
            change = None if before == now else change_of(before, now, place)
            if change is not None:
                rows.append((place, None if now is None else now.label, *change))
            before = now
        return rows


def change_of(before: Theorem | None, now: Theorem | None, place: int) -> Row:
    """What one revision did to a theorem."""
    if now is None:
        return "gone", None
    if before is None:
        return ("new" if place else "there"), None
    if before.arrows != now.arrows:
        return "changed", None
    return ("renamed", before.label) if before.label != now.label else ("proof", None)


class Life(Repositories):
    """What became of a statement."""

    def rows(self, *words: str) -> list[dict[str, object]]:
        """The rows of an answer."""
        done = self.query("history", "--format=json", *words)
        self.assertEqual((done.status, done.err), (0, ""), done)
        return done.rows()

    def told(self, *words: str) -> list[Row]:
        """The rows of an answer, without what says which revision it is."""
        return [
            (row["theorem"], row["axiom"], row["rests"], row["change"], row["was"])
            for row in self.rows(*words)
        ]

    def made(self, seed: int) -> tuple[Log, list[str]]:
        """Revisions that are made by chance, and their ids. The first one has no parent."""
        log = Log(random.Random(seed))
        log.begin()
        self.git("checkout", "--quiet", "--orphan", f"seed{seed}")
        commits = [self.commit(log.text())]
        for _ in range(8):
            log.add()
            commits.append(self.commit(log.text()))
        return log, commits

    def test_by_chance(self) -> None:
        """The answer is what was done, for each label that there ever was. Of the revisions behind
        one of them it is what was done in these, also in the first of them."""
        kinds: set[object] = set()
        for seed in range(8):
            log, commits = self.made(seed)
            behind = random.Random(seed).randrange(7)
            for first, within in ((None, commits[-1]), (behind, f"{commits[behind]}..")):
                then = log.then[first or 0 :]
                for label in sorted({each.label for some in then for each in some.values()}):
                    wanted = log.life(label, first)
                    found = [
                        (commits.index(str(row["rev"])), row["theorem"], row["change"], row["was"])
                        for row in self.lives_in(within, label)
                    ]
                    told = (seed, first, label)
                    self.assertEqual(without_gone(found), without_gone(wanted), told)
                    kinds.update((first is None, row[2]) for row in found)
        changes = {(is_all, change) for is_all in (True, False) for change in CHANGES}
        self.assertEqual(kinds, changes - {(False, "there")})

    def lives_in(self, within: str, label: str) -> list[dict[str, object]]:
        """The rows about a statement. Where there is none, standard error says so."""
        done = self.query("history", "--format=json", "db.mm", within, "--of", label)
        why = f"mmquery: no revision of {within} of db.mm changed '{label}'\n"
        self.assertEqual((done.status, done.err), (0, "" if done.rows() else why), done)
        return done.rows()

    def test_the_first_of_a_range(self) -> None:
        """What it changed is told as of the others: by its first parent, also where the file had
        another name there, or the theorem has gone since."""
        self.commit(changed(BASE, ("zorn $p", "zorn3 $p")))
        self.commit(BASE + ADDED)
        self.git("mv", "db.mm", "set.mm")
        self.commit(changed(BASE, FREED), "set.mm")
        wanted = {
            ("db.mm", "HEAD~3..HEAD~2", "zorn3"): [("zorn3", "renamed", "zorn")],
            ("db.mm", "HEAD~3..HEAD~2", "zorn"): [("zorn3", "renamed", "zorn")],
            ("db.mm", "HEAD~2..HEAD~1", "new"): [("new", "new", None)],
            ("set.mm", "HEAD~1..", "new"): [("new", "gone", None)],
            ("set.mm", "HEAD~1..", "axac3"): [("axac3", "proof", None)],
            ("set.mm", "HEAD~1..", "zorn"): [("zorn", "below", None)],
        }
        for (path, within, label), rows in wanted.items():
            told = self.told(path, within, "--of", label)
            self.assertEqual([(row[0], *row[3:]) for row in told], rows, (within, label))
        (row,) = self.rows("set.mm", "HEAD~1..", "--of", "zorn")
        self.assertEqual(row["lost"], ["ax-ac2"])
        told = self.told("db.mm", "HEAD~3..HEAD~2", "ax-ac2", "--of", "zorn")
        wanted_rows = [("zorn3", None, None, "renamed", "zorn")]
        self.assertEqual(told, [*wanted_rows, ("zorn3", "ax-ac2", True, None, None)])
        why = "no revision in HEAD~2..HEAD~1 of db.mm has a statement 'x'"
        self.refuses("history", "db.mm", "HEAD~2..HEAD~1", "--of", "x", why=why)

    def test_the_first_parent_of_a_merge(self) -> None:
        """A range that begins with a merge is compared with the branch into which it went."""
        self.branch()
        self.commit(changed(BASE, ("zorn $p", "zorn3 $p")))
        self.git("checkout", "--quiet", "main")
        self.ask("# nothing of the database\n")
        self.git("merge", "--quiet", "--no-ff", "--no-edit", "work")
        told = self.told("db.mm", "main~1..main", "--of", "zorn3")
        self.assertEqual(told, [("zorn3", None, None, "renamed", "zorn")])

    def test_the_first_one_of_the_file(self) -> None:
        """Where the file isn't there before a range, standard error says so."""
        self.commit(BASE, "other.mm")
        done = self.query("history", "--format=json", "other.mm", "HEAD~1..", "--of", "zorn")
        why = "before HEAD~1.. of other.mm nothing is known: there is no other.mm"
        self.assertEqual((done.status, done.err), (0, f"mmquery: {why}\n"))
        self.assertEqual([row["change"] for row in done.rows()], ["there"])
        for path in ("db.mm", "other.mm"):
            (row,) = self.rows(path, "HEAD", "--of", "zorn")
            self.assertEqual(row["change"], "there")

    def test_what_is_faulty_before_a_range(self) -> None:
        """That has no row, so standard error says what it is. Whether the first revision ends the
        fault or has it too is told, also where it lacks the statement."""
        broken = changed(BASE, ("$= df-4 $.", "$= none $."))
        for text in (broken, BASE, broken, broken + ADDED, BASE + ADDED):
            self.commit(text)
        for within, label, wanted in (
            ("HEAD~4..HEAD~3", "zorn", [("there", True)]),
            ("HEAD~2..HEAD~1", "zorn", [(None, False)]),
            ("HEAD~4..", "new", [(None, True), (None, False), ("new", True)]),
        ):
            done = self.query("history", "--format=json", "db.mm", within, "--of", label)
            told = [(row["change"], row["fault"] is None) for row in done.rows()]
            self.assertEqual(told, wanted, (within, label))
            why = rf"\Ammquery: before {within} of db.mm nothing is known: refused 10:\d+ E3\d\n\Z"
            self.assertRegex(done.err, why)
        (row,) = self.rows("db.mm", "HEAD~3..HEAD~1", "--of", "zorn")
        self.assertRegex(str(row["fault"]), r"\Arefused 10:\d+ E3\d\Z")
        why = "no revision in HEAD~4..HEAD~3 of db.mm has a statement 'new'"
        self.refuses("history", "db.mm", "HEAD~4..HEAD~3", "--of", "new", why=why)

    def test_what_is_shown(self) -> None:
        first = self.git("rev-parse", "HEAD")
        says = ("zorn $p |- ( q -> ( p", "zorn $p |- ( p -> ( p")
        other = changed(BASE, says, ("wi wi wq wp axac3 a1i", "wi wi wp wp axac3 a1i"))
        second = self.commit(other)
        rows = self.rows("db.mm", "HEAD", "--of", "zorn")
        self.assertEqual([row["rev"] for row in rows], [first, second])
        self.assertEqual([row["change"] for row in rows], ["there", "changed"])
        self.assertEqual(rows[1]["differ"], "the formula changed")
        self.assertEqual(rows[1]["old"], "|- ( q -> ( p -> ( p -> p ) ) )")
        self.assertEqual(rows[1]["new"], "|- ( p -> ( p -> ( p -> p ) ) )")
        lines = self.answers("history", "db.mm", "HEAD", "--of", "zorn")
        columns = "rev date theorem fault author subject change was gained lost".split()
        self.assertEqual(lines[0].split(), columns)
        day = str(rows[1]["date"])
        self.assertEqual(lines[4], f"zorn, {day}: the formula changed")
        self.assertEqual(lines[5], "  was  |- ( q -> ( p -> ( p -> p ) ) )")

    def test_faults_between(self) -> None:
        """A faulty revision has a row, and the statement is compared with the last sound one."""
        self.commit(changed(BASE, ("$= df-4 $.", "$= none $.")))
        self.commit(changed(BASE, ("zorn $p", "zorn3 $p")))
        there, renamed = ("zorn", "there", None), ("zorn3", "renamed", "zorn")
        for label in ("zorn3", "zorn"):
            self.assertEqual(self.lives(label), [there, (None, None, None), renamed])

    def test_no_label_in_a_fault(self) -> None:
        """Which label a statement has in a faulty file isn't known, also where another one is asked
        for, or the label is the same before and after it; in no form of answer."""
        self.commit(changed(BASE, ("$= df-4 $.", "$= none $.")))
        self.commit(changed(BASE, ("zorn $p", "zorn3 $p")))
        self.commit(changed(BASE, ("zorn $p", "zorn3 $p"), ("$= df-4 $.", "$= none $.")))
        self.commit(changed(BASE, ("zorn $p", "zorn3 $p")))
        for words in ((), ("ax-ac2",), ("ax-1", "ax-ac2")):
            rows = self.rows("db.mm", "HEAD", *words, "--of", "zorn3")
            faulty = [row["theorem"] for row in rows if row["fault"] is not None]
            self.assertEqual(faulty, [None, None] * max(1, len(words)))
            sound = [row["theorem"] for row in rows if row["fault"] is None]
            self.assertEqual({*sound}, {"zorn", "zorn3"})
            command = ("history", "db.mm", "HEAD", *words, "--of", "zorn3", "--format")
            for form, cell in (("csv", ""), ("tsv", ""), ("text", "-")):
                lines = [line for line in self.answers(*command, form) if "refused" in line]
                split = {"csv": ",", "tsv": "\t", "text": None}[form]
                self.assertEqual({line.split(split)[2] for line in lines}, {cell}, form)

    def test_axioms(self) -> None:
        """With an AXIOM the theorem is followed too; a row without one is about the statement."""
        self.commit(changed(BASE, ("zorn $p", "zorn3 $p")))
        self.commit(changed(BASE, ("zorn $p", "zorn3 $p"), FREED))
        wanted = [
            ("zorn", "ax-ac2", True, None, None),
            ("zorn3", None, None, "renamed", "zorn"),
            ("zorn3", "ax-ac2", False, None, None),
        ]
        for label in ("zorn", "zorn3"):
            self.assertEqual(self.told("db.mm", "HEAD", "ax-ac2", "--of", label), wanted)

    def test_axioms_that_nobody_named(self) -> None:
        """Which axioms a theorem gained and lost at each revision, also by the proofs of others, is
        what `rests` says of it before and after."""
        direct = ("wq wp axac3 a1i", "wq wp ax-ac2 a1i")
        freed = changed(BASE, FREED)
        texts = [BASE, freed, freed + ADDED, changed(freed, direct), changed(BASE, direct)]
        texts.append(changed(freed, ("zorn $p", "other $p")))
        for text in texts[1:]:
            self.commit(text)
        rests = []
        for number, text in enumerate(texts):
            self.write(f"t{number}.mm", text)
            label = "other" if "other $p" in text else "zorn"
            rests.append(set(self.answers("rests", f"t{number}.mm", label)))
        rows = self.rows("db.mm", "HEAD", "--of", "other")
        commits = self.git("rev-list", "--reverse", "HEAD").split()
        told = {commits.index(str(row["rev"])): row for row in rows}
        for number in range(1, len(texts)):
            row = told.get(number, {})
            gained, lost = (words_in(row.get(name)) for name in ("gained", "lost"))
            self.assertEqual(gained, rests[number] - rests[number - 1], number)
            self.assertEqual(lost, rests[number - 1] - rests[number], number)
        changes = [(number, row["change"]) for number, row in told.items()]
        self.assertEqual(changes, [(0, "there"), (1, "below"), (3, "proof"), (5, "renamed")])
        self.assertEqual((told[1]["lost"], told[3]["gained"]), (["ax-ac2"], ["ax-ac2"]))

    def test_an_axiom(self) -> None:
        self.commit(BASE.replace("ax-ac2", "ax-ac3"))
        self.assertEqual(self.lives("ax-ac2"), self.AXIOM)
        self.commit(changed(BASE.replace("ax-ac2", "ax-ac3"), self.AS_THEOREM))
        (*_, last) = self.rows("db.mm", "HEAD", "--of", "ax-ac3")
        told = (last["change"], last["differ"])
        self.assertEqual(told, ("changed", "it is a theorem now, and was an axiom"))

    AXIOM = [("ax-ac2", "there", None), ("ax-ac3", "renamed", "ax-ac2")]
    AS_THEOREM = (
        "ax-ac3 $a |- ( p -> ( p -> p ) ) $.",
        "ax-ac3 $p |- ( p -> ( p -> p ) ) $= wp wp ax-1 $.",
    )

    def test_a_label_of_another(self) -> None:
        """A statement is followed where it had another label, as `compare` says; then it is told
        besides that its label was another one's. Otherwise the label is followed."""
        swapped = changed(BASE, ("zorn $p", "x $p"), ("free $p", "zorn $p"))
        self.commit(swapped)
        wanted = [("free", "there", None), ("zorn", "renamed", "free"), ("zorn", "changed", None)]
        self.assertEqual(self.lives("zorn"), wanted)
        (*_, last) = self.rows("db.mm", "HEAD", "--of", "zorn")
        both = ("|- ( q -> ( p -> ( p -> p ) ) )", "|- ( p -> ( p -> p ) )")
        self.assertEqual((last["old"], last["new"]), both)
        told = self.told("db.mm", "HEAD", "ax-1", "--of", "zorn")
        self.assertEqual([row[3] for row in told], [None, "renamed", "changed"])
        lines = self.answers("history", "db.mm", "HEAD", "--of", "zorn")
        self.assertEqual(lines[-2:], [f"  was  {both[0]}", f"  is   {both[1]}"])
        self.assertEqual(self.lives("x"), [("zorn", "there", None), ("x", "renamed", "zorn")])
        taken = changed(BASE, ("zorn $p", "x $p")) + ADDED.replace("new", "zorn")
        self.git("reset", "--quiet", "--hard", "HEAD~1")
        self.commit(taken)
        self.assertEqual(self.lives("zorn"), [("zorn", "there", None), ("zorn", "changed", None)])
        self.assertEqual(self.lives("x"), [("zorn", "there", None), ("x", "renamed", "zorn")])

    def test_a_label_that_was_given_away(self) -> None:
        """The old statement has a new label, and a weaker one the old label: it was changed. One
        that was away in between is new."""
        self.commit(changed(BASE, ("zorn $p", "zorn3 $p")))
        self.commit(changed(BASE, FREED))
        self.commit(changed(BASE, FREED, TAKEN))
        rows = self.rows("db.mm", "HEAD", "--of", "free")
        self.assertEqual([row["change"] for row in rows], ["there", "changed"])
        told = tuple(rows[1][name] for name in ("theorem", "was", "differ", "old", "new"))
        both = ("|- ( p -> ( p -> p ) )", "$e |- ( 2 + 2 ) = 4 $. |- ( p -> ( p -> p ) )")
        self.assertEqual(told, ("free", None, "the hypotheses changed", *both))
        (there, renamed) = self.rows("db.mm", "HEAD", "--of", "freelem")
        self.assertEqual((there["theorem"], renamed["was"]), ("free", "free"))
        without = changed(BASE, (TAKEN[0], ""))
        self.commit(without)
        self.commit(without + "free $p |- ( 2 + 2 ) = 4 $= df-4 $.\n")
        self.assertEqual(self.lives("free"), [("free", "new", None)])

    def test_labels_that_are_swapped(self) -> None:
        swapped = {"zorn": "ax1", "ax1": "zorn"}
        self.commit(re.sub(r"\S+", lambda word: swapped.get(word[0], word[0]), BASE))
        for label, was in swapped.items():
            wanted = [(was, "there", None), (label, "renamed", was), (label, "changed", None)]
            self.assertEqual(self.lives(label), wanted)

    def lives(self, label: str) -> list[Row]:
        """The label, what changed, and the label before, in each row about a statement."""
        rows = self.told("db.mm", "HEAD", "--of", label)
        return [(row[0], *row[3:]) for row in rows]

    def test_lines_of_a_proof(self) -> None:
        """Where lines end in a proof is no other proof."""
        self.commit(BASE.replace("wp ax-ac2 $.", "wp\n  ax-ac2\n $."))
        self.assertEqual(self.lives("axac3"), [("axac3", "there", None)])

    def test_what_is_not_there(self) -> None:
        why = "no revision in HEAD of db.mm has a statement 'x'"
        self.refuses("history", "db.mm", "HEAD", "--of", "x", why=why)
        self.refuses("history", "db.mm", "HEAD", "--of", "wp", why="has a statement 'wp'")
        self.refuses("history", "db.mm", "HEAD", "--of", "a:b", why="has a statement 'a:b'")


def words_in(value: object) -> set[str]:
    """The words of a list in an answer; none where there is none."""
    return {str(each) for each in value} if isinstance(value, list) else set()


def without_gone(rows: Sequence[Row]) -> list[Row]:
    """Rows in which the label isn't told of where the statement is gone."""
    return [(row[0], None, *row[2:]) if row[2] == "gone" else row for row in rows]
