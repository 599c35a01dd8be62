"""What `move` says has to go along: the program judges the databases in which it is done."""

import os
import random
from unittest import mock

from query.tests.test_structure import PARTS
from query.tests.world import World, asked, built_program, invented


class Moved(World):
    """Over databases made by chance, in which each assertion is a line."""

    def setUp(self) -> None:
        super().setUp()
        patch = mock.patch.dict(os.environ, {"MMDEPEND": built_program()})
        patch.start()
        self.addCleanup(patch.stop)

    def is_valid(self, lines: list[str]) -> bool:
        """Whether the program accepts a database of these lines."""
        self.write("moved.mm", "\n".join(lines) + "\n")
        done = self.ran(built_program(), "--report=counts", "moved.mm")
        self.assertIn(done.status, (0, 1), done)
        return done.status == 0

    def test_what_goes_along(self) -> None:
        """With it the database is valid, and without any one of it it isn't."""
        moved = refused = 0
        for seed in range(3):
            chance = random.Random(seed)
            database = invented(chance, chance.randint(4, 8))
            path = str(self.folder / self.write(f"{seed}.mm", database.text))
            lines = database.text.splitlines()
            labels = database.axioms + database.theorems()
            of = {label: next(line for line in lines if f" {label} $" in line) for label in labels}
            for theorem in database.theorems():
                for place in chance.sample(labels, 2):
                    if place == theorem:
                        continue
                    rows = asked("move", path, theorem, "--to", place)[1:]
                    along = [of[label] for _, label, _, _ in rows]
                    backwards = lines.index(of[place]) < lines.index(of[theorem])
                    self.assertEqual(
                        {row[0] for row in rows} - {"needs" if backwards else "user"}, set()
                    )
                    whole = self.order(lines, of[theorem], of[place], along, backwards)
                    self.assertTrue(self.is_valid(whole), (seed, theorem, place, rows))
                    moved += 1
                    for left in along:
                        rest = [each for each in along if each != left]
                        less = self.order(lines, of[theorem], of[place], rest, backwards)
                        self.assertFalse(self.is_valid(less), (seed, theorem, place, left))
                        refused += 1
        self.assertGreater(min(moved, refused), 8)

    def order(
        self, lines: list[str], theorem: str, place: str, along: list[str], backwards: bool
    ) -> list[str]:
        """The lines with the theorem, and what goes along, before a place."""
        group = [*along, theorem] if backwards else [theorem, *along]
        left = [line for line in lines if line not in group]
        if place in group:  # what stands at the place goes along
            number = lines.index(place)
            at = sum(1 for line in lines[:number] if line not in group)
        else:
            at = left.index(place)
        return left[:at] + group + left[at:]

    def test_what_is_ready(self) -> None:
        """It is what is valid right before the place, by the program; nothing behind it is left
        out."""
        ready = left = 0
        for seed in range(4):
            chance = random.Random(seed)
            database = invented(chance, chance.randint(4, 8))
            path = str(self.folder / self.write(f"{seed}.mm", database.text))
            lines = database.text.splitlines()
            order = [row[4] for row in asked("order", path)]
            of = {label: next(line for line in lines if f" {label} $" in line) for label in order
                  if label != "wi"}  # fmt: skip
            for place in [order[1], order[-1], *chance.sample(order[1:], 3)]:
                behind = order[order.index(place) + 1 :]
                number = lines.index(of[place])
                wanted = []
                for label in (each for each in behind if each in database.cites):
                    moved = [each for each in lines if each != of[label]]
                    moved.insert(number, of[label])
                    if self.is_valid(moved):
                        wanted.append(label)
                rows = asked("move", path, "--ready", place)
                self.assertEqual([row[0] for row in rows], wanted, (seed, place))
                for label, after, where, line in rows:
                    cited = sorted(database.cites[label], key=order.index)
                    self.assertEqual((after, where), (cited[-1] if cited else "", ""))
                    self.assertIn(f" {label} $p ", lines[int(line) - 1])
                ready += len(wanted)
                left += len(behind) - len(wanted)
        self.assertGreater(min(ready, left), 8)

    def test_symbols_of_what_is_ready(self) -> None:
        """What has a constant that is declared behind the place stays there, in whatever form it is
        declared; of constants in comments it isn't told."""
        text = "$c |- wff $. $v p $. wp $f wff p $. a $a |- p $.\n"
        text += "$( $c late $. $) $c $( early $) early $.\n"
        text += "b $a |- p $.\n$c\nlate $( p $) later $. $( $c early $. $)\n"
        for label, word in (("c", "late"), ("d", "early"), ("e", "later")):
            text += f"${{ {label}.1 $e |- {word} p $. {label} $p |- {word} p $= {label}.1 $. $}}\n"
        text += "f $p |- p $= wp a $. g $p |- p $= wp b $.\n"
        self.write("db.mm", text)
        for place, ready in (("a", []), ("b", ["d", "f"]), ("c", ["d", "e", "f", "g"])):
            self.assertEqual(self.labels("db.mm", place), ready, place)
        self.assertEqual(self.labels("db.mm", "c", "--not=e,f"), ["d", "g"])

    def labels(self, name: str, place: str, *words: str) -> list[str]:
        """The theorems that are ready for a place."""
        rows = self.query("move", name, "--ready", place, *words, "--format=json").rows()
        return [str(row["theorem"]) for row in rows]

    def test_where_nothing_is_ready(self) -> None:
        self.closed()
        for place in ("five", "one", "wi"):
            done = self.query("move", "closed.mm", "--ready", place)
            why = f"closed.mm: no theorem behind {place} may stand before it as it is"
            self.assertEqual((done.status, done.out, done.err), (0, "", f"mmquery: {why}\n"))
        done = self.query("move", "closed.mm", "--ready", "ax-2", "--main")
        self.assertEqual((done.status, done.out), (0, ""))
        self.assertIn("may stand before it as it is", done.err)
        rows = asked("move", str(self.folder / "closed.mm"), "--ready", "two")
        self.assertEqual(rows, [])

    def test_open_theorems(self) -> None:
        """One that is left open counts as an axiom, so it isn't listed, and what cites it stays
        behind it."""
        self.write("db.mm", PARTS + "seven $p |- ( p -> ( q -> p ) ) $= wp wq one $.\n")
        self.refuses("move", "db.mm", "--ready", "five", why="refused E32")
        for place, ready in (("five", ["seven"]), ("six", ["seven"]), ("one", [])):
            self.assertEqual(self.labels("db.mm", place, "--open"), ready)

    def test_what_ready_refuses(self) -> None:
        self.closed()
        for words, why in (
            (("--ready", "ax-2", "five"), "move takes no THEOREM with it"),
            (("--ready", "ax-2", "--to", "one"), "not allowed with argument"),
            ((), "move wants THEOREM, or --ready PLACE"),
            (("--to", "one"), "move wants THEOREM, or --ready PLACE"),
            (("five", "--main"), "the filters are for --ready"),
            (("--ready", "ax-22"), "has no assertion 'ax-22'; did you mean ax-2?"),
            (("--ready", ""), "has no assertion ''"),
        ):
            self.refuses("move", "closed.mm", *words, why=why)

    def test_after(self) -> None:
        for seed in range(3):
            database = invented(random.Random(seed), 7)
            path = str(self.folder / self.write(f"{seed}.mm", database.text))
            lines = self.answers("order", path, "--format=tsv")
            order = [line.split("\t")[4] for line in lines[1:]]
            for theorem in database.theorems():
                cited = sorted(database.cites[theorem], key=order.index)
                [[what, label, where, line]] = asked("move", path, theorem)
                self.assertEqual((what, label), ("after", cited[-1] if cited else ""))
                if cited:
                    self.assertIn(f" {label} $", database.text.splitlines()[int(line) - 1])
                    self.assertEqual(where, "")

    def test_where(self) -> None:
        path = str(self.folder / self.closed())
        rows = asked("move", path, "five", "--to", "one")
        self.assertEqual(
            [row[:3] for row in rows[:2]], [["after", "four", "Bo"], ["needs", "ax-2", "Ann Other"]]
        )

    def closed(self) -> str:
        """The database without its open theorem, and without what rests on it."""
        return self.write("closed.mm", PARTS[: PARTS.index("todo ")])

    def test_what_is_missing(self) -> None:
        self.closed()
        self.refuses("move", "closed.mm", "six", why="neither a theorem nor an axiom")
        self.refuses("move", "closed.mm", "ax-1", why="")
        self.refuses("move", "closed.mm", "five", "--to", "fore", why="has no assertion")
