"""What the program says of two databases: taken whole or not at all, and kept."""

import random
import re
import subprocess

from query.comparisons.differences import Differences, differences_of
from query.comparisons.two_texts import OldText
from query.tests.world import SMALL, World, built_program, database_text
from query.texts.assertions import Damaged
from query.texts.text import Text

AXIOM = "ax-new $a |- ( p -> ( p -> p ) ) $.\n"
NEWER = SMALL.replace("wi2 $p", AXIOM + "wi2 $p").replace(
    "ax1 $p |- ( p -> ( q -> p ) ) $= wp wq ax-1 $.\n",
    "ax2 $p |- ( p -> ( p -> p ) ) $= wp ax-new $.\n",
)
HEADINGS = ("new", "gone", "gained", "lost")
WITH_AGAINST = 'case " $* " in *" --against="*) {} ;; *) exec {} "$@" ;; esac\n'


def said_of(old: str, new: str, folder: str) -> bytes:
    """What the program says of two texts."""
    for name, text in (("old.mm", old), ("new.mm", new)):
        with open(f"{folder}/{name}", "w", encoding="ascii") as file:
            file.write(text)
    words = [built_program(), "--open", "--against=old.mm", "new.mm"]
    return subprocess.run(words, cwd=folder, capture_output=True, check=True).stdout


class Read(World):
    """The answer about two small databases."""

    def setUp(self) -> None:
        super().setUp()
        self.said = said_of(SMALL, NEWER, str(self.folder))

    def read(self, said: bytes) -> Differences:
        """What is read of an answer."""
        return differences_of(said, SMALL.encode(), NEWER.encode())

    def damaged(self, said: bytes) -> None:
        """An answer isn't taken."""
        with self.assertRaises(Damaged, msg=said.decode("latin-1")):
            self.read(said)

    def test_whole(self) -> None:
        found = self.read(self.said)
        self.assertEqual([*found.new], ["ax-new", "ax2"])
        self.assertEqual([*found.gone], ["ax1"])
        self.assertEqual(found.gained, {"ax2": "ax-new"})
        self.assertEqual(found.lost, {"ax1": "ax-1"})
        same = said_of(SMALL, SMALL, str(self.folder))
        self.assertEqual(differences_of(same, SMALL.encode(), SMALL.encode()), Differences())

    def test_every_beginning(self) -> None:
        for end in range(len(self.said)):
            self.damaged(self.said[:end])
        for more in (b"\n", b"end\n", b"x:1:ax-1\n", self.said):
            self.damaged(self.said + more)

    def test_lines(self) -> None:
        """One that is gone, doubled, empty or in another place. That a whole line of a section is
        gone can't be seen, and what an assertion's line says behind its front is judged where it is
        asked for."""
        lines = self.said.splitlines(keepends=True)
        for place, line in enumerate(lines):
            is_heading = b":" not in line
            for changed in (
                lines[:place] + lines[place + 1 :] if is_heading else [],
                lines[: place + 1] + lines[place:],
                lines[:place] + [b"\n"] + lines[place:],
                lines[:place] + [b" " + line] + lines[place + 1 :],
                lines[:place] + [line[:-1] + b" \n"] + lines[place + 1 :]
                if b"$" not in line
                else [],
                [line] + lines[:place] + lines[place + 1 :] if place else [],
            ):
                self.damaged(b"".join(changed))

    def test_sections_in_another_order(self) -> None:
        names = [name.encode() for name in HEADINGS]
        parts = re.split(rb"(?m)^(new|gone|gained|lost|end)\n", self.said)
        lines = dict(zip(parts[1::2], parts[2::2]))
        for one in names:
            for other in names:
                swapped = {one: other, other: one}
                order = [swapped.get(name, name) for name in names]
                exchanged = b"".join(name + b"\n" + lines[name] for name in order)
                moved = b"".join(name + b"\n" + lines[swapped.get(name, name)] for name in names)
                if one != other:
                    self.damaged(parts[0] + exchanged + b"end\n")
                    if {one, other} & {b"new", b"gone"}:
                        self.damaged(parts[0] + moved + b"end\n")
            self.damaged(self.said.replace(one + b"\n", b"", 1))

    def test_words(self) -> None:
        for before, after in (
            (b"differences 1", b"differences 2"),
            (b"mmdepend-differences 1", b"mmdepend 1"),
            (b"ax2:1:ax-new", b"ax2:2:ax-new"),
            (b"ax2:1:ax-new", b"ax2:01:ax-new"),
            (b"ax2:1:ax-new", b"ax2:0:"),
            (b"ax2:1:ax-new", b"ax2:2:ax-new "),
            (b"ax2:1:ax-new", b"ax2:2:ax-new  ax-1"),
            (b"ax2:1:ax-new", b"ax 2:1:ax-new"),
            (b"ax2:1:ax-new", b":1:ax-new"),
            (b"ax2:1:ax-new", b"ax2:1:ax-n\xc3\xa9w"),
            (b"ax2:1:ax-new", b"ax2:1:ax-new:"),
            (b"ax2:1:ax-new\n", b"ax2:1:ax-new\nax2:1:ax-1\n"),
            (b"ax2:p:", b"ax 2:p:"),
            (b"ax2:p:", b"ax2:x:"),
            (b"ax2:p:", b"ax3:p:"),
            (b"ax1:p:", b"ax2:p:"),
            (b"ax-new:a:", b"ax-new:a:1"),
        ):
            self.assertIn(before, self.said)
            self.damaged(self.said.replace(before, after, 1))

    def test_a_program_that_ends_too_early(self) -> None:
        """Its answer is none, wherever it ends and with whatever status: within the differences,
        between them and the report, and within that."""
        self.write("old.mm", SMALL)
        self.write("new.mm", NEWER)
        real = built_program()
        size = len(self.said)
        for end in (0, 23, 40, size - 4, size - 1, size, size + 30, size + 300):
            for way in (f'{real} "$@" | head -c {end}', f'{real} "$@" | head -c {end}; exit 1'):
                self.write("cuts", "#!/bin/sh\n" + WITH_AGAINST.format(way, real))
                (self.folder / "cuts").chmod(0o755)
                for command in ("compare", "review", "gate"):
                    words = (command, "old.mm", "new.mm", "--no-cache")
                    why = "old.mm and new.mm: "
                    self.refuses(*words, why=why, MMDEPEND=str(self.folder / "cuts"))
        self.write("dies", "#!/bin/sh\n" + WITH_AGAINST.format("kill -9 $$", real))
        (self.folder / "dies").chmod(0o755)
        why = "old.mm and new.mm: the program was ended by signal 9"
        self.refuses("gate", "old.mm", "new.mm", why=why, MMDEPEND=str(self.folder / "dies"))

    def test_refusals(self) -> None:
        """That of OLD goes before that of NEW, in whatever order they stand."""
        self.write("old.mm", SMALL)
        self.write("bad.mm", SMALL.replace("wi wi $.", "wi $."))
        self.write("worse.mm", SMALL.replace("wp $f", "wp $x"))
        for words, why in (
            (("bad.mm", "old.mm"), "bad.mm:8:47: refused E37 in 'wi2'"),
            (("bad.mm", "worse.mm"), "bad.mm:8:47: refused E37 in 'wi2'"),
            (("worse.mm", "bad.mm"), "worse.mm:3:4: refused E04"),
        ):
            for command in ("compare", "review", "gate"):
                self.refuses(command, *words, why=why)
        for command in ("compare", "review"):
            self.refuses(command, "old.mm", "bad.mm", why="bad.mm:8:47: refused E37 in 'wi2'")
        done = self.query("gate", "old.mm", "bad.mm")
        self.assertEqual(done.status, 1)
        self.assertIn("[valid]", done.out)

    def test_texts_without_axioms(self) -> None:
        self.write("old.mm", SMALL)
        self.write("empty.mm", "")
        self.write("wff.mm", SMALL.partition("ax-1")[0])
        for words, why in (
            (("old.mm", "empty.mm"), "empty.mm: has"),
            (("empty.mm", "old.mm"), "empty.mm: has"),
            (("empty.mm", "empty.mm"), "empty.mm: has"),
        ):
            for command in ("compare", "review", "gate"):
                self.refuses(command, *words, why=why)
        for words in (("wff.mm", "old.mm"), ("old.mm", "wff.mm")):
            self.refuses("compare", *words, why="wff.mm: has no axiom of typecode '|-'")
            self.assertEqual(self.query("compare", *words, "--all").status, 0)
        why = "wff.mm: has no axiom that begins with 'ax-1'"
        self.refuses("compare", "wff.mm", "old.mm", "--all", "--axioms=ax-1", why=why)

    def test_it_is_kept(self) -> None:
        """By both texts, the program and the options."""
        self.write("old.mm", SMALL)
        self.write("new.mm", NEWER)
        real = built_program()
        self.write("tells", '#!/bin/sh\n[ "$1" = --version ] || echo "$@" >>told\n')
        with open(self.folder / "tells", "a", encoding="ascii") as file:
            file.write(f'exec {real} "$@"\n')
        (self.folder / "tells").chmod(0o755)

        def told(*words: str) -> int:
            """How many times a command has the program compare."""
            (self.folder / "told").unlink(missing_ok=True)
            done = self.query(*words, MMDEPEND=str(self.folder / "tells"))
            self.assertIn(done.status, (0, 1), done)
            lines = (self.folder / "told").read_text() if (self.folder / "told").exists() else ""
            return lines.count("--against=")

        for words in (("old.mm", "new.mm"), ("new.mm", "old.mm"), ("old.mm", "new.mm", "--open")):
            self.assertEqual(told("compare", *words), 1)
            self.assertEqual(told("compare", *words), 0)
            self.assertEqual(told("compare", *words, "--no-cache"), 1)
        self.assertEqual(told("review", "old.mm", "new.mm", "--all"), 0)
        self.write("new.mm", NEWER + "\n")
        self.assertEqual(told("compare", "old.mm", "new.mm"), 1)


def standing(text: Text) -> list[tuple[str, str, int, int, int, str]]:
    """Of each assertion what it is, where it stands, and the comment before it."""
    return [
        (one.label, one.letter, one.place, one.end, one.number, text.comment(one))
        for one in text.assertions
    ]


class Standing(World):
    """Where the assertions of OLD stand, beside what its own report says."""

    COMMENTS = (
        *("$( a comment $)", "$( x $p |- p $= ? $. $)", "$( $a $)", "$( (New usage) $. ${ $)"),
        *("$( $= ( $)", "$( wp $f wff p $. $)", "$(\n=-=-\n  Mathbox for A\n=-=-\n$)"),
    )

    def commented(self, chance: random.Random, text: str) -> str:
        """A text with comments between its words."""
        words = re.split(r"(\s+)", text)
        for _ in range(chance.randrange(12)):
            place = 2 * chance.randrange(len(words) // 2)
            words[place] = f"{words[place]} {chance.choice(self.COMMENTS)} "
        return "".join(words)

    def edited(self, chance: random.Random, text: str) -> str:
        """A text in which a comment, or what stands between two, is another."""
        parts = re.split(r"(\$\(.*?\$\)| \$\. )", text, flags=re.DOTALL)
        for _ in range(chance.randrange(4)):
            place = chance.randrange(len(parts))
            if parts[place].startswith("$("):
                parts[place] = chance.choice(("", *self.COMMENTS))
            else:
                parts[place] += chance.choice(self.COMMENTS) + " "
        return "".join(parts)

    def test_by_chance(self) -> None:
        texts = (SMALL, NEWER, SMALL + AXIOM, SMALL.replace("ax1", "ax3"))
        moved = (
            SMALL.replace("ax1 $p |- ( p -> ( q -> p ) ) $= wp wq ax-1 $.\n", "")
            + "ax1 $p |- ( p -> ( q -> p ) ) $= wp wq ax-1 $.\n"
        )
        tried = 0
        for seed in range(60):
            chance = random.Random(seed)
            base = self.commented(chance, chance.choice((*texts, moved)))
            other = self.edited(chance, base)
            if chance.random() < 0.5:
                other = self.commented(chance, chance.choice((*texts, moved)))
            old, new = chance.sample((base, other), 2)
            try:
                said = said_of(old, new, str(self.folder))
            except subprocess.CalledProcessError:
                continue
            tried += 1
            differences = differences_of(said, old.encode(), new.encode())
            before = OldText(old.encode(), database_text(new.encode()), differences)
            wanted = database_text(old.encode())
            self.assertEqual(standing(before), standing(wanted), f"seed {seed}")
        self.assertGreater(tried, 40)

    def test_an_answer_that_does_not_fit(self) -> None:
        """Of other texts it isn't taken."""
        said = said_of(SMALL, NEWER, str(self.folder))
        right = differences_of(said, SMALL.encode(), NEWER.encode())
        text = database_text(NEWER.encode())
        self.assertEqual(len(OldText(SMALL.encode(), text, right).assertions), 7)
        for wrong in (
            Differences(),
            Differences(right.new),
            Differences({}, right.gone),
            Differences({"ax2": right.new["ax2"]}, right.gone),
        ):
            with self.assertRaises(Damaged):
                OldText(SMALL.encode(), text, wrong)
