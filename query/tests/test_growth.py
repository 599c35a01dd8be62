"""Texts that are made to hurt take no more time and memory than a reader needs that passes each
stretch once. How much they take, and how it grows, says `bench/hostile-query`."""

import shlex
import unittest
from pathlib import Path

from query.gate import rules
from query.tests import shapes
from query.tests.world import World
from query.texts.comment_tokens import tokens
from query.texts.uncommented import declared_at, proof_of, without_comments

SECONDS = 60
MEMORY = 500_000_000


class Shapes(World):
    """Two commands over each shape."""

    takes_long = True

    def test_they_are_answered(self) -> None:
        for shape in shapes.SHAPES:
            for name, data in shape.make(shape.small).items():
                (self.folder / name).write_bytes(data)
            for line in dict.fromkeys((shape.commands[0], shape.commands[-1])):
                with self.subTest(f"{shape.name}: {line}"):
                    words = shlex.split(line)
                    took = shapes.ran(words, self.folder, SECONDS, self.surroundings())
                    if shape.is_limited and took.status == 2:
                        self.assertIn(": not judged: the text needs more than ", took.said)
                    else:
                        self.assertIn(took.status, (0, 1), took)
                    self.assertLess(took.memory, MEMORY, took)
            for path in self.folder.iterdir():
                path.unlink()


class Refused(unittest.TestCase):
    """Texts that may be anything after a wrong proof are searched for its word all the same."""

    def test_they_end(self) -> None:
        many = 1_000_000
        for text in (
            b" " * many + b"$",
            b"$( " * many,
            b"x " * many,
            b"x $p a $= $( $) " + b"$( $) " * many,
            b"x " + b"$( $) " * many,
            b"$v " + b"$( $x $) " * many,
            b"$" * many,
            b"${ " * many + b"x",
            b"x" * many,
            b"x $p " * many,
        ):
            self.assertIsNone(proof_of(without_comments(text), "x"))
            self.assertIsNone(declared_at(without_comments(text), "y"))


class Parts(unittest.TestCase):
    """What reads comments."""

    def test_remarks(self) -> None:
        many = 200_000
        self.assertEqual(len(list(tokens(rules.TOKEN, "/* " * many))), many)
        self.assertEqual(len(list(tokens(rules.TOKEN, "/* ; */ " * many + "x"))), 1)

    def test_remarks_are_what_they_were(self) -> None:
        for text, wanted in (
            ("a /* b */ c", ["a", "c"]),
            ("a/* b */ c", ["a/*", "b", "*/", "c"]),
            ("/*/ a */ b", ["b"]),
            ("/* a", ["/*", "a"]),
            ("/**/x", ["x"]),
            ("'/* a' */", ["'/* a'", "*/"]),
        ):
            found = [match[0] for match in tokens(rules.TOKEN, text)]
            self.assertEqual(found, wanted, text)


class Small(unittest.TestCase):
    """The shapes themselves."""

    def test_commands_read_what_is_made(self) -> None:
        for shape in shapes.SHAPES:
            files = shape.make(3)
            self.assertLessEqual(set(files), {"a.mm", "b.mm", "mmdepend.toml"})
            for line in shape.commands:
                named = {word for word in line.split() if Path(word).suffix == ".mm"}
                self.assertLessEqual(named, set(files), line)


if __name__ == "__main__":
    unittest.main()
