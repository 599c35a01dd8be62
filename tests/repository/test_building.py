"""What builds and packs names what is missing before it proves anything."""

import os
import shutil
import unittest

from query.tests.world import TOP, World

COMMANDS = "sh bash env readlink dirname uname git tr cut sed python3".split()
"""What is there besides what a test adds."""


class Missing(World):
    """Folders of commands in which some are missing."""

    def setUp(self) -> None:
        super().setUp()
        self.commands = self.folder.parent / "commands"
        self.commands.mkdir()
        for name in COMMANDS:
            path = shutil.which(name)
            assert path is not None, name
            (self.commands / name).symlink_to(path)

    def stand_in(self, *names: str) -> None:
        """Adds commands that note that they were called, and fail."""
        for name in names:
            path = self.commands / name
            path.write_text(f'#!/bin/sh\necho {name} >>"{self.folder}/called"\nexit 1\n')
            path.chmod(0o755)

    def fails(self, *words: str, why: str, **more: str) -> None:
        """A command says what is missing, and calls nothing."""
        done = self.ran(*words, given=b"", PATH=str(self.commands), **more)
        self.assertNotEqual(done.status, 0)
        self.assertIn(why, done.err)
        self.assertEqual(os.listdir(self.folder), [], done.err)

    def test_web_build(self) -> None:
        words = (str(TOP / "web/build"), str(self.folder / "out"))
        self.stand_in("rt")
        both = "there is no esbuild and no wasm-opt: apt-get install esbuild binaryen"
        self.fails(*words, why=both)
        self.fails(words[0], "--module=x", words[1], why="there is no esbuild: apt-get install")
        self.stand_in("esbuild")
        self.fails(*words, why="there is no wasm-opt: apt-get install binaryen")
        self.stand_in("wasm-opt")
        (self.commands / "rt").unlink()
        self.fails(*words, why="there is no rt")

    def test_package(self) -> None:
        words = (str(TOP / "package"), str(self.folder / "out"))
        self.stand_in("rt", "strip", "dpkg-deb")
        self.fails(*words, why="package: missing: apt-get install")
        self.fails(*words, why="esbuild binaryen clang")
        self.fails(*words, why="esbuild binaryen\n", LIBRARY="/nowhere")
        self.stand_in("esbuild", "wasm-opt", "clang")
        (self.commands / "git").unlink()
        self.fails(*words, why="missing: apt-get install git")


if __name__ == "__main__":
    unittest.main()
