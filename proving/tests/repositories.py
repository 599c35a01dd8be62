"""A small repository that tests prove: two libraries, each of few functions, and their edits."""

import os
import re
import shutil
import subprocess
import sys
import tempfile
import unittest
from dataclasses import dataclass
from pathlib import Path

TOP = Path(__file__).resolve().parent.parent.parent
LOW = """//! Numbers.
#![tactic(auto)]

ghost use Rattle.std.specs.Prelude.{◌≡◌, ◌+◌, ◌<◌};

/// A pair.
#[derive(Clone, Copy)]
pub struct Pair {
    pub left: u32,
    pub right: u32,
}

impl Pair {
    /// The left one.
    pub fn left(&self) -> u32
        ensures is_left { result ≡ self.now.left }
    {
        self.left
    }
}

/// What has a size.
pub trait Measured {
    /// The size.
    fn size(&self) -> u32;
}

impl Measured for Pair {
    fn size(&self) -> u32
        ensures is_right { result ≡ self.now.right }
    {
        self.right
    }
}

/// Twice a number.
pub fn twice(n: u32) -> u32
    requires small { n < 100 }
    ensures is_sum { result ≡ n + n }
{
    let sum = n + n;
    sum
}

/// One.
pub fn one() -> u32
    ensures is_one { result ≡ 1 }
{
    1
}
"""
HIGH = """//! Above.
#![tactic(auto)]

ghost use Rattle.std.specs.Prelude.{◌≡◌};

/// Two.
pub fn two() -> u32
    ensures is_two { result ≡ 2 }
{
    low::twice(low::one())
}
"""
CRATES = "# NAME: what it stands on\nlow:\nhigh: low\n"


def edit(old: str, new: str, file: str = "src/lib.rt") -> str:
    """The text of an edit."""
    return f"file: {file}\nold: {old}\nnew: {new}\n"


EDITS = {
    "low/must-fail/one_less.edit": edit("let sum = n + n;", "let sum = n;"),
    "low/must-fail/another_one.edit": edit("    1", "    2"),
    "low/wrong-bodies/right_for_left.edit": edit("        self.left", "        self.right"),
    "low/wrong-bodies/size_of_the_left.edit": edit("        self.right", "        self.left"),
    "high/must-fail/only_one.edit": edit("low::twice(low::one())", "low::one()"),
    "high/must-fail/four.edit": edit("low::one()", "2"),
}


@dataclass
class Done:
    """What a command wrote, and its status."""

    said: str
    status: int

    @property
    def last(self) -> str:
        """The last line."""
        return self.said.rstrip("\n").rpartition("\n")[2]


@unittest.skipUnless(shutil.which("rt"), "the toolchain's command rt isn't there")
class Repository(unittest.TestCase):
    """A test with a small repository in a folder of its own."""

    def setUp(self) -> None:
        self.place = Path(tempfile.mkdtemp(prefix="proving-"))
        self.addCleanup(shutil.rmtree, self.place, True)
        self.top = self.place / "repository"
        self.temporary = self.place / "temporary"
        self.temporary.mkdir()
        shutil.copytree(
            TOP / "proving", self.top / "proving", ignore=shutil.ignore_patterns("tests", "__*__")
        )
        for name in ("__init__.py", "__main__.py"):
            shutil.copy(TOP / "proving" / name, self.top / "proving")
        (self.top / ".git").mkdir()
        self.write("crates.txt", CRATES)
        self.write("crates/low/src/lib.rt", LOW)
        self.write("crates/high/src/lib.rt", HIGH)
        for name, text in EDITS.items():
            self.write(f"crates/{name}", text)

    def write(self, name: str, text: str) -> None:
        """Writes a file of the repository."""
        path = self.top / name
        path.parent.mkdir(parents=True, exist_ok=True)
        path.write_text(text, "utf-8")

    def started(self, *words: str, under: str = "") -> "subprocess.Popen[str]":
        """A command of the package that is running, in a shell after the line `under`.

        Where `CI` is set, `rt ci` with names is refused, since that isn't the gate.
        """
        line = f'{under} exec "$@"'
        environment = {name: value for name, value in os.environ.items() if name != "CI"}
        return subprocess.Popen(
            ["bash", "-c", line, "", sys.executable, "-B", "-m", "proving", *words],
            cwd=self.top,
            env={**environment, "TMPDIR": str(self.temporary), "RT_JOBS": "2"},
            stdin=subprocess.DEVNULL,
            stdout=subprocess.PIPE,
            stderr=subprocess.STDOUT,
            text=True,
            errors="replace",
        )

    def run_it(self, *words: str, under: str = "") -> Done:
        """Runs a command of the package to its end."""
        process = self.started(*words, under=under)
        said, _ = process.communicate()
        return Done(said, process.returncode)

    def proved(self) -> None:
        """Has the crates proved, as `rt ci` does."""
        done = self.run_it("crates")
        self.assertEqual((done.status, done.last), (0, "2 passed, 0 failed"), done.said)

    def bodies(self, *words: str, under: str = "") -> Done:
        """Tries the wrong bodies, also those that an earlier test tried."""
        return self.run_it("bodies", "--anew", *words, under=under)

    def failures(self, done: Done) -> dict[str, str]:
        """What failed, and why."""
        return dict(re.findall(r"(?m)^FAILED: (\S+): (.*)", done.said))
