"""The program that `rt ci` proved of some crates, put where `./mmdepend` looks for it."""

import subprocess
import unittest

from proving.tests.repositories import Repository

MAIN = """//! The program.
#![tactic(auto)]

use std::io;

/// Prints a number.
fn main(rt: HostRuntime) -> io::Result<()> {
    println!(rt; "{}", low::one())
}
"""


class Program(Repository):
    """A program over a library."""

    def test_a_program_that_is_kept(self) -> None:
        self.write("crates.txt", "low:\nhigh: low\nmmdepend: low\n")
        self.write("crates/mmdepend/src/main.rt", MAIN)
        self.write("crates/mmdepend/stdout", "1\n")
        done = self.run_it("crates")
        self.assertEqual(done.status, 0, done.said)
        made = self.top / "crates/mmdepend/out/mmdepend"
        made.unlink(missing_ok=True)
        done = self.run_it("program")
        self.assertEqual(done.status, 0, done.said)
        ran = subprocess.run([made], stdout=subprocess.PIPE, check=True)
        self.assertEqual(ran.stdout, b"1\n")
        self.assertEqual([*self.temporary.iterdir()], [])
        # It is no program of other sources.
        made.unlink()
        self.write("crates/mmdepend/src/main.rt", MAIN.replace("a number", "the number"))
        done = self.run_it("program")
        self.assertEqual((done.status, done.last[:8]), (1, "proving:"), done.said)
        self.assertFalse(made.exists())


if __name__ == "__main__":
    unittest.main()
