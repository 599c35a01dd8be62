"""What `library/compile` links after `rt ci`: what that has just proved, and nothing else."""

import os
import shutil
import subprocess
import unittest

from proving.tests.repositories import LOW, TOP, Repository

LIBRARY = """//! The library.
#![tactic(auto)]

ghost use Rattle.std.specs.Prelude.{◌≡◌};

/// One, or two.
#[unsafe(no_mangle)]
pub extern "C" fn number() -> u32
    ensures is_number { result ≡ 1 }
{
    low::one()
}
"""
CALLER = "unsigned number(void); int main(void) { return (int)number(); }\n"
CRATES = "low:\nmm_library staticlib: low\n"


@unittest.skipUnless(shutil.which("cc"), "there is no C compiler")
class Compiled(Repository):
    """A library over another, of which something changes between two runs of `rt ci`."""

    def setUp(self) -> None:
        super().setUp()
        shutil.rmtree(self.top / "crates/high")
        shutil.copytree(TOP / "library", self.top / "library")
        self.write("crates.txt", CRATES)
        self.write("crates/mm_library/src/lib.rt", LIBRARY)
        self.write("caller.c", CALLER)

    def number(self) -> int:
        """The number that a program has from the library, which is compiled over what is proved."""
        surroundings = {**os.environ, "AFTER_CI": "yes", "LIBRARY_WORK": str(self.temporary)}
        done = subprocess.run(
            [self.top / "library/compile"],
            cwd=self.top,
            env=surroundings,
            stdout=subprocess.PIPE,
            stderr=subprocess.STDOUT,
            text=True,
            check=False,
        )
        self.assertEqual(done.returncode, 0, done.stdout)
        archive = "crates/mm_library/out/libmm_library.a"
        compiled = ["cc", "-o", "caller", "caller.c", archive]
        subprocess.run(compiled, cwd=self.top, check=True)
        return subprocess.run([self.top / "caller"], check=False).returncode

    def test_an_out_folder_of_an_earlier_run(self) -> None:
        self.proved()
        first = self.format()
        self.assertEqual(self.number(), 1)
        for name, text in (("low", LOW), ("mm_library", LIBRARY)):
            newer = text.replace("    1\n", "    2\n").replace("result ≡ 1 }", "result ≡ 2 }")
            self.write(f"crates/{name}/src/lib.rt", newer)
        self.proved()
        # `rt ci` has put the library back that was there before it.
        self.assertEqual(self.format(), first)
        self.assertEqual(self.number(), 2)

    def format(self) -> bytes:
        """What tells which library lies in the folder `out/` of the lower crate."""
        return (self.top / "crates/low/out/rlib/low.rlib/format").read_bytes()

    def test_what_is_not_proved(self) -> None:
        self.proved()
        self.write("crates/low/src/lib.rt", LOW.replace("    1\n", "    2\n"))
        with self.assertRaises(AssertionError):
            self.number()
        self.assertFalse((self.top / "crates/mm_library/out/libmm_library.a").exists())


if __name__ == "__main__":
    unittest.main()
