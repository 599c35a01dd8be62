"""tests/reached, on sources that are made up, and on those of the crates."""

import re
import subprocess
import tempfile
import unittest
from pathlib import Path

from query.tests.world import TOP

SCRIPT = TOP / "tests" / "reached"
PUBLIC = re.compile(r'^ *pub(?:\(\w+\))? (?:const |unsafe |extern "C" )*fn \w', re.MULTILINE)

MAIN = """
use below::{Table, by_constant, by_main};

// Neither not_called() nor "not_called()".
const LIMIT: [u32; 2] = by_constant(1);

/// The program.
fn main() -> [u8; 2]
    ensures is_so { by_contract(1) ≡ 2 }
{
    let by_variable: u32 = 1;
    let text = "not_called()";
    let brace = '}';
    by_main::<u32>(by_variable);
    Table::<A>::of_type(1..by_range()).by_dot()
}

#[test]
fn tests_call() {
    by_test();
}
"""

BELOW = """
ghost use Rattle.std.specs.Prelude.{◌≡◌, by_contract};

pub fn by_main<A>() { private() }
fn private() { by_private() }
pub(crate) fn by_private() {}
pub fn by_constant(n: u32) -> [u32; 2] { [n; 2] }
pub fn by_range() {}
pub fn by_guard() { by_guarded() }
pub fn by_guarded() {}
pub fn by_contract() -> u32 requires { by_contract } ensures n { 1 ≡ 1 } { 1 }
pub fn by_test() {}
pub fn by_variable() {}
pub fn by_trait() {}
pub fn not_called() { called_by_none() }
pub fn called_by_none() {}
pub extern "C" fn exported() { by_export() }
pub fn by_export() {}

impl<A: Allocator> Table<A> {
    ghost view = { λ t. t.by_contract };
    pub fn of_type(n: u32) -> Self { Self::of_own_type() }
    pub fn of_own_type() -> Self { Table }
    pub fn by_dot(&'a self) {}
    pub fn not_called(&self) {}
}

impl<A: Allocator> Display for Table<A> {
    fn fmt(&self) { by_trait() }
}

#[cfg(test)]
mod tests;
"""

BY_GUARD = ["crates/below/src/lib.rt by_guard", "crates/below/src/lib.rt by_guarded"]
NOT_REACHED = ["by_contract", "by_test", "by_variable", "not_called", "called_by_none"]


class MadeUp(unittest.TestCase):
    """Two crates and a surface guard."""

    def setUp(self) -> None:
        folder = tempfile.TemporaryDirectory(prefix="reached-")
        self.addCleanup(folder.cleanup)
        self.top = Path(folder.name)
        self.write("crates/above/src/main.rt", MAIN)
        self.write("crates/below/src/lib.rt", BELOW)
        self.write("crates/below/src/tests.rt", "pub fn help() { by_test() }\n")
        self.write("crates/trials/src/surface.rt", "#[test]\nfn calls() { by_guard() }\n")
        self.surface_only = [f"{place} a reason" for place in BY_GUARD]
        titles = [*NOT_REACHED, "Table::not_called"]
        self.reasons = [f"crates/below/src/lib.rt {title} a reason" for title in titles]

    def write(self, name: str, text: str) -> None:
        """Makes a file."""
        path = self.top / name
        path.parent.mkdir(parents=True, exist_ok=True)
        path.write_text(text, "utf-8")

    def complaints(self, reasons: list[str]) -> list[str]:
        """What the script says of the repository with these reasons, without its last line."""
        self.write("tests/unreached.txt", "\n".join(["# a heading", *reasons, ""]))
        self.write("tests/surface_only.txt", "\n".join([*self.surface_only, ""]))
        done = subprocess.run([SCRIPT, self.top], capture_output=True, encoding="utf-8")
        said = done.stdout.splitlines()[:-1]
        self.assertEqual((done.returncode, done.stderr), (1 if said else 0, ""))
        return said

    def test_what_is_not_reached(self) -> None:
        said = self.complaints([])
        paths = ["crates/below/src/lib.rt"] * len(self.reasons)
        self.assertEqual([line.split()[0] for line in said], paths)
        found = [line.split()[1].rstrip(":") for line in said]
        self.assertEqual(found, [*NOT_REACHED, "Table::not_called"])

    def test_all_have_a_reason(self) -> None:
        self.assertEqual(self.complaints(self.reasons), [])
        self.assertEqual(self.complaints(["crates/below * a reason"]), [])

    def test_one_without_a_reason(self) -> None:
        for left_out in self.reasons:
            said = self.complaints([line for line in self.reasons if line != left_out])
            self.assertEqual(len(said), 1, said)
            self.assertIn(" ".join(left_out.split()[:2]) + ": nothing reaches it", said[0])

    def test_what_the_guard_alone_reaches(self) -> None:
        needed = self.surface_only
        self.surface_only = []
        said = self.complaints(self.reasons)
        self.assertEqual([line.split(":")[0] for line in said], BY_GUARD)
        self.assertTrue(all("tests/surface_only.txt lacks it" in line for line in said), said)
        self.surface_only = [*needed, "crates/below/src/lib.rt by_main a reason"]
        said = self.complaints(self.reasons)
        self.assertEqual(len(said), 1, said)
        self.assertIn("by_main: tests/surface_only.txt has a reason", said[0])

    def test_a_function_of_the_same_file_is_meant(self) -> None:
        hidden = "pub fn by_main() {}\npub fn main_calls() { by_main() }\n"
        self.write("crates/hides/src/lib.rt", hidden)
        self.write("crates/below/src/lib.rt", BELOW.replace("fn by_main()", "fn by_other_main()"))
        said = self.complaints([])
        self.assertTrue(any("crates/hides/src/lib.rt main_calls" in line for line in said), said)

    def test_a_reason_that_is_not_needed(self) -> None:
        for line in (
            "crates/below/src/lib.rt by_main",  # reached
            "crates/below/src/lib.rt gone",
            "crates/above/src/main.rt by_test",  # of another file
            "crates/above *",
        ):
            said = self.complaints([*self.reasons, f"{line} a reason"])
            self.assertEqual(len(said), 1, said)
            self.assertIn(f"{line}: ", said[0])
            self.assertIn("reached or gone", said[0])

    def test_a_reason_without_words(self) -> None:
        without = "crates/below/src/lib.rt by_test"
        reasons = [without if line.startswith(without) else line for line in self.reasons]
        self.assertEqual(self.complaints(reasons), [f"{without}: the reason is empty"])


class Crates(unittest.TestCase):
    """The crates of this repository."""

    def test_no_function_is_overlooked(self) -> None:
        count = 0
        for crate in (TOP / "crates").iterdir():
            if crate.name not in ("trials", "hostile", "lexing"):
                for path in (crate / "src").rglob("*.rt"):
                    count += len(PUBLIC.findall(path.read_text("utf-8")))
        done = subprocess.run([SCRIPT], capture_output=True, encoding="utf-8")
        self.assertEqual(done.stdout.splitlines()[-1].split(" public ")[0], str(count))

    def test_each_has_a_reason(self) -> None:
        done = subprocess.run([SCRIPT], capture_output=True, encoding="utf-8")
        self.assertEqual((done.returncode, done.stderr), (0, ""), done.stdout)


if __name__ == "__main__":
    unittest.main()
