"""Wrong bodies of a small repository, tried by the prover."""

import os
import signal
import time
import unittest
from pathlib import Path

from proving.tests.repositories import EDITS, LOW, Repository, edit


class Refused(Repository):
    """What counts as refused, and what doesn't."""

    def test_all_are_refused(self) -> None:
        self.proved()
        done = self.bodies()
        self.assertEqual((done.status, done.last), (0, f"{len(EDITS)} passed, 0 failed"), done.said)
        self.assertIn("| low | 4 | 0 | 3 | 1 | 0 | 2 |", done.said)
        # In another order, two at once, and taken from what was kept, the result is the same.
        self.assertEqual(self.bodies("--jobs", "2", "low", "high").last, done.last)
        again = self.run_it("bodies")
        self.assertEqual(again.last, done.last)
        self.assertIn("| all | 6 | 6 | 0 | 0 | 0 | 0 | 0 |", again.said)
        self.assertEqual([*self.temporary.iterdir()], [])

    def test_what_fails(self) -> None:
        """Edits that are refused for no good reason, or not at all, beside right ones."""
        wrong = {
            "right_body": edit("let sum = n + n;", "let sum = 2 * n;"),
            "right_value": edit("    1", "    2 - 1"),
            "right_method": edit("        self.right", "        let right = self.right; right"),
            "unknown_name": edit("    1", "    first"),
            "no_text": edit("    1", "    1)"),
            "another_type": edit("    1", "    true"),
            "nowhere": edit("no such text", "1"),
            "nothing": edit("    1", "    1"),
            "contract": edit("is_one { result ≡ 1 }", "is_one { result ≡ 1 + 0 }"),
        }
        for name, text in wrong.items():
            self.write(f"crates/low/wrong-bodies/{name}.edit", text)
        self.proved()
        done = self.bodies()
        failed = self.failures(done)
        names = {f"low/wrong-bodies/{name}" for name in wrong}
        self.assertEqual({*failed}, names, done.said)
        self.assertEqual(done.status, 1)
        self.assertEqual(done.last, f"{len(EDITS)} passed, {len(wrong)} failed")
        for name in ("right_body", "right_value", "right_method", "contract"):
            self.assertIn("still proved", failed[f"low/wrong-bodies/{name}"])

    def test_a_proof_that_names_what_is_gone(self) -> None:
        """A right body is refused only since its proof names a variable that it has no more."""
        self.write(
            "crates/low/src/lib.rt",
            LOW.replace(
                "    let sum = n + n;\n    sum", "    let sum = one() + n;\n    n + sum - 1"
            ),
        )
        answer = "pub returns : goal.returns\nreturns c = omega (arith, c.one.ensures)\n"
        head = "use Rattle.std.proofs.Common.{arith}\nuse Rattle.low.proofs.twice.Goals as goal\n\n"
        self.write("crates/low/proofs/twice/Answers.antt", head + answer)
        self.write("crates/low/proofs/Lib.antt", "")
        self.write(
            "crates/low/must-fail/one_less.edit", edit("let sum = one() + n;", "let sum = 1 + n;")
        )
        done = self.bodies("low/one_less")
        self.assertEqual(done.status, 1, done.said)
        self.assertIn("names what it took away", done.said)
        self.assertEqual(done.last, "0 passed, 1 failed")

    def test_folders(self) -> None:
        self.write("crates/low/must-fail/no edit.txt", "")
        self.write("crates/low/must-fail/README.md", "")
        self.write("crates/low/wrong_bodies/elsewhere.edit", EDITS["low/must-fail/one_less.edit"])
        self.write("crates/low/must-fail/below/deeper.edit", EDITS["low/must-fail/one_less.edit"])
        self.write("crates/low/wrong-bodies/one_less.edit", EDITS["low/must-fail/one_less.edit"])
        (self.top / "crates/high/must-fail/four.edit").unlink()
        self.proved()
        done = self.bodies("low/none", "high/only_one")
        self.assertEqual((done.status, done.last), (1, "1 passed, 6 failed"), done.said)
        for why in (
            "low/must-fail/no edit.txt: no edit has such a name",
            "low/must-fail/below: no edit has such a name",
            "low/wrong_bodies/elsewhere.edit: no edit is looked for here",
            "low/must-fail/below/deeper.edit: no edit is looked for here",
            "low: two edits are called one_less.edit",
            "high: 1 edits stand in must-fail/, and 2 are wanted",
        ):
            self.assertIn(f"FAILED: {why}\n", done.said)

    def test_no_folder(self) -> None:
        for path in (self.top / "crates/low").glob("*/*.edit"):
            path.unlink()
        self.proved()
        done = self.bodies("low", "high/only_one")
        self.assertEqual((done.status, done.last), (1, "1 passed, 1 failed"), done.said)


class Ends(Repository):
    """What ends early never ends as passed."""

    def test_a_crate_that_is_not_proved(self) -> None:
        self.write("crates/low/src/lib.rt", LOW.replace("    1\n", "    2\n"))
        done = self.bodies()
        self.assertEqual((done.status, done.last), (1, "0 passed, 1 failed"), done.said)

    def test_a_prover_that_is_killed(self) -> None:
        """Each check is ended after a second of processor."""
        self.proved()
        done = self.bodies("low", under="ulimit -t 1;")
        self.assertNotEqual(done.status, 0)
        self.assertNotRegex(done.said, r"(?m)^[1-9]\d* passed, 0 failed")

    def test_no_room(self) -> None:
        """No file can be written."""
        self.proved()
        done = self.bodies("low", under="ulimit -f 0;")
        self.assertNotEqual(done.status, 0)
        self.assertNotRegex(done.said, r"(?m)^[1-9]\d* passed, 0 failed")

    def test_signals(self) -> None:
        """A signal ends the run and its checks at once, and leaves nothing."""
        self.proved()
        for number in (signal.SIGINT, signal.SIGTERM, signal.SIGHUP):
            process = self.started("bodies", "--anew")
            wait_for(lambda: bool(working_in(self.temporary)))
            process.send_signal(number)
            said, _ = process.communicate()
            self.assertEqual(process.returncode, 128 + number)
            self.assertNotIn(" passed, ", said)
            wait_for(lambda: not working_in(self.temporary))
            self.assertEqual([*self.temporary.glob("rt-copy-*")], [])

    def test_the_run_is_killed(self) -> None:
        self.proved()
        process = self.started("bodies", "--anew")
        wait_for(lambda: bool(working_in(self.temporary)))
        process.kill()
        said, _ = process.communicate()
        self.assertNotIn(" passed, ", said)
        wait_for(lambda: not working_in(self.temporary))
        # The next run removes what this one left.
        self.assertEqual(self.bodies("low").status, 0)
        self.assertEqual([*self.temporary.iterdir()], [])


def working_in(folder: Path) -> list[str]:
    """The processes whose folder is below this one."""
    found = []
    for process in Path("/proc").glob("[0-9]*"):
        try:
            if os.readlink(process / "cwd").startswith(f"{folder}/"):
                found.append(process.name)
        except OSError:
            continue
    return found


def wait_for(is_so: "object", seconds: float = 600) -> None:
    """Waits until something is so."""
    assert callable(is_so)
    end = time.monotonic() + seconds
    while not is_so():
        if time.monotonic() > end:
            raise AssertionError("waited in vain")
        time.sleep(0.02)


if __name__ == "__main__":
    unittest.main()
