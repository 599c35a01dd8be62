"""How edits, functions and what the prover says are read, without the prover."""

import shutil
import tempfile
import unittest
from pathlib import Path
from types import SimpleNamespace

from proving.alone import judge
from proving.copies import Copy, named_copies, texts_with
from proving.edits import Edit, edits_of
from proving.functions import can_be_copied, functions_of, owner_of
from proving.tests.repositories import EDITS, LOW, edit
from proving.trial import Trial
from proving.verdicts import Said, Span, is_part, is_proved, reason

SOURCE = """#![tactic(auto)]

pub struct Row {
    at: u32,
}

impl Row {
    pub fn new(alloc: u32) -> Self {
        let _ = Vec::new(alloc);
        Self { at: 1 }
    }

    pub fn depth(&self, other: &Self) -> u32 {
        if self.at == 0 { 0 } else { self.depth(other) }
    }

    pub fn deeper(&self, other: &Self) -> u32 {
        other.rows.deeper(self)
    }

    pub fn made(n: u32) -> Self {
        Self::made(n)
    }
}

impl Drop for Row {
    fn drop(self) {
        let Self { at: _ } = self;
    }
}

#[cycle(parity)]
fn is_even(n: u32) -> bool {
    n == 0 || is_odd(n - 1)
}

fn sum(n: u32) -> u32 {
    row.sum(n)
}

fn again(n: u32) -> u32 {
    again(n)
}
"""
REFUSED = """note: src/lib.rt:7:1: it is not proved that what the function ensures holds (`returns`)
fn low::one_wrong_0: no proof: expected answers in ./proofs/one_wrong_0/Answers.antt
fn low::one_right_0: proved
only=2 proved=1
"""
SPAN = Span("src/lib.rt", 7, 11)


@unittest.skipUnless(shutil.which("rt"), "the toolchain's command rt isn't there")
class Read(unittest.TestCase):
    """A crate in a folder of its own."""

    def setUp(self) -> None:
        self.folder = Path(tempfile.mkdtemp(prefix="proving-")) / "low"
        self.addCleanup(shutil.rmtree, self.folder.parent, True)
        self.crate = SimpleNamespace(name="low", folder=str(self.folder), is_program=False)
        self.write("src/lib.rt", LOW)

    def write(self, name: str, text: str) -> None:
        """Writes a file of the crate."""
        path = self.folder / name
        path.parent.mkdir(parents=True, exist_ok=True)
        path.write_text(text, "utf-8")

    def edits(self, **texts: str) -> list[Edit]:
        """Edits of these names and texts."""
        for name, text in texts.items():
            self.write(f"must-fail/{name}.edit", text)
        return edits_of(self.crate)[0]

    def test_where_an_edit_is(self) -> None:
        functions = functions_of(self.crate)
        owned = {}
        for each in self.edits(
            body=edit("let sum = n + n;", "let sum = n;"),
            left_out=edit("let sum = n + n;", ""),
            contract=edit("is_sum { result ≡ n + n }", "is_sum { result ≡ n }"),
            two=edit("let sum = n + n;", "let sum = n;") + edit("    1\n".rstrip(), "    2"),
            field=edit("pub left: u32", "pub left: u64"),
        ):
            assert each.change is not None
            owner = owner_of(functions, each.change)
            owned[each.path.stem] = owner and owner.name
        self.assertEqual(
            owned,
            {"body": "twice", "left_out": "twice", "contract": None, "two": None, "field": None},
        )

    def test_functions_that_call_themselves(self) -> None:
        self.write("src/lib.rt", SOURCE)
        copied = {it.name: can_be_copied(self.crate, it) for it in functions_of(self.crate)}
        self.assertEqual(
            copied,
            {
                "new": True,
                "depth": False,
                "deeper": True,
                "made": False,
                "drop": False,
                "is_even": False,
                "sum": True,
                "again": False,
            },
        )

    def test_a_proof_that_speaks_of_another(self) -> None:
        self.write("proofs/Lib.antt", "mod Law\n")
        self.write("proofs/Law.antt", "use Rattle.low.proofs.Pair.left.Goals as goal\n")
        copied = {it.name: can_be_copied(self.crate, it) for it in functions_of(self.crate)}
        self.assertEqual(copied, {"left": False, "size": False, "twice": True, "one": True})

    def test_copies(self) -> None:
        own = (
            "use Rattle.low.proofs.Pair.left.Goals as goal\nuse Rattle.low.proofs.Pair.left-over\n"
        )
        self.write("proofs/Pair/left/Answers.antt", own)
        functions = functions_of(self.crate)
        owners = []
        for each in self.edits(
            right=EDITS["low/wrong-bodies/right_for_left.edit"],
            three=edit("    1", "    3"),
            two=edit("    1", "    2"),
        ):
            assert each.change is not None
            function = owner_of(functions, each.change)
            assert function is not None
            owners.append((each, function))
        copies = named_copies(self.crate, owners)
        # A function without proof files is its own right copy.
        names = ("left_wrong_0", "one_wrong_1", "one_wrong_2", "left_right_0", "one")
        self.assertEqual(tuple(it.name for it in copies), names)
        self.right_ones(copies)
        texts = texts_with(self.crate, copies)
        copies = [copy for copy in copies if not copy.is_itself]
        source = texts["src/lib.rt"].decode()
        lines = source.split("\n")
        for copy in copies:
            shown = lines[copy.span.first - 1 : copy.span.last]
            self.assertIn(f"pub fn {copy.name}(", shown[0])
            self.assertEqual(shown[-1].strip(), "}")
        self.assertEqual(source.count("pub fn left"), 3)
        self.assertEqual(source.count("pub fn one("), 1)
        self.assertIn("    pub fn left(&self) -> u32", source)
        # Without the copies it is the text as it was.
        for copy in sorted(copies, key=lambda it: -it.span.first):
            del lines[copy.span.first - 2 : copy.span.last]
        self.assertEqual("\n".join(lines), LOW)
        proof = texts["proofs/Pair/left_wrong_0/Answers.antt"].decode()
        self.assertEqual(proof, own.replace("left.Goals", "left_wrong_0.Goals"))

    def right_ones(self, copies: list[Copy]) -> None:
        """Where the right one isn't proved, no copy of its function says anything."""
        edits = [copy.edit for copy in copies if copy.edit]
        proved = "fn low::Pair::left_right_0: proved\nfn low::one: proved\n"
        for said, unclear in (
            (proved, set()),
            (proved.replace("one: proved", "one: not proved"), {"two", "three"}),
            (proved.replace("fn low::one: proved\n", ""), {"two", "three"}),
            (proved.replace("left_right_0: proved", "left_right_0: no proof"), {"right"}),
        ):
            trial = Trial(self.crate, edits)
            trial.see_the_right_ones(Said(1, said, 0), copies)
            self.assertEqual({it.path.stem for it in edits if it.unclear}, unclear)
            self.assertEqual(bool(trial.odd), bool(unclear))
            for each in edits:
                each.unclear = ""


class Verdicts(unittest.TestCase):
    """What a check says of a function."""

    def why(self, text: str, status: int = 1) -> tuple[bool, str]:
        """Whether the function is refused, and if it isn't, why that can't be told."""
        found, why = reason(Said(status, text, 0), "low::one_wrong_0", SPAN, {"src/lib.rt"})
        return found is not None, why

    def test_refused(self) -> None:
        self.assertEqual(self.why(REFUSED), (True, ""))
        in_proof = REFUSED.replace(
            "note: src/lib.rt:7:1: it is not proved that",
            "./proofs/one_wrong_0/Answers.antt:3:5: error: `returns`: expected",
        )
        self.assertEqual(self.why(in_proof), (True, ""))
        invariant = REFUSED.replace(
            "it is not proved that what the function ensures holds (`returns`)",
            "`search` found no proof (`invariant_of-result`)",
        )
        self.assertEqual(self.why(invariant), (True, ""))

    def test_not_refused(self) -> None:
        """Each thing that has to be there is taken away by itself."""
        for old, new, why in (
            ("no proof: expected answers", "proved", "says 'proved"),
            ("fn low::one_wrong_0", "fn low::one_wrong_1", "says ''"),
            ("only=2 proved=1\n", "", "ended with status 1"),
            ("src/lib.rt:7:1", "src/lib.rt:6:1", "no message says why"),
            ("src/lib.rt:7:1", "src/other.rt:7:1", "no message says why"),
            ("no proof: expected", "not proved: it calls `low::two`, expected", "for the sake of"),
            (
                "note: src/lib.rt:7:1: it is not proved that",
                "./proofs/one_wrong_0/Answers.antt:3:5: error: record has no field",
                "names what the edit took away",
            ),
            (
                "note: src/lib.rt:7:1: it is not proved that",
                "./proofs/one_wrong_01/Answers.antt:3:5: error: expected",
                "no message says why",
            ),
            (
                "note: src/lib.rt:7:1: it is not proved that",
                "src/lib.rt:8:1: error: expected the end",
                "antt can't read it",
            ),
        ):
            text = REFUSED.replace(old, new)
            self.assertNotEqual(text, REFUSED)
            is_refused, said = self.why(text)
            self.assertFalse(is_refused, text)
            self.assertIn(why, said)

    def test_closures(self) -> None:
        """What is said of a closure is said of the function that it is part of."""
        closure = "low::fn::one_wrong_0::map"
        text = REFUSED.replace(
            "no proof: expected answers in ./proofs/one_wrong_0/Answers.antt",
            f"no proof: it calls `{closure}`, which is not proved",
        )
        self.assertEqual(self.why(text), (True, ""))
        in_proof = text.replace(
            "note: src/lib.rt:7:1: it is not proved that",
            "./proofs/fn/one_wrong_0/map/Answers.antt:3:5: error: `returns`: expected",
        )
        self.assertEqual(self.why(in_proof), (True, ""))
        for symbol, is_so in (
            ("a::fn::f::map", True),
            ("a::fn::f::map+FnMut::call_mut", True),
            ("a::fn::f2::map", False),
            ("a::fn::Row::f::map", False),
        ):
            self.assertEqual(is_part(symbol, "a::f"), is_so, symbol)
        self.assertTrue(is_part("a::b::fn::Row::f::map", "a::b::Row::f"))
        self.assertTrue(is_proved("proved where its callers give what it asks"))
        self.assertFalse(is_proved("not proved"))

    def test_a_check_that_has_not_ended(self) -> None:
        for status in (-9, -15, 2, 3, 101):
            self.assertIn(f"ended with status {status}", self.why(REFUSED, status)[1])

    def test_what_the_toolchain_says(self) -> None:
        rt = SimpleNamespace(REFUSED="refused", AT_LIMIT="limit", BAD="bad")
        names = "(only because a proof file names what the edit took away, so .. ): x"
        for kind, said, refused in (
            (rt.REFUSED, "must-fail a/b: refused, as it must be: note: src", "note: src"),
            (rt.REFUSED, "must-fail a/b: refused, as it must be", None),
            (rt.REFUSED, f"must-fail a/b: refused, as it must be {names}", None),
            (rt.AT_LIMIT, "must-fail a/b: refused, as it must be (only by a limit): x", None),
            (rt.BAD, "must-fail a/b: BAD EDIT: it has no pair", None),
            ("missed", "must-fail a/b: NOT REFUSED: the crate is still proved", None),
            ("unsure", "must-fail a/b: NOT TRIED: its check was killed", None),
        ):
            each = Edit(SimpleNamespace(name="a"), Path("a/must-fail/b.edit"))
            judge(each, kind, said)
            self.assertEqual(each.refused, refused)
            self.assertEqual(bool(each.failed), refused is None)


if __name__ == "__main__":
    unittest.main()
