"""Edits of what laws say, in copies of the laws."""

import tempfile
from pathlib import Path

from proving.edits import Edit, edits_of
from proving.functions import functions_of
from proving.laws import Modules, Reach
from proving.tests.repositories import CRATES, Repository, edit
from proving.tree import Tree

SUMS = """//! Sums.

ghost use Rattle.std.specs.Prelude.{ℕ, ◌+◌};
ghost use Rattle.laws.specs.Sums.{IsSum, SumIsUnique};

/// Two numbers have one sum.
pub fn numbers_have_one_sum()
    ensures some_sum { (a b : ℕ) → IsSum a b (a + b) }
    ensures one_sum { SumIsUnique }
{}
"""
LAWS = {
    "src/lib.rt": """//! Laws.
#![tactic(auto)]

mod sums;

pub use sums::numbers_have_one_sum;
""",
    "src/sums.rt": SUMS,
    "specs/Lib.antt": "pub mod Sums\n",
    "specs/Sums.antt": """-- Sums.
use Rattle.std.specs.Prelude.{◌≡◌, ℕ, ◌+◌}

-- c is the sum of a and b
abbrev pub IsSum : ℕ → ℕ → ℕ → Type 0
IsSum a b c = c ≡ a + b

-- two numbers have at most one sum
abbrev pub SumIsUnique : Type 0
SumIsUnique = (a b c d : ℕ) → IsSum a b c → IsSum a b d → c ≡ d
""",
    "proofs/Lib.antt": "pub mod SumLaw\n",
    "proofs/SumLaw.antt": """-- Sums.
use Rattle.std.specs.Prelude.{ℕ, ◌+◌, refl}
use Rattle.std.proofs.Common.{arith}
use Rattle.laws.specs.Sums.{IsSum, SumIsUnique}

pub sum_exists : (a b : ℕ) → IsSum a b (a + b)
sum_exists a b = refl

pub sum_is_unique : SumIsUnique
sum_is_unique a b c d is_c is_d = omega (arith, is_c, is_d)
""",
    "proofs/sums/numbers_have_one_sum/Answers.antt": """\
use Rattle.laws.proofs.SumLaw.{sum_exists, sum_is_unique}
use Rattle.laws.proofs.sums.numbers_have_one_sum.Goals as goal

pub returns : goal.returns
returns c = record { some_sum = sum_exists; one_sum = sum_is_unique }
""",
}
DEFINED = "IsSum a b c = c ≡ a + b"
UNIQUE = "(a b c d : ℕ) → IsSum a b c → IsSum a b d → c ≡ d"
STATED = "(a b : ℕ) → IsSum a b (a + b)"
WRONG = {
    "must-fail/twice_the_first": edit(DEFINED, "IsSum a b c = c ≡ a + a", "specs/Sums.antt"),
    "must-fail/any_sum_is_the_other": edit(
        UNIQUE, "(a b c d : ℕ) → IsSum a b c → IsSum a b c → c ≡ d", "specs/Sums.antt"
    ),
    "wrong-bodies/sum_is_the_first": edit(STATED, "(a b : ℕ) → IsSum a b a", "src/sums.rt"),
}


# These say the same as before.
RIGHT = {
    "wrong-bodies/right_law": edit(
        UNIQUE, "(a b d c : ℕ) → IsSum a b d → IsSum a b c → d ≡ c", "specs/Sums.antt"
    ),
    "wrong-bodies/right_clause": edit(STATED, "(m n : ℕ) → IsSum m n (m + n)", "src/sums.rt"),
}
# These can't be read, the second by antt, or only give another name to what the proof names.
BAD = {
    "wrong-bodies/no_clause": edit("{ SumIsUnique }", "{ SumIsUnique", "src/sums.rt"),
    "wrong-bodies/no_text": edit(DEFINED, "IsSum a b c = c ≡ a +", "specs/Sums.antt"),
    "wrong-bodies/other_name": edit("some_sum", "any_sum", "src/sums.rt"),
}


class Laws(Repository):
    """A crate of one law, and its edits."""

    def setUp(self) -> None:
        super().setUp()
        self.write("crates.txt", f"{CRATES}laws:\n")
        for name, text in LAWS.items():
            self.write(f"crates/laws/{name}", text)

    def edits(self, texts: dict[str, str]) -> None:
        """Writes edits of the crate."""
        for name, text in texts.items():
            self.write(f"crates/laws/{name}.edit", text)

    def test_wrong_ones_and_right_ones(self) -> None:
        """In one check wrong laws are refused, each for its own reason, and no others."""
        self.edits({**WRONG, **RIGHT, **BAD})
        proved = self.run_it("crates", "laws")
        self.assertEqual(proved.status, 0, proved.said)
        done = self.bodies("laws")
        self.assertEqual((done.status, done.last), (1, "3 passed, 5 failed"), done.said)
        # One check more, since the first can't read a clause and tells nothing else.
        self.assertIn("| laws | 8 | 0 | 3 | 0 | 5 | 2 |", done.said)
        for name, why in (
            ("must-fail/twice_the_first", r"proofs/SumLaw\S+ error: `sum_exists`"),
            ("must-fail/any_sum_is_the_other", r"proofs/SumLaw\S+ error: `sum_is_unique`"),
            ("wrong-bodies/sum_is_the_first", r"proofs/sums\S+/Answers\S+ error: `returns`"),
        ):
            self.assertRegex(done.said, rf"(?m)^laws/{name}: refused: \./{why}")
        failed = self.failures(done)
        self.assertEqual({*failed}, {f"laws/{name}" for name in (*RIGHT, *BAD)})
        for name in RIGHT:
            self.assertIn("still proved", failed[f"laws/{name}"])
        for name in ("no_clause", "no_text"):
            self.assertIn("BAD EDIT", failed[f"laws/wrong-bodies/{name}"])
        self.assertIn("names what it took away", failed["laws/wrong-bodies/other_name"])

    def reached(self) -> dict[str, Reach | None]:
        """What each edit reaches."""
        with tempfile.TemporaryDirectory(dir=self.place) as folder:
            crate = Tree(self.top, Path(folder)).crates["laws"]
            modules = Modules(crate, functions_of(crate))
            found: list[Edit] = edits_of(crate)[0]
            return {edit.path.stem: modules.reached(edit) for edit in found}

    def test_what_is_reached(self) -> None:
        """Laws that state what is changed, and what their proofs read between."""
        self.edits(WRONG)
        self.write("crates/laws/proofs/Lib.antt", "pub mod SumLaw\npub mod Another\n")
        self.write("crates/laws/proofs/Another.antt", LAWS["proofs/SumLaw.antt"])
        law = ("src", "sums")
        by_definition = {law, ("specs", "Sums"), ("proofs", "SumLaw")}
        for name, reach in self.reached().items():
            assert reach is not None
            self.assertEqual({it.name for it in reach.laws}, {"numbers_have_one_sum"})
            by_clause = name == "sum_is_the_first"
            self.assertEqual(reach.modules, {law} if by_clause else by_definition)

    def test_what_cannot_be_copied(self) -> None:
        """Edits of what code states too, of a file that declares others, and of a proof."""
        self.edits(WRONG)
        for name, old, new in (
            ("specs/Lib", "pub mod Sums", "mod Sums"),
            ("proofs/SumLaw", "sum_exists a b", "sum_exists b a"),
        ):
            self.edits({f"wrong-bodies/{name.lower()[:5]}": edit(old, new, f"{name}.antt")})
        none = {name for name, reach in self.reached().items() if reach is None}
        self.assertEqual(none, {"specs", "proof"})
        for more in (
            "pub fn none()\n    ensures { SumIsUnique }\n{\n    f()\n}",
            "pub struct One;",
        ):
            self.write("crates/laws/src/sums.rt", f"{SUMS}\n{more}\n")
            self.assertEqual({*self.reached().values()}, {None}, more)
