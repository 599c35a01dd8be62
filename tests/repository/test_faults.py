"""Which statement has a fault: `mmquery` and the pages say the same, each by its own algorithm
(query/program/refusals.py, web/packer/faults.js), on texts made by chance."""

import json
import random
import shutil
import subprocess
import unittest

from query.program.refusals import statement_at
from query.tests.world import TOP

WORDS = "$c $v $d $f $e $a $p $= $. ${ $} $( $) $[ $] a1 x.1 -_ + wff |- ( $x a$b $(a $. $.".split()
BAD = ("\x07", "a\x07b", "\u00e9")
"""Words with a byte that isn't allowed. Nothing stands behind them, and the place is that of the
byte, since it is the fault."""
SPACES = (" ", " ", "\n", "\t", "\f", "\r\n")
SEED = 20261201
TEXTS = 400

SCRIPT = """
import { faultOf } from "%s";
import { readFileSync } from "node:fs";
const asked = JSON.parse(readFileSync(0, "utf8"));
const answers = asked.map(([text, place]) => {
    const data = Buffer.from(text, "latin1");
    const before = data.subarray(0, place);
    const line = before.filter((byte) => byte === 10).length + 1;
    const column = place - before.lastIndexOf(10);
    return faultOf(data, { line, column, code: "E10" }).statement;
});
console.log(JSON.stringify(answers));
"""


def texts(chance: random.Random) -> list[tuple[str, int]]:
    """Texts of words and spaces, each with the place of a word."""
    made = []
    for _ in range(TEXTS):
        text, places = "", []
        for _ in range(chance.randrange(1, 25)):
            text += chance.choice(SPACES)
            places.append(len(text))
            text += chance.choice(WORDS)
        if chance.random() < 0.1:
            text += f" {chance.choice(BAD)}"
            places = [next(at for at, sign in enumerate(text) if sign in "\x07\u00e9")]
        made.append((text, chance.choice(places)))
    return made


def named(statement: str) -> str:
    """A statement as the pages write it."""
    return statement and (f"in {statement}" if " " in statement else f"in '{statement}'")


@unittest.skipUnless(shutil.which("node"), "there is no node")
class Statements(unittest.TestCase):
    """The statement in which a place is."""

    def test_both_say_the_same(self) -> None:
        asked = texts(random.Random(SEED))
        done = subprocess.run(
            ["node", "--input-type=module", "-e", SCRIPT % (TOP / "web/packer/faults.js")],
            input=json.dumps(asked),
            capture_output=True,
            text=True,
            check=True,
        )
        found = json.loads(done.stdout)
        wanted = [named(statement_at(text.encode("latin-1"), place)) for text, place in asked]
        for (text, place), one, other in zip(asked, found, wanted, strict=True):
            self.assertEqual(one, other, f"{text!r} at {place}")
        self.assertGreater(len({*wanted}), 5)


if __name__ == "__main__":
    unittest.main()
