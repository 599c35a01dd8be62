"""Lists that `--most` or a number cuts: what is left is their beginning, and standard error says
how much is left out."""

import random
import re
import unittest

from query.tests.test_structure import PARTS
from query.tests.world import Done, World, invented

CUT: dict[tuple[str, ...], str] = {
    ("chapters", "db.mm", "l0", "l1"): "--most",
    ("chapters", "parts.mm", "--open", "--between", "chapter"): "--most",
    ("contributors", "parts.mm", "--open"): "--most",
    ("frees", "db.mm", "l0"): "--most",
    ("proofs", "db.mm"): "--most",
    ("sets", "db.mm"): "",
    ("top", "db.mm"): "",
    ("top", "db.mm", "--theorems"): "",
    ("top", "db.mm", "--below", "99"): "",
}
"""Questions whose answer can be cut, each with the option that does so, or none where it is a
word."""
IN_FILE_ORDER = ("top", "db.mm", "--below", "99")
"""The one that without a number is in another order."""
USUAL = {"frees": 10, "proofs": 10, "top": 10}
"""So many rows have these commands where no number is given."""


class Cut(World):
    """Over a database made by chance."""

    def setUp(self) -> None:
        super().setUp()
        self.write("db.mm", invented(random.Random(3), 30).text)
        named = "$( (Contributed by {}, 1-Jan-2014.) $)\n"
        parts = PARTS.replace("=-=-=-", "#*#*#*").replace("one $p", named.format("An") + "one $p")
        self.write("parts.mm", parts.replace("six $p", named.format("Bo") + "six $p"))

    def asked(self, words: tuple[str, ...], option: str, number: int) -> Done:
        """The answer with so many rows."""
        given = [option, str(number)] if option else [str(number)]
        return self.query(*words, *given, "--format=json")

    def test_each(self) -> None:
        for words, option in CUT.items():
            whole = self.asked(words, option, 999999)
            rows, more = whole.rows(), f"{option} N" if option else "a larger N"
            self.assertGreater(len(rows), 1, words)
            self.assertNotIn("shows more", whole.err, words)
            for number in (1, len(rows) - 1, len(rows), len(rows) + 1):
                done = self.asked(words, option, number)
                self.assertEqual(done.rows(), rows[:number], words)
                said = f"mmquery: {words[1]}: {number} of {len(rows)} rows; {more} shows more"
                is_cut = number < len(rows)
                self.assertEqual(done.err.startswith(said), is_cut, (words, done.err))
                self.assertEqual(done.err.count("\n"), bool(done.err), words)

    def test_without_a_number(self) -> None:
        for words, option in CUT.items():
            rows = self.asked(words, option, 999999).rows()
            done = self.query(*words, "--format=json")
            usual = None if words == IN_FILE_ORDER else USUAL.get(words[0])
            if words != IN_FILE_ORDER:
                self.assertEqual(done.rows(), rows[:usual], words)
            is_cut = usual is not None and usual < len(rows)
            self.assertEqual(bool(re.search(f" {usual} of {len(rows)} rows; ", done.err)), is_cut)


if __name__ == "__main__":
    unittest.main()
