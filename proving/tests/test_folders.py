"""Which edits of this repository stand where."""

import re
import unittest
from pathlib import Path

from proving.bodies import LEAST, WITHOUT
from proving.edits import FOLDERS

TOP = Path(__file__).resolve().parent.parent.parent
NAMED = re.compile(r"`(\w+)`(:?)")


def named() -> dict[str, set[str]]:
    """The edits that the table of PROOFS names, by crate. An edit without a crate belongs to the
    crate of the row before; what tests refuse has no edit."""
    page = (TOP / "docs" / "PROOFS.md").read_text("utf-8")
    table = page.partition("\n### The mistakes that were thought of first\n")[2]
    found: dict[str, set[str]] = {}
    crate = ""
    for line in table.partition("\n#")[0].splitlines():
        cells = line.strip("|").split("|")
        if len(cells) != 2 or "test of" in cells[1] or "tests of" in cells[1]:
            continue
        for name, is_crate in NAMED.findall(cells[1]):
            if is_crate:
                crate = name
            else:
                found.setdefault(crate, set()).add(name)
    return found


class Folders(unittest.TestCase):
    """The folders `must-fail` and `wrong-bodies` of each crate."""

    def test_those_that_the_page_names(self) -> None:
        table = named()
        self.assertGreater(sum(map(len, table.values())), 40)
        for crate, names in table.items():
            found = {it.stem for it in (TOP / "crates" / crate / FOLDERS[0]).glob("*.edit")}
            self.assertEqual(names - found, set(), crate)

    def test_each_crate_has_some(self) -> None:
        crates = [it for it in (TOP / "crates").iterdir() if (it / "src").is_dir()]
        self.assertGreater(len(crates), 30)
        for crate in crates:
            found = len([*(crate / FOLDERS[0]).glob("*.edit")])
            self.assertGreaterEqual(found, 0 if crate.name in WITHOUT else LEAST, crate.name)


if __name__ == "__main__":
    unittest.main()
