"""The commands in the pages: each block of them is run by a test, or it is said why none can.

Here the commands about set.mm are run over a small database that has its labels. So they are tried
where there is no set.mm; what they answer is another thing, which `test_pages.py` compares.
"""

import re
import subprocess
import tempfile
import textwrap
import unittest
from collections import Counter
from collections.abc import Iterator
from dataclasses import dataclass
from pathlib import Path

from query.tests.world import PROGRAM_FOR_NODE, TOP, World, built_program

FENCE = re.compile(r"^( *)```(\w*)\n(.*?)^ *```$", re.DOTALL | re.MULTILINE)
COMMANDS = ("sh", "console", "python", "js", "sql")
"""The kinds of blocks that somebody runs."""
HERE = "tests/repository/test_documents.py"

RUN_BY = {
    ("README.md", "console"): (HERE, "tests/package"),
    ("README.md", "sh"): ("tests/packages",),
    ("docs/COOKBOOK.md", "console"): (HERE, "tests/repository/test_pages.py"),
    ("docs/COOKBOOK.md", "sh"): (HERE,),
    ("docs/DEFINITIONS.md", "sh"): ("tests/repository/test_pages.py",),
    ("docs/GATE.md", "console"): ("query/tests/test_gate.py",),
    ("docs/INSTALL.md", "sh"): ("tests/package",),
    ("docs/LIBRARY.md", "js"): ("tests/node",),
    ("docs/LIBRARY.md", "python"): ("tests/package",),
    ("docs/LIBRARY.md", "sh"): ("tests/package",),
    ("docs/PROGRAM.md", "console"): ("tests/package",),
    ("docs/PROGRAM.md", "sh"): ("tests/package",),
    ("docs/PUBLISHING.md", "sh"): (HERE,),
    ("docs/QUESTIONS.md", "console"): (HERE, "tests/repository/test_pages.py"),
    ("docs/SQL.md", "console"): (HERE, "query/tests/test_export.py"),
    ("docs/SQL.md", "sql"): ("query/tests/test_export.py",),
    ("docs/SYNTAX.md", "console"): ("query/tests/test_hostile.py",),
}
"""Which tests run the blocks of a page of a kind."""
CANNOT_RUN = {
    ("docs/PROOFS.md", "sh"): "it proves a crate, which takes minutes; ./test proves all",
}


@dataclass(frozen=True)
class Block:
    """A block of a page, without its indentation."""

    page: str
    kind: str
    text: str


def blocks() -> Iterator[Block]:
    """The blocks of all pages."""
    for page in (TOP / "README.md", *sorted((TOP / "docs").glob("*.md")), TOP / "bench/README.md"):
        for _, kind, text in FENCE.findall(page.read_text("utf-8")):
            yield Block(str(page.relative_to(TOP)), kind, textwrap.dedent(text))


def commands_of(page: str) -> list[str]:
    """The commands that a page shows with their answers, in their order."""
    shown = [block.text for block in blocks() if (block.page, block.kind) == (page, "console")]
    return [line[2:] for text in shown for line in text.splitlines() if line.startswith("$ ")]


class Blocks(unittest.TestCase):
    """The tables above."""

    def test_each_block_has_a_test(self) -> None:
        found = Counter((block.page, block.kind) for block in blocks() if block.kind in COMMANDS)
        self.assertEqual(set(found), {*RUN_BY, *CANNOT_RUN})
        for (page, _), tests in RUN_BY.items():
            for test in tests:
                name = page.removeprefix("docs/").removesuffix(".md")
                self.assertIn(name, (TOP / test).read_text("utf-8"), f"{test} of {page}")

    def test_blocks_of_no_kind_have_no_commands(self) -> None:
        words = r"\$ |\./|cd |mmdepend \D|(mmquery|git|pip|npm|node|rt|python3|sudo|tar|cc|curl) "
        for block in blocks():
            if block.kind not in COMMANDS:
                for line in block.text.splitlines():
                    self.assertNotRegex(line, rf"\A(?:{words})", block.page)


TITLE = {1: "####", 2: "#*#*", 3: "=-=-", 4: "-.-."}
"""How a header of each level begins."""
THEOREMS = {
    "2p2e4": "df-4",
    "eujust": "ax-10",
    "ax13v": "ax-13",
    "axc9lem1": "ax-13",
    "hbsb2": "ax13v",
    "ax6e": "ax13v",
    "axac3": "ax-ac2",
    "cardeqv": "axac3",
    "numth3": "cardeqv",
    "numth2": "numth3",
    "zorn": "numth3",
    "zorn2g": "zorn",
    "stirling": "zorn",
    "fodom": "axac3",
    "axreg2": "ax-reg",
    "r1pw": "axreg2",
    "r1pwALT": "ax-1",
    "idALT": "ax-1",
    "id1": "idALT",
}
"""Theorems of set.mm that the pages name, each with what it cites here."""


def header(level: int, title: str) -> str:
    """A header as set.mm has them."""
    line = TITLE[level] * 10
    return f"$(\n{line}\n  {title}\n{line}\n$)\n"


AXIOMS = "ax-1 ax-2 ax-3 ax-10 ax-13 ax-ext ax-pr ax-reg ax-inf2 ax-cc ax-ac2 ax-groth df-4 df-ss"
START = """$c wff |- ( -> ) $.
$v p q $.
wp $f wff p $.
wq $f wff q $.
wi $a wff ( p -> q ) $.
$c class ~~ $. $v A B X Y $. cA $f class A $. cB $f class B $. cX $f class X $. cY $f class Y $.
wen $a wff A ~~ B $. $c = C_ $. wceq $a wff A = B $. wss $a wff A C_ B $.
${ min $e |- p $. maj $e |- ( p -> q ) $. ax-mp $a |- q $. $}
id $p |- ( p -> ( p -> p ) ) $= wp wp ax-0 $.
"""


def stand_in() -> str:
    """A database in which each command of the pages has an answer. All axioms that it has of
    set.mm's names state the same, and so do the theorems but `id`."""
    formula = "|- ( p -> ( q -> p ) )"
    lines = [header(1, "One"), START.replace("id $p", f"ax-0 $a {formula} $.\nid $p")]
    lines += [header(1, "Two"), header(1, "Three"), header(2, "A"), header(2, "B"), header(3, "a")]
    lines += [f"{name} $a {formula} $." for name in AXIOMS.split()]
    lines.append(header(3, "b"))
    lines += [f"{name} $p {formula} $= wp wq {cited} $." for name, cited in THEOREMS.items()]
    lines += [header(1, "Elementary geometry"), header(1, "Complex Hilbert space explorer")]
    lines += [f"norm3 $p {formula} $= wp wq ax-1 $.", header(1, "Mathbox for A B")]
    lines.append(header(1, "Mathbox for Stefan Allan"))
    lines += ["$( (Contributed by Mario Carneiro, 31-May-2014.) $)"]
    lines += [f"foo3 $p {formula} $= wp wq ax-1 $."]
    return "\n".join(lines) + "\n"


class Commands(World):
    """Commands of a page, one after the other."""

    def setUp(self) -> None:
        super().setUp()
        self.write("set.mm", stand_in())
        self.write("pull.mm", stand_in() + "wbad $a wff ( p -> p ) $.\n")
        programs = self.folder.parent / "programs"
        programs.mkdir()
        (programs / "mmdepend").symlink_to(built_program())
        self.path = f"{programs}:{TOP}:{self.surroundings()['PATH']}"

    def all_answer(self, page: str) -> int:
        """Each command of a page ends with status 0 or 1. Returns how many these are."""
        lines = commands_of(page)
        for line in lines:
            if " page " in line and not PROGRAM_FOR_NODE.exists():
                continue
            script = (
                f'{line}\nfor each in "${{PIPESTATUS[@]}}"; do [ "$each" -lt 2 ] || exit 9; done'
            )
            done = self.ran("bash", "-c", script, PATH=self.path)
            self.assertEqual(done.status, 0, f"{page}: {line}\n{done.err}")
        return len(lines)

    def test_the_stand_in(self) -> None:
        """It is a database of which the page's first example is true."""
        self.assertIn("set.mm: valid, 20 axioms", self.query("verify", "set.mm").out)
        chain = "zorn numth3 cardeqv axac3 ax-ac2".split()
        self.assertEqual(self.answers("why", "set.mm", "zorn", "ax-ac2"), chain)

    def test_readme(self) -> None:
        self.assertGreater(self.all_answer("README.md"), 5)

    def test_cookbook(self) -> None:
        self.assertGreater(self.all_answer("docs/COOKBOOK.md"), 50)

    def test_blocks_of_the_cookbook(self) -> None:
        for block in blocks():
            if (block.page, block.kind) == ("docs/COOKBOOK.md", "sh"):
                if "ln -s" in block.text:
                    (self.folder / "set.mm").unlink()
                done = self.ran("bash", "-e", "-c", block.text, PATH=self.path)
                self.assertEqual(done, self.ran("true"), block.text)
                (self.folder / "set.mm").unlink()
                self.write("set.mm", stand_in())
        self.assertEqual(self.answers("cites", "report", "zorn"), ["numth3"])

    def test_questions(self) -> None:
        self.assertGreater(self.all_answer("docs/QUESTIONS.md"), 20)

    def test_tables_of_sqlite(self) -> None:
        self.assertEqual(self.all_answer("docs/SQL.md"), 1)


RECORDING = """#!/bin/sh
echo "$(basename "$0") $*" >>"$HOME/called"
for word; do
    case $word in
        out/* | ./out/* | SHA256SUMS* | CHANGELOG.md)
            [ -e "$word" ] || { echo "there is no $word" >&2; exit 1; }
            ;;
    esac
done
case "$(basename "$0") $1" in
    "git clone") cp -R "$HOME/repository" "$3" ;;
    "gpg --armor") touch SHA256SUMS.asc ;;
esac
"""
"""What stands for a command that publishes: it notes its words, and wants the files to be there."""
PACKING = """#!/bin/sh
mkdir -p out
for name in {names}; do echo "$name" >"out/$name"; done
"""


class Publishing(unittest.TestCase):
    """docs/PUBLISHING.md, with commands that publish nothing."""

    def setUp(self) -> None:
        folder = tempfile.TemporaryDirectory(prefix="mmquery-test-")
        self.addCleanup(folder.cleanup)
        self.folder = Path(folder.name)
        (self.folder / "repository").mkdir()
        install = (TOP / "docs" / "INSTALL.md").read_text("utf-8")
        self.names = sorted(
            set(re.findall(r"mmdepend[-_][\w.-]+\.(?:whl|tgz|deb|tar\.gz)", install))
        )
        self.script("repository/package", PACKING.format(names=" ".join(self.names)))
        self.script("repository/test", "#!/bin/sh\n")
        (self.folder / "repository" / "CHANGELOG.md").touch()
        (self.folder / "commands").mkdir()
        for name in "git gpg gh twine npm reprepro".split():
            self.script(f"commands/{name}", RECORDING)

    def script(self, name: str, text: str) -> None:
        """Writes a file that can be run."""
        (self.folder / name).write_text(text)
        (self.folder / name).chmod(0o755)

    def test_the_steps(self) -> None:
        steps = [block.text for block in blocks() if block.page == "docs/PUBLISHING.md"]
        surroundings = {"HOME": str(self.folder), "PATH": f"{self.folder}/commands:/usr/bin:/bin"}
        done = subprocess.run(
            ["sh", "-e", "-c", "\n".join(steps)],
            cwd=self.folder,
            env=surroundings,
            capture_output=True,
            text=True,
            check=False,
        )
        self.assertEqual((done.returncode, done.stderr), (0, ""))
        called = (self.folder / "called").read_text()
        self.assertEqual(len(self.names), 5)
        for name in self.names:
            self.assertIn(f"out/{name}", called, "a file that isn't published")
        sums = (self.folder / "release" / "SHA256SUMS").read_text().split()[1::2]
        self.assertEqual(sorted(sums), self.names)
        for word in ("gh release create", "twine upload", "npm publish", "git push REPOSITORY"):
            self.assertIn(word, called)


if __name__ == "__main__":
    unittest.main()
