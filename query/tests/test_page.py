"""`mmquery page`: what the page of a database has, and why there is none."""

import hashlib
import json
import random
import re
import shutil
import unittest
from pathlib import Path
from typing import Any
from unittest import mock

from query.answers.errors import NoAnswer
from query.commands import page
from query.tests.repositories import Repositories
from query.tests.world import PROGRAM_FOR_NODE, SMALL, World, database_text, invented, program
from tests.browser import databases
from tests.shared.blocks import Blocks, blocks_in, lines_in

TYPESET = databases.EVIL + databases.EVIL_TYPESETTING
FORBIDDEN = ("innerHTML", "outerHTML", "insertAdjacentHTML", "document.write", "eval(", "Function(")


class Packer(World):
    """The program that makes pages."""

    def test_where_there_is_none(self) -> None:
        """What to do is said for a clone, and for a package."""
        for name, wanted in (
            ("web/build", "in this clone `web/build` makes it, and each package has it"),
            ("other", "each package has it beside mmquery, in {}; install yours anew"),
        ):
            home = self.folder / name.replace("/", "-")
            (home / name).parent.mkdir(parents=True)
            (home / name).touch()
            with mock.patch.object(page, "HOME", str(home)):
                with self.assertRaises(NoAnswer) as raised:
                    page.packer()
            self.assertIn(": " + wanted.format(home), raised.exception.sentence())


@unittest.skipUnless(PROGRAM_FOR_NODE.exists(), "web/build wasn't run")
class Page(World):
    """The command."""

    def page(self, *words: str, given: bytes = b"") -> str:
        """The page that the words ask for."""
        done = self.query("page", *words, given=given)
        self.assertEqual((done.status, done.err), (0, ""), words)
        return done.out

    def blocks(self, *words: str, given: bytes = b"") -> Blocks:
        """Its blocks."""
        return blocks_in(self.page(*words, given=given))

    def facts(self, *words: str, given: bytes = b"") -> dict[str, Any]:
        """What it says of its making."""
        facts: dict[str, Any] = json.loads(self.blocks(*words, given=given)["facts"])
        return facts

    def test_the_file(self) -> None:
        self.write("b.mm", SMALL)
        page = self.page("b.mm", "--title", "{{data}}<b>")
        self.assertTrue(page.startswith("<!doctype html>"))
        self.assertIn("<title>{{data}}&lt;b&gt;</title>", page)
        self.assertEqual(page.count("default-src 'none'"), 1)
        self.assertEqual(page.count('<script type="module">'), 1)
        for word in FORBIDDEN:
            self.assertNotIn(word, page)
        self.assertEqual(page, self.page("b.mm", "--title", "{{data}}<b>"))

    def test_proofs(self) -> None:
        self.write("b.mm", SMALL)
        blocks = self.blocks("b.mm")
        given = re.findall(r"(\S+)\s+\$f\s+(\S+)\s+(\S+)\s+\$\.", SMALL)
        self.assertEqual(lines_in(blocks, "proof-floating"), [" ".join(words) for words in given])
        self.assertEqual(
            [name for name in blocks if name.startswith("proof-steps-")], ["proof-steps-0"]
        )
        for option in ("--essential", "--open"):
            other = self.blocks("b.mm", option)
            self.assertEqual(other["proof-frames"], blocks["proof-frames"], option)

    def test_what_it_says_of_its_making(self) -> None:
        self.write("b.mm", SMALL)
        data = SMALL.encode("latin-1")
        facts = self.facts("b.mm")
        self.assertEqual((facts["title"], facts["file"]), ("b.mm", "b.mm"))
        self.assertEqual(facts["bytes"], len(data))
        self.assertEqual(facts["sha256"], hashlib.sha256(data).hexdigest())
        self.assertRegex(facts["maker"], r"\Ammdepend [0-9.]+")
        self.assertEqual(
            facts["maker"], self.ran(self.surroundings()["MMDEPEND"], "-V").out.strip()
        )
        self.assertEqual((facts["only"], facts["essential"], facts["open"]), (None, False, False))
        facts = self.facts("b.mm", "--only", "|-", "--essential", "--open", "--watch", "ax-1,ax-mp")
        self.assertEqual((facts["only"], facts["essential"], facts["open"]), ("|-", True, True))
        self.assertEqual(facts["watched"], ["ax-1", "ax-mp"])

    def test_where_databases_come_from(self) -> None:
        data = SMALL.encode("latin-1")
        self.assertEqual(self.facts("-", given=data)["file"], "standard input")
        self.write("-b.mm", SMALL)
        self.assertEqual(self.facts("--", "-b.mm")["file"], "-b.mm")
        self.write("b.mm", SMALL)
        self.ran("xz", "b.mm")
        self.assertEqual(self.facts("b.mm.xz")["sha256"], hashlib.sha256(data).hexdigest())

    def test_the_words_of_the_environment(self) -> None:
        self.write("b.mm", SMALL)
        self.write("other.js", "process.stdout.write('other'); process.exit(0);\n")
        done = self.query("page", "b.mm", NODE_OPTIONS="--require ./other.js")
        self.assertTrue(done.out.startswith("<!doctype html>"), done.out[:200])
        script = Path(self.write("node", "#!/bin/sh\necho other\n"))
        (self.folder / script).chmod(0o755)
        done = self.query("page", "b.mm", PATH=f".::{self.surroundings()['PATH']}")
        self.assertTrue(done.out.startswith("<!doctype html>"), done.out[:200])

    def test_why_there_is_none(self) -> None:
        self.write("b.mm", SMALL)
        self.write("bad.mm", SMALL + "x $p |- p $= $.\n")
        self.write("empty.mm", "$c a $.\n")
        self.write("report", self.report("b.mm"))
        done = self.query("page", "bad.mm")
        self.assertEqual((done.status, done.out), (2, ""))
        self.assertEqual(done.err, self.query("rests", "bad.mm", "x").err)
        old = self.query("page", "b.mm", "--against", "bad.mm")
        self.assertEqual((old.status, old.err), (2, done.err))
        for words, why in {
            ("empty.mm",): "empty.mm: has neither axioms nor theorems",
            ("b.mm", "--only", "none"): "b.mm: has no axiom of typecode 'none'",
            ("b.mm", "--watch", "none"): "b.mm: has no axiom 'none' to be watched",
            ("b.mm", "--against", "empty.mm"): "empty.mm: has neither axioms nor theorems",
            ("report",): "report: a report, where the database is wanted",
            ("b.mm", "--against", "report"): "report: a report, where the database is wanted",
            ("none.mm",): "none.mm: there is no such file",
        }.items():
            self.refuses("page", *words, why=why)

    def test_the_program_verifies(self) -> None:
        self.write("b.mm", SMALL)
        runs = self.folder / "runs"
        self.script("noting", f'echo "$@" >>{runs}\nexec {program()} "$@"')
        words = ("page", "--open", "--against", "b.mm", "b.mm")
        self.assertEqual(self.query(*words, MMDEPEND="./noting"), self.query(*words))
        line = "--report=matrix,citations,statements --form=2 --open"
        self.assertEqual(runs.read_text().splitlines().count(line), 2)

    def test_the_program_fails(self) -> None:
        self.write("b.mm", SMALL)
        failing = self.script("failing", '[ "$1" = --version ] && exit\necho why >&2\nexit 3')
        why = f"b.mm: {failing} ended with status 3: why"
        self.refuses("page", "b.mm", why=why, MMDEPEND="./failing")

    def script(self, name: str, lines: str) -> Path:
        """A program of these lines of the shell."""
        path = self.folder / self.write(name, f"#!/bin/sh\n{lines}\n")
        path.chmod(0o755)
        return path

    def test_without_node(self) -> None:
        self.write("b.mm", SMALL)
        (self.folder / "bin").mkdir()
        for command in ("python3", "env", "sh"):
            (self.folder / "bin" / command).symlink_to(shutil.which(command) or "")
        done = self.query("page", "b.mm", PATH=str(self.folder / "bin"))
        self.assertEqual((done.status, done.out), (2, ""))
        self.assertIn("made by Node 18 or later, and there is no command node", done.err)


@unittest.skipUnless(PROGRAM_FOR_NODE.exists(), "web/build wasn't run")
class Releases(Repositories):
    """Beside an older release."""

    def test_a_revision_of_git(self) -> None:
        self.commit(SMALL)
        self.write("db.mm", SMALL + "last $p |- p $= ? $.\n")
        done = self.query("page", "--open", "--against", "HEAD:db.mm", "db.mm")
        self.assertEqual((done.status, done.err), (0, ""))
        against = json.loads(blocks_in(done.out)["against"])
        self.assertEqual(against["name"], "HEAD:db.mm")
        self.assertEqual(len(against["added"]), 1)


@unittest.skipUnless(PROGRAM_FOR_NODE.exists(), "web/build wasn't run")
class Readers(World):
    """The page has what the program's lines tell of a text."""

    def test_they_agree(self) -> None:
        chance = random.Random(5)
        texts = [SMALL, databases.EVIL, TYPESET, databases.OLDER, *databases.CORNERS.values()]
        texts += [invented(chance).text for _ in range(20)]
        for at, text in enumerate(texts):
            name = self.write(f"{at}.mm", text)
            done = self.query("page", name)
            self.assertEqual((done.status, done.err), (0, ""), text)
            self.compare(blocks_in(done.out), text)

    def compare(self, blocks: Blocks, text: str) -> None:
        """The blocks are those of the text."""
        read = database_text(text.encode("latin-1"))
        facts = json.loads(blocks["facts"])
        self.assertEqual(lines_in(blocks, "labels"), [one.label for one in read.assertions])
        self.assertEqual(lines_in(blocks, "formulas"), [one.formula for one in read.assertions])
        given = [one.frame().hypotheses() for one in read.assertions]
        essential = {each.label: each.formula for all in given for each in all if each.kind == "e"}
        self.assertEqual(facts["hypotheses"], len(essential))
        self.assertEqual(lines_in(blocks, "hypothesis-labels"), [*essential] or [""])
        self.assertEqual(lines_in(blocks, "hypothesis-formulas"), [*essential.values()] or [""])
        floating = [[each.formula.split() for each in all if each.kind == "f"] for all in given]
        variables = {variable: code for all in floating for code, variable in all}
        self.assertEqual(dict(facts["variables"]), variables)
        order = [variable for variable, _ in facts["variables"]]
        for all in floating if len(set(order)) == len(order) else ():
            places = [order.index(variable) for _, variable in all]
            self.assertEqual(places, sorted(places), text)
        self.assertEqual([row[0] for row in facts["chapters"]], [one.level for one in read.headers])
        dummies = [(line.split("\t") + [""])[1] for line in lines_in(blocks, "conditions")]
        told = [(re.findall(r" \$v([^$]*) \$", one.said) or [""])[0] for one in read.assertions]
        self.assertEqual([*map(words_of, dummies)], [*map(words_of, told)])
        marks = [bool(read.comment(one).strip()) for one in read.assertions]
        self.assertEqual([bool(flag & 4) for flag in blocks["flags"]], marks)


def words_of(line: str) -> list[str]:
    """The words of a line, in alphabetical order."""
    return sorted(line.split())


if __name__ == "__main__":
    unittest.main()
