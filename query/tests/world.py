"""What tests share: running mmquery in an empty folder, and databases made by chance."""

import json
import os
import random
import shutil
import subprocess
import sys
import tempfile
import unittest
from dataclasses import dataclass, field
from pathlib import Path

from query.answers.output import Output
from query.arguments.context import Context
from query.cli import parser_of
from query.commands import command
from query.reports.of_program import statements_of
from query.texts.text import Text
from tests.shared.samples import DEBIAN_DATABASES

TOP = Path(__file__).resolve().parent.parent.parent
MMQUERY = TOP / "mmquery"
PROGRAM_FOR_NODE = TOP / "out" / "web" / "mmdepend.mjs"
DATABASES = Path(os.environ.get("MMQUERY_DATABASES", DEBIAN_DATABASES))


def program() -> str | None:
    """The path of the program; None where there is none that is built."""
    named = os.environ.get("MMDEPEND")
    if named:
        return shutil.which(named)
    built = TOP / "crates/mmdepend/out/mmdepend"
    return str(built) if built.exists() else None


NOT_BUILT = "the program isn't built"


def built_program() -> str:
    """The path of the program. A test that asks for it is skipped where there is none."""
    found = program()
    if found is None:
        raise unittest.SkipTest(NOT_BUILT)
    return found


needs_program = unittest.skipUnless(program(), NOT_BUILT)
"""Skips a class of tests that run the program where there is none."""


@dataclass
class Done:
    """What a command wrote, and its status."""

    out: str
    err: str
    status: int

    def lines(self) -> list[str]:
        """The lines of standard output."""
        return self.out.splitlines()

    def rows(self) -> list[dict[str, object]]:
        """The objects of an answer in JSON."""
        found: list[dict[str, object]] = json.loads(self.out)
        return found


@needs_program
class World(unittest.TestCase):
    """A test in a folder of its own, with a cache folder and a temporary folder of its own."""

    def setUp(self) -> None:
        outer = tempfile.TemporaryDirectory(prefix="mmquery-test-")
        self.addCleanup(outer.cleanup)
        self.folder = Path(outer.name) / "folder"
        self.cache = Path(outer.name) / "cache"
        self.config = Path(outer.name) / "config"
        self.temporary = Path(outer.name) / "tmp"
        for folder in (self.folder, self.cache, self.config, self.temporary):
            folder.mkdir()

    def tearDown(self) -> None:
        self.assertEqual(list(self.temporary.iterdir()), [], "a temporary file was left")
        kept = self.cache / "mmquery"
        left = [file.name for file in kept.glob(".*")] if kept.exists() else []
        self.assertEqual(left, [], "an unfinished file was left in the cache")
        secrets = [file.name for file in self.config.glob("mmquery/*")]
        self.assertLessEqual(set(secrets), {"secret"}, "an unfinished secret was left")

    def surroundings(self, **more: str) -> dict[str, str]:
        """The variables with which commands run."""
        found = {
            "PATH": f"{os.path.dirname(sys.executable)}:/usr/bin:/bin",
            "HOME": str(self.folder),
            "XDG_CACHE_HOME": str(self.cache),
            "XDG_CONFIG_HOME": str(self.config),
            "TMPDIR": str(self.temporary),
            "MMDEPEND": built_program(),
            "LANG": "C.UTF-8",
        }
        return {**found, **more}

    def write(self, name: str, text: str | bytes) -> str:
        """Writes a file in the folder. Returns its name."""
        data = text.encode("latin-1") if isinstance(text, str) else text
        (self.folder / name).write_bytes(data)
        return name

    def ran(self, *words: str, given: bytes = b"", **more: str) -> Done:
        """Runs a program in the folder."""
        done = subprocess.run(
            words,
            cwd=self.folder,
            env=self.surroundings(**more),
            input=given,
            capture_output=True,
            check=False,
        )
        return Done(done.stdout.decode("latin-1"), done.stderr.decode("latin-1"), done.returncode)

    def query(self, *words: str, given: bytes = b"", **more: str) -> Done:
        """Runs mmquery."""
        return self.ran(str(MMQUERY), *words, given=given, **more)

    def query_by_shell(self, line: str, *words: str) -> Done:
        """Runs mmquery by a line of a shell in which it and its words are `"$@"`."""
        return self.ran("sh", "-c", line, "sh", str(MMQUERY), *words)

    def answers(self, *words: str, **more: str) -> list[str]:
        """The lines that a command answers, which has to have an answer, with status 0. Where there
        is none, standard error has a line that says why."""
        done = self.query(*words, given=b"", **more)
        self.assertEqual(done.status, 0, f"{words}: {done}")
        self.assertRegex(done.err, r"\A(mmquery: [^\n]+\n)?\Z", f"{words}: {done}")
        self.assertTrue(done.out or done.err, f"{words}: nothing says why it is empty")
        return done.lines()

    def refuses(self, *words: str, why: str = "", **more: str) -> str:
        """The one line why a command has no answer."""
        done = self.query(*words, given=b"", **more)
        self.assertEqual((done.status, done.out), (2, ""), f"{words}: {done}")
        self.assertRegex(done.err, r"\Ammquery: [^\n]+\n\Z", f"{words}: {done}")
        self.assertIn(why, done.err, f"{words}")
        return done.err

    def report(self, name: str, *words: str) -> str:
        """The report that the program writes of a database."""
        done = subprocess.run(
            [built_program(), *words, self.folder / name], capture_output=True, check=False
        )
        return done.stdout.decode()


def database_text(data: bytes) -> Text:
    """The text of a database, as the program tells it; theorems may be left open."""
    words = [built_program(), "--open", "--report=statements"]
    done = subprocess.run(words, input=data, capture_output=True, check=True)
    return Text(data, statements_of(done.stdout))


# The example of the pages.
SMALL = """$c wff |- ( -> ) $.
$v p q $.
wp $f wff p $.
wq $f wff q $.
wi $a wff ( p -> q ) $.
ax-1 $a |- ( p -> ( q -> p ) ) $.
${ min $e |- p $. maj $e |- ( p -> q ) $. ax-mp $a |- q $. $}
wi2 $p wff ( p -> ( q -> p ) ) $= wp wq wp wi wi $.
ax1 $p |- ( p -> ( q -> p ) ) $= wp wq ax-1 $.
${ h $e |- p $. a1i $p |- ( q -> p ) $= wp wq wp wi h wp wq ax-1 ax-mp $. $}
${ g $e |- p $. a2 $p |- ( q -> ( q -> p ) ) $= wq wp wi wq wp wq g a1i a1i $. $}
"""

HOSTILE = ["-n", "--help", "1.0", "1", "nan", "__proto__", "-", "--", "end", "usage", "x" * 6000]


@dataclass
class Invented:
    """A database made by chance, and what is true of it.

    Every assertion is of the form `|- p` from `|- p`, so that a proof may apply any that come
    before, one after the other. `cites` has what each theorem cites, in file order; some also
    build a formula by the syntax axiom `wi`, which isn't logical. `wff` theorems are about syntax.
    """

    axioms: list[str] = field(default_factory=list)  # of typecode |-
    syntax: list[str] = field(default_factory=lambda: ["wi"])
    cites: dict[str, list[str]] = field(default_factory=dict)
    essential: dict[str, list[str]] = field(default_factory=dict)
    built: set[str] = field(default_factory=set)  # theorems about a built formula
    text: str = ""

    def theorems(self) -> list[str]:
        """The theorems in file order."""
        return list(self.cites)

    def labels(self) -> list[str]:
        """All labels of assertions."""
        return self.syntax + self.axioms + self.theorems()

    def rests(self, label: str, essential: bool = False) -> set[str]:
        """All that an assertion rests on through citations, by trying everything."""
        graph = self.essential if essential else self.cites
        found: set[str] = set()
        for cited in graph.get(label, []):
            found |= {cited} | self.rests(cited, essential)
        return found

    def users(self, label: str, essential: bool = False) -> list[str]:
        """The theorems that rest on an assertion."""
        return [each for each in self.cites if label in self.rests(each, essential)]


def invented(chance: random.Random, theorems: int = 9, labels: list[str] | None = None) -> Invented:
    """A database made by chance. The first labels are taken from those given."""
    names = iter((labels or []) + [f"l{number}" for number in range(2 * theorems + 9)])
    database = Invented()
    lines = ["$c |- wff ( -> ) $.", "$v p $.", "wp $f wff p $.", "wi $a wff ( p -> p ) $."]
    unary = "${{ h.{0} $e |- p $. {0} ${1} |- p {2}$. $}}"
    order: list[str] = []
    for number in range(theorems + theorems // 2 + 1):
        label = next(names)
        if number < 2 or chance.random() < 0.3 and len(database.axioms) < theorems // 2:
            database.axioms.append(label)
            lines.append(unary.format(label, "a", ""))
        else:
            cited = chance.sample(order, min(len(order), chance.choice([0, 1, 1, 2, 2, 3, 4])))
            lines.append(proved(database, label, cited, chance.random() < 0.4))
            rank = {each: place for place, each in enumerate(["wi"] + order)}
            database.essential[label] = sorted(cited, key=rank.__getitem__)
            database.cites[label] = sorted(database.cites[label], key=rank.__getitem__)
        order.append(label)
    database.text = "\n".join(lines) + "\n"
    return database


def proved(database: Invented, label: str, cited: list[str], builds: bool) -> str:
    """A theorem that applies these assertions one after the other, over a built formula or not."""
    builds = builds or not database.built.isdisjoint(cited)
    formula = "( p -> p )" if builds else "p"
    parts = ["wp " if each in database.built or not builds else "wp wi " for each in cited]
    steps = "".join(reversed(parts)) + f"h.{label} " + "".join(f"{each} " for each in cited)
    database.cites[label] = list(cited) + (["wi"] if "wp wi " in parts else [])
    if builds:
        database.built.add(label)
    return f"${{ h.{label} $e |- {formula} $. {label} $p |- {formula} $= {steps}$. $}}"


def answered(form: str, *words: str) -> bytes:
    """What a command answers in a form, run in this process."""
    chosen = command(words[0])
    is_taken = form in chosen.formats
    arguments = parser_of(chosen).read([*(["--format", form] if is_taken else []), *words[1:]])
    out = Output(getattr(arguments, "format", "text"))
    chosen.run(Context(out, False), arguments)
    return b"".join(out.taken())


def asked(*words: str) -> list[list[str]]:
    """The fields of the lines that a command answers, run in this process, as TSV without names."""
    lines = answered("tsv", *words).decode().splitlines()
    has_names = "tsv" in command(words[0]).formats
    return [line.split("\t") for line in (lines[1:] if has_names else lines)]


def asked_rows(*words: str) -> list[dict[str, object]]:
    """The objects of what a command answers in JSON, run in this process."""
    found: list[dict[str, object]] = json.loads(answered("json", *words))
    return found
