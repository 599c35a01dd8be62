"""What tests of git share: repositories that a test makes in its folder."""

import os
import subprocess
from pathlib import Path

from query.tests.world import Done, World

# A database with two watched axioms. `|- ( 2 + 2 ) = 4` and `ax-ac2` are as in set.mm's names.
BASE = """$c wff |- ( -> ) 2 4 + = $.
$v p q $.
wp $f wff p $.
wq $f wff q $.
wi $a wff ( p -> q ) $.
df-4 $a |- ( 2 + 2 ) = 4 $.
ax-1 $a |- ( p -> ( q -> p ) ) $.
${ min $e |- p $. maj $e |- ( p -> q ) $. ax-mp $a |- q $. $}
ax-ac2 $a |- ( p -> ( p -> p ) ) $.
2p2e4 $p |- ( 2 + 2 ) = 4 $= df-4 $.
ax1 $p |- ( p -> ( q -> p ) ) $= wp wq ax-1 $.
axac3 $p |- ( p -> ( p -> p ) ) $= wp ax-ac2 $.
${ a1i.1 $e |- p $. a1i $p |- ( q -> p ) $= wp wq wp wi a1i.1 wp wq ax-1 ax-mp $. $}
zorn $p |- ( q -> ( p -> ( p -> p ) ) ) $= wp wp wp wi wi wq wp axac3 a1i $.
free $p |- ( p -> ( p -> p ) ) $= wp wp ax-1 $.
"""
ADDED = "new $p |- ( p -> ( q -> p ) ) $= wp wq ax1 $.\n"
WATCH = 'watch = ["ax-ac2"]\n'
FREED = ("wp ax-ac2 $.", "wp wp ax-1 $.")
TAKEN = (
    "free $p |- ( p -> ( p -> p ) ) $= wp wp ax-1 $.\n",
    "freelem $p |- ( p -> ( p -> p ) ) $= wp wp ax-1 $.\n"
    "${ free.1 $e |- ( 2 + 2 ) = 4 $. free $p |- ( p -> ( p -> p ) ) $= wp freelem $. $}\n",
)
"""Gives the label of a theorem to a weaker one, and the theorem another label."""


class Repositories(World):
    """A test whose folder is a git repository, with the database `db.mm` on the branch `main`."""

    def setUp(self) -> None:
        super().setUp()
        self.git("init", "--quiet", "--initial-branch=main")
        self.write("mmdepend.toml", WATCH)
        self.commit(BASE)

    def git(self, *words: str, folder: Path | None = None) -> str:
        """Runs git in the repository, or in another one."""
        names = {
            f"GIT_{who}_{what}": "a@b"
            for who in ("AUTHOR", "COMMITTER")
            for what in ("NAME", "EMAIL")
        }
        surroundings = {**self.surroundings(), **names, "GIT_CONFIG_NOSYSTEM": "1"}
        done = subprocess.run(
            ["git", *words],
            cwd=folder or self.folder,
            env=surroundings,
            capture_output=True,
            check=False,
        )
        self.assertEqual(done.returncode, 0, f"git {words}: {os.fsdecode(done.stderr)}")
        return os.fsdecode(done.stdout).strip()

    def commit(self, text: str, name: str = "db.mm") -> str:
        """Writes the database and commits all. Returns the commit."""
        self.write(name, text)
        self.git("add", "--all")
        self.git("commit", "--quiet", "--allow-empty", "--message", "a change")
        return self.git("rev-parse", "HEAD")

    def ask(self, text: str) -> None:
        """Writes `mmdepend.toml` and commits it where we are, with the database as it is there."""
        self.write("mmdepend.toml", text)
        self.git("add", "mmdepend.toml")
        self.git("commit", "--quiet", "--allow-empty", "--message", "what is asked")

    def branch(self, name: str = "work") -> None:
        """Makes a branch and goes to it."""
        self.git("checkout", "--quiet", "-b", name)

    def gate(self, *words: str, status: int) -> list[str]:
        """The lines of the gate's answer, without the last, which says what was compared."""
        done = self.query("gate", *(words or ("--base", "main", "db.mm")))
        self.assertEqual((done.status, done.err), (status, ""), f"{words}: {done}")
        last = done.lines()[-1]
        self.assertRegex(last, r"\Apassed: " if status == 0 else r"\A\d+ findings?: ")
        return [line for line in done.lines()[:-1] if not line.startswith("note: ")]

    def gate_of(self, text: str, *words: str, status: int) -> list[str]:
        """The same of a commit of this text on a branch of `main`."""
        self.branch()
        self.commit(text)
        lines = self.gate(*words, status=status)
        self.git("checkout", "--quiet", "main")
        self.git("branch", "--quiet", "-D", "work")
        return lines

    def has_no_answer(self, *words: str, why: str) -> Done:
        """Checks that the gate says in one line why there is no answer."""
        self.refuses("gate", *words, why=why)
        return self.query("gate", *words)


def changed(text: str, *changes: tuple[str, str]) -> str:
    """A text with parts of it replaced, each of which is there once."""
    for before, after in changes:
        assert text.count(before) == 1, before
        text = text.replace(before, after)
    return text
