"""The CI job of docs/ci, the action that it calls, and the script that this runs."""

import csv
import hashlib
import re
import shutil
import subprocess
import tarfile
import unittest
import venv
from pathlib import Path

from query.tests.repositories import ADDED, BASE, WATCH, Repositories, changed
from query.tests.world import PROGRAM_FOR_NODE, SMALL, TOP, Done, World, built_program

SCRIPT = TOP / "docs" / "ci" / "check-database"
JOB = TOP / "docs" / "ci" / "github.yml"
ENDS_IN_A_CHEAT = ("$= df-4 $.", "$= ax-cheat $.")


ACTION = TOP / "action.yml"
FILES = {"job": JOB, "action": ACTION, "script": SCRIPT}
GATE = (TOP / "docs" / "GATE.md").read_text()
ROWS = re.compile(r"^\| (.*) \| ((?:job|action|script)[^|]*) \| .* \|$", re.MULTILINE)
PLAIN = re.compile(
    r"\s*(?:#.*|(?:- )?(?:name|description|default): .*|(?:on|jobs|axioms|steps|with|inputs|runs):"
    r"|(?:database|base|config|packed|sha256|PACKED|SHA256):.*|using: composite|- if: always\(\)"
    r"|path: \||echo .*|else|fi|esac|;;|(?:: |\"\$\{[A-Z0-9]+:=[\w./]*\}\" ?)+"
    r"|if \[ -[nz] \"\$UNPACKED\" \]; then)?"
)
"""Lines that stand against nothing: names, descriptions, what is chosen where nothing is said, and
parts of what others say."""
BLOCKS = re.compile(r"^( +)run: \|\n((?:\1  .*\n)+)", re.MULTILINE)


def commands(path: Path) -> list[str]:
    """What the steps of a job or an action run."""
    return [re.sub(r"(?m)^ +", "", block) for _, block in BLOCKS.findall(path.read_text())]


def named_in_table() -> list[tuple[str, bool, list[str]]]:
    """What the table of GATE names, whether it says that it is there, and in which files."""
    return [
        (named.replace(r"\|", "|"), not no, where.split(", "))
        for line, where in ROWS.findall(GATE)
        for no, named in re.findall(r"(\bno )?`([^`]+)`", line)
    ]


def pattern_of(named: str) -> str:
    """Finds words of the table in a file, in their order and on neighbouring lines."""
    words = (
        r"\S+" if word in ("NAME@COMMIT", "..") else re.escape(word)
        for word in named.replace("+COMMIT", "COMMIT").split()
    )
    return r"[^\n]*\n?[^\n]*".join(words)


def line_of(text: str, place: int) -> int:
    """The number of the line of a place, from 0."""
    return text.count("\n", 0, place)


class Lines(unittest.TestCase):
    """The lines of the job, the action and the script."""

    def test_the_base_of_the_action(self) -> None:
        action = ACTION.read_text()
        event = "(github.event.pull_request && format('refs/heads/{0}', github.base_ref))"
        self.assertIn(f"inputs.base || {event} || github.event.before }}}}", action)
        self.assertIn("github.event.pull_request.head.sha || github.sha", action)

    def test_nothing_of_an_event_is_part_of_a_command(self) -> None:
        for path in (JOB, ACTION):
            self.assertTrue(commands(path))
            for block in commands(path):
                self.assertNotIn("${{", block)

    def test_a_pull_request_is_data(self) -> None:
        job = JOB.read_text()
        target = job.split("\n  pull_request_target:\n")[1].split("\n  push:\n")[0]
        self.assertIn("branches: [main]", target)
        self.assertIn("types: [opened, synchronize, reopened, edited]", target)
        self.assertNotRegex(job, r"\n  (pull_request|merge_group|workflow_dispatch):")
        self.assertIn("\npermissions:\n  contents: read\njobs:", job)
        both = job + ACTION.read_text()
        self.assertNotRegex(both, r"secrets\.|github\.token|uses: actions/(checkout|cache)")
        lines = "".join([*commands(JOB), *commands(ACTION)])
        self.assertNotRegex(lines, r"checkout|switch|pull|worktree|archive")
        used = re.findall(r"uses: (.*)", both)
        self.assertEqual(len(used), 2)
        for each in used:
            self.assertRegex(each, r"\A(\./mmdepend|[\w./-]+@[0-9a-f]{40})\Z")

    def test_what_each_line_stands_against(self) -> None:
        """The table of GATE: what it names stands in the files that it names, word by word and in
        this order, or where it says `no` doesn't."""
        rows = named_in_table()
        self.assertGreater(len(rows), 40)
        for named, is_there, places in rows:
            found = [bool(re.search(pattern_of(named), FILES[each].read_text())) for each in places]
            self.assertEqual(any(found), is_there, f"{named}: {places}")

    def test_each_line_stands_in_the_table(self) -> None:
        """Each line of the three files, but for those that only name or explain something."""
        for name, path in FILES.items():
            text = path.read_text()
            patterns = [
                pattern_of(named) for named, is_there, places in named_in_table() if name in places
            ]
            told = {
                number
                for pattern in patterns
                for match in re.finditer(pattern, text)
                for number in range(line_of(text, match.start()), line_of(text, match.end()) + 1)
            }
            lines = {
                number: line
                for number, line in enumerate(text.splitlines())
                if number not in told and not PLAIN.fullmatch(line)
            }
            self.assertEqual(lines, {}, name)

    def test_limits(self) -> None:
        self.assertIn("\n    timeout-minutes: 30\n", JOB.read_text())
        self.assertIn(" -c fetch.fsckObjects=true fetch ", "".join(commands(ACTION)))
        for path in (JOB, SCRIPT):
            self.assertIn("curl -qfsSL --proto =https", path.read_text())
        self.assertIn(' "${FORMAT:=log}" ', SCRIPT.read_text())

    def test_nothing_is_kept_from_elsewhere(self) -> None:
        found = re.findall(r'^"\$program/mmquery" .*', SCRIPT.read_text(), re.MULTILINE)
        self.assertEqual(len(found), 3)
        for each in found:
            self.assertIn(" --no-cache ", each)


@unittest.skipUnless(shutil.which("curl"), "there is no curl")
class Script(Repositories):
    """The script on a repository."""

    def setUp(self) -> None:
        super().setUp()
        self.packed = self.folder.parent / "packed.tar.gz"
        folder = self.folder.parent / "mmdepend-0"
        folder.mkdir()
        shutil.copy(TOP / "mmquery", folder)
        shutil.copy(built_program(), folder / "mmdepend")
        shutil.copy(PROGRAM_FOR_NODE, folder)
        hidden = shutil.ignore_patterns("tests", "__pycache__")
        shutil.copytree(TOP / "query", folder / "query", ignore=hidden)
        self.unpacked = folder
        self.write_sums()
        self.pack()

    def write_sums(self) -> None:
        """Lists all files of the folder with their sums, as `sha256sum` does, by their names."""
        listed = self.unpacked / "SHA256SUMS"
        files = (path for path in self.unpacked.rglob("*") if path.is_file() and path != listed)
        sums = {str(path.relative_to(self.unpacked)): self.sum(path) for path in files}
        listed.write_text("".join(f"{sums[name]}  {name}\n" for name in sorted(sums)))

    def pack(self) -> None:
        """Packs the folder."""
        with tarfile.open(self.packed, "w:gz") as packed:
            packed.add(self.unpacked, "mmdepend-0")

    @staticmethod
    def sum(path: Path) -> str:
        """The SHA-256 of a file."""
        return hashlib.sha256(path.read_bytes()).hexdigest()

    def check(self, **more: str) -> Done:
        """Runs the script."""
        surroundings = self.surroundings(
            PACKED=f"file://{self.packed}",
            SHA256=self.sum(self.packed),
            DATABASE="db.mm",
            BASE="main",
            KEPT=str(self.kept),
        )
        del surroundings["MMDEPEND"]
        done = subprocess.run(
            ["/bin/sh", str(SCRIPT)],
            cwd=self.folder,
            env={**surroundings, **more},
            capture_output=True,
            check=False,
        )
        return Done(done.stdout.decode(), done.stderr.decode(), done.returncode)

    @property
    def kept(self) -> Path:
        """Where things are kept."""
        return self.folder.parent / "kept"

    def test_it_passes(self) -> None:
        self.branch()
        self.commit(BASE + ADDED)
        done = self.check()
        self.assertEqual((done.status, done.err), (0, ""), done)
        judged = r"[0-9a-f]{40}:db\.mm \([0-9a-f]{12}\)"
        self.assertRegex(done.out, rf"\Apassed: {judged} compared with main, ")
        self.assertIn("new,theorem,new,", (self.kept / "changes.csv").read_text())
        self.assertIn("</html>", (self.kept / "page.html").read_text())
        self.assertIn("passed", (self.kept / "summary.md").read_text())
        self.assertEqual(self.check().status, 3)
        self.assertEqual(self.check(KEPT="").status, 0)

    def test_it_does_not_pass(self) -> None:
        self.branch()
        cheat = "ax-cheat $a |- ( 2 + 2 ) = 4 $.\n2p2e4 $p"
        self.commit(changed(BASE, ("2p2e4 $p", cheat), ENDS_IN_A_CHEAT))
        done = self.check()
        self.assertEqual((done.status, done.err), (1, ""))
        self.assertIn("ax-cheat: a new axiom", done.out)
        self.assertIn("new,axiom,ax-cheat", (self.kept / "changes.csv").read_text())

    def test_a_database_that_is_refused(self) -> None:
        self.branch()
        self.commit(changed(BASE, ("$= df-4 $.", "$= $.")))
        done = self.check()
        self.assertEqual(done.status, 1)
        self.assertRegex(done.out, r"\A[0-9a-f]{40}:db\.mm:10:\d+: refused E31")

    def test_no_answer(self) -> None:
        self.assertEqual(self.check(BASE="nowhere").status, 2)
        for more in ({"SHA256": "0" * 64}, {"SHA256": ""}, {"PACKED": ""}):
            self.assertEqual(self.check(**more).status, 3, more)
        self.assertEqual(self.check(PACKED="file:///nowhere").status, 3)
        self.assertEqual(WATCH, (self.folder / "mmdepend.toml").read_text())

    def test_what_is_unpacked_is_the_list(self) -> None:
        (self.unpacked / "query" / "more.py").write_text("")
        self.pack()
        done = self.check()
        self.assertEqual((done.status, done.out), (3, ""))
        (self.unpacked / "query" / "more.py").unlink()
        (self.unpacked / "argparse.py").symlink_to("mmquery")
        self.pack()
        self.assertEqual(self.check().status, 3)

    def test_what_a_pull_request_puts_into_the_working_tree(self) -> None:
        self.branch()
        cheat = "ax-cheat $a |- ( 2 + 2 ) = 4 $.\n2p2e4 $p"
        (self.folder / "kept" / "mmdepend" / "query").mkdir(parents=True)
        for name in ("kept/mmdepend/argparse.py", "argparse.py", "query.py"):
            self.write(name, "import os; os._exit(0)\n")
        (self.folder / "kept" / "changes.csv").symlink_to("mmdepend/mmquery")
        self.write("mmdepend-0.1.0-x86_64-linux.tar.gz", b"")
        self.write("tmp", "")
        self.commit(changed(BASE, ("2p2e4 $p", cheat), ENDS_IN_A_CHEAT))
        for kept in (str(self.kept), ""):
            done = self.check(KEPT=kept)
            self.assertEqual((done.status, done.err), (1, ""))
        self.assertEqual(self.check(KEPT="kept").status, 3)
        (self.folder / "tmp").unlink()
        (self.folder / "tmp").mkdir()
        for folder in (str(self.folder / "tmp"), "tmp"):
            self.assertEqual(self.check(TMPDIR=folder).status, 3)
            self.assertEqual(list((self.folder / "tmp").iterdir()), [])

    def test_commands_of_a_pull_request(self) -> None:
        """A folder of PATH that is relative would be one of the working tree."""
        marker = self.folder.parent / "marker"
        for name in ("git", "mktemp", "rm", "sha256sum", "python3", "curl"):
            self.write(name, f"#!/bin/sh\ntouch {marker}\nexit 0\n")
            (self.folder / name).chmod(0o755)
        path = self.surroundings()["PATH"]
        self.assertEqual(self.check(KEPT="").status, 0)
        for more in (f".:{path}", f":{path}", f"{path}:", f"/nowhere::{path}", "."):
            done = self.check(PATH=more, KEPT="")
            self.assertEqual((done.status, done.out), (3, ""), more)
            self.assertEqual(done.err, "PATH has a folder that is relative\n")
        self.assertFalse(marker.exists())

    def test_what_a_spreadsheet_would_run(self) -> None:
        """It gets a file that a person opens, in which a label may begin with `-`."""
        self.branch()
        self.commit(BASE + "-1-A1 $a |- p $.\n")
        self.assertEqual(self.check().status, 1)
        with open(self.kept / "changes.csv", newline="") as file:
            rows = list(csv.reader(file))
        self.assertEqual(rows[1][:3], ["new", "axiom", "'-1-A1"])

    def test_what_is_unpacked_already(self) -> None:
        self.branch()
        self.commit(BASE + ADDED)
        done = self.check(PACKED="", SHA256="", UNPACKED=str(self.unpacked))
        self.assertEqual((done.status, done.err), (0, ""), done)
        self.assertEqual(self.check(UNPACKED="nowhere", KEPT="").status, 3)
        shutil.copytree(self.unpacked, self.folder / "unpacked")
        self.assertEqual(self.check(UNPACKED="unpacked", KEPT="").status, 3)
        (self.unpacked / "query" / "more.py").write_text("")
        self.assertEqual(self.check(UNPACKED=str(self.unpacked), KEPT="").status, 3)

    def test_another_configuration_of_the_base(self) -> None:
        self.write("more.toml", f"{WATCH}allow = ['ax-cheat']\n")
        self.commit(BASE)
        self.branch()
        cheat = "ax-cheat $a |- ( 2 + 2 ) = 4 $.\n2p2e4 $p"
        self.commit(changed(BASE, ("2p2e4 $p", cheat), ENDS_IN_A_CHEAT))
        self.assertEqual(self.check().status, 1)
        done = self.check(CONFIG="nowhere.toml", KEPT="")
        self.assertEqual(done.status, 2, done)

    def test_the_action(self) -> None:
        self.branch()
        self.commit(changed(BASE, ("2p2e4 $p", "ax-cheat $a |- ( 2 + 2 ) = 4 $.\n2p2e4 $p")))
        runner, done = self.act(self.git("rev-parse", "HEAD").strip())
        self.assertEqual([each.returncode for each in done], [0, 1], done)
        self.assertIn(b"ax-cheat: a new axiom", done[1].stdout)
        self.assertIn("ax-cheat", (runner / "kept" / "changes.csv").read_text())
        self.assertIn("ax-cheat", (runner / "summary.md").read_text())

    def test_objects_that_git_does_not_write(self) -> None:
        """The action fetches none of them."""
        blob = bytes.fromhex(self.git("rev-parse", "HEAD:db.mm"))
        entry = b"100644 db.mm\0" + blob
        for tree in (entry * 2, entry + b"100644 x/y\0" + blob, entry):
            self.write("object", tree)
            words = ("hash-object", "-w", "--literally", "-t", "tree", "object")
            name = self.git(*words)
            (self.folder / "object").unlink()
            new = self.git("commit-tree", name, "-p", "main", "-m", "a tree")
            self.git("update-ref", "refs/heads/odd", new)
            _, done = self.act(new)
            self.assertEqual(done[0].returncode == 0, tree == entry, done)
            self.assertEqual(b"fsck" in done[0].stderr, tree != entry, done)

    def act(self, new: str) -> tuple[Path, list[subprocess.CompletedProcess[bytes]]]:
        """Runs the steps of the action on a commit, up to the first that fails. Returns the folder
        of the runner, and what became of the steps."""
        (self.unpacked / "docs" / "ci").mkdir(parents=True, exist_ok=True)
        shutil.copy(SCRIPT, self.unpacked / "docs" / "ci")
        self.write_sums()
        runner = self.folder.parent / "runner"
        shutil.rmtree(runner, ignore_errors=True)
        runner.mkdir()
        surroundings = self.surroundings(
            GITHUB_ACTION_PATH=str(self.unpacked),
            GITHUB_STEP_SUMMARY=str(runner / "summary.md"),
            RUNNER_TEMP=str(runner),
            REPOSITORY=str(self.folder),
            NEW_COMMIT=new,
            BASE_COMMIT="refs/heads/main",
            DATABASE="db.mm",
            NEW="refs/heads/new",
            BASE="refs/heads/base",
            FORMAT="github",
        )
        del surroundings["MMDEPEND"]
        found: list[subprocess.CompletedProcess[bytes]] = []
        for block in commands(ACTION):
            if all(done.returncode == 0 for done in found):
                done = subprocess.run(
                    ["bash", "-e", "-c", block],
                    cwd=self.folder.parent,
                    env=surroundings,
                    capture_output=True,
                    check=False,
                )
                found.append(done)
        return runner, found


class Modules(World):
    """Modules of ours come from our package, and no other ones from beside it."""

    def test_what_lies_beside_mmquery(self) -> None:
        shutil.copy(TOP / "mmquery", self.folder)
        hidden = shutil.ignore_patterns("tests", "__pycache__")
        shutil.copytree(TOP / "query", self.folder / "query", ignore=hidden)
        for name in ("argparse", "query", "re", "tomllib"):
            self.write(f"{name}.py", "import os; os._exit(0)\n")
        done = self.ran("./mmquery", "gate", "nowhere.mm", PYTHONPATH=str(self.folder))
        self.assertEqual(done.status, 2)
        self.assertIn("there is no such file", done.err)

    def test_what_is_installed_beside_python(self) -> None:
        """A file there with the ending .pth would be run by each start of Python."""
        venv.create(self.folder / "python", symlinks=True)
        (packages,) = (self.folder / "python").glob("lib/*/site-packages")
        (packages / "more.pth").write_text("import os; os._exit(0)\n")
        path = f"{self.folder}/python/bin:{self.surroundings()['PATH']}"
        self.assertEqual(self.ran("python3", "-c", "raise SystemExit(3)", PATH=path).status, 0)
        self.assertEqual(self.query("verify", "nowhere.mm", PATH=path).status, 2)

    def test_where_it_can_not_be_started(self) -> None:
        """A traceback would end with status 1, by which `verify` says that it refuses."""
        self.write("db.mm", SMALL)
        shutil.copy(TOP / "mmquery", self.folder)
        words = ("./mmquery", "verify", "db.mm")
        said = "mmquery: can't be started: the folder query isn't beside it\n"
        self.assertEqual(self.ran(*words), Done("", said, 2))
        hidden = shutil.ignore_patterns("tests", "__pycache__")
        shutil.copytree(TOP / "query", self.folder / "query", ignore=hidden)
        self.assertEqual(self.ran(*words).status, 0)
        for text, why in (
            ("raise MemoryError\n", "out of memory"),
            ("raise OSError(24, 'too many open files')\n", "[Errno 24] too many open files"),
            ("import query.nothing\n", "No module named 'query.nothing'"),
            ("def\n", "invalid syntax (cli.py, line 1)"),
        ):
            self.write("query/cli.py", text)
            said = f"mmquery: can't be started: {why}\n"
            self.assertEqual(self.ran(*words), Done("", said, 2))
