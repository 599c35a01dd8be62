"""The examples of the pages: each command of docs/COOKBOOK.md is run, and shows what stands
there; and what other pages show of texts, reports and faults is what the program gives."""

import os
import re
import shutil
import subprocess
import unittest
from pathlib import Path

from query.cli import VERSION
from query.commands import names
from query.program.refusals import FAULTS
from query.tests.world import DATABASES, TOP, World, built_program

PAGE = TOP / "docs" / "COOKBOOK.md"


def blocks(page: Path = PAGE) -> list[list[tuple[str, list[str]]]]:
    """The blocks of commands, each command with the lines that are shown of its answer."""
    found = []
    for block in re.findall(r"```console\n(.*?)```", page.read_text(), re.S):
        commands: list[tuple[str, list[str]]] = []
        for line in block.splitlines():
            if line.startswith("$ "):
                commands.append((line[2:], []))
            else:
                commands[-1][1].append(line)
        found.append(commands)
    return found


def is_shown(shown: list[str], lines: list[str]) -> bool:
    """Whether these lines are what is shown, where `...` stands for any lines."""
    if not shown:
        return not lines
    if shown[0] == "...":
        return any(is_shown(shown[1:], lines[i:]) for i in range(len(lines) + 1))
    return bool(lines) and lines[0] == shown[0] and is_shown(shown[1:], lines[1:])


class Examples(World):
    """A page whose commands are run."""

    def run_all(self, page: Path) -> int:
        """Runs the commands of a page, each of which shows what stands there. Returns how many
        these are."""
        (self.folder / "set.mm").symlink_to(DATABASES / "set.mm")
        path = self.surroundings()["PATH"]
        tried = 0
        for block in blocks(page):
            for line, shown in block:
                done = self.ran("bash", "-c", line, PATH=f"{TOP}:{path}")
                lines = done.lines() + done.err.splitlines()
                if done.status:
                    lines.append(f"(status {done.status})")
                cut = lines if "..." not in shown else lines[:20] + lines[-20:]
                self.assertTrue(is_shown(shown, cut), f"{line}\n" + "\n".join(cut[:9]))
                tried += 1
        return tried


class Twenty(Examples):
    """docs/QUESTIONS.md."""

    PAGE = TOP / "docs" / "QUESTIONS.md"

    def test_they_are_twenty(self) -> None:
        numbers = re.findall(r"^\*\*(\d+)\. .*?\?\*\*", self.PAGE.read_text(), re.M)
        self.assertEqual([*map(int, numbers)], list(range(1, 21)))

    @unittest.skipUnless((DATABASES / "set.mm").exists(), "set.mm isn't installed")
    def test_examples(self) -> None:
        self.assertGreater(self.run_all(self.PAGE), 20)


class Cookbook(Examples):
    """docs/COOKBOOK.md."""

    def test_every_command_is_on_it(self) -> None:
        run = " ".join(line for block in blocks() for line, _ in block)
        for name in names():
            self.assertIn(f"mmquery {name} ", PAGE.read_text() if name == "cache" else run)

    @unittest.skipUnless((DATABASES / "set.mm").exists(), "set.mm isn't installed")
    def test_examples(self) -> None:
        self.assertGreater(self.run_all(PAGE), 30)
        self.assertTrue((self.folder / "set.png").read_bytes().startswith(b"\x89PNG\r\n\x1a\n"))
        self.assertTrue((self.folder / "set.html").read_bytes()[:15].lower() == b"<!doctype html>")

    @unittest.skipUnless((DATABASES / "set.mm").exists(), "set.mm isn't installed")
    def test_reports(self) -> None:
        text = PAGE.read_text()
        part = text[text.index("\n### Reports\n") : text.index("\n## Is it valid?\n")]
        (self.folder / "set.mm").symlink_to(DATABASES / "set.mm")
        (self.folder / "mmdepend").symlink_to(built_program())
        commands = re.findall(r"```sh\n(.*?)```", part, re.S)[0]
        path = f"{self.folder}:{self.surroundings()['PATH']}"
        self.assertEqual(self.ran("bash", "-e", "-c", commands, PATH=path), self.ran("true"))
        self.assertEqual(self.answers("cites", "report", "zorn", "--on", "ax-ac2"), ["numth3"])


class Changes(unittest.TestCase):
    """CHANGELOG.md and docs/STABILITY.md."""

    def test_the_versions(self) -> None:
        """The newest entry is the version that there is, and nothing is promised before its
        time."""
        entries = re.findall(r"^## (\S+)$", (TOP / "CHANGELOG.md").read_text(), re.M)
        self.assertEqual(f"mmquery {entries[0]}\n", VERSION)
        self.assertEqual(entries, sorted(set(entries), key=numbers_of, reverse=True))
        text = (TOP / "docs" / "STABILITY.md").read_text()
        since = re.findall(r"^\| .* \| (\d+\.\d+\.\d+) \| ", text, re.M)
        self.assertGreater(len(since), 8)
        self.assertLessEqual(set(since), set(entries))


def numbers_of(version: str) -> list[int]:
    """The numbers of a version."""
    return [int(part) for part in version.split(".")]


class Completions(World):
    """The completion of `mmquery`."""

    def test_bash(self) -> None:
        script = f""". {TOP}/completions/mmquery.bash
        COMP_WORDS=("$@"); COMP_CWORD=$(($# - 1)); _mmquery; printf '%s\\n' "${{COMPREPLY[@]}}" """
        for words, wanted in {
            ("rest",): ["rests"],
            ("rests", "--ess"): ["--essential"],
            ("rests", "--format", "j"): ["json"],
            ("gate", "--format", "=", "g"): ["github"],
            ("graph", "--as", ""): ["dot", "graphml", "edges"],
            ("cache", "s"): ["show"],
            ("rests", "some"): ["some file"],
        }.items():
            self.write("some file", "")
            done = self.ran("bash", "-c", script, "bash", "mmquery", *words)
            self.assertEqual(done.lines(), wanted, f"{words}: {done.err}")


BETTER = {
    "E15": "rename this statement or the one on line 1",
    "E33": "correct the label, or declare what it names in front of the theorem",
    "E36": "use another variable in place of x on one side: no `$d` helps there",
}
"""What is advised of the examples where it is known what is lacking."""


class Faults(World):
    """docs/FAULTS.md: its examples give what it says, and `verify` tells its advice."""

    def test_the_table(self) -> None:
        lines = (TOP / "docs" / "FAULTS.md").read_text().splitlines()
        rows = [
            re.split(r" (?<!\\)\| ", line[2:-2]) for line in lines if re.match(r"\| E\d\d \|", line)
        ]
        self.assertEqual(len(rows), len(FAULTS))
        for code, _, _, example, place, advice in rows:
            if not example.startswith("`"):
                continue
            text = example[1:-1].replace("<LF>", "\n").replace("<07>", "\x07").replace("\\|", "|")
            self.write("example.mm", text)
            native = subprocess.run(
                [built_program(), self.folder / "example.mm"], capture_output=True, check=False
            )
            self.assertEqual(native.stdout.decode(), f"refused {place} {code}\n")
            done = self.query("verify", "example.mm")
            self.assertEqual((done.status, done.err), (1, ""), code)
            self.assertTrue(done.out.startswith(f"example.mm:{place}: refused {code}"), done.out)
            self.assertIn(FAULTS[code][0], done.out)
            self.assertIn(BETTER.get(code, advice), done.out)
            self.refuses("rests", "example.mm", "x", why=f"example.mm:{place}: refused {code}")

    def test_the_commands(self) -> None:
        text = (TOP / "docs" / "FAULTS.md").read_text()
        commands = re.findall(r"`((?:LC_ALL=C|sed|metamath) .*?)`", text)
        shows, removes, joins = commands
        self.write("set.mm", b"\xef\xbb\xbf$c a $.\nb $a a $.\n$( \xe9 $)\n")
        shown = self.ran("bash", "-c", shows).lines()
        self.assertEqual([line[0] for line in shown], ["1", "3"])
        self.assertEqual(self.ran("bash", "-c", removes), self.ran("true"))
        self.assertEqual(self.report("set.mm"), "refused 3:4 E01\n")
        if not shutil.which("metamath"):
            self.skipTest("there is no metamath.exe")
        self.write("main.mm", "$c a $.\n$[ part.mm $]\nb $a a $.\n")
        self.write("part.mm", "$c c $.\n")
        self.assertEqual(self.ran("bash", "-c", joins).status, 0)
        self.assertIn("axioms 1\n", self.report("flat.mm"))


class Definitions(unittest.TestCase):
    """docs/DEFINITIONS.md: how many lines it says that there are."""

    def test_the_lines(self) -> None:
        text = (TOP / "docs" / "DEFINITIONS.md").read_text()
        told = re.findall(r"some ([\d,]+) for `\w+`", text)
        commands = re.findall(r"```sh\n(.*?)```", text, re.S)[0]
        done = subprocess.run(
            ["sh", "-e", "-c", commands], cwd=TOP, capture_output=True, text=True, check=True
        )
        for number, counted in zip(told, done.stdout.split(), strict=True):
            self.assertAlmostEqual(int(number.replace(",", "")), int(counted), delta=100)


class Sources(unittest.TestCase):
    """docs/BOARD.md and docs/PROOFS.md: what they show of sources stands there."""

    def test_the_board(self) -> None:
        text = (TOP / "docs" / "BOARD.md").read_text()
        crate = TOP / "crates" / "mm_board"
        for language, file in {
            "rust": crate / "src" / "tests.rt",
            "antt": crate / "proofs" / "tests" / "search" / "Invariants.antt",
        }.items():
            shown = re.findall(rf"```{language}\n(.*?)```", text, re.S)
            self.assertEqual(len(shown), 1)
            self.assertIn(shown[0], file.read_text())

    def test_the_proofs(self) -> None:
        text = (TOP / "docs" / "PROOFS.md").read_text()
        crate = TOP / "crates" / "mm_outline"
        shown = re.findall(r"```rust\n(.*?)```", text, re.S)
        self.assertEqual(len(shown), 1)
        self.assertIn(shown[0], (crate / "src" / "words.rt").read_text())
        name = re.findall(r"this is the edit `(\w+)`", text)[0]
        edit = (crate / "must-fail" / f"{name}.edit").read_text()
        self.assertIn(f"```\n{edit.strip()}\n```", text)
        answers = TOP / "crates" / "mm_check" / "proofs" / "checker" / "test_end" / "Answers.antt"
        shown = re.findall(r"```antt\n(.*?)```", text, re.S)
        self.assertEqual(len(shown), 1)
        self.assertIn(shown[0], answers.read_text())


class Map(unittest.TestCase):
    """docs/README.md names each page, and each page begins with whom it is for."""

    def test_the_pages(self) -> None:
        text = (TOP / "docs" / "README.md").read_text()
        for page in [*sorted((TOP / "docs").glob("*.md")), TOP / "bench" / "README.md"]:
            start = page.read_text().split("\n\n")[1]
            self.assertRegex(start, r"\AThis (page|map) is for who(m|ever) ", page.name)
            self.assertIn("fterwards you know", page.read_text()[:1200], page.name)
            if page != TOP / "docs" / "README.md":
                self.assertIn(f"({os.path.relpath(page, TOP / 'docs')})", text)


class Folders(unittest.TestCase):
    """The table of folders in ARCHITECTURE.md."""

    def setUp(self) -> None:
        page = (TOP / "docs" / "ARCHITECTURE.md").read_text("utf-8")
        folders, _, crates = page.partition("\n## The layers\n")
        self.folders = re.findall(r"^\| `([^`]+)` \|", folders, re.MULTILINE)
        self.crates = set(re.findall(r"`(\w+)`", crates))
        listed = subprocess.run(["git", "ls-files"], cwd=TOP, stdout=subprocess.PIPE, check=True)
        self.files = [Path(line) for line in listed.stdout.decode().splitlines()]

    def test_each_folder_has_its_line(self) -> None:
        found = {str(file.parent) for file in self.files if file.parts[0] != "crates"}
        self.assertEqual(sorted(self.folders), sorted({*found, "crates"}))

    def test_each_crate_is_named_and_has_the_same_rooms(self) -> None:
        for file in self.files:
            if file.parts[0] == "crates":
                self.assertIn(file.parts[1], self.crates)
                if len(file.parts) > 3:
                    self.assertIn(
                        file.parts[2], ("must-fail", "proofs", "specs", "src", "wrong-bodies")
                    )


class Language(World):
    """docs/LANGUAGE.md: what it says of each text that shows a point of our own."""

    def test_the_points(self) -> None:
        text = (TOP / "docs" / "LANGUAGE.md").read_text()
        part = text[text.index("## What is this project's own") :]
        head = re.findall(r"^```\n(.*?)^```", part, re.S | re.M)[0]
        tried = 0
        for line in part.splitlines():
            row = line[2:-2].split(" | ")
            if len(row) != 4 or not re.match(r"`[^`]*`\Z", row[1]):
                continue
            shown = row[1][1:-1].replace("<0C>", "\x0c") + "\n"
            self.write("point.mm", (head if shown[0] != "$" else "") + shown)
            code = re.match(r"E\d\d", row[2])
            done = self.query("verify", "point.mm")
            self.assertEqual(done.status, 1 if code else 0, line)
            self.assertIn(f" refused {code[0]}" if code else ": valid, ", done.out, line)
            accepted = not code or "with `--open` accepted" in row[2]
            done = self.query("verify", "--open", "point.mm")
            self.assertEqual(done.status, 0 if accepted else 1, line)
            if "`t` cites nothing" in row[2]:
                self.assertEqual(self.query("cites", "point.mm", "t").out, "")
            tried += 1
        self.assertEqual(tried, 11)


class ReportPage(World):
    """docs/REPORT.md: its examples are what the program gives."""

    def test_the_examples(self) -> None:
        page = (TOP / "docs" / "REPORT.md").read_text()
        blocks_shown = re.findall(r"^```\n(.*?)^```", page, re.S | re.M)
        # What the page shows, in its order.
        (
            database,
            whole,
            logical_counts,
            matrix_of_form_2,
            essential,
            citations,
            proofs,
            repeating,
            statements,
            open_theorem,
            open_counts,
        ) = blocks_shown
        self.write("page.mm", database)
        self.write("open.mm", database + open_theorem)
        self.assertEqual(self.report("page.mm"), whole)
        self.assertEqual(
            self.report("page.mm", "--only", "|-", "--report", "counts"), logical_counts
        )
        self.assertIn(matrix_of_form_2, self.report("page.mm", "--form", "2"))
        self.assertEqual(self.report("page.mm", "--essential"), essential)
        self.assertEqual(self.report("page.mm", "--report", "citations"), citations)
        self.assertEqual(self.report("page.mm", "--report", "proofs"), proofs)
        self.write("repeating.mm", database + repeating)
        (line,) = re.findall(r"`(twice:[^`]*)`", page)
        told = self.report("repeating.mm", "--report", "proofs")
        self.assertEqual(told.splitlines()[-2], line)
        self.assertEqual(self.report("page.mm", "--report", "statements"), statements)
        self.assertEqual(self.report("open.mm", "--open", "--report", "counts"), open_counts)


if __name__ == "__main__":
    unittest.main()
