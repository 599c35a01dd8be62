"""What is shown of words from outside: no terminal obeys them, no spreadsheet runs them, and what
changed can be seen."""

import csv
import io
import os
import pty
import unittest
from pathlib import Path
from unittest import mock

from query.answers.errors import shown, tell
from query.answers.excerpts import cut_both
from query.answers.output import Output, for_terminal
from query.gate.finding import Finding
from query.gate.forms import (
    MOST_SUMMARY_BYTES,
    SHOWN_TEXT,
    Verdict,
    as_annotations,
    as_markdown,
    as_summary,
)
from query.gate.request import Request
from query.platform import progress
from query.program.source import Source
from query.tests.world import MMQUERY, SMALL, World

EVIL = "\x1b]0;owned\x07\x9b2J\x7f\u202e\u2066\u200f\u061c\r\x08"
OBEYED = [chr(number) for number in (*range(10), *range(11, 32), *range(127, 160))]
OBEYED += ["\u200e", "\u200f", "\u061c", "\u2028", "\u2029", "\ufeff", "\U000e0041"]
OBEYED += [chr(number) for number in (*range(0x202A, 0x202F), *range(0x2066, 0x206A))]


class Signs(unittest.TestCase):
    """Signs that a terminal obeys."""

    def test_none_is_left(self) -> None:
        for sign in OBEYED:
            self.assertTrue(shown(f"a{sign}b").isascii(), repr(sign))
            self.assertTrue(shown(f"a{sign}b").isprintable(), repr(sign))

    def test_how_they_are_written(self) -> None:
        for text, wanted in (
            ("\x1b[2J", "\\x1b[2J"),
            ("\x9b", "\\x9b"),
            ("\udc9b", "\\x9b"),
            ("\u202e", "\\u202e"),
            ("\U000e0041", "\\U000e0041"),
            ("a\nb\tc", "a\\x0ab\\x09c"),
            ("Götterdämmerung ∀", "Götterdämmerung ∀"),
        ):
            self.assertEqual(shown(text), wanted)
        self.assertEqual(shown("a\nb\tc\r", "\n\t"), "a\nb\tc\\x0d")

    def test_answers_on_a_terminal(self) -> None:
        data = "a\tb\n\x1b[2J\u202e".encode() + b"\x9b\xff\n"
        self.assertEqual(for_terminal(data), b"a\tb\n\\x1b[2J\\u202e\\x9b\\xff\n")


class Terminal(World):
    """Commands whose standard output and error are a terminal."""

    def on_terminal(self, *words: str) -> bytes:
        """What a terminal gets of a command, where the line of progress is not shown."""
        process, terminal = pty.fork()
        if process == 0:
            os.chdir(self.folder)
            os.execve(MMQUERY, ["mmquery", *words], self.surroundings())
        data = b""
        try:
            while part := os.read(terminal, 1 << 16):
                data += part
        except OSError:
            pass  # its other end was closed
        os.close(terminal)
        os.waitpid(process, 0)
        return data.replace(b"\r\n", b"\n").replace(b"\r\x1b[K", b"")

    def is_harmless(self, data: bytes) -> None:
        """No sign of it is obeyed."""
        text = data.decode("utf-8")
        self.assertEqual(shown(text, "\n\t"), text)

    def test_words_from_outside(self) -> None:
        name = EVIL.replace("/", "")
        self.write("small.mm", SMALL)
        (self.folder / name).write_text(SMALL)
        (self.folder / f"bad{name}").write_text("\x07")
        (self.folder / "list").write_text("a2")
        for words in (
            ("verify", name),
            ("verify", f"bad{name}"),
            ("rests", name, EVIL),
            ("rests", f"no{name}", "x"),
            ("rests", "small.mm", "a2", f"--{EVIL}"),
            ("rests", "small.mm", "a2", "--format", EVIL),
            ("rests", f"{EVIL}:small.mm", "a2"),
            ("within", "small.mm", "--list", EVIL),
            ("why", "small.mm", "ax-1", "a2"),
            ("graph", name, "--as", "dot"),
            ("gate", "--base", EVIL, "small.mm"),
            ("gate", name, name),
            ("export", "--sqlite", f"no/{EVIL}", name),
            ("page", "--title", EVIL, name),
            ("picture", "small.mm", "--png"),
            ("cache",),
            (EVIL,),
        ):
            self.is_harmless(self.on_terminal(*words))

    def test_how_far_it_is(self) -> None:
        """Of many things each hundredth is told."""
        said: list[str] = []
        with mock.patch("query.platform.progress.now", said.append):
            items = [*range(250)]
            self.assertEqual([*progress.counted(items, "reading")], items)
            self.assertEqual([*progress.counted([], "reading")], [])
        self.assertEqual(said, [f"reading, {done} of 250 are done" for done in (0, 100, 200)])

    def test_a_notice_while_a_line_of_progress_stands(self) -> None:
        said: list[str] = []
        with mock.patch("query.answers.errors.put", said.append), mock.patch(
            "query.platform.progress.put", said.append
        ):
            tell("before")
            self.addCleanup(progress.end)
            progress._show()
            tell("meanwhile")
            progress.end()
            tell("afterwards")
        cleared = "\r\x1b[K"
        self.assertEqual(
            said,
            [
                "mmquery: before\n",
                f"{cleared}mmquery: working ..",
                f"{cleared}mmquery: meanwhile\n",
                cleared,
                "mmquery: afterwards\n",
            ],
        )

    def test_a_pipe_gets_the_bytes(self) -> None:
        self.write("small.mm", SMALL.replace("$}\n", "$}\f\n"))
        done = self.query("set-proof", "small.mm", "a2", "?")
        self.assertIn("\f", done.out)

    def test_standard_error_in_a_pipe(self) -> None:
        for words in (("verify", EVIL), ("rests", EVIL, "x"), (EVIL,)):
            done = self.query(*words)
            self.assertEqual(done.status, 2)
            self.is_harmless(done.err.encode("latin-1"))


class Cells(unittest.TestCase):
    """Fields of CSV."""

    WORDS = ["=1+1", "+1", "-a", "@a", "'", "'a", "''", "a'", " =1", "\t=1", "\ta", "\r=1", "a;=1"]
    WORDS += ["-", "", "a", 'a"b', "a,b", "a\nb", " a ", "--", "\uff1d1", "=1;=2", '"=1', "1.5"]

    def written(self, words: list[str]) -> str:
        """A table with these as a row."""
        out = Output("csv")
        out.table([f"c{number}" for number in range(len(words))], [words])
        return b"".join(out.taken()).decode()

    def test_what_is_read_is_what_was_written(self) -> None:
        _, row = csv.reader(io.StringIO(self.written(self.WORDS), newline=""))
        for word, cell in zip(self.WORDS, row, strict=True):
            self.assertEqual(cell.removeprefix("'"), word)

    def test_none_runs(self) -> None:
        for row in csv.reader(io.StringIO(self.written(self.WORDS), newline="")):
            for cell in row:
                self.assertNotIn(cell.strip()[:1], {"=", "+", "-", "@", "\uff1d"}, row)

    def test_other_forms_are_as_they_were(self) -> None:
        for form, wanted in (("tsv", "a\n=1\n"), ("json", '[\n{"a": "=1"}\n]\n')):
            out = Output(form)
            out.table(["a"], [["=1"]])
            self.assertEqual(b"".join(out.taken()).decode(), wanted)

    def test_an_empty_field_alone(self) -> None:
        self.assertEqual(self.written([""]), 'c0\n""\n')


class Changes(unittest.TestCase):
    """Formulas that differ."""

    def test_short_ones_are_whole(self) -> None:
        self.assertEqual(cut_both("a b", "a c"), ("a b", "a c"))

    def test_long_ones_are_shown_where_they_differ(self) -> None:
        start = "x " * 500
        for old, new in (
            (start + "old", start + "new"),
            (start + "old" + " y" * 500, start + "new" + " y" * 500),
            (start, start + "more"),
            ("s" * 1000 + "o", "s" * 1000 + "n"),
            ("o " + start, "n " + start),
        ):
            was, now = cut_both(old, new)
            self.assertNotEqual(was, now)
            for text in (was, now):
                self.assertLessEqual(len(text), 206)
        self.assertEqual(cut_both("o" * 300, "n")[1], "n")


class Summary(unittest.TestCase):
    """Summaries in Markdown."""

    def verdict(self, findings: int, size: int) -> Verdict:
        """One with so many findings, whose words have so many signs that Markdown means."""
        word = "*" * size
        found = [Finding("axioms", word, 1, word, word, word) for _ in range(findings)]
        return Verdict(request([word] * findings), found)

    def test_below_one_megabyte(self) -> None:
        for findings, size in ((1, 10), (900, 400), (2000, 100), (3000, 5000), (1, 3_000_000)):
            said = "".join(as_markdown(self.verdict(findings, size), True))
            self.assertLess(len(said.encode()), MOST_SUMMARY_BYTES)
            self.assertTrue(said.startswith("### mmquery gate: "))
            if findings > 1000:
                self.assertRegex(said, r"\nand [0-9]+ more findings")
        self.assertNotIn("*" * (SHOWN_TEXT + 1), said)

    def test_with_what_the_file_has(self) -> None:
        path = Path(os.environ.get("TMPDIR", "/tmp")) / f"summary-{os.getpid()}"
        self.addCleanup(path.unlink)
        for _ in range(4):
            with path.open("a") as file:
                verdict = self.verdict(900, 200)
                self.assertEqual(len(list(verdict.told(True))), 900)
                file.write(as_summary(verdict, str(path)))
        self.assertLess(path.stat().st_size, MOST_SUMMARY_BYTES)
        self.assertEqual(path.read_text().count("### mmquery gate"), 4)

    def test_annotations(self) -> None:
        found = [Finding("axioms", f"a{EVIL}.mm", 1, "", "", EVIL + "\n::error::x")]
        verdict = Verdict(request([EVIL]), found)
        said = "".join(as_annotations(verdict, True))
        self.assertEqual(shown(said, "\n"), said)
        self.assertEqual(len(said.splitlines()), 3)


def request(notes: list[str]) -> Request:
    """A request of the gate with these notes."""
    source = Source("set.mm", b"")
    return Request(source, source, "base", notes=tuple(notes))


if __name__ == "__main__":
    unittest.main()
