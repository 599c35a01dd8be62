"""The options of `mmdepend` and of `mmquery`, where they aren't made (`test_tables.py`): what the
program and Node take and tell, and what the pages name."""

import json
import re
import subprocess
import unittest

from query.commands import names
from query.tests.world import TOP, built_program
from tables import sources
from tables.options import options_of
from tables.words import OF_NODE


def read(name: str) -> str:
    """A file of the repository."""
    return (TOP / name).read_text("utf-8")


def in_node(script: str) -> str:
    """What a script says that has `readWords` of web/node/command-line.js."""
    start = f"import {{ readWords }} from '{TOP}/web/node/command-line.js'; "
    done = subprocess.run(
        ["node", "--input-type=module", "--eval", start + script],
        capture_output=True,
        text=True,
        check=True,
    )
    return done.stdout


class OfTheProgram(unittest.TestCase):
    """`mmdepend`."""

    maxDiff = None

    def test_the_help(self) -> None:
        """The program and the one for Node write the same help."""
        text = in_node("process.stdout.write(readWords(['--help'], '').text)")
        done = subprocess.run([built_program(), "--help"], capture_output=True, check=True)
        self.assertEqual(done.stdout.decode(), text)

    def test_what_javascript_reads(self) -> None:
        """The reader in JavaScript takes each value and no other, and has the same defaults."""
        known = {option.name: option for option in sources.program().options}
        lines: dict[str, list[str]] = {"": []}
        for name, option in known.items():
            low, high = option.limits or (0, 0)
            taken = [str(low), str(high)] if option.limits else option.choices
            refused = [str(low - 1), str(high + 1)] if option.limits else ["none"]
            for word in taken:
                lines[f"{name}={word}"] = [f"--{name}", word]
            for word in refused if taken else ():
                lines[f"{name}!{word}"] = [f"--{name}", word]
        script = (
            f"const lines = {json.dumps(lines)}; const read = (words) => readWords(words, '');"
            "for (const [name, words] of Object.entries(lines)) lines[name] = read(words);"
            "process.stdout.write(JSON.stringify(lines))"
        )
        found = json.loads(in_node(script))
        for name, line in found.items():
            self.assertEqual(line["ends"], "misread" if "!" in name else "run", name)
        for name, value in found[""]["request"].items():
            default = known[name].default
            self.assertEqual(str(value) if value else None, default, name)


def words_of(name: str) -> set[str]:
    """The words that name options of a command of mmquery."""
    return {word for option in options_of(name) for word in option.words}


class OfMmquery(unittest.TestCase):
    """`mmquery`."""

    maxDiff = None

    def test_the_pages(self) -> None:
        """Each command that a page names is there and has the options that are named with it."""
        tried = 0
        for page in [TOP / "README.md", *sorted((TOP / "docs").glob("*.md"))]:
            for line in commands_in(page.read_text("utf-8")):
                name, *words = line.split()
                self.assertIn(name, {*names(), "help"}, f"{page.name}: {line}")
                for word in words:
                    option = word.partition("=")[0].rstrip("`.,;)")
                    if re.fullmatch(r"--[a-z][a-z-]*", option):
                        self.assertIn(option, words_of(name), f"{page.name}: {line}")
                        tried += 1
        self.assertGreater(tried, 50)

    def test_options_by_themselves(self) -> None:
        """An option that a page for users names is one of a command."""
        known = {word for name in names() for word in words_of(name)}
        known |= {f"--{option.name}" for option in sources.program().options}
        known |= {f"--{option.name}" for option in OF_NODE}
        tried = 0
        for name in USED:
            text = re.sub(r"```.*?```", "", read(name), flags=re.S)
            for word in re.findall(r"`(--[a-z][a-z-]*)", text):
                self.assertIn(word, known, name)
                tried += 1
        self.assertGreater(tried, 100)


USED = ("README.md", "CHANGELOG.md") + tuple(
    f"docs/{name}.md"
    for name in (
        *("COOKBOOK", "FAULTS", "GATE", "LANGUAGE", "LIBRARY", "PAGE", "PROGRAM", "QUESTIONS"),
        *("REPORT", "SQL", "STABILITY", "SYNTAX"),
    )
)
"""What speaks of options to users."""


def commands_in(text: str) -> list[str]:
    """The lines after `mmquery` in the blocks of a page and between its backticks, each up to what
    a shell does with the answer."""
    spans = re.findall(r"`([^`\n]+)`", re.sub(r"```.*?```", "", text, flags=re.S))
    blocks = re.findall(r"```[a-z]*\n(.*?)```", text, re.S)
    lines = [line for block in blocks for line in block.splitlines()]
    found = []
    for line in [*spans, *lines]:
        for part in re.findall(r"(?:^|[\s/(])mmquery ([a-z][a-z-]*\b[^|>&;()]*)", line):
            found.append(part)
    return found


if __name__ == "__main__":
    unittest.main()
