"""The code itself: formatted, typed, in small functions, what stands twice the same, and its
packages named. What is installed of Debian is asked."""

import ast
import os
import re
import shutil
import subprocess
import tempfile
import unittest
from pathlib import Path

from query.tests.world import TOP

TOOLS = Path("/usr/bin")
MOST_LINES = 40  # of a function
OWN = ("query", "tables", "tests")
"""The folders whose modules are packages."""
# Where scripts find the modules beside them.
MODULES = ("bench", "web", "packages", "python")


def tracked() -> list[str]:
    """The files of the repository, outside of the crates."""
    if not shutil.which("git"):
        raise unittest.SkipTest("git isn't installed")
    listed = subprocess.run(
        ["git", "ls-files"], cwd=TOP, stdout=subprocess.PIPE, encoding="utf-8", check=True
    )
    return [file for file in listed.stdout.splitlines() if not file.startswith("crates/")]


def scripts(interpreter: str) -> list[str]:
    """The files whose first line names an interpreter, by a pattern."""
    found = []
    for file in tracked():
        with open(TOP / file, "rb") as script:
            first = script.readline(99)
        if re.match(rb"#!/.*\b(?:%b)\b" % interpreter.encode(), first):
            found.append(file)
    return found


def python_files() -> list[str]:
    """All Python: modules, and scripts without an ending."""
    return sorted({*scripts("python3"), *(file for file in tracked() if file.endswith(".py"))})


def package_modules() -> list[Path]:
    """The modules of packages, those of tests too."""
    return [path for folder in OWN for path in (TOP / folder).rglob("*.py")]


def late_imports(path: Path) -> list[int]:
    """The lines on which imports within a function begin; of adjacent ones the first."""
    kinds = (ast.Import, ast.ImportFrom)
    lines = {
        node.lineno
        for function in ast.walk(ast.parse(path.read_text("utf-8")))
        if isinstance(function, ast.FunctionDef)
        for node in ast.walk(function)
        if isinstance(node, kinds)
    }
    return [line for line in sorted(lines) if line - 1 not in lines and line - 2 not in lines]


class Code(unittest.TestCase):
    """What tools say of all Python and all scripts."""

    takes_long = True

    def accepts(self, tool: str, *words: str, **surroundings: str) -> None:
        """The tool has nothing to say."""
        if not (TOOLS / tool).exists():
            self.skipTest(f"{tool} isn't installed")
        done = subprocess.run(
            [str(TOOLS / tool), *words],
            cwd=TOP,
            env={**os.environ, **surroundings},
            stdout=subprocess.PIPE,
            stderr=subprocess.STDOUT,
            check=False,
        )
        self.assertEqual(done.returncode, 0, done.stdout.decode())

    def test_black(self) -> None:
        self.accepts("black", "--check", *python_files())

    def test_flake8(self) -> None:
        self.accepts("flake8", *python_files())

    def test_mypy(self) -> None:
        """All modules and scripts. Each script gets a name of its own, as modules have one."""
        with tempfile.TemporaryDirectory() as folder:
            linked = [file for file in scripts("python3") if not file.endswith(".py")]
            for file in linked:
                name = re.sub(r"\W", "_", file)
                (Path(folder) / f"{name}_script.py").symlink_to(TOP / file)
            modules = [file for file in python_files() if file not in linked]
            named = [file for file in modules if not file.startswith("query/")]
            found = sorted(str(path) for path in Path(folder).iterdir())
            words = ["--strict", "--cache-dir=/dev/null", "query", *named, *found]
            self.accepts("mypy", *words, MYPYPATH=":".join(MODULES))

    def test_patterns(self) -> None:
        """Python before 3.11.5, as Debian 12 has it, takes a possessive group wrongly."""
        for file in python_files():
            for node in ast.walk(ast.parse((TOP / file).read_text("utf-8"))):
                if isinstance(node, ast.Call) and ast.unparse(node.func) == "re.compile":
                    pattern = ast.unparse(node.args[0])
                    self.assertNotRegex(pattern, r"\)[*+?]\+", f"{file}: {pattern}")

    def test_shellcheck(self) -> None:
        completions = [file for file in tracked() if re.fullmatch(r"completions/.*\.bash", file)]
        self.accepts("shellcheck", *scripts("(?:ba)?sh"), *completions)

    @unittest.skipUnless(shutil.which("tsc"), "node-typescript isn't installed")
    def test_modules_have_types(self) -> None:
        """What tsc checks are all modules of JavaScript, those of tests too."""
        told = subprocess.run(
            ["tsc", "--listFilesOnly", "-p", "web"], cwd=TOP, stdout=subprocess.PIPE, check=True
        )
        checked = set(told.stdout.decode().splitlines())
        modules = [file for file in tracked() if re.search(r"\.m?js$", file)]
        self.assertEqual([file for file in modules if str(TOP / file) not in checked], [])
        self.assertGreater(len(modules), 50)

    def test_imports_stand_at_the_top(self) -> None:
        """What is imported within a function of a package has a comment that says why."""
        for path in package_modules():
            lines = path.read_text("utf-8").splitlines()
            for first in late_imports(path):
                place = f"{path.name}:{first}"
                self.assertTrue(lines[first - 2].strip().startswith("# "), place)

    def test_functions_are_small(self) -> None:
        for path in package_modules():
            for node in ast.walk(ast.parse(path.read_text("utf-8"))):
                if isinstance(node, ast.FunctionDef):
                    lines = (node.end_lineno or node.lineno) - node.lineno + 1
                    self.assertLessEqual(lines, MOST_LINES, f"{path.name}: {node.name}")


class Copies(unittest.TestCase):
    """What stands twice, since one place can't import the other, is the same."""

    def test_where_a_command_is(self) -> None:
        places = ("query/platform/executables.py", "packages/files/commands.py")
        one, other = (function_of(TOP / place, "located") for place in places)
        self.assertEqual(one, other)


def function_of(path: Path, name: str) -> str:
    """The source of a function of a module."""
    text = path.read_text("utf-8")
    found = [each for each in ast.parse(text).body if getattr(each, "name", "") == name]
    return "\n".join(ast.get_source_segment(text, each) or "" for each in found)


class Packages(unittest.TestCase):
    """`./test` installs what the quick checks need, and `./check` tells where to get it."""

    # What we build, what the toolchain has, and what is on each Debian.
    THERE = frozenset({"program", "library", "web", "rt", "python3", "dpkg-deb"})

    def test_both_name_the_same_packages(self) -> None:
        (table,) = re.findall(r"commands\(\) \{\n.*\n([^}]*)END\n\}", (TOP / "test").read_text())
        lines = [line.split() for line in table.splitlines()]
        installed = {re.split("[/:]", command)[-1]: package for command, package in lines}
        check = (TOP / "check").read_text()
        told = dict(re.findall(r"^ +([\w-]+)\) .*apt-get install ([\w-]+)", check, re.MULTILINE))
        quick = re.findall(r"^quick (\S+) ", check, re.MULTILINE)
        needed = {need for needs in quick for need in needs.split(",")} - self.THERE
        self.assertTrue(needed)
        for need in sorted(needed):
            self.assertEqual(installed[need], told.get(need, need), need)


if __name__ == "__main__":
    unittest.main()
