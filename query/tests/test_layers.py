"""The packages of mmquery: imports go downwards in the order of ARCHITECTURE, without a cycle."""

import ast
import re
import unittest
from collections.abc import Mapping
from pathlib import Path

from query.tests.world import TOP

QUERY = TOP / "query"
ROW = re.compile(r"^\| `query/(\w+)` \| [^|]+ \| ([^|]*)\|$", re.MULTILINE)
TOPMOST = {"query.__main__", "query.cli"}
"""The modules that stand in no package. They may import each package, and no package imports them.
"""


def sources() -> dict[str, Path]:
    """The modules of mmquery by their whole names, but for tests."""
    found = {}
    for path in QUERY.rglob("*.py"):
        parts = path.relative_to(TOP).with_suffix("").parts
        if parts[:2] != ("query", "tests"):
            found[".".join(parts).removesuffix(".__init__")] = path
    return found


def imports_of(text: str, modules: Mapping[str, object]) -> set[str]:
    """What a text imports of the repository, anywhere in it, also for its types alone."""
    found: set[str] = set()
    for node in ast.walk(ast.parse(text)):
        if isinstance(node, ast.Import):
            found.update(each.name for each in node.names)
        elif isinstance(node, ast.ImportFrom):
            module = f"{'.' * node.level}{node.module or ''}"
            for each in node.names:
                within = f"{module}.{each.name}"
                found.add(within if within in modules else module)
    return {name for name in found if name.split(".")[0] in ("query", "tests", "")}


def package_of(module: str) -> str:
    """The package of a module, such as `gate`; "" for one that stands in none."""
    return "" if module in TOPMOST else module.partition(".")[2].partition(".")[0]


def cycle_in(imports: Mapping[str, set[str]]) -> list[str]:
    """Modules of which each imports the next one, and the last one the first; [] where there are
    none."""
    done: set[str] = set()
    way: list[str] = []

    def found_from(module: str) -> list[str]:
        if module in way:
            return [*way[way.index(module) :], module]
        if module in done:
            return []
        way.append(module)
        for other in sorted(imports.get(module, ())):
            if cycle := found_from(other):
                return cycle
        done.add(way.pop())
        return []

    return next((cycle for module in sorted(imports) if (cycle := found_from(module))), [])


class Layers(unittest.TestCase):
    """What imports what, in the code, in the first lines of packages and in ARCHITECTURE.md."""

    modules: dict[str, Path]
    imports: dict[str, set[str]]
    told: dict[str, list[str]]

    @classmethod
    def setUpClass(cls) -> None:
        cls.modules = sources()
        cls.imports = {
            name: imports_of(path.read_text("utf-8"), cls.modules)
            for name, path in cls.modules.items()
        }
        page = (TOP / "docs" / "ARCHITECTURE.md").read_text("utf-8")
        cls.told = {name: re.findall(r"`(\w+)`", last) for name, last in ROW.findall(page)}

    def found(self, package: str) -> set[str]:
        """The other packages that a package imports."""
        own = [name for name in self.modules if package_of(name) == package]
        return {package_of(each) for name in own for each in self.imports[name]} - {package}

    def test_imports_name_modules(self) -> None:
        """Nothing is imported by a relative name, and nothing but modules and what they have."""
        for name, imported in self.imports.items():
            self.assertLessEqual(imported, self.modules.keys(), name)

    def test_packages_go_downwards(self) -> None:
        """Each package imports those that the page names, and the page names those above it."""
        packages = {package_of(name) for name in self.modules if "." in name} - {""}
        self.assertEqual({*self.told}, packages)
        above: list[str] = []
        for package, told in self.told.items():
            self.assertEqual(told, [each for each in above if each in told], package)
            self.assertEqual({*told}, self.found(package), package)
            above.append(package)

    def test_packages_say_what_they_import(self) -> None:
        for package, told in self.told.items():
            text = self.modules[f"query.{package}"].read_text("utf-8")
            said = (ast.get_docstring(ast.parse(text)) or "").partition("\n\nIt imports ")[2]
            self.assertEqual(re.findall(r"`(\w+)`", said), told, package)
            self.assertTrue(told or said == "no other package.", package)

    def test_no_package_imports_the_command_line(self) -> None:
        for name, imported in self.imports.items():
            allowed = TOPMOST if name in TOPMOST else set()
            self.assertLessEqual(imported & {*TOPMOST, "query"}, allowed, name)

    def test_tests_go_downwards(self) -> None:
        """What tests share imports no test, tests in browsers none of mmquery, and the tests of
        mmquery none of the repository."""
        above = {
            "tests/shared": ("query", "tests.browser", "tests.repository"),
            "tests/browser": ("query.tests", "tests.repository"),
            "query/tests": ("tests.repository",),
        }
        for folder, others in above.items():
            for path in (TOP / folder).rglob("*.py"):
                for name in imports_of(path.read_text("utf-8"), {}):
                    self.assertFalse(name.startswith(others), f"{path.name} imports {name}")

    def test_modules_have_no_cycle(self) -> None:
        self.assertEqual(cycle_in(self.imports), [])

    def test_a_cycle_is_found(self) -> None:
        texts = {
            "query.a": "def late():\n    from query import b\n",
            "query.b": "if TYPE_CHECKING:\n    from query.c import Shape\n",
            "query.c": "import os\nimport query.a\n",
            "query.d": "from query.a import one\n",
        }
        imports = {name: imports_of(text, texts) for name, text in texts.items()}
        self.assertEqual(cycle_in(imports), ["query.a", "query.b", "query.c", "query.a"])
        del imports["query.c"]
        self.assertEqual(cycle_in(imports), [])


if __name__ == "__main__":
    unittest.main()
