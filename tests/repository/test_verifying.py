"""The file of the page that verifies, and its scripts."""

import base64
import hashlib
import json
import os
import re
import shutil
import subprocess
import tempfile
import unittest
import zlib
from pathlib import Path

from query.program.refusals import FAULTS
from query.tests.world import TOP

WEB = TOP / "web"
BUILD = WEB / "verifier" / "build"
STUB = TOP / "tests" / "shared" / "library_stub.js"
FORBIDDEN = ("innerHTML", "outerHTML", "insertAdjacentHTML", "document.write", "eval(", "Function(")


def hash_of(text: str) -> str:
    """The hash by which a policy allows a text."""
    return f"'sha256-{base64.b64encode(hashlib.sha256(text.encode()).digest()).decode()}'"


class Build(unittest.TestCase):
    """What web/verifier/build makes."""

    def built(self, maker: str = "mmdepend <1>") -> str:
        """The page, with a file in place of the module."""
        with tempfile.TemporaryDirectory() as folder:
            module = Path(folder) / "module"
            module.write_bytes(b"\0asm</script>")
            words = [str(BUILD), str(module), maker]
            surroundings = {**os.environ, "LIBRARY_SCRIPT": str(STUB)}
            done = subprocess.run(words, env=surroundings, stdout=subprocess.PIPE, check=True)
        return done.stdout.decode()

    def block(self, page: str, name: str) -> bytes:
        """A block of the page."""
        match = re.search(rf'id="data-{name}">([^<]*)</script>', page)
        assert match is not None
        return zlib.decompress(base64.b64decode(match[1]))

    def test_file(self) -> None:
        page = self.built()
        self.assertEqual(page, self.built())
        self.assertEqual(self.block(page, "module"), b"\0asm</script>")
        told = json.loads(self.block(page, "tables"))
        self.assertEqual(told["maker"], "mmdepend <1>")
        self.assertEqual({code: tuple(words) for code, words in told["faults"].items()}, FAULTS)
        self.assertEqual(told["entities"]["named"]["forall;"], "\u2200")

    def test_policy(self) -> None:
        page = self.built()
        (policy,) = re.findall(r'Content-Security-Policy" content="([^"]*)"', page)
        (code,) = re.findall(r'<script type="module">(.*?)</script>', page, re.S)
        (style,) = re.findall(r"<style>(.*?)</style>", page, re.S)
        rules = dict(rule.split(" ", 1) for rule in policy.split("; "))
        self.assertEqual(rules["default-src"], "'none'")
        self.assertEqual(rules["script-src"], f"{hash_of(code)} 'wasm-unsafe-eval'")
        self.assertEqual(rules["style-src"], hash_of(style))
        self.assertEqual(rules["worker-src"], "blob:")
        self.assertEqual(rules["trusted-types"], "mmdepend")
        self.assertEqual(rules["require-trusted-types-for"], "'script'")
        self.assertEqual(set(rules) & {"connect-src", "img-src", "frame-src"}, set())

    def test_scripts(self) -> None:
        page = self.built()
        (code,) = re.findall(r'<script type="module">(.*?)</script>', page, re.S)
        for script in (code, self.block(page, "worker").decode()):
            self.assertEqual(re.findall(r"\b(?:import|require)\b[\s(\"']", script), [])
            for word in FORBIDDEN:
                self.assertFalse(word in script, word)

    def test_words(self) -> None:
        done = subprocess.run([str(BUILD)], capture_output=True, check=False)
        self.assertEqual((done.returncode, done.stdout), (2, b""))
        self.assertIn(b"Usage: web/verifier/build MODULE MAKER", done.stderr)

    @unittest.skipUnless(shutil.which("tsc"), "node-typescript isn't installed")
    def test_types(self) -> None:
        done = subprocess.run(["tsc", "-p", str(WEB)], stdout=subprocess.PIPE, check=False)
        self.assertEqual((done.returncode, done.stdout.decode()), (0, ""))


if __name__ == "__main__":
    unittest.main()
