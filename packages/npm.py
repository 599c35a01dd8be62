"""The package for npm: a tar file, as `npm pack` writes it."""

import json
import subprocess
import tempfile
from pathlib import Path

from common import LICENCE, LICENCES, SUMMARY, Packed, put, put_copy, settle

README = """# mmdepend

{summary}.

`npx mmdepend FILE` writes the report of a database, `npx mmdepend page FILE > FILE.html` a page
that shows it. In a program:

```js
import {{ Refused, report }} from "mmdepend";
import {{ readFile }} from "node:fs/promises";

try {{
    const bytes = await report(await readFile("set.mm"), {{ report: "usage", only: "|-" }});
    process.stdout.write(bytes);
}} catch (error) {{
    if (!(error instanceof Refused)) throw error;
    console.error(`line ${{error.line}}, column ${{error.column}}: ${{error.code}}`);
}}
```

`mmdepend.html` is a page that verifies a database in the browser. The folder `docs` has all pages.
"""


def manifest(version: str) -> str:
    """The file package.json."""
    fields = {
        "name": "mmdepend",
        "version": version,
        "description": SUMMARY,
        "license": f"({LICENCE})",
        "type": "module",
        "engines": {"node": ">=18.7"},
        "bin": {"mmdepend": "mmdepend.mjs"},
        "exports": {
            ".": {"types": "./index.d.ts", "default": "./index.js"},
            "./mmdepend.wasm": "./mmdepend.wasm",
            "./mmdepend.html": "./mmdepend.html",
            "./package.json": "./package.json",
        },
    }
    return json.dumps(fields, indent=2) + "\n"


def make(packed: Packed, folder: Path) -> Path:
    """Makes the package in a folder, and returns its path."""
    path = folder / f"mmdepend-{packed.version}.tgz"
    with tempfile.TemporaryDirectory() as name:
        temporary = Path(name)
        package = temporary / "package"
        packed.copy([*LICENCES, "CHANGELOG.md", "docs", "mmdepend.mjs", "mmdepend.html"], package)
        for part in ("index.js", "index.d.ts", "mmdepend.wasm"):
            put_copy(packed.folder / "module" / part, package / part)
        put(package / "README.md", README.format(summary=SUMMARY))
        put(package / "package.json", manifest(packed.version))
        settle(package, packed.time)
        plain = temporary / "tar"
        order = ["--format=ustar", "--sort=name", "--owner=0", "--group=0", "--numeric-owner"]
        subprocess.run(["tar", "-C", temporary, *order, "-cf", plain, "package"], check=True)
        with open(path, "wb") as out:
            subprocess.run(["gzip", "-9", "-n", "-c", plain], stdout=out, check=True)
    return path
