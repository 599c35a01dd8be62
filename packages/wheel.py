"""The packages for pip: wheels. The command `wheel` of Debian's package python3-wheel zips them."""

import os
import subprocess
import sys
import tempfile
from pathlib import Path

from common import FILES, LICENCE, LICENCES, SUMMARY, Packed, put, put_copy, settle

NATIVE = "py3-none-manylinux_2_34_x86_64"
ANY = "py3-none-any"

METADATA = f"""Metadata-Version: 2.1
Name: mmdepend
Version: {{version}}
Summary: {SUMMARY}
License: {LICENCE}
Requires-Python: >=3.11
Description-Content-Type: text/plain

The commands mmdepend and mmquery, and the module mmdepend. {{needs}}
The folder mmdepend/packed has their pages: README.md, and docs/README.md for the others.
"""
WHEEL = """Wheel-Version: 1.0
Generator: mmdepend
Root-Is-Purelib: {pure}
Tag: {tag}
"""
COMMANDS = """[console_scripts]
mmdepend = mmdepend.commands:mmdepend
mmquery = mmdepend.commands:mmquery
"""
NEEDS = {
    NATIVE: "For Linux on x86-64.",
    ANY: "For any system: the command mmdepend needs Node 18 or later, and the module\n"
    "mmdepend the shared library libmmdepend, which isn't in this package.",
}
# What each wheel takes from the packed file.
FROM_PACKED = (
    "README.md",
    "CHANGELOG.md",
    *LICENCES,
    "docs",
    "man",
    "mmquery",
    "query",
    "mmdepend.mjs",
    "mmdepend.html",
)


def make(packed: Packed, folder: Path, tag: str) -> Path:
    """Makes the wheel of a tag in a folder, and returns its path."""
    is_native = tag == NATIVE
    with tempfile.TemporaryDirectory() as name:
        root = Path(name)
        package = root / "mmdepend"
        put_copy(packed.folder / "python" / "mmdepend.py", package / "__init__.py")
        put_copy(FILES / "commands.py", package / "commands.py")
        put(package / "py.typed", "")
        packed.copy([*FROM_PACKED, "mmdepend"] if is_native else FROM_PACKED, package / "packed")
        if is_native:
            put_copy(packed.library(), package / f"libmmdepend.so.{packed.version.split('.')[0]}")
        info = root / f"mmdepend-{packed.version}.dist-info"
        put(info / "METADATA", METADATA.format(version=packed.version, needs=NEEDS[tag]))
        put(info / "WHEEL", WHEEL.format(pure=str(not is_native).lower(), tag=tag))
        put(info / "entry_points.txt", COMMANDS)
        for licence in LICENCES:
            put_copy(packed.folder / licence, info / licence)
        settle(root, packed.time)
        surroundings = {**os.environ, "SOURCE_DATE_EPOCH": str(packed.time)}
        command = ["/usr/bin/python3", "-m", "wheel", "pack", "--dest-dir", str(folder), str(root)]
        run = subprocess.run(command, env=surroundings, capture_output=True, text=True, check=False)
        if run.returncode:
            sys.exit(f"packages/make: no wheel, is python3-wheel there? {run.stderr.strip()}")
    return folder / f"mmdepend-{packed.version}-{tag}.whl"
