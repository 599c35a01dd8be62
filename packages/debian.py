"""The package for Debian and its relatives. `dpkg-deb` packs it."""

import hashlib
import os
import subprocess
import tempfile
from email.utils import formatdate
from pathlib import Path

from common import LICENCES, Packed, put, put_compressed, put_copy, settle

MAINTAINER = "mmdepend maintainers <maintainers@users.noreply.bisvjolt.example>"
ARCHITECTURE = "amd64"
LIBRARIES = Path("usr/lib/x86_64-linux-gnu")
SHARE = Path("usr/share/mmdepend")
DOCUMENTS = Path("usr/share/doc/mmdepend")

CONTROL = f"""Package: mmdepend
Version: {{version}}
Section: math
Priority: optional
Architecture: {ARCHITECTURE}
Maintainer: {MAINTAINER}
Installed-Size: {{size}}
Depends: libc6 (>= 2.34), python3 (>= 3.11)
Suggests: nodejs (>= 18.7), metamath-databases
Description: verify Metamath databases and tell on which axioms theorems rest
 The command mmdepend reads a Metamath database, verifies every proof in it,
 and reports for each theorem on which axioms it rests. It is proved that what
 it writes is what the definitions say.
 .
 The command mmquery answers questions on a database, and guards pull requests.
 The package also has the library for C and Python.
"""
CHANGELOG = f"""mmdepend ({{version}}) unstable; urgency=medium

  * CHANGELOG.md says what is new.

 -- {MAINTAINER}  {{date}}
"""
COPYRIGHT = f"""Format: https://www.debian.org/doc/packaging-manuals/copyright-format/1.0/
Upstream-Name: mmdepend

Files: *
Copyright: 2026 {MAINTAINER.partition(" <")[0]}
License: Expat or Apache-2.0

License: Expat
{{expat}}

License: Apache-2.0
 On Debian systems the text of this licence is in
 /usr/share/common-licenses/Apache-2.0.
"""
PKG_CONFIG = f"""prefix=/usr
includedir=${{prefix}}/include
libdir=/{LIBRARIES}
"""
# Python keeps beside a module what it compiled of it, where root runs it. dpkg doesn't know of it.
PRERM = """#!/bin/sh
set -e
modules="$DPKG_ROOT/usr/lib/python3/dist-packages"
rm -f "$modules"/__pycache__/mmdepend.*.pyc
rmdir "$modules/__pycache__" 2>/dev/null || :
find "$DPKG_ROOT/usr/share/mmdepend" -name __pycache__ -prune -exec rm -rf {} +
"""
# Where each completion goes.
COMPLETIONS = {
    "mmdepend.bash": "bash-completion/completions/mmdepend",
    "mmquery.bash": "bash-completion/completions/mmquery",
    "_mmdepend": "zsh/vendor-completions/_mmdepend",
    "_mmquery": "zsh/vendor-completions/_mmquery",
    "mmdepend.fish": "fish/vendor_completions.d/mmdepend.fish",
    "mmquery.fish": "fish/vendor_completions.d/mmquery.fish",
}


def put_commands(packed: Packed, root: Path) -> None:
    """The two commands, what they need, their manual pages and completions."""
    program = root / "usr/bin/mmdepend"
    put_copy(packed.folder / "mmdepend", program, 0o755)
    subprocess.run(["strip", program], check=True)
    packed.copy(("mmquery", "query", "mmdepend.mjs", "mmdepend.html"), root / SHARE)
    (root / SHARE / "mmdepend").symlink_to("../../bin/mmdepend")
    (root / "usr/bin/mmquery").symlink_to("../share/mmdepend/mmquery")
    for page in sorted((packed.folder / "man").iterdir()):
        put_compressed(page.read_bytes(), root / "usr/share/man/man1" / f"{page.name}.gz")
    for name, path in COMPLETIONS.items():
        put_copy(packed.folder / "completions" / name, root / "usr/share" / path)


def put_library(packed: Packed, root: Path) -> None:
    """The library with its header, and the module for Python."""
    put_copy(packed.folder / "include/mmdepend.h", root / "usr/include/mmdepend.h")
    put_copy(
        packed.folder / "python/mmdepend.py", root / "usr/lib/python3/dist-packages/mmdepend.py"
    )
    libraries = root / LIBRARIES
    put_copy(packed.folder / "lib/libmmdepend.a", libraries / "libmmdepend.a")
    put_copy(packed.library(), libraries / packed.library().name)
    major = f"libmmdepend.so.{packed.version.split('.')[0]}"
    (libraries / major).symlink_to(packed.library().name)
    (libraries / "libmmdepend.so").symlink_to(major)
    told = (packed.folder / "lib/pkgconfig/mmdepend.pc").read_text()
    put(libraries / "pkgconfig/mmdepend.pc", PKG_CONFIG + told[told.index("\n\n") :])


def put_documents(packed: Packed, root: Path) -> None:
    """The pages, the example for C, the licence and the log of changes."""
    documents = root / DOCUMENTS
    packed.copy(("README.md", "CHANGELOG.md", "docs"), documents)
    put_copy(packed.folder / "include/example.c", documents / "examples/example.c")
    expat = (packed.folder / LICENCES[0]).read_text()
    indented = "\n".join(f" {line}" if line.strip() else " ." for line in expat.splitlines())
    put(documents / "copyright", COPYRIGHT.format(expat=indented))
    changes = CHANGELOG.format(version=packed.version, date=formatdate(packed.time))
    put_compressed(changes.encode(), documents / "changelog.gz")


def put_control(packed: Packed, root: Path) -> None:
    """What dpkg is told of the package."""
    files = sorted(path for path in root.rglob("*") if path.is_file() and not path.is_symlink())
    size = sum(-(-path.stat().st_size // 1024) for path in files)
    sums = [
        f"{hashlib.md5(path.read_bytes()).hexdigest()}  {path.relative_to(root)}\n"
        for path in files
    ]
    control = root / "DEBIAN"
    major = packed.version.split(".")[0]
    put(control / "control", CONTROL.format(version=packed.version, size=size))
    put(control / "md5sums", "".join(sums))
    put(control / "shlibs", f"libmmdepend {major} mmdepend (>= {packed.version})\n")
    put(control / "triggers", "activate-noawait ldconfig\n")
    put(control / "prerm", PRERM, 0o755)


def make(packed: Packed, folder: Path) -> Path:
    """Makes the package in a folder, and returns its path."""
    path = folder / f"mmdepend_{packed.version}_{ARCHITECTURE}.deb"
    with tempfile.TemporaryDirectory() as name:
        root = Path(name) / "root"
        put_commands(packed, root)
        put_library(packed, root)
        put_documents(packed, root)
        put_control(packed, root)
        settle(root, packed.time)
        surroundings = {**os.environ, "SOURCE_DATE_EPOCH": str(packed.time)}
        command = ["dpkg-deb", "--root-owner-group", "-Zxz", "--build", str(root), str(path)]
        subprocess.run(command, env=surroundings, stdout=subprocess.DEVNULL, check=True)
    return path
