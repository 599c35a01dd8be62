"""The commands `mmdepend` and `mmquery` of an installed package: they run what lies in the folder
`packed` beside this module, in place of this process."""

import os
import shutil
import subprocess
import sys
from pathlib import Path
from typing import NoReturn

PACKED = Path(__file__).resolve().parent / "packed"


def run(line: list[str]) -> NoReturn:
    """Runs a command in place of this process. Windows can't do that, so there this process waits
    for it."""
    sys.stdout.flush()
    if os.name == "nt":
        sys.exit(subprocess.run(line, check=False).returncode)
    os.execv(line[0], line)


# query/platform/executables.py has the same, which this can't import; test_code.py compares them.
def located(command: str) -> str | None:
    """Where a command is. A folder of PATH that is relative to the working folder doesn't count,
    since whoever fills that folder could bring a command; nor does the working folder itself, in
    which Windows looks first."""
    name = f"{command}.exe" if os.name == "nt" else command
    for folder in os.environ.get("PATH", os.defpath).split(os.pathsep):
        if os.path.isabs(folder) and (found := shutil.which(os.path.join(folder, name))):
            return found
    return None


def mmdepend() -> NoReturn:
    """The program: the native one where the package has it, and else the one for Node."""
    native = PACKED / "mmdepend"
    if native.exists():
        run([str(native), *sys.argv[1:]])
    path = located("node")
    if path is None:
        sys.exit("mmdepend: this package needs the command node, of Node 18 or later")
    run([path, str(PACKED / "mmdepend.mjs"), *sys.argv[1:]])


def mmquery() -> NoReturn:
    """The command that answers questions. It takes no module from elsewhere (`-I`, `-S`), and
    writes none (`-B`)."""
    run([sys.executable, "-IBS", str(PACKED / "mmquery"), *sys.argv[1:]])
