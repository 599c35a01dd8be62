"""Lets pip install a clone, by `pip install .`: `./package` makes the wheel."""

import os
import shutil
import subprocess
import sys
import tempfile
from pathlib import Path

TOP = Path(__file__).resolve().parent.parent
TOOLS = ("rt", "clang", "esbuild", "wasm-opt")
# Variables by which `./package` is given what it would build otherwise.
BUILT = ("MMDEPEND", "LIBRARY", "WEB")


def build_wheel(
    wheel_directory: str, config_settings: object = None, metadata_directory: str | None = None
) -> str:
    """Makes the wheel in a folder, and returns its name: what pip calls."""
    del config_settings, metadata_directory
    missing = [tool for tool in TOOLS if shutil.which(tool) is None]
    if missing and not all(os.environ.get(name) for name in BUILT):
        sys.exit(
            f"mmdepend: a clone is installed only where it can be proved and built; {missing[0]} "
            "is missing: install the wheel that ./package makes, or see README.md"
        )
    with tempfile.TemporaryDirectory() as folder:
        command = [str(TOP / "package"), folder]
        run = subprocess.run(command, stdout=subprocess.PIPE, text=True, check=False)
        if run.returncode != 0:
            sys.exit(run.returncode)
        wheels = (Path(line) for line in run.stdout.splitlines())
        native = next(path for path in wheels if path.name.endswith("x86_64.whl"))
        shutil.copy(native, wheel_directory)
        return native.name
