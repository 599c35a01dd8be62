"""Makes pages by `mmquery page`."""

import os
import subprocess
import time
from pathlib import Path
from typing import Any

from tests.browser.truth import HERE, PROGRAM
from tests.shared.checks import check

COMMAND = [str(HERE / "mmquery")]  # itself: its first line keeps back signals at first
ENVIRONMENT = {**os.environ, "MMDEPEND": PROGRAM}


def run(words: list[str], **more: Any) -> "subprocess.CompletedProcess[bytes]":
    """Runs a command of mmquery."""
    more.setdefault("stdout", subprocess.PIPE)
    return subprocess.run([*COMMAND, *words], stderr=subprocess.PIPE, env=ENVIRONMENT, **more)


def make_page(database: Path, page: Path, *words: str) -> float:
    """Makes a page, and says how many seconds that took."""
    began = time.time()
    with page.open("wb") as file:
        done = run(["page", "--no-cache", *words, str(database)], stdout=file)
    what = f"page {' '.join(words)} {database.name}"
    check(done.returncode == 0, what, done.stderr.decode())
    return time.time() - began
