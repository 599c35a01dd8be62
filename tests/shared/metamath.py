"""metamath.exe, with which tests compare. It is in Debian's package metamath."""

import argparse
import shutil
import subprocess
from collections.abc import Sequence
from pathlib import Path

from tests.shared.samples import DEBIAN_DATABASES


def add_words(parser: argparse.ArgumentParser) -> None:
    """The words of a test that compares: where the databases are, and which program is asked."""
    parser.add_argument(
        "--folder",
        default=DEBIAN_DATABASES,
        help=f"where the databases are (default {DEBIAN_DATABASES})",
    )
    parser.add_argument(
        "--metamath", default=shutil.which("metamath"), help="the program to compare with"
    )


def opening(database: str) -> list[str]:
    """The commands that come before all others. It then says all at once, where it would wait for a
    key after each page, and breaks no line, where a label would end up elsewhere; and it has read a
    database, which is named by its path."""
    return ["set scroll continuous", "set width 9999", f'read "{database}"']


def asked(database: Path, commands: Sequence[str]) -> list[str]:
    """What it says to each of these commands, after it has read a database."""
    before = opening(database.name)
    done = subprocess.run(
        ["metamath"],
        input="".join(f"{command}\n" for command in (*before, *commands, "exit")),
        stdout=subprocess.PIPE,
        cwd=database.parent,
        encoding="latin-1",
        check=True,
    )
    # It says `MM> ` before each command that it takes, and something else before the first of them.
    answers = done.stdout.split("MM> ")[1:-1]
    assert len(answers) == len(before) + len(commands), f"{len(answers)} answers"
    return answers[len(before) :]
