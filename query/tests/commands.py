"""For each command words that it answers over small databases, for the tests that try them all."""

import os
import sqlite3
import subprocess
from pathlib import Path

from query.tests.world import SMALL

COMMENT = "$( Axiom. (New usage is discouraged.) $)\n"
# A database with headers, a mathbox, an open theorem's place and a discouraged axiom.
WHOLE = (
    "$(\n#*#*#*#\n  Logic\n#*#*#*#\n$)\n"
    + SMALL.replace("ax-1 $a", COMMENT + "ax-1 $a").replace(
        "${ g", "$(\n#*#*#*#\n  Mathbox for A B\n#*#*#*#\n$)\n${ g"
    )
    + "$( $j usage 'wi2' avoids 'ax-1'; $)\n"
)
NEWER = WHOLE.replace(
    "$( $j", "${ b $e |- p $. b1 $p |- ( q -> ( q -> p ) ) $= wp wq b a2 $. $}\n$( $j"
)

# Each command, with DB for a database that git keeps, which it answers with status 0 or 1.
WORDS: dict[str, tuple[str, ...]] = {
    "verify": ("DB",),
    "rests": ("DB", "a2"),
    "falls": ("DB", "ax-1"),
    "cites": ("DB", "a2"),
    "cited-by": ("DB", "ax-1"),
    "uncited": ("DB",),
    "why": ("DB", "a2", "ax-1"),
    "way-out": ("DB", "a2", "ax-1"),
    "frees": ("DB", "ax-1", "a1i"),
    "spare": ("DB", "ax-1"),
    "repeats": ("DB",),
    "unneeded": ("DB",),
    "top": ("DB",),
    "sets": ("DB",),
    "within": ("DB", "ax-1"),
    "same": ("DB", "a2"),
    "compare": ("DB", "newer.mm"),
    "review": ("DB", "newer.mm"),
    "history": ("DB", "HEAD", "ax-1"),
    "gate": ("DB", "newer.mm"),
    "chapters": ("DB", "ax-1"),
    "steps": ("DB", "a2"),
    "proofs": ("DB",),
    "contributors": ("DB",),
    "order": ("DB",),
    "unfinished": ("DB",),
    "discouraged": ("DB",),
    "mathboxes": ("DB",),
    "comments": ("DB",),
    "obsolete": ("DB",),
    "definitions": ("DB",),
    "equivalents": ("DB", "ax-1"),
    "search": ("DB", "( p ->"),
    "needs": ("DB", "a2"),
    "drop": ("DB", "a2"),
    "move": ("DB", "a2", "--to", "a1i"),
    "graph": ("DB", "a2"),
    "picture": ("DB",),
    "page": ("DB",),
    "set-proof": ("DB", "a1i", "a2"),
    "extract": ("DB", "a2"),
    "export": ("DB", "--sqlite", "out.sqlite"),
    "cache": (),
}
# Those that take no database, or a database whose first fault is one of a proof.
WITHOUT_DATABASE = {"cache"}
MENDING = {"set-proof"}
# Those that take only a file that git keeps, and tell a fault in a row.
OF_GIT = {"history"}
# Those that write to standard output only where there is something to say.
MAY_BE_SILENT = {
    *("spare", "unfinished", "definitions", "export", "mathboxes", "gate", "same", "uncited"),
    *("unneeded", "comments", "obsolete"),
}


def keep_in_git(folder: Path) -> None:
    """Makes a folder a repository that has its files."""
    names = {
        f"GIT_{who}_{what}": "a@b" for who in ("AUTHOR", "COMMITTER") for what in ("NAME", "EMAIL")
    }
    for words in (
        ("init", "--quiet", "--initial-branch=main"),
        ("add", "--all"),
        ("commit", "--quiet", "--message", "x"),
    ):
        subprocess.run(["git", *words], cwd=folder, env={**os.environ, **names}, check=True)


def words_of(name: str, database: str) -> list[str]:
    """The words of a command over a database."""
    return [name, *(database if word == "DB" else word for word in WORDS[name])]


def is_sqlite(path: Path) -> bool:
    """Whether a file is a database of SQLite that can be read."""
    with sqlite3.connect(path) as file:
        return bool(file.execute("select count(*) from sqlite_master").fetchone()[0])
