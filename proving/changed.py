"""What a change can reach: which crates are to be proved again, and whose wrong bodies tried."""

import subprocess
import sys
from dataclasses import dataclass, field
from pathlib import Path

from proving.edits import FOLDERS

# The crates that what is tested outside of `rt ci` is built from.
BUILT = ("mmdepend", "mm_library")


@dataclass
class Reach:
    """What a change reaches, by the names of crates."""

    # These are proved, with all their tests, and their programs are run.
    proved: list[str] = field(default_factory=list)
    # The edits of these are tried.
    tried: list[str] = field(default_factory=list)
    # Whether anything that ./check tests is reached.
    is_outside: bool = False


def git(top: Path, *words: str) -> str:
    """What git answers. The run ends where it doesn't."""
    done = subprocess.run(
        ["git", "-C", str(top), *words], stdout=subprocess.PIPE, check=False, encoding="utf-8"
    )
    if done.returncode:
        sys.exit(f"proving: git {words[0]} ended with status {done.returncode}")
    return done.stdout


def commit_of(top: Path, revision: str) -> str:
    """The commit that a revision names. It is no option of git, whatever it begins with."""
    words = ("rev-parse", "--verify", "--quiet", "--end-of-options", f"{revision}^{{commit}}")
    return git(top, *words).strip()


def changed_files(top: Path, commit: str) -> list[str]:
    """The files that differ from those of a commit, in the working tree too, and those that git
    doesn't know yet."""
    changed = git(top, "diff", "--name-only", "--no-renames", "-z", commit)
    unknown = git(top, "ls-files", "--others", "--exclude-standard", "-z")
    return sorted({*changed.split("\0"), *unknown.split("\0")} - {""})


def lines_of(text: str) -> dict[str, str]:
    """The lines of crates.txt, by the crate's name."""
    plain = [line.partition("#")[0].strip() for line in text.splitlines()]
    return {line.split()[0].rstrip(":"): line for line in plain if line}


def above(lines: dict[str, str], names: set[str]) -> list[str]:
    """These crates and all that stand on them, in the order of crates.txt."""
    found = {*names} & {*lines}
    while True:
        more = {
            name
            for name, line in lines.items()
            if name not in found and found & {*line.partition(":")[2].split()}
        }
        if not more:
            return [name for name in lines if name in found]
        found |= more


def reach(top: Path, revision: str) -> Reach:
    """What the change since a revision reaches."""
    commit = commit_of(top, revision)
    files = changed_files(top, commit)
    now = lines_of((top / "crates.txt").read_text("utf-8"))
    was = lines_of(git(top, "show", f"{commit}:crates.txt"))
    sources: set[str] = set()
    edits: set[str] = set()
    is_outside = False
    for file in files:
        parts = Path(file).parts
        if parts[0] == "crates" and len(parts) > 2:
            (edits if parts[2] in FOLDERS else sources).add(parts[1])
        elif file == "HANDLES":
            sources |= {*now}
        elif file != "crates.txt":
            is_outside = True
    sources |= {name for name, line in now.items() if was.get(name) != line}
    proved = above(now, sources)
    tried = [name for name in now if name in {*proved, *edits}]
    return Reach(proved, tried, is_outside or bool({*BUILT} & {*proved}))


def tell(top: Path, revision: str) -> int:
    """Prints what the change reaches: a line each for the crates that are proved, for those whose
    edits are tried, whether ./check is run, and for the crates that are left out."""
    found = reach(top, revision)
    every = lines_of((top / "crates.txt").read_text("utf-8"))
    print("crates", *found.proved)
    print("bodies", *found.tried)
    print("check", "yes" if found.is_outside else "no")
    print("left", *(name for name in every if name not in {*found.proved, *found.tried}))
    return 0
