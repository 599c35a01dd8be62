"""Tries the wrong bodies of the crates over what `rt ci` proved."""

import os
import resource
import shutil
import signal
import sys
import tempfile
import threading
from concurrent.futures import ThreadPoolExecutor
from dataclasses import dataclass
from pathlib import Path
from types import FrameType

from proving import toolchain
from proving.alone import try_alone
from proving.edits import FOLDERS, Edit, edits_of
from proving.results import Results
from proving.tree import Crate, NotProved, Tree
from proving.trial import Trial

TOP = Path(__file__).resolve().parent.parent
# The crates that have no edit, since they have no contract that a body could break.
WITHOUT = {
    "lexing": "it only measures",
    "mm_version": "it has a constant, and no function",
    "trials": "it has tests alone",
}
# How many edits of each crate `rt ci` tries by itself, at least.
LEAST = 2
WAYS = ("kept", "joined", "in place", "alone")


@dataclass(frozen=True)
class Choice:
    """What is tried, and how."""

    # A crate, or CRATE/EDIT; none is all crates.
    names: list[str]
    jobs: int = 1
    is_anew: bool = False
    keep: Path | None = None

    def crates(self) -> set[str]:
        """The names of the crates."""
        return {name.partition("/")[0] for name in self.names}

    def has(self, edit: Edit) -> bool:
        """Whether an edit of one of these crates is tried."""
        crate = edit.crate.name
        return not self.names or crate in self.names or f"{crate}/{edit.path.stem}" in self.names


class Teller:
    """Prints what is said, one text at a time."""

    def __init__(self) -> None:
        self.alone = threading.Lock()

    def __call__(self, text: str) -> None:
        with self.alone:
            print(text, flush=True)


def try_bodies(choice: Choice, top: Path = TOP) -> int:
    """Tries the edits of the crates that are chosen. Returns the status.

    The last line is 'N passed, M failed': N edits are refused, each for a reason, and M are not,
    or something else isn't as it must be. Without that line the run came to no end.
    """
    toolchain.sweep()
    with tempfile.TemporaryDirectory(prefix=f"rt-copy-{os.getpid()}-") as folder:
        end_with(folder)
        tree = Tree(top, Path(folder))
        return tried(tree, choice, Teller())


def end_with(folder: str) -> None:
    """Has a signal remove the folder and end the run at once, also while threads wait for checks.
    The checks end with the process, as all do that `rt` starts."""

    def end(number: int, _: FrameType | None) -> None:
        shutil.rmtree(folder, ignore_errors=True)
        os._exit(128 + number)

    for number in (signal.SIGINT, signal.SIGTERM, signal.SIGHUP):
        signal.signal(number, end)


def tried(tree: Tree, choice: Choice, tell: Teller) -> int:
    """Tries the edits of the crates of a tree."""
    if choice.keep:
        choice.keep.mkdir(parents=True, exist_ok=True)
    trials, wrong = [], []
    for crate in tree.named(choice.crates()):
        edits, faults = edits_of(crate)
        wrong += [*faults, *lacking(crate, edits)]
        chosen = [edit for edit in edits if choice.has(edit)]
        if chosen:
            trials.append(Trial(crate, chosen, tell, choice.keep))
    try:
        tree.prove(trial.crate for trial in trials)
    except NotProved as error:
        print(error)
        print("0 passed, 1 failed")
        return 1
    results = Results(tree, choice.is_anew)
    for trial in trials:
        for edit in trial.edits:
            results.take(edit)
    # The longest first, so that none is left at the end.
    trials.sort(key=lambda it: -sum(not edit.refused for edit in it.edits))
    with ThreadPoolExecutor(choice.jobs) as pool:
        for _ in pool.map(lambda trial: joined(trial, results, tell), trials):
            pass
    left = [edit for trial in trials for edit in trial.edits if not edit.refused]
    for edit in left:
        tell(f"{edit.name}: tried alone, since {edit.unclear}")
    before = busy()
    if left:
        try_alone(tree, left, choice.jobs, choice.is_anew)
    for edit in left:
        results.keep(edit)
    trials.sort(key=lambda it: str(it.crate.name))
    return told(trials, wrong, busy() - before)


def busy() -> float:
    """The seconds of processor of all commands that have ended."""
    usage = resource.getrusage(resource.RUSAGE_CHILDREN)
    return usage.ru_utime + usage.ru_stime


def lacking(crate: Crate, edits: list[Edit]) -> list[str]:
    """What is wrong if a crate has too few edits."""
    if crate.name in WITHOUT:
        return []
    found = sum(edit.path.parent.name == FOLDERS[0] for edit in edits)
    if found >= LEAST:
        return []
    return [f"{crate.name}: {found} edits stand in {FOLDERS[0]}/, and {LEAST} are wanted"]


def joined(trial: Trial, results: Results, tell: Teller) -> None:
    """Tries the edits of a crate in one check, and tells of them."""
    trial.join()
    for edit in trial.edits:
        results.keep(edit)
    refused = sum(edit.refused is not None for edit in trial.edits)
    tell(
        f"{trial.crate.name}: {refused} of {len(trial.edits)} edits refused,"
        f" {trial.checks} checks, {trial.seconds:.0f} seconds of processor"
    )


def told(trials: list[Trial], wrong: list[str], alone: float) -> int:
    """Prints what became of each edit, the table, the seconds for those tried alone, and the last
    line. Returns the status.

    An edit is wrong too if `rt` refuses it by names alone or without a reason, and so is a function
    that isn't proved in a check though no edit is in it.
    """
    passed = 0
    for trial in trials:
        wrong += trial.odd
        for edit in trial.edits:
            if edit.refused:
                passed += 1
                print(f"{edit.name}: refused: {edit.refused}")
            else:
                wrong.append(f"{edit.name}: {edit.failed or edit.unclear}")
    head = ("Crate", "Edits", *(way.capitalize() for way in WAYS), "Checks", "Seconds of processor")
    print(f"\n| {' | '.join(head)} |\n|{'---|' * len(head)}")
    for trial in trials:
        print(row(trial.crate.name, [trial]))
    print(row("all", trials))
    if alone:
        print(f"\nWhat was tried alone took {alone:.0f} seconds of processor more.")
    print()
    for it in wrong:
        print(f"FAILED: {it}")
    print(f"{passed} passed, {len(wrong)} failed")
    sys.stdout.flush()
    return 1 if wrong or not passed else 0


def row(name: str, trials: list[Trial]) -> str:
    """A row of the table: what was tried in which way, and what the joined checks took."""
    edits = [edit for trial in trials for edit in trial.edits]
    ways = [sum(edit.way == way for edit in edits) for way in WAYS]
    checks = sum(trial.checks for trial in trials)
    seconds = sum(trial.seconds for trial in trials)
    return f"| {name} | {len(edits)} | {' | '.join(map(str, ways))} | {checks} | {seconds:.0f} |"
