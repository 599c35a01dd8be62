"""Tries edits one by one, as `rt ci` does: those that no joined check can have, or could tell."""

import copy
import re
from collections.abc import Callable
from concurrent.futures import ThreadPoolExecutor
from typing import Any

from proving import toolchain
from proving.edits import Edit
from proving.tree import Crate, Tree
from proving.verdicts import NAMES

# What `rt` says of an edit that is refused for a reason that it can name.
FOR_A_REASON = re.compile(r"refused, as it must be: (.*)", re.DOTALL)


# What a run of tasks gave, by the tasks.
Given = dict[object, Any]


def try_alone(tree: Tree, edits: list[Edit], jobs: int = 1, is_anew: bool = False) -> None:
    """Tries these edits by the toolchain's own call, so many crates at once, and notes what it
    says.

    It begins with what a check of the crate proved, as `rt ci` does, and keeps what it found for
    `rt ci` too, if that keeps anything.
    """
    if not toolchain.keeps():
        by_crate = {edit.crate.name: edit.crate for edit in edits}.values()
        with ThreadPoolExecutor(jobs) as pool:
            for _ in pool.map(lambda crate: try_plainly(crate, edits), by_crate):
                pass
        return
    rt = toolchain.rt()
    kept = copy.copy(tree.kept)
    kept.anew = is_anew
    tasks: Given = {}
    results = []
    for crate in {edit.crate.name: edit.crate for edit in edits}.values():
        own = [edit for edit in edits if edit.crate is crate]
        results.append((own, added(tasks, crate, own, kept)))
    given = rt.in_lanes(tasks)
    for own, answers in results:
        for edit, (kind, said) in zip(own, answers(given), strict=True):
            edit.way = "alone"
            judge(edit, kind, said)


def try_plainly(crate: Crate, edits: list[Edit]) -> None:
    """Tries those of the edits that are of a crate, by a toolchain that keeps nothing."""
    own = [edit for edit in edits if edit.crate is crate]
    answers = toolchain.tried_alone(crate, [str(edit.path) for edit in own])
    for edit, (kind, said) in zip(own, answers, strict=True):
        edit.way = "alone"
        judge(edit, kind, said)


def added(
    tasks: Given, crate: Crate, edits: list[Edit], kept: Any
) -> Callable[[Given], list[tuple[str, str]]]:
    """Adds the tasks for a crate's edits. Returns what finds their answers."""
    paths = [str(edit.path) for edit in edits]

    def is_well(_: Given, new: int = 0) -> bool:
        """Whether the crate is proved, of which so many edits are new."""
        return new >= 0

    answers, _ = toolchain.rt().add_edits(tasks, crate, paths, [], [], is_well, kept)
    found: Callable[[Given], list[tuple[str, str]]] = answers
    return found


def judge(edit: Edit, kind: str, said: str) -> None:
    """Notes what the toolchain says of an edit. A refusal without a reason, or only since a proof
    names what the edit took away, or only by a limit of the prover, doesn't count."""
    found = FOR_A_REASON.search(said)
    by_names = "(only" in said or (found and NAMES.search(found[1]))
    if kind == toolchain.refused() and found and not by_names:
        edit.refused = found[1]
    elif kind == toolchain.refused():
        why = "only because a proof names what it took away" if by_names else "for no reason"
        edit.failed = f"refused {why}, which says nothing of the contract"
    else:
        edit.failed = said.partition(": ")[2] or said
