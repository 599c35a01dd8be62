"""The steps of a proof, and what they say of its formulas."""

from __future__ import annotations

from collections.abc import Collection, Sequence

from query.spare.index import Key, keys_for
from query.spare.proofs import Proof
from query.spare.search import Citable, Steps
from query.spare.trees import Trees


def first_steps(proof: Proof) -> Steps:
    """The first step by which a proof has each of its formulas."""
    steps: Steps = dict.fromkeys(proof.given)
    steps.update({tree: next(iter(ways)) for tree, ways in proof.steps.items()})
    return steps


def used(proof: Proof, steps: Steps) -> list[int]:
    """The formulas that a proof has by these steps, in the order in which they were found."""
    seen: set[int] = set()
    left = [proof.root]
    while left:
        tree = left.pop()
        if tree in seen:
            continue
        seen.add(tree)
        step = steps[tree]
        if step is not None:
            left += step.premises
    return [tree for tree in steps if tree in seen]


def other_steps(proof: Proof, steps: Steps) -> list[int]:
    """The formulas of a proof that it has by other steps now."""
    return [
        tree
        for tree in used(proof, steps)
        if tree in proof.steps and steps[tree] not in proof.steps[tree]
    ]


def resting_by(steps: Steps, formulas: Collection[int], rests: Sequence[int]) -> dict[int, int]:
    """The axioms on which formulas rest by some steps; `rests` has those of each statement."""
    found: dict[int, int] = {}
    left = list(formulas)
    while left:
        tree = left[-1]
        step = steps[tree]
        premises = () if step is None else step.premises
        unknown = [each for each in premises if each not in found]
        left += unknown
        if not unknown:
            left.pop()
            found[tree] = 0 if step is None else rests[step.rule]
            for each in premises:
                found[tree] |= found[each]
    return found


def may_cite(trees: Trees, proof: Proof, citable: Sequence[Citable], has_new_steps: bool) -> bool:
    """Whether one of some statements becomes a formula of a proof, and has no hypothesis that none
    of its formulas can be, as far as keys tell; with new steps one more may be it."""
    keys: set[Key | None] = set()
    for each in citable:
        if not any(trees.match(each.rule.tree, formula, {}) is not None for formula in proof.steps):
            continue
        if not has_new_steps and not keys:
            formulas = (*proof.given, *proof.steps)
            keys = {None, *(key for formula in formulas for key in keys_for(trees, formula))}
        if has_new_steps or keys.issuperset(each.keys):
            return True
    return False
