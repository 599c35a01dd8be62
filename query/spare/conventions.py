"""What statements may be cited by the conventions of a database."""

from __future__ import annotations

from collections.abc import Callable
from dataclasses import dataclass

from query.citations.bits import joined
from query.spare.rules import Rule, Rules
from query.texts.discouraged import is_discouraged

LAST = ("ALT", "OLD")
"""How labels end of statements that nothing new should cite."""
MOST_PREMISES = 50
"""A statement with more `$e` hypotheses isn't cited in place of another."""


@dataclass(slots=True)
class Conventions:
    """Which statements may be cited in a theorem, as bits by their number: those that are citable
    at all, and all that stand in no mathbox; and for each mathbox its first assertion."""

    citable: int
    main: int
    box_of: Callable[[int], int | None]
    firsts: dict[int, int]

    def allowed(self, theorem: int) -> int:
        """Those that stand before a theorem and may be cited there."""
        before = (1 << theorem) - 1
        box = self.box_of(theorem)
        own = 0 if box is None else before & ~((1 << self.firsts[box]) - 1)
        return self.citable & (self.main & before | own)


def conventions_of(
    rules: Rules,
    cites_discouraged: bool = False,
    cites_old: bool = False,
    cites_mathboxes: bool = False,
) -> Conventions:
    """Which statements may be cited, where some of the conventions are set aside."""
    text = rules.text
    boxes = {}
    if not cites_mathboxes:
        boxes = {one.number: box for one, box, _ in text.boxed()}
    citable = joined(
        one.number
        for one in text.assertions
        if is_fit(rules[one.number])
        and (cites_old or not one.label.endswith(LAST))
        and (cites_discouraged or not is_discouraged(text, one))
    )
    main = joined(one.number for one in text.assertions if one.number not in boxes)
    firsts: dict[int, int] = {}
    for number, box in boxes.items():
        firsts.setdefault(box, number)
    return Conventions(citable, main, boxes.get, firsts)


def is_fit(rule: Rule) -> bool:
    """Whether a rule can be cited in place of another."""
    essential = rule.essential()
    if not rule.is_logical or rule.tree < 0 or len(essential) > MOST_PREMISES:
        return False
    return all(each.number >= 0 for each in essential)
