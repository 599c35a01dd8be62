"""Formulas as a person is shown them: cut where they are long, with `..` where something is left
out. Symbols are apart by one space."""

import os

SHOWN_FORMULA = 200
"""How many characters of a formula are shown."""
SHOWN_BEFORE = 60
"""How many of these stand before the place where two formulas differ."""


def cut(formula: str, most: int = SHOWN_FORMULA) -> str:
    """A formula, cut where it is long."""
    return formula if len(formula) <= most else formula[:most] + " .."


def cut_both(one: str, other: str, most: int = SHOWN_FORMULA) -> tuple[str, str]:
    """Two formulas, where they are long from a little before the place where they differ on."""
    start = 0
    if len(one) > most or len(other) > most:
        start = max(0, len(os.path.commonprefix([one, other])) - SHOWN_BEFORE)
    both = []
    for formula in (one, other):
        end = start + most
        dots = ".. " if start else "", " .." if end < len(formula) else ""
        both.append(dots[0] + formula[start:end] + dots[1])
    return both[0], both[1]
