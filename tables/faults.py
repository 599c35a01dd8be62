"""What is said of faults. Their codes are declared in the crates, and the words stand in
`query/program/refusals.py`, from where `mmquery` has them."""

import json
import re

from query.program.refusals import FAULTS
from tables.sources import Unreadable

ROW = re.compile(r"^(\| (E\d\d) \|.*(?<!\\)\| ).*( \|)$", re.M)
"""A row of the table of docs/FAULTS.md, with its last column between the first group and the last.
"""


def see_words(codes: list[str], footer: str) -> None:
    """Sees that each code has its words, and that the last lines of the help name all codes."""
    if list(FAULTS) != codes:
        odd = sorted({*FAULTS} ^ {*codes}) or ["in another order"]
        raise Unreadable(f"query/program/refusals.py: not the codes of the crates: {odd}")
    if f"({codes[0]} to {codes[-1]})" not in footer:
        raise Unreadable(f"the help of mmdepend names other codes than {codes[0]} to {codes[-1]}")


def of_python() -> list[str]:
    """The table by which the module for Python tells faults."""
    rows = [f'    "{code}": {json.dumps(meaning)},' for code, (meaning, _) in FAULTS.items()]
    return ["FAULTS = {", *rows, "}"]


def of_page(text: str) -> str:
    """docs/FAULTS.md with its last column: what to do."""
    found = sorted(code for _, code, _ in ROW.findall(text))
    if found != list(FAULTS):
        raise Unreadable(f"has not one row for each code: {sorted({*found} ^ {*FAULTS})}")
    advice = {code: what.replace("|", "\\|") for code, (_, what) in FAULTS.items()}
    return ROW.sub(lambda row: f"{row[1]}{advice[row[2]]}{row[3]}", text)
