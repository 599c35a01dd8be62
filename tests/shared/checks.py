"""Counts checks, and keeps figures with their limits."""

import sys
import time
from dataclasses import dataclass, field
from typing import Any, NoReturn

SHOWN_FAILURE = 20_000  # letters of what is said of a check that failed
ADDING = 0.45  # seconds to add ten million numbers where the machine is quiet


@dataclass
class Figure:
    """A figure, and how many times as long everything took while it was measured."""

    name: str
    value: float
    limit: float | None
    unit: str
    slower: float


@dataclass
class Checks:
    """What passed and failed so far."""

    passed: int = 0
    failed: int = 0
    figures: list[Figure] = field(default_factory=list)

    def check(self, good: object, what: str, found: object = "") -> bool:
        """Counts a check; says what failed."""
        if good:
            self.passed += 1
        else:
            self.failed += 1
            print(f"failed: {what} {found}".rstrip()[:SHOWN_FAILURE], flush=True)
        return bool(good)

    def same(self, found: Any, wanted: Any, what: str) -> bool:
        """Counts whether what was found is what was wanted."""
        told = f"\n  shown:  {str(found)[:600]}\n  wanted: {str(wanted)[:600]}"
        return self.check(found == wanted, what, told)

    def figure(self, name: str, value: float, limit: float | None = None, unit: str = "") -> None:
        """Keeps a figure. A limit in time is wider by as much as other work slows the machine down
        at this moment."""
        slower = slowness() if unit and limit is not None else 1.0
        if limit is not None:
            told = f"{name} is {value} {unit}, above {limit} (x {slower:.1f})"
            self.check(value <= limit * slower, told)
        self.figures.append(Figure(name, value, limit, unit, slower))

    def end(self) -> NoReturn:
        """Prints the figures and the numbers of checks."""
        for one in self.figures:
            most = f" (at most {one.limit:,})" if one.limit is not None else ""
            if one.slower > 1.1:
                most += f", while everything took {one.slower:.1f} times as long"
            print(f"{one.name}: {one.value:,} {one.unit}".rstrip() + most)
        print(f"{self.passed} passed, {self.failed} failed")
        sys.exit(1 if self.failed else 0)


def slowness() -> float:
    """How many times as long as on a quiet machine it takes to add ten million numbers."""
    began = time.time()
    total = 0
    for number in range(10**7):
        total += number
    return max(1.0, (time.time() - began) / ADDING)


checks = Checks()
check, same, figure = checks.check, checks.same, checks.figure
