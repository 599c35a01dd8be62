"""What a text may cost: the seconds of the processor and the memory of the program that verifies
it. A small text can be made to cost very much, so each is limited by its length."""

from __future__ import annotations

from dataclasses import dataclass

MEGABYTE = 1_000_000
MOST_DATABASE_BYTES = 2_147_483_647
"""The program refuses longer texts, so no more than some bytes more are read."""
FREE_SECONDS, SECONDS_FOR_MEGABYTE = 10, 5
FREE_MEMORY, MEMORY_TIMES = 256 * MEGABYTE, 64
"""What each text gets, and what its length adds: many times what a database takes as it is written.
set.mm takes 2 of its 216 seconds, and 0.12 of its 2.9 GB. `web/limits.js` has the same."""
MOST_GIVEN = 999_999
"""The largest number that an option or a file may give."""
SHARE = 4
"""The part of what two texts get that one of them may take by itself. So what is compared with it
later has the same room twice."""
EXPLAINED_PROOF = MEGABYTE
"""A proof of more bytes up to its fault isn't carried out to say what is wrong with it."""
EXPLAINED_SYMBOLS = 10_000_000
"""So many symbols are read and written at the most for all proofs of a database that are carried
out so: a short one may build long formulas. A step counts as ten besides."""
EXPLAINED_BYTES = 64 * MEGABYTE
"""So many bytes are read at the most of what the program says of the assertions that they cite."""
EXPLAINED_FORMULA = 100_000
"""A formula of a proof that has more characters isn't shown."""


@dataclass(frozen=True)
class Limits:
    """The limits that were given, in seconds and in megabytes; None where the length decides."""

    seconds: int | None = None
    megabytes: int | None = None

    def seconds_for(self, size: int) -> int:
        """Seconds of the processor for a text of so many bytes."""
        if self.seconds is not None:
            return self.seconds
        return FREE_SECONDS + -(-SECONDS_FOR_MEGABYTE * size // MEGABYTE)

    def bytes_for(self, size: int) -> int:
        """Bytes of memory for a text of so many bytes."""
        if self.megabytes is not None:
            return self.megabytes * MEGABYTE
        return FREE_MEMORY + MEMORY_TIMES * size

    def share(self, size: int) -> Limits:
        """What a text of so many bytes may take by itself: a part of what two such texts get."""
        memory = self.bytes_for(2 * size) // MEGABYTE
        return Limits(max(1, self.seconds_for(2 * size) // SHARE), max(1, memory // SHARE))

    def or_else(self, other: Limits) -> Limits:
        """These, and where nothing is given those."""
        return Limits(
            other.seconds if self.seconds is None else self.seconds,
            other.megabytes if self.megabytes is None else self.megabytes,
        )


class Chosen:
    """The limits that hold for this command."""

    limits = Limits()


def choose(limits: Limits) -> None:
    """Lets these limits hold from now on."""
    Chosen.limits = limits


def chosen() -> Limits:
    """The limits that hold."""
    return Chosen.limits
