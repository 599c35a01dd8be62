"""Sets of small numbers, as the bits of one number."""

from collections.abc import Iterable, Iterator


def joined(numbers: Iterable[int]) -> int:
    """A number that has these bits."""
    bits = list(numbers)
    data = bytearray(max(bits, default=0) // 8 + 1)
    for bit in bits:
        data[bit >> 3] |= 1 << (bit & 7)
    return int.from_bytes(data, "little")


def bits_of(numbers: int) -> Iterator[int]:
    """The bits that a number has, counted from 0 at the lowest, rising."""
    while numbers:
        lowest = numbers & -numbers
        yield lowest.bit_length() - 1
        numbers ^= lowest
