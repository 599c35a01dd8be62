"""What stayed in its order where things were moved."""

from bisect import bisect_left
from collections.abc import Sequence


def longest_rising(numbers: Sequence[int]) -> list[int]:
    """The indices of as many of the numbers as possible that rise from one to the next. It takes n
    log n steps."""
    ends: list[int] = []  # for each length the least number at which a chain of it ends
    last: list[int] = []  # for each length the index of that end
    before: list[int] = []  # for each index that of the one before it in its chain
    for index, number in enumerate(numbers):
        length = bisect_left(ends, number)
        ends[length : length + 1] = [number]
        last[length : length + 1] = [index]
        before.append(last[length - 1] if length else -1)
    found = []
    index = last[-1] if last else -1
    while index >= 0:
        found.append(index)
        index = before[index]
    return found[::-1]
