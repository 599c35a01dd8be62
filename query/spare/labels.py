"""The order of the labels in the brackets of a compressed proof, as metamath.exe has it when it
saves one.

The labels that the letters name most often get the shortest letters; of those that are named
equally often the ones that are named first. Of the labels whose letters are equally long each line
of the brackets has those that fill it best.
"""

from __future__ import annotations

from collections.abc import Mapping, Sequence

from query.proofs.letters import letters_of

BEGUN = len("( ")
"""So many characters of the first line stand before the labels."""
MOST_TRIED = 1000
"""So many labels are tried for one line, where none fill it wholly before that."""


def saved_order(labels: Sequence[str], uses: Mapping[str, int], first: int, room: int) -> list[str]:
    """The order of labels, which are given in the order of their first use, the hypotheses before
    the others. `uses` says how often each is used, `first` is the number of the first one, and
    `room` how many characters a line has for them."""
    groups: dict[int, list[str]] = {}
    by_use = sorted(range(len(labels)), key=lambda place: -uses[labels[place]])
    lengths = {place: len(letters_of(first + rank)) for rank, place in enumerate(by_use)}
    for place, label in enumerate(labels):
        groups.setdefault(lengths[place], []).append(label)
    found: list[str] = []
    left = room - BEGUN
    for length in sorted(groups):
        group = groups[length]
        while group:
            chosen = filling([len(label) + 1 for label in group], left + 1)
            if not chosen and left < room:
                left = room
                continue
            chosen = chosen or [0]
            found += [group[place] for place in chosen]
            left -= sum(len(group[place]) + 1 for place in chosen)
            taken = {*chosen}
            group = [label for place, label in enumerate(group) if place not in taken]
            if group:
                left = room
    return found


def filling(sizes: Sequence[int], room: int) -> list[int]:
    """Which of some things fill a room best, rising: of all choices with the largest sum that isn't
    more than the room one with the earliest last one, and so on for those before it."""
    if room <= 0:
        return []
    sums = [1]  # for each number of things, the sums that there are of them, as bits
    mask = (1 << room + 1) - 1
    for size in sizes[:MOST_TRIED]:
        sums.append((sums[-1] | sums[-1] << size) & mask)
        if sums[-1] >> room:
            break
    chosen: list[int] = []
    total = sums[-1].bit_length() - 1
    for place in range(len(sums) - 1, 0, -1):
        if not sums[place - 1] >> total & 1:
            total -= sizes[place - 1]
            chosen.append(place - 1)
    return chosen[::-1]
