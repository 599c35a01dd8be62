"""Two databases made by chance, the second out of the first, with all that is true of them.

Each assertion says a constant of its own, so that its statement tells it apart. A theorem combines
what it cites by the axiom `ax-two`. What an assertion is in both is known by its number.
"""

import random
from dataclasses import dataclass, field, replace

HEAD = (
    "$v p q r $. wp $f wff p $. wq $f wff q $. wr $f wff r $.\n"
    "${ two.1 $e |- p $. two.2 $e |- q $. ax-two $a |- r $. $}\n"
)


@dataclass(frozen=True)
class Part:
    """An assertion: its number, label, and for theorems the numbers of what it combines. `says` is
    the number of its constant."""

    number: int
    label: str
    says: int
    combines: tuple[int, ...] | None = None

    @property
    def is_axiom(self) -> bool:
        """Whether it is an axiom."""
        return self.combines is None


@dataclass
class Generation:
    """A database, its assertions in file order."""

    parts: list[Part] = field(default_factory=list)

    def label(self, number: int) -> str:
        """The label of an assertion."""
        return next(part.label for part in self.parts if part.number == number)

    def part(self, number: int) -> Part | None:
        """The assertion of a number."""
        return next((part for part in self.parts if part.number == number), None)

    def rests(self, number: int) -> set[int]:
        """The numbers of the axioms on which an assertion rests; itself, if it is one."""
        part = self.part(number)
        assert part is not None
        if part.combines is None:
            return {number}
        return set().union(*map(self.rests, part.combines))

    def distance(self, start: int, end: int) -> int | None:
        """How many citations a shortest chain between these has."""
        if start == end:
            return 0
        part = self.part(start)
        assert part is not None
        found = [self.distance(each, end) for each in part.combines or ()]
        known = [each for each in found if each is not None]
        return min(known) + 1 if known else None

    def text(self) -> str:
        """The text of the database."""
        constants = sorted({part.says for part in self.parts})
        lines = ["$c wff |- " + " ".join(f"c{each}" for each in constants) + " $.", HEAD]
        lines += [f"w{each} $a wff c{each} $." for each in constants]
        says = {part.number: part.says for part in self.parts}
        labels = {part.number: part.label for part in self.parts}
        for part in self.parts:
            if part.combines is None:
                lines.append(f"{part.label} $a |- c{part.says} $.")
                continue
            first, *others = part.combines
            steps = [labels[first]]
            for place, other in enumerate(others):
                before = says[first] if place == 0 else part.says
                steps = [f"w{before} w{says[other]} w{part.says}", *steps, labels[other], "ax-two"]
            lines.append(f"{part.label} $p |- c{part.says} $= {' '.join(steps)} $.")
        return "\n".join(lines) + "\n"


def generation(chance: random.Random, size: int) -> Generation:
    """A database made by chance. Each theorem combines at least two assertions."""
    parts = [Part(number, f"ax-{number}", number) for number in range(3)]
    for number in range(3, size):
        if chance.random() < 0.2:
            parts.append(Part(number, f"ax-{number}", number))
        else:
            parts.append(Part(number, f"t{number}", number, chosen(chance, parts)))
    return Generation(parts)


def chosen(chance: random.Random, parts: list[Part]) -> tuple[int, ...]:
    """What a theorem combines: two or three of these, later ones more often."""
    numbers = [part.number for part in parts]
    count = min(len(numbers), chance.choice((2, 2, 3)))
    return tuple(chance.sample(numbers[-6:] if chance.random() < 0.7 else numbers, count))


def next_generation(chance: random.Random, old: Generation) -> Generation:
    """The same with theorems proved otherwise, and assertions renamed, changed, gone or new."""
    parts: list[Part] = []
    fresh = iter(range(1000, 2000))
    needed = {each for part in old.parts for each in part.combines or ()}
    for part in old.parts:
        fate = chance.random()
        if chance.random() < 0.2 and len(parts) > 3:
            number = next(fresh)
            combines = None if chance.random() < 0.2 else chosen(chance, parts)
            parts.append(Part(number, f"n{number}", number, combines))
        if fate < 0.1 and part.number not in needed:
            continue
        if fate < 0.25:
            part = replace(part, label=f"r{part.number}")
        elif fate < 0.35:
            part = replace(part, says=next(fresh))
        if part.combines is not None and chance.random() < 0.3:
            part = replace(part, combines=chosen(chance, parts))
        parts.append(part)
    return Generation(parts)
