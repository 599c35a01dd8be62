"""Words that mean labels, and what they allow, against a comparison of each with each."""

import random
import time
import unittest
from collections.abc import Sequence
from unittest import mock

from query.gate import allowances
from query.gate.allowances import Resting
from query.gate.labels import NONE, Beginnings, Labels, is_meant, meant

SECONDS = 20
MANY = 100_000


def word(chance: random.Random, most: int) -> str:
    """A short word of few letters, so that many begin with another one."""
    return "".join(chance.choices("ab", k=chance.randrange(most)))


def patterns(chance: random.Random) -> list[str]:
    """Some words, of which some end in `*`."""
    return [word(chance, 7) + chance.choice(("", "*")) for _ in range(chance.randrange(14))]


class Meaning(unittest.TestCase):
    """What words mean."""

    def test_by_chance(self) -> None:
        chance = random.Random(5)
        for _ in range(2000):
            words = patterns(chance)
            labels = sorted({word(chance, 9) for _ in range(9)})
            known = Labels(tuple(words))
            for each in words:
                self.assertEqual(
                    [*meant(each, labels)], [one for one in labels if is_meant(each, one)]
                )
            for label in labels:
                is_one = any(is_meant(each, label) for each in words)
                self.assertEqual(label in known, is_one, (words, label))
                begins = [each for each in words if label.startswith(each.removesuffix("*"))]
                pattern = any(each.endswith("*") for each in begins)
                self.assertEqual(known.covers(f"{label}*"), pattern or f"{label}*" in words)

    def test_the_longest_beginning(self) -> None:
        chance = random.Random(6)
        for _ in range(2000):
            beginnings = Beginnings(word(chance, 8) for _ in range(chance.randrange(30)))
            for _ in range(9):
                label = word(chance, 10)
                place = beginnings.longest(label)
                found = None if place == NONE else beginnings.words[place]
                every = (each for each in beginnings.words if label.startswith(each))
                self.assertEqual(found, max(every, key=len, default=None))

    def test_many(self) -> None:
        """A hundred thousand of both: compared with each other they would take minutes."""
        begun = time.process_time()
        numbers = [f"a{number:05}" for number in range(MANY)]
        labels = Labels((*(f"{each}x*" for each in numbers), *(f"{each}y" for each in numbers)))
        self.assertEqual(sum(each in labels for each in numbers), 0)
        self.assertEqual(sum(f"{each}x1" in labels for each in numbers), MANY)
        chain = Beginnings("a" * size for size in range(1000))
        ends = [chain.longest("a" * (number % 500) + "b") for number in range(MANY)]
        self.assertEqual(ends[:3], [0, 1, 2])
        self.assertLess(time.process_time() - begun, SECONDS)


class Allowed(unittest.TestCase):
    """On which axioms theorems may rest."""

    def bits(self, axioms: Sequence[str]) -> int:
        """A set of axioms."""
        return sum({1 << self.axioms.index(each) for each in axioms})

    def setUp(self) -> None:
        self.axioms: list[str] = []

    def test_by_chance(self) -> None:
        """With room for all that is worked out, and with none."""
        chance = random.Random(7)
        for turn in range(1000):
            self.axioms = [*dict.fromkeys(word(chance, 6) for _ in range(8))]
            lists = {each: Labels(tuple(patterns(chance))) for each in patterns(chance)}
            with mock.patch.object(allowances, "MOST_KEPT", -1 if turn % 2 else 1 << 20):
                known = Resting(lists, self.axioms, self.bits)
                for _ in range(9):
                    theorem = word(chance, 9)
                    wanted = [
                        axiom
                        for axiom in self.axioms
                        if any(is_meant(each, axiom) and theorem in lists[each] for each in lists)
                    ]
                    self.assertEqual(known.allowed(theorem), self.bits(wanted))

    def test_many(self) -> None:
        """As many lists as theorems and axioms."""
        begun = time.process_time()
        self.axioms = [f"a{number}" for number in range(20_000)]
        numbers = {label: number for number, label in enumerate(self.axioms)}
        lists = {axiom: Labels(("*", f"t{axiom}*")) for axiom in self.axioms}
        known = Resting(lists, self.axioms, lambda some: sum(1 << numbers[each] for each in some))
        found = {known.allowed(f"t{axiom}").bit_count() for axiom in self.axioms}
        self.assertEqual(found, {20_000})
        self.assertLess(known.of_beginnings.size + known.of_axioms.size, 3 * allowances.MOST_KEPT)
        self.assertLess(time.process_time() - begun, SECONDS)


if __name__ == "__main__":
    unittest.main()
