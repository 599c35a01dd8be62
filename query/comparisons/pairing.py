"""Which assertion of one database is which of another where the program says that these differ: one
that says something else now, or one that has another label.

The same label, kind and frame is the same assertion: the program says so. A label that both have
with another statement was changed, whatever became of its old statement. That an assertion was
renamed is a guess. It is made where two of different labels say the same: the formula, the
mandatory hypotheses in order, and the pairs of variables that must be distinct. The labels of
hypotheses aren't part of that, and neither are variables that only the proof has.
"""

from __future__ import annotations

from array import array
from collections import deque
from collections.abc import Callable, Iterable, Iterator, Mapping, Sequence
from dataclasses import dataclass, field
from functools import cached_property
from hashlib import blake2b
from types import MappingProxyType
from typing import NamedTuple

from query.texts.assertions import Assertion, Damaged, Pair

Cites = Callable[[str], frozenset[str]]
"""For a theorem's label the labels that it cites."""

ANOTHER_ORDER = "only the order of `$f` is other"
"""A proof gives the hypotheses in their order, so this is another frame."""
OTHER_NAMES = "only the names of variables are other"
SAME_THEOREM = (ANOTHER_ORDER, OTHER_NAMES)
"""Where statements differ in no more than this, a theorem is the same one to what rests on axioms.
"""
AN_AXIOM = ("it is a theorem now, and was an axiom", "it is an axiom now, and was a theorem")
FORMULA, HYPOTHESES, DISTINCT = "the formula", "the hypotheses", "the $d conditions"
"""In what statements differ."""


class Statement(NamedTuple):
    """What an assertion says; equal for two databases exactly where it is the same. Hypotheses and
    pairs have sums in their place: there may be many of them."""

    formula: str
    essentials: bytes
    disjoint: bytes
    typecodes: frozenset[Pair]
    """Each variable with its typecode."""
    order: bytes
    """The hypotheses of both kinds, in order."""


def statement_of(assertion: Assertion) -> Statement:
    """The statement of an assertion."""
    frame = assertion.frame()
    hypotheses = frame.hypotheses()
    given = [f"{each.kind} {each.formula}" for each in hypotheses]
    floating = [each.formula.split(" ") for each in hypotheses if each.kind == "f"]
    return Statement(
        assertion.formula,
        sum_of_lines(each for each in given if each.startswith("e")),
        sum_of_pairs(frame.pairs()),
        frozenset((variable, typecode) for typecode, variable in floating),
        sum_of_lines(given),
    )


def sum_of(*parts: bytes) -> bytes:
    """A sum of bytes."""
    total = blake2b(digest_size=20)
    for part in parts:
        total.update(part)
    return total.digest()


def sum_of_lines(lines: Iterable[str]) -> bytes:
    """A sum of lines in order."""
    return sum_of("\n".join(lines).encode())


def sum_of_pairs(pairs: Iterable[Pair]) -> bytes:
    """What is the same for pairs exactly where they are the same, in whatever order. A pair takes
    four bytes, since there may be millions of them."""
    numbers: dict[str, int] = {}
    others: dict[str, array[int]] = {}
    for one, other in pairs:
        others.setdefault(one, array("I")).append(numbers.setdefault(other, len(numbers)))
    names = sorted(numbers)
    ranks = {numbers[name]: rank for rank, name in enumerate(names)}
    total = [sum_of_lines(names)]
    for one in sorted(others):
        ranked = array("I", sorted(ranks[number] for number in others[one]))
        total += [sum_of(one.encode()), sum_of(ranked.tobytes())]
    return sum_of(*total)


def difference(old: Statement, new: Statement) -> str:
    """In words, in what two statements differ; "" where they don't."""
    parts = []
    if old.formula != new.formula:
        parts.append(FORMULA)
    if old.essentials != new.essentials:
        parts.append(HYPOTHESES)
    if old.disjoint != new.disjoint:
        parts.append(DISTINCT)
    if old.typecodes != new.typecodes and not parts:
        parts.append("the typecodes of variables")
    if parts:
        return f"{' and '.join(parts)} changed"
    return "" if old.order == new.order else ANOTHER_ORDER


def difference_in_words(old: Assertion, new: Assertion) -> str:
    """The same of two assertions, as `compare` tells it of one label; also that one of them is an
    axiom, and the other one a theorem."""
    words = difference(statement_of(old), statement_of(new))
    has_other_names = words not in ("", ANOTHER_ORDER) and are_alike(old, new)
    words = OTHER_NAMES if has_other_names else words
    kinds = "" if old.kind == new.kind else AN_AXIOM[new.kind == "a"]
    return "; ".join(filter(None, (kinds, words)))


@dataclass
class Pairing:
    """What became of the assertions of one kind, axioms or theorems. Labels are in file order."""

    renamed: dict[str, str] = field(default_factory=dict)
    """For labels of NEW the label in OLD, which is gone or another statement's now."""
    changed: dict[str, str] = field(default_factory=dict)
    """For all labels that both have, with another statement, in what these differ, in words. They
    may be renamed too, and so may their old statements. What they are of in OLD may be of the other
    kind."""
    new: list[str] = field(default_factory=list)
    """The other labels that weren't renamed, and that OLD hasn't, or has for the same statement as
    one of the other kind."""
    gone: list[str] = field(default_factory=list)
    """The same of OLD: those whose statements have no other label now."""
    unknown: list[str] = field(default_factory=list)
    """The labels of NEW whose assertions OLD has under no label."""

    @cached_property
    def now(self) -> dict[str, str]:
        """For renamed labels of OLD the label in NEW."""
        return {old: new for new, old in self.renamed.items()}

    def is_another(self, label: str) -> bool:
        """Whether a changed label is that of another assertion now: what it says had another label
        before, or what it said has another one now."""
        return label in self.renamed or label in self.now


def pairing_of(
    gone: Sequence[Assertion],
    new: Sequence[Assertion],
    old_cites: Cites,
    new_cites: Cites,
    crossed: Mapping[str, str] = MappingProxyType({}),
) -> Pairing:
    """Pairs assertions of one kind that OLD alone has with those that NEW alone has. The citations
    are asked for only where several say the same. `crossed` has the labels that say something else
    as one of the other kind, in words."""
    before = {one.label: (one.letter, statement_of(one)) for one in gone}
    after = {one.label: (one.letter, statement_of(one)) for one in new}
    words = {label: in_words(before[label], one) for label, one in after.items() if label in before}
    words |= dict.fromkeys(with_other_names(gone, new, words), OTHER_NAMES)
    opened = {label for label, differ in words.items() if not differ}
    old_ones, new_ones = (
        by_statement({label: said for label, (_, said) in some.items() if label not in opened})
        for some in (before, after)
    )
    found: dict[str, str] = {}
    for statement, labels in new_ones.items():
        found.update(matched(old_ones.get(statement, []), labels, old_cites, new_cites))
    pairing = Pairing({label: found[label] for label in after if label in found})
    # A guess takes nothing from what is known: that a label says something else now.
    said = {**crossed, **words}
    pairing.changed = {label: said[label] for label in after if said.get(label)}
    pairing.new = [label for label in after if label not in said and label not in found]
    pairing.gone = [label for label in before if label not in said and label not in pairing.now]
    stayed = words.keys() - pairing.now.keys()
    pairing.unknown = [label for label in after if label not in stayed and label not in found]
    return pairing


def crossing(gone: Mapping[str, Assertion], new: Mapping[str, Assertion]) -> dict[str, str]:
    """For labels of an axiom in one of OLD and NEW, and of a theorem in the other, that say
    something else, in what they differ, in words."""
    both = ((gone[label], one) for label, one in new.items() if label in gone)
    return {
        one.label: difference_in_words(before, one)
        for before, one in both
        if before.kind != one.kind and statement_of(before) != statement_of(one)
    }


def in_words(old: tuple[str, Statement], new: tuple[str, Statement]) -> str:
    """In what two assertions of one label differ, each its letter and its statement; "" where only
    one of them is left open."""
    words = difference(old[1], new[1])
    if not words and old[0] == new[0]:
        raise Damaged
    return words


def with_other_names(
    gone: Iterable[Assertion], new: Iterable[Assertion], words: Mapping[str, str]
) -> Iterator[str]:
    """The labels of those whose statements differ, by these words, in the names of variables alone.
    In which order their `$f` are doesn't matter then."""
    before = {one.label: one for one in gone if words.get(one.label)}
    for one in new:
        differ = words.get(one.label)
        if differ and differ != ANOTHER_ORDER and are_alike(before[one.label], one):
            yield one.label


def are_alike(old: Assertion, new: Assertion) -> bool:
    """Whether two statements are the same but for the names of variables and the order of `$f`.
    Each mandatory variable stands in a formula."""
    frames = old.frame(), new.frame()
    typecodes, formulas = [], []
    for one, frame in zip((old, new), frames):
        given = frame.hypotheses()
        floating = (each.formula.split(" ") for each in given if each.kind == "f")
        typecodes.append({variable: typecode for typecode, variable in floating})
        essential = [each.formula for each in given if each.kind == "e"]
        formulas.append(" \n ".join([*essential, one.formula]).split(" "))
    names: dict[str, str] = {}
    if len(formulas[0]) != len(formulas[1]) or len(typecodes[0]) != len(typecodes[1]):
        return False
    for before, after in zip(*formulas):
        typecode = typecodes[0].get(before)
        if typecode != typecodes[1].get(after):
            return False
        if before != after and typecode is None or names.setdefault(before, after) != after:
            return False
    if len({*names.values()}) < len(names):
        return False
    renamed = ((names[one], names[other]) for one, other in frames[0].pairs())
    pairs = ((min(pair), max(pair)) for pair in renamed)
    return sum_of_pairs(pairs) == sum_of_pairs(frames[1].pairs())


def by_statement(said: Mapping[str, Statement]) -> dict[Statement, list[str]]:
    """The labels of assertions by what these say."""
    found: dict[Statement, list[str]] = {}
    for label, statement in said.items():
        found.setdefault(statement, []).append(label)
    return found


def matched(
    old: list[str], new: list[str], old_cites: Cites, new_cites: Cites
) -> Iterator[tuple[str, str]]:
    """Pairs of labels of NEW and OLD that say the same: first those that cite the same, then the
    others in file order."""
    if not old or len(old) == len(new) == 1:
        yield from zip(new, old)
        return
    citing: dict[frozenset[str], deque[str]] = {}
    for label in old:
        citing.setdefault(old_cites(label), deque()).append(label)
    left, taken = [], set()
    for label in new:
        same = citing.get(new_cites(label))
        if same:
            taken.add(same[0])
            yield label, same.popleft()
        else:
            left.append(label)
    yield from zip(left, (label for label in old if label not in taken))
