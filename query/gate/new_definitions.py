"""The definitions that a change brings: which of them add nothing but a name, and which don't.

The rule `definitions` of the gate asks for it. What is called a definition, by a label that begins
with `df-`, is let in if it is sound, and so is the syntax axiom of the form that it defines. What
isn't sound is let in only by its whole label; and so is what makes an axiom of OLD say another
thing, since that speaks of the form, itself or by other definitions.
"""

from __future__ import annotations

from collections.abc import Callable, Iterator
from functools import cached_property, lru_cache

from query.comparisons.changes import Comparison, Side
from query.comparisons.pairing import ANOTHER_ORDER
from query.definitions.foundations import BEGINNING
from query.definitions.soundness import NO, TRUST, UNKNOWN, YES, Definitions, Verdict, cites_by
from query.gate.config import Config
from query.gate.labels import Labels
from query.texts.assertions import Assertion

WORDS = {NO: "isn't sound", UNKNOWN: "isn't judged", TRUST: "would be on trust"}


class Introduced:
    """What a change brings of axioms, as far as definitions are concerned."""

    def __init__(self, comparison: Comparison) -> None:
        self.comparison = comparison
        told = comparison.differences.new.values()
        self.axioms = [one for one in told if one.letter == "a"]
        """Those that are new or changed, or have a new label."""

    @cached_property
    def judged(self) -> Definitions:
        """All definitions of NEW."""
        return judged_side(self.comparison.new)

    @cached_property
    def spoken_of(self) -> dict[str, str]:
        """For each form of which an axiom speaks that OLD has too, or a theorem that is left open,
        the first one of these."""
        opened = (one for one in self.comparison.new.database.text.assertions if one.is_open)
        return self.judged.spoken_of(self.comparison.differences.new, opened)

    def changes(self, label: str) -> str:
        """The axiom of OLD that says something else, unfolded, by what a definition says that is
        new or changed; "" where there is none."""
        told, axioms = self.comparison.differences.new, self.comparison.axioms
        has_order = axioms.changed.get(label) == ANOTHER_ORDER and not axioms.is_another(label)
        is_same = label in axioms.renamed or has_order
        if label not in told or is_same or not self.judged.is_sound(label):
            return ""
        return self.spoken_of.get(str(self.judged.verdicts[label].defines), "")

    @cached_property
    def harmless(self) -> dict[str, Verdict]:
        """The sound definitions of what no axiom of OLD speaks of, and the new syntax axioms of
        what they define, each with the verdict on the definition."""
        verdicts = self.judged.verdicts if self.axioms else {}
        sound = {
            label: each
            for label, each in verdicts.items()
            if each.sound == YES and not self.changes(label)
        }
        by_form = {str(each.defines): each for each in sound.values()}
        new = set(self.comparison.axioms.new)
        found = sound | {form: each for form, each in by_form.items() if form in new}
        return {one.label: found[one.label] for one in self.axioms if one.label in found}

    @cached_property
    def apart(self) -> frozenset[str]:
        """The axioms that the rule `axioms` leaves to the rule `definitions`."""
        return frozenset(
            one.label for one in self.axioms if is_called(one) or one.label in self.harmless
        )

    def broken(self, config: Config) -> Iterator[tuple[str, str]]:
        """What breaks the rule: a label, and the reason."""
        for one in self.axioms:
            if is_called(one) and one.label not in self.harmless and not names(config, one.label):
                yield one.label, self.reason(one)
        if any(self.is_let_in(config, one) for one in self.axioms):
            yield from self.lost(config)

    def is_let_in(self, config: Config, one: Assertion) -> bool:
        """Whether an axiom, which isn't called a definition, is let in though nobody named it."""
        if is_called(one) or one.label in self.harmless or names(config, one.label):
            return False
        is_judged = "axioms" in config.rules and config.typecode in (None, one.typecode)
        return not is_judged or config.allows("axioms", one.label)

    def reason(self, one: Assertion, shown: Callable[[str], str] = str) -> str:
        """Why a definition isn't let in. `shown` says how labels are."""
        verdict = self.judged.verdicts.get(one.label)
        if verdict is None:
            return (
                f"called a definition, but isn't of typecode |- (condition `form`): {one.typecode}"
            )
        word = "changed" if one.label in self.comparison.axioms.changed else "new"
        axiom = self.changes(one.label)
        if axiom:
            form = shown(str(verdict.defines))
            speaks = f"of which {shown(axiom)} speaks: that says another thing"
            return f"a {word} definition of {form}, {speaks}"
        condition = f" (condition `{verdict.condition}`)" if verdict.condition else ""
        why = f": {verdict.why}" if verdict.why else ""
        return f"a {word} definition that {WORDS[verdict.sound]}{condition}{why}"

    def told(
        self, shown: Callable[[str], str]
    ) -> Iterator[tuple[str, tuple[str, str] | None, str]]:
        """Each definition, with the two sides where it is sound, and otherwise why it isn't, by
        labels that are `shown` so."""
        for one in self.axioms:
            if is_called(one):
                is_sound = one.label in self.harmless
                sides = self.judged.sides(one.label) if is_sound else None
                yield one.label, sides, "" if is_sound else self.reason(one, shown)

    def lost(self, config: Config) -> Iterator[tuple[str, str]]:
        """The definitions that were sound, and aren't by what else is let in; one for each
        reason."""
        found: dict[tuple[str, str], list[str]] = {}
        for label, before in judged_side(self.comparison.old).verdicts.items():
            now = self.comparison.to_new.get(label, "")
            verdict = self.judged.verdicts.get(now)
            if before.sound != YES or verdict is None or verdict.sound not in (NO, UNKNOWN):
                continue
            if verdict.condition != "rests" and not names(config, now) and now not in self.apart:
                key = str(verdict.condition), f"{WORDS[verdict.sound]}: {verdict.why}"
                found.setdefault(key, []).append(now)
        for (condition, why), labels in found.items():
            more = f", like {len(labels) - 1} more," if labels[1:] else ","
            yield labels[0], f"was sound{more} and now (condition `{condition}`) {why}"


def judged_side(side: Side) -> Definitions:
    """The verdicts on a database."""
    return Definitions(side.database.text.assertions, cites_by(side.graph))


def is_called(one: Assertion) -> bool:
    """Whether an axiom is called a definition."""
    return one.label.startswith(BEGINNING)


def names(config: Config, label: str) -> bool:
    """Whether `allow.axioms` has a whole label; a pattern lets no definition in."""
    return label in config.allowed.get("axioms", Labels()).whole


@lru_cache(maxsize=1)
def introduced(comparison: Comparison) -> Introduced:
    """What a change brings, found once."""
    return Introduced(comparison)
