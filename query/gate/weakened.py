"""In what a file `mmdepend.toml` asks less than another one: what a pull request may not decide for
itself."""

from __future__ import annotations

from collections.abc import Iterator
from dataclasses import replace

from query.comparisons.changes import Comparison, Side
from query.gate.config import CHOSEN, RULES, TO_COME, Claim, Config
from query.gate.finding import Finding
from query.gate.labels import Labels
from query.gate.rules import Case, Judge, reason_of_watched


def losses(old: Config, new: Config) -> Iterator[Finding]:
    """What NEW asks less than OLD, one each, with the line where it says so; 0 where it says
    nothing."""
    if new.base != old.base:
        reason = f"the base was '{old.base}', and is '{new.base}'"
        yield Finding("config", new.name, line(new, "base"), "", "", reason)
    if new.typecode is not None and new.typecode != old.typecode:
        before = "all axioms" if old.typecode is None else f"the axioms of '{old.typecode}'"
        reason = f"`typecode` leaves those of '{new.typecode}', where {before} were judged"
        yield Finding("config", new.name, line(new, "typecode"), "", "", reason)
    if CHOSEN in new.rules and CHOSEN not in old.rules:
        reason = f"`{CHOSEN}` lets definitions that are sound in, where each was judged"
        yield Finding("config", new.name, line(new, CHOSEN), "", "", reason)
    for rule in RULES:
        if rule in old.rules and rule not in new.rules:
            is_unsaid = rule == "new" and new.is_new_as_newly
            why = ", as `rules.newly` says, since the file has no `rules.new`" if is_unsaid else ""
            reason = f"the rule `{rule}` is switched off{why}"
            yield Finding("config", new.name, line_of_rule(new, rule), "", "", reason)
        elif rule in old.rules and rule in new.of_main and rule not in old.of_main:
            reason = f"the rule `{rule}` leaves theorems of mathboxes, where all were judged"
            yield Finding("config", new.name, line_of_rule(new, rule), "", "", reason)
    watched = Labels(new.watch)
    for word in old.watch:
        if word not in watched.whole:
            # What a longer word with `*` means may be missing, as long as it means something.
            is_within = watched.covers(word)
            reason = f"'{word}' isn't watched {'by itself ' if is_within else ''}any more"
            yield Finding("config", new.name, line(new, "watch"), word, word, reason)
    yield from lost_claims(old, new)
    yield from allowances(old, new)
    yield from limits(old, new)


def limits(old: Config, new: Config) -> Iterator[Finding]:
    """Limits that are others: a higher one costs more, and a lower one leaves what is longer
    without an answer."""
    was, now = old.limits, new.limits
    pairs = (("time", was.seconds, now.seconds), ("memory", was.megabytes, now.megabytes))
    for name, before, after in pairs:
        if before != after:
            told = ["the default" if each is None else str(each) for each in (before, after)]
            reason = f"`limit-{name}` was {told[0]}, and is {told[1]}"
            yield Finding("config", new.name, line(new, f"limit-{name}"), "", "", reason)


def mended(config: Config, brought: Config, side: Side) -> Config:
    """A file without what its own database breaks and another file no longer asks: who takes it
    back mends what nobody could keep. `side` is the database. What a rule that is off would say
    breaks nothing."""
    case = Case(Comparison.within(side), config)
    judge = Judge(case)
    kept = {claim.theorem: frozenset(claim.axioms) for claim in brought.claims}
    watched = Labels(brought.watch).whole
    claims = []
    for claim in config.claims:
        axioms = tuple(
            axiom
            for axiom in claim.axioms
            if "claims" not in config.rules
            or axiom in kept.get(claim.theorem, ())
            or not any(judge.judge("claims", replace(claim, axioms=(axiom,)), ""))
        )
        claims += [Claim(claim.theorem, axioms, claim.line)] if axioms else []
    watch = tuple(
        word
        for word in config.watch
        if "watched" not in config.rules or word in watched or not reason_of_watched(case, word)
    )
    return replace(config, claims=tuple(claims), watch=watch)


def line(config: Config, *path: str) -> int:
    """The line on which a file has a key; 0 where it hasn't."""
    return config.lines.get(path, 0)


def line_of_rule(config: Config, rule: str) -> int:
    """The line that switches a rule; what a file says of `newly` holds for `new` too, if it doesn't
    name that."""
    if rule == CHOSEN:
        return line(config, CHOSEN)
    return line(config, "rules", rule) or line(config, "rules", "newly")


def lost_claims(old: Config, new: Config) -> Iterator[Finding]:
    """The claims that are dropped."""
    kept = {claim.theorem: claim for claim in new.claims}
    for claim in old.claims:
        now = kept.get(claim.theorem)
        axioms = frozenset(now.axioms if now else ())
        for axiom in claim.axioms:
            if axiom not in axioms:
                reason = f"the claim that {claim.theorem} avoids {axiom} is dropped"
                yield Finding(
                    "config", new.name, now.line if now else 0, claim.theorem, axiom, reason
                )


def allowances(old: Config, new: Config) -> Iterator[Finding]:
    """What is allowed, and wasn't. That an axiom needn't be there yet takes nothing away where it
    comes to be watched by the same file."""
    for rule, labels in new.allowed.items():
        before = old.allowed.get(rule, Labels())
        for word in labels.words:
            is_asked_newly = rule == TO_COME and word in new.watch and word not in old.watch
            if not before.covers(word) and not is_asked_newly:
                reason = f"`allow.{rule}` has '{word}' now"
                yield Finding("config", new.name, line(new, "allow", rule), word, "", reason)
    for rule, lists in new.resting.items():
        known = [
            (Labels((axiom,)), theorems) for axiom, theorems in old.resting.get(rule, {}).items()
        ]
        for axiom, labels in lists.items():
            where = line(new, "allow", rule, axiom) or line(new, "allow", "newly", axiom)
            allowed = [theorems for axioms, theorems in known if axioms.covers(axiom)]
            for word in labels.words:
                if not any(theorems.covers(word) for theorems in allowed):
                    reason = f"`allow.{rule}` lets '{word}' rest on '{axiom}' now"
                    yield Finding("config", new.name, where, word, axiom, reason)
