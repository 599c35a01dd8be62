"""What the gate is asked: two texts, and the files `mmdepend.toml` by which NEW is judged."""

from __future__ import annotations

from collections.abc import Mapping
from dataclasses import dataclass, field, replace

from query.answers.errors import shown
from query.answers.excerpts import cut
from query.comparisons.changes import Comparison
from query.gate.config import RULES, Config, Misread, read_config
from query.gate.finding import Finding
from query.program.source import Source

MOST_NAMED = 5
"""How many labels a note names."""


@dataclass(frozen=True)
class Request:
    """What is asked.

    `base` is what OLD is, in words, and `judged` of which commit NEW is; "" for two files. `config`
    judges, `before` is the file of OLD, and `brought` that of NEW, where it is another one and can
    be read. `findings` are of the rules `config` and `plain`: they were found beside the text.
    `notes` are remarks that don't change the answer, and `paths` has for names of files their paths
    from the top of the repository.
    """

    old: Source
    new: Source
    base: str
    judged: str = ""
    config: Config = Config()
    before: Config = Config()
    brought: Config | None = None
    findings: tuple[Finding, ...] = ()
    notes: tuple[str, ...] = ()
    paths: Mapping[str, str] = field(default_factory=dict)

    def rules(self) -> tuple[str, ...]:
        """The rules by which NEW is judged, in the order in which they are told."""
        return tuple(rule for rule in RULES if rule in self.config.rules)

    def watched(self) -> list[str]:
        """The axioms of which it is judged what rests on them, by the file that judges and by that
        which is brought."""
        brought = () if self.brought is None else self.brought.watch
        return [*dict.fromkeys((*self.config.watch, *brought))]

    def all_notes(self) -> list[str]:
        """The notes, with those on axioms that aren't judged, and on a rule that is off unsaid."""
        config = self.config
        notes = [*self.notes]
        if config.typecode is not None and "axioms" in config.rules:
            notes.append(
                f"`typecode` of {config.name} leaves the axioms of '{config.typecode}'; others"
                " aren't judged, and a new one can make proofs of anything"
            )
        if config.is_new_as_newly and "new" not in config.rules:
            notes.append(
                f"`rules.newly` of {config.name} switches the rule `new` off too, of which it says"
                " nothing: new theorems may rest on watched axioms"
            )
        return notes


def notes_on(comparison: Comparison) -> list[str]:
    """What was changed and breaks no rule: that theorems of both say something else. Other names of
    variables, or another order of what needs none, say nothing else."""
    labels = [each for each in comparison.theorems.changed if each in comparison.restated]
    if not labels:
        return []
    count = f"{len(labels)} theorems say" if labels[1:] else "1 theorem says"
    named = ", ".join(map(cut, labels[:MOST_NAMED]))
    more = f" and {len(labels) - MOST_NAMED} more" if labels[MOST_NAMED:] else ""
    both = "`review` shows both statements"
    return [f"{count} something else than in the base: {named}{more}; {both}"]


def config_in(data: bytes | None, name: str) -> Config:
    """What a file says; the defaults where there is none."""
    return Config() if data is None else read_config(data, name)


def with_brought(request: Request, after: bytes | None, name: str) -> Request:
    """A request with the file of NEW, which is another one than that of OLD."""
    try:
        new = config_in(after, name)
    except Misread as why:
        finding = Finding("config", name, why.line, "", "", why.reason)
        return replace(request, findings=(*request.findings, finding))
    note = f"{shown(name)} isn't that of the base; both judge, and it counts once the base has it"
    return replace(request, brought=replace(new, name=name), notes=(*request.notes, note))
