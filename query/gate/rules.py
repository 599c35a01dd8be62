"""The rules of the gate: what in a database breaks what its maintainers ask for.

Each rule is a function of a `Case`, the two databases side by side and the file `mmdepend.toml`. It
gives a `Finding` for each thing that breaks it, in file order.
"""

from __future__ import annotations

import re
from collections.abc import Callable, Iterator
from dataclasses import dataclass
from functools import cached_property

from query.answers.excerpts import SHOWN_FORMULA, cut
from query.citations.crossing import across_mathboxes, citations
from query.comparisons.changed_statements import change_of
from query.comparisons.changes import Comparison, Side
from query.comparisons.pairing import SAME_THEOREM
from query.comparisons.two_texts import OldText, words_of_proof
from query.gate.arrivals import Arrivals
from query.gate.config import LABEL, RULES, Claim, Config
from query.gate.finding import Finding
from query.gate.labels import Labels, meant
from query.gate.mathboxes import MainPart, exposed, main_part
from query.gate.new_definitions import introduced
from query.platform import progress
from query.texts.assertions import Assertion
from query.texts.comment_tokens import tokens
from query.texts.discouraged import hidden_marks, is_discouraged
from query.texts.includes import OPENING, new_includes
from query.texts.text import HEADING_START, Text

MARKED = re.compile(rb"\$\(\s+\$j(?=\s)")
TOKEN = re.compile(r"'([^']*)'|\"([^\"]*)\"|(;)|([^\s;'\"]+)|(['\"])")
QUOTED = "'"
"""Stands for a quoted word: no other word has this sign."""
MOST_REASONS = 1_000_000
"""So many reasons are remembered at the most."""
SHOWN_INCLUDE = 100
"""How many characters of a comment with an include are shown."""


@dataclass
class Case:
    """What the rules judge."""

    comparison: Comparison
    config: Config
    brought: tuple[Finding, ...] = ()
    """What breaks the rules `plain` and `config` by what was found beside the text."""
    tells_all: bool = False
    """Whether each theorem that rests on a watched axiom is told, and not only the first one for
    each proof that is the cause."""

    @property
    def new(self) -> Side:
        """The database that is judged."""
        return self.comparison.new

    @property
    def old_text(self) -> OldText:
        """The text of OLD."""
        return self.comparison.old_text

    @property
    def text(self) -> Text:
        """The text of NEW."""
        return self.comparison.text

    def finding(
        self, rule: str, label: str, reason: str, axiom: str = "", allow: str = ""
    ) -> Finding:
        """A finding at an assertion of NEW; without a line where NEW has none of this label. What
        would allow it is the list of the rule, or another one."""
        assertion = self.text.find(label)
        line = self.text.line(assertion.place) if assertion else 0
        allow = allow or f"allow.{rule}"
        return Finding(rule, self.new.name, line, label, axiom, reason, allow=allow)

    def judges_axioms_of(self, typecode: str) -> bool:
        """Whether the rule `axioms` judges the axioms of a typecode."""
        return self.config.typecode in (None, typecode)

    @cached_property
    def sorted_axioms(self) -> list[str]:
        """The labels of the axioms of NEW, sorted."""
        return sorted(one.label for one in self.text.assertions if one.kind == "a")

    @cached_property
    def arrivals(self) -> Arrivals:
        """What came to rest on watched axioms."""
        return Arrivals(self.comparison, watched_axioms(self), self.config, self.main_part)

    @cached_property
    def main_part(self) -> MainPart | None:
        """The main part, where a rule judges it alone."""
        same, is_asked = self.comparison, self.config.of_main
        return main_part(same.old_text, same.text, same.to_old) if is_asked else None

    @cached_property
    def open(self) -> dict[str, None]:
        """The theorems of NEW that are left open, in file order."""
        return dict.fromkeys(one.label for one in self.text.assertions if one.is_open)

    @cached_property
    def may_arrive(self) -> bool:
        """Whether a theorem may have come to rest on a watched axiom: the program tells that it
        gained one, or it has the label of another one, with which it was compared; or what came out
        of a mathbox counts as new."""
        told, watch, was = self.comparison.differences, self.config.watch, self.comparison.to_old
        if watch and self.main_part is not None and self.main_part.entered:
            return True
        if any(one.kind == "p" and one.label in told.gone for one in told.new.values()):
            return bool(watch)
        labels = Labels(watch)
        gaining = self.comparison.gaining
        return any(each in labels or was.get(each, "") in labels for each in gaining)


def axioms(case: Case) -> Iterator[Finding]:
    """An axiom is new, changed or gone, and isn't allowed. What the rule `definitions` judges is
    left to it."""
    left: frozenset[str] = frozenset()
    if "definitions" in case.config.rules:
        left = introduced(case.comparison).apart
    for label, reason in (*axioms_now(case), *axioms_gone(case)):
        if label not in left and not case.config.allows("axioms", label):
            yield case.finding("axioms", label, reason, label)


def definitions(case: Case) -> Iterator[Finding]:
    """What is called a definition isn't sound, and isn't allowed by its whole label; or one that
    was sound no longer is."""
    for label, reason in introduced(case.comparison).broken(case.config):
        yield case.finding("definitions", label, reason, label, "allow.axioms")


def axioms_now(case: Case) -> Iterator[tuple[str, str]]:
    """The axioms of NEW that OLD hasn't, or has otherwise, with the reason. One that was renamed to
    a label of OLD has two."""
    pairing, told = case.comparison.axioms, case.comparison.differences
    for one in told.new.values():
        if one.kind != "a":
            continue
        before = told.gone.get(one.label)
        is_known = before is not None and before.kind == "a"
        if before is not None and is_known:
            if any(map(case.judges_axioms_of, (one.typecode, before.typecode))):
                yield one.label, reason_of_changed(case, before, one)
        if not is_known or one.label in pairing.renamed:
            if case.judges_axioms_of(one.typecode):
                yield one.label, reason_of_new(case, one)


def axioms_gone(case: Case) -> Iterator[tuple[str, str]]:
    """The axioms of OLD of whose labels NEW has no axiom, with the reason."""
    for one in case.comparison.differences.gone.values():
        is_judged = one.kind == "a" and case.judges_axioms_of(one.typecode)
        if is_judged and one.label not in case.comparison.axioms.changed:
            yield one.label, reason_of_gone(case, one.label)


def reason_of_new(case: Case, axiom: Assertion) -> str:
    """Why an axiom is a new one."""
    formula = cut(axiom.formula)
    was = case.comparison.axioms.renamed.get(axiom.label)
    if was:
        return f"a new label of the axiom {was}: {formula}{resting(case, axiom.label)}"
    before = case.comparison.differences.gone.get(axiom.label)
    if before is not None and before.kind == "p":
        return f"an axiom now, and a theorem before: {formula}"
    return f"a new axiom: {formula}"


def resting(case: Case, axiom: str) -> str:
    """How many theorems rest on an axiom of NEW, as the end of a sentence. For the program it is
    another axiom than in OLD, so it tells of each of them."""
    count = case.comparison.gaining[axiom]
    rest = "theorems rest" if count > 1 else "theorem rests"
    return f"; {count} {rest} on it" if count else ""


def reason_of_changed(case: Case, before: Assertion, axiom: Assertion) -> str:
    """How an axiom was changed."""
    differ = case.comparison.axioms.changed[axiom.label]
    change = change_of(before, axiom, differ, SHOWN_FORMULA)
    shift = f", from {change.old} to {change.new}"
    return f"a changed axiom: {differ}{shift}{resting(case, axiom.label)}"


def reason_of_gone(case: Case, label: str) -> str:
    """Where an axiom of OLD is."""
    now = case.comparison.axioms.now.get(label)
    if now:
        return f"an axiom that is gone; its statement has the label {now}"
    is_theorem = case.text.find(label) is not None
    return "an axiom before, and a theorem now" if is_theorem else "an axiom that is gone"


def watched(case: Case) -> Iterator[Finding]:
    """A watched axiom is missing from NEW, or its label is another one's."""
    line = case.config.lines.get(("watch",), 0)
    for word in case.config.watch:
        if reason := reason_of_watched(case, word):
            may_come = case.old_text.find(word) is None and not word.endswith("*")
            allow = "allow.watched" if may_come and case.text.find(word) is None else ""
            yield Finding("watched", case.config.name, line, word, word, reason, allow=allow)
    watch = Labels(case.config.watch)
    for label, one in case.comparison.differences.gone.items():
        now = case.comparison.to_new.get(label, label)
        if one.letter != "p" and now != label and label in watch and now not in watch:
            if label not in watch.whole:
                reason = f"a watched axiom whose statement has the label {now}, which isn't watched"
                yield Finding("watched", case.config.name, line, label, label, reason)


def is_to_come(case: Case, word: str) -> bool:
    """Whether neither OLD nor NEW has an axiom yet that a word of `watch` names, and the file says
    that it may be watched before it is there. What OLD has isn't to come, and neither is what is a
    theorem in NEW."""
    before, after = case.old_text.find(word), case.text.find(word)
    return (
        after is None
        and (before is None or before.kind != "a")
        and case.config.allows("watched", word)
    )


def reason_of_watched(case: Case, word: str) -> str:
    """What became of the axiom that a word of `watch` names; "" where it is there, or may be
    missing still."""
    after = case.text.find(word)
    if word.endswith("*"):
        return "" if meant(word, case.sorted_axioms) else "a watched axiom that is missing"
    if is_to_come(case, word):
        return ""
    reason = "a watched axiom that is missing"
    if after is not None and after.kind == "a":
        before = case.old_text.find(word)
        if before is None or before.kind != "a" or case.comparison.to_old.get(word) == word:
            return ""
        reason = "a watched axiom whose label another one has"
    now = case.comparison.axioms.now.get(word)
    if now:
        return f"{reason}; its statement has the label {now}"
    return "a watched axiom that is a theorem now" if after and after.kind == "p" else reason


def watched_axioms(case: Case) -> list[str]:
    """The watched axioms that NEW has, in file order: also those that OLD had under a label that is
    watched."""
    watch = Labels(case.config.watch)
    was = case.comparison.to_old
    return [
        label
        for label in case.new.dependence.axioms
        if label in watch or was.get(label, "") in watch
    ]


def newly(case: Case) -> Iterator[Finding]:
    """A theorem that was there before newly rests on a watched axiom, and isn't allowed."""
    yield from arrived(case, "newly")


def new(case: Case) -> Iterator[Finding]:
    """A new theorem rests on a watched axiom, and isn't allowed; or one that has the label of one
    that was renamed."""
    yield from arrived(case, "new")


def arrived(case: Case, rule: str) -> Iterator[Finding]:
    """What breaks one of these rules: the first theorem for each proof that is the cause, or all
    theorems with all axioms."""
    if case.config.watch and rule in case.config.of_main[:1]:
        yield from taken_in(case, rule)
    if not case.may_arrive:
        return
    if not case.tells_all:
        for each in case.arrivals.effects(rule):
            others = f" and {more(each.axioms, 'watched axiom')}" if each.axioms else ""
            way = way_of(each.theorem, each.citing, each.cited)
            so_do = f"; with {more(each.theorems, 'theorem')} by that" if each.theorems else ""
            reason = f"{how_of(case, rule, each.theorem)} {each.axiom}{others}: {way}{so_do}"
            reason += why_judged(case, rule, each.theorem)
            allow = key_of(rule, each.axiom)
            yield case.finding(rule, each.theorem, reason, each.axiom, allow)
        return
    for arrival in case.arrivals.all(rule):
        for column in arrival.columns:
            axiom = case.new.dependence.axioms[column]
            way = way_of(arrival.theorem, *case.arrivals.cause(arrival.row, column))
            reason = f"{how_of(case, rule, arrival.theorem)} {axiom}: {way}"
            reason += why_judged(case, rule, arrival.theorem)
            yield case.finding(rule, arrival.theorem, reason, axiom, key_of(rule, axiom))


def key_of(rule: str, axiom: str) -> str:
    """The key of the list of theorems that may rest on an axiom by a rule."""
    return f'allow.{rule}."{axiom}"' if "." in axiom else f"allow.{rule}.{axiom}"


def taken_in(case: Case, rule: str) -> Iterator[Finding]:
    """Statements of the main part stayed where they were, and a mathbox has them now, so that they
    would no longer be judged after the merge; and that isn't allowed."""
    part = case.main_part
    for each in () if part is None else part.taken:
        labels = [label for label in each.labels if not case.config.allows("mathboxes", label)]
        if labels:
            others = f", like {len(labels) - 1} more," if labels[1:] else ""
            reason = (
                f"stayed where it was{others} and is in the mathbox for {each.mathbox} now, which"
                f" isn't judged by `{rule}`: a header is before it that is new or moved, or one is"
                " gone"
            )
            yield case.finding(rule, labels[0], reason, allow="allow.mathboxes")


def how_of(case: Case, rule: str, theorem: str) -> str:
    """In words, how a theorem came to rest on something. What has a label of OLD isn't called new,
    though its statement is: whoever reads that would look for a label that wasn't there."""
    if case.arrivals.has_entered(theorem):
        return "came out of a mathbox, and in the main part it newly rests on"
    if rule == "newly":
        return "newly rests on"
    differ = case.comparison.theorems.changed.get(theorem)
    if differ is None:
        return "a new theorem that rests on"
    if differ in SAME_THEOREM:
        return f"{differ} than in the base, and it rests on"
    return "says something else than in the base, and rests on"


def why_judged(case: Case, rule: str, theorem: str) -> str:
    """Why a theorem of a mathbox counts as one of the main part, as the end of a sentence."""
    part = case.main_part if rule in case.config.of_main else None
    why = part.believed.get(theorem) if part else None
    return f"; it counts as of the main part: {why}" if why else ""


def more(count: int, word: str) -> str:
    """So many more things that have this word."""
    return f"{count} more {word}{'s' if count > 1 else ''}"


def way_of(theorem: str, citing: str, cited: str) -> str:
    """In words, why a theorem rests on an axiom."""
    return f"{'it' if citing == theorem else f'{citing}, on which it rests,'} cites {cited}"


def claims(case: Case) -> Iterator[Finding]:
    """A claim of `mmdepend.toml` is broken, or names what isn't there."""
    judge = Judge(case)
    for claim in case.config.claims:
        yield from judge.judge("claims", claim, case.config.name)
        for label in (claim.theorem, *claim.axioms):
            if is_of_another(case, label):
                reason = (
                    f"the label {label} is another statement's now, which isn't what is claimed"
                )
                yield Finding("claims", case.config.name, claim.line, claim.theorem, "", reason)


def is_of_another(case: Case, label: str) -> bool:
    """Whether a statement of OLD has lost its label to another one."""
    before, after = case.old_text.find(label), case.text.find(label)
    if before is None or after is None or before.kind != after.kind:
        return False
    return case.comparison.to_old.get(label) != label


def avoids(case: Case) -> Iterator[Finding]:
    """A comment `$j usage 'T' avoids 'A' ..;` is broken, or names what isn't there."""
    judge = Judge(case)
    for usage in usages(case.text):
        if usage.claim is not None:
            yield from judge.judge("avoids", usage.claim, case.new.name)
        else:
            reason = "a comment `$j usage` that isn't understood"
            yield Finding("avoids", case.new.name, usage.line, usage.theorem, "", reason)
    for theorem, axiom, what in promises_gone(case):
        if not case.config.allows("avoids", theorem):
            reason = f"the comment `$j usage` which says that it avoids {axiom} {what}"
            yield case.finding("avoids", theorem, reason, axiom)


def promises(text: Text) -> dict[tuple[str, str], bool]:
    """Each theorem with each axiom that a comment of a text says it avoids, and whether a comment
    between statements does. Other programs pass over those within statements."""
    found: dict[tuple[str, str], bool] = {}
    for usage in usages(text):
        for axiom in () if usage.claim is None else usage.claim.axioms:
            labels = (usage.theorem, axiom)
            found[labels] = found.get(labels, False) or not usage.is_within
    return found


def promises_gone(case: Case) -> Iterator[tuple[str, str, str]]:
    """The theorems and axioms of NEW of which a comment of OLD rightly said that the one avoids the
    other, and none of NEW does; and what became of the comment."""
    same, gone = case.comparison, case.comparison.differences.gone
    before = promises(case.old_text)
    rows, columns = (case.new.dependence.rows, case.new.dependence.columns) if before else ({}, {})
    kept = promises(case.text) if before else {}
    for labels, was_seen in before.items():
        now = (same.to_new.get(labels[0], ""), same.to_new.get(labels[1], ""))
        is_kept = now in kept and (kept[now] or not was_seen)
        if is_kept or not now[0] or now[1] not in columns:
            continue
        is_theorem, is_proved = (
            gone[label].letter == "p" if label in gone else label in rows for label in labels
        )
        bit = case.new.dependence.mask_of([columns[now[1]]])
        if is_theorem and not is_proved and not same.row_before(labels[0]) & bit:
            yield *now, "stands within a statement now" if now in kept else "is gone"


@dataclass(frozen=True)
class Usage:
    """A statement `usage` of a `$j` comment; `claim` is None where it isn't understood.
    `is_within` is whether the comment stands within a statement."""

    line: int
    theorem: str
    claim: Claim | None
    is_within: bool


Word = tuple[int, str, bool]
"""A word of a `$j` comment: its place, the word, and whether it was quoted."""


def usages(text: Text) -> Iterator[Usage]:
    """Each statement `usage` of the `$j` comments, also of those that stand within a statement."""
    for opening, _, is_within in text.comments(MARKED):
        start = opening.end()
        body = text.data[start : text.data.index(b"$)", start)].decode("latin-1")
        if "usage" not in body:
            continue
        words: list[Word] = []
        is_whole, end = True, 0
        for token in tokens(TOKEN, body):
            # Behind a remark or a quote that isn't closed other programs read nothing, and behind
            # one that stands right beside a word something else: a doubled quote is one of a word.
            is_open = token[0].startswith("/*") or token.lastindex == 5
            is_whole = is_whole and not is_open and (token.start() > end or bool(token[3]))
            end = 0 if token[3] else token.end()
            if token[3]:
                yield from usage_in(text, words, is_within, is_whole)
                words = []
            elif token.lastindex:
                is_quoted = token.lastindex < 3
                words.append((start + token.start(), token[token.lastindex], is_quoted))
        yield from usage_in(text, words, is_within, False)


def usage_in(text: Text, words: list[Word], is_within: bool, is_whole: bool) -> Iterator[Usage]:
    """The statement that these words are, where it is a `usage`. `is_whole` is whether it has its
    end, and other programs read as far."""
    if not words or words[0][1] != "usage" or words[0][2]:
        return
    line = text.line(words[0][0])
    labels = [word for _, word, is_quoted in words if is_quoted]
    theorem = labels[0].strip() if labels else ""
    shape = [QUOTED if is_quoted else word for _, word, is_quoted in words]
    is_right = shape[1:4] == [QUOTED, "avoids", QUOTED] and set(shape[3:]) == {QUOTED}
    is_right = is_right and is_whole and all(map(LABEL.match, labels))
    claim = Claim(theorem, tuple(labels[1:]), line) if is_right else None
    yield Usage(line, theorem, claim, is_within)


class Judge:
    """Judges claims on what theorems avoid."""

    def __init__(self, case: Case) -> None:
        self.case = case
        self.because: dict[int, dict[int, str]] = {}
        """For rows of theorems and for each column what is the first that they cite and is the
        axiom or rests on it."""

    @property
    def rows(self) -> dict[str, int]:
        """The row of each theorem."""
        return self.case.new.dependence.rows

    @property
    def columns(self) -> dict[str, int]:
        """The column of each axiom."""
        return self.case.new.dependence.columns

    @cached_property
    def unknown(self) -> int:
        """The bits of the theorems that are left open."""
        return self.case.new.dependence.mask_of([self.columns[label] for label in self.case.open])

    def rests(self, row: int, column: int) -> bool:
        """Whether a theorem rests on an axiom."""
        return self.case.new.dependence.is_marked(row, column)

    def judge(self, rule: str, claim: Claim, file: str) -> Iterator[Finding]:
        """What is wrong with a claim: all of it."""
        theorem, line = claim.theorem, claim.line
        row = self.rows.get(theorem)
        if row is None and theorem not in self.columns:
            yield Finding(rule, file, line, theorem, "", f"there is no theorem '{theorem}'")
        elif row is None and self.case.text.by_label[theorem].kind == "a":
            reason = f"'{theorem}' is an axiom, where a theorem is wanted"
            yield Finding(rule, file, line, theorem, "", reason)
        if reason := self.unjudged(theorem):
            yield Finding(rule, file, line, theorem, "", reason)
        for axiom in claim.axioms:
            column = self.columns.get(axiom)
            if column is None:
                reason = f"there is no axiom '{axiom}'"
                if axiom in self.rows:
                    reason = f"'{axiom}' is a theorem, where an axiom is wanted"
                yield Finding(rule, file, line, theorem, axiom, reason)
            elif row is not None and self.rests(row, column):
                yield Finding(rule, file, line, theorem, axiom, self.reason(row, axiom))

    def unjudged(self, theorem: str) -> str:
        """Why nobody knows what a theorem avoids; "" where that is known."""
        if theorem in self.case.open:
            return "its proof is left open, so nobody knows what it avoids"
        row = self.rows.get(theorem)
        dependence = self.case.new.dependence
        unknown = 0 if row is None else dependence.bits(row) & self.unknown
        if not unknown:
            return ""
        label = dependence.axioms[8 * dependence.marks.width - unknown.bit_length()]
        return f"rests on {label}, whose proof is left open, so nobody knows what it avoids"

    def reason(self, row: int, axiom: str) -> str:
        """Why a theorem rests on an axiom: its first citation that does."""
        if row not in self.because:
            if sum(map(len, self.because.values())) > MOST_REASONS:
                self.because.clear()
            self.because[row] = self.found_because(row)
        label = self.because[row].get(self.columns[axiom])
        if label is None:
            return f"rests on {axiom}"
        how = "it cites it" if label == axiom else f"it cites {label}, which does"
        return f"rests on {axiom}: {how}"

    def found_because(self, row: int) -> dict[int, str]:
        """For each axiom on which a theorem rests its first citation that does."""
        graph, dependence = self.case.new.graph, self.case.new.dependence
        found: dict[int, str] = {}
        left = dependence.bits(row)
        for cited in graph.cites[graph.index[dependence.theorems[row]]]:
            label = graph.labels[cited]
            if label in self.columns:
                bits = dependence.mask_of([self.columns[label]])
            else:
                bits = dependence.bits(self.rows[label]) if label in self.rows else 0
            if left & bits:
                found.update(dict.fromkeys(dependence.columns_of(left & bits), label))
                left &= ~bits
        return found


def open_theorems(case: Case) -> Iterator[Finding]:
    """A theorem is left open, and isn't allowed."""
    for label in case.open:
        if not case.config.allows("open", label):
            yield case.finding("open", label, "a theorem whose proof is left open")


def may_cross(text: Text) -> bool:
    """Whether a proof has the label of an assertion of a mathbox, and isn't in that itself. So
    otherwise nobody has to be asked what proofs cite."""
    boxes = {one.label: number for one, number, _ in text.boxed()}
    first = text.by_label[next(iter(boxes))].number if boxes else len(text.assertions)
    for one in text.assertions[first:]:
        inside = boxes.keys() & words_of_proof(text, one) if one.kind == "p" else ()
        own = boxes.get(one.label)
        if any(boxes[label] != own for label in inside):
            return True
    return False


def mathboxes(case: Case) -> Iterator[Finding]:
    """A mathbox is cited from outside it, or no longer has what it had, and that isn't allowed."""
    same = case.comparison
    crossing = across_mathboxes(case.new.graph, case.text) if may_cross(case.text) else ()
    for user, cited, box, other in crossing:
        if not case.config.allows("mathboxes", user):
            where = f"in the mathbox for {box}, " if box else ""
            reason = f"{where}cites {cited} of the mathbox for {other}"
            yield case.finding("mathboxes", user, reason)
    renamed = same.axioms.renamed or same.theorems.renamed
    if not renamed and not any(map(HEADING_START.search, case.old_text.between)):
        return
    for each in exposed(case.old_text, case.text, same.to_old, same.to_new):
        labels = [label for label in each.labels if not case.config.allows("mathboxes", label)]
        if labels:
            more = f", like {len(labels) - 1} more," if labels[1:] else ""
            reason = (
                f"stayed where it was{more} and is no longer in the mathbox for {each.mathbox}:"
                " its header is gone or moved, or another one is before it"
            )
            yield case.finding("mathboxes", labels[0], reason)


def discouraged(case: Case) -> Iterator[Finding]:
    """A theorem newly cites one whose new usage is discouraged, and that isn't allowed; or a mark
    is gone, or newly hidden."""
    text, old, same = case.text, case.old_text, case.comparison
    for user, cited in citations_of_discouraged(case):
        if not case.config.allows("discouraged", user) and not same.was_cited(user, cited):
            reason = f"cites {cited}, whose new usage is discouraged"
            yield case.finding("discouraged", user, reason)
    for one in same.touched_before:
        now = text.find(same.to_new.get(one.label, ""))
        if now is None or not is_discouraged(old, one) or is_discouraged(text, now):
            continue
        if not case.config.allows("discouraged", now.label):
            reason = "its comment no longer says `(New usage is discouraged.)`"
            yield case.finding("discouraged", now.label, reason)
    for one in same.touched:
        for mark, reason in hidden_marks(text, one).items():
            before = old.find(same.was(one.label))
            was_hidden = before is not None and mark in hidden_marks(old, before)
            if not was_hidden and not case.config.allows("discouraged", one.label):
                yield case.finding("discouraged", one.label, reason)


def citations_of_discouraged(case: Case) -> list[tuple[str, str]]:
    """The citations of what is discouraged that OLD may lack, as what cites and what it cites:
    those by and of what the change is about."""
    text, same = case.text, case.comparison
    words = {one.label: words_of_proof(text, one) for one in same.touched if one.kind == "p"}
    named = set(same.differences.new).union(*words.values()) & text.by_label.keys()
    marked = {label for label in named if is_discouraged(text, text.by_label[label])}
    fresh = marked & same.differences.new.keys()
    users = [
        label
        for label, named in words.items()
        if not marked.isdisjoint(named)
        and not (same.is_proved_alike(label) and fresh.isdisjoint(named))
    ]
    found = {(user, label) for user in users for label in case.new.cites(user) & marked}
    if fresh:
        found.update(citations(case.new.graph, fresh))
    numbers = {label: one.number for label, one in text.by_label.items()} if found else {}
    return sorted(found, key=lambda pair: (numbers[pair[1]], numbers[pair[0]]))


def plain(case: Case) -> Iterator[Finding]:
    """Another program would take something else for the database than what is judged."""
    yield from (each for each in case.brought if each.rule == "plain")
    if not any(OPENING.search(text) for text in case.old_text.between):
        return
    for include in new_includes(case.old_text.data, case.text.data):
        shown = include.words[:SHOWN_INCLUDE] + " .." * (len(include.words) > SHOWN_INCLUDE)
        reason = f"a comment that metamath.exe reads as an include: $( {shown} $)"
        yield Finding("plain", case.new.name, case.text.line(include.place), "", "", reason)


def config(case: Case) -> Iterator[Finding]:
    """The file `mmdepend.toml` of NEW asks less than that of OLD, or has a fault."""
    yield from (each for each in case.brought if each.rule == "config")


JUDGES: dict[str, Callable[[Case], Iterator[Finding]]] = {
    "axioms": axioms,
    "definitions": definitions,
    "watched": watched,
    "newly": newly,
    "new": new,
    "claims": claims,
    "avoids": avoids,
    "open": open_theorems,
    "mathboxes": mathboxes,
    "discouraged": discouraged,
    "plain": plain,
    "config": config,
}
assert tuple(JUDGES) == RULES


def judge(case: Case) -> Iterator[Finding]:
    """What breaks the rules that the file doesn't switch off, rule by rule."""
    rules = [rule for rule in JUDGES if rule in case.config.rules]
    for number, rule in enumerate(rules, 1):
        where = f"{number} of {len(rules)}"
        progress.now(f"judging {case.new.name} by the rule {rule}, {where}")
        yield from JUDGES[rule](case)
