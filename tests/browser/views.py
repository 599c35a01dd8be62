"""What single views show, beside the truth."""

import random
import re
from pathlib import Path
from typing import Any

from tests.browser.browsers import Browser
from tests.browser.truth import Truth, as_shown, definitions, metamath_conditions
from tests.shared.checks import check, same

HUES = {"wff": "blue", "setvar": "red", "class": "purple"}
SENTENCE = re.compile(r"\((?:New\s+usage|Proof\s+modification)\s+is\s+discouraged\.\)")
DATE = re.compile(r"\d{1,2}-[A-Z][a-z]{2}-\d{4}")
CREDIT = re.compile(
    r"\((?:Contributed|Revised|Proof\s+shortened)\s+by\s+[^()]*?,\s+\d{1,2}-[A-Z][a-z]{2}-\d{4}\.\)"
)


class Shown:
    """A database's page in a browser, beside the truth."""

    def __init__(self, browser: Browser, truth: Truth) -> None:
        self.browser = browser
        self.truth = truth
        self.known = definitions(truth.raw)

    def name(self, label: str) -> str:
        """How messages call an assertion."""
        return f"{self.browser.name} {self.truth.path.name} {label}"

    def same_formula(self, found: str, formula: str, what: str) -> bool:
        """Whether a formula is shown as the `$t` comment says; white space aside."""
        return same(re.sub(r"\s", "", found), as_shown(formula, self.known), what)

    def statement(self, shown: dict[str, Any], label: str) -> bool:
        """The formula and the hypotheses, in the page's symbols."""
        name = self.name(label)
        if not check(shown.get("formula") is not None, f"{name} is shown", shown):
            return False
        self.same_formula(shown["formula"], self.truth.formulas[label], f"{name}: the formula")
        labels = [other for other, _ in shown["hypotheses"]]
        wanted = self.truth.hypotheses[label]
        same(labels, [other for other, _ in wanted], f"{name}: labels of hypotheses")
        for (_, found), (_, formula) in zip(shown["hypotheses"], wanted):
            self.same_formula(found, formula, f"{name}: a hypothesis")
        place = f"Line {self.truth.lines[label]:,} "
        check(shown["place"].startswith(place), f"{name}: its line", shown["place"])
        check(shown["title"].startswith(f"{label} "), f"{name}: the title", shown["title"])
        same(shown["citedBy"], self.truth.citers.get(label, []), f"{name}: what cites it")
        self.neighbours(shown, label)
        return True

    def neighbours(self, shown: dict[str, Any], label: str) -> None:
        """The statements before and after, be they theorems or axioms."""
        wanted = []
        for rel, which, other in zip(
            ("prev", "next"), ("Previous", "Next"), self.truth.neighbours[label], strict=True
        ):
            if other is not None:
                is_theorem = other in self.truth.cited
                address = f"#{'theorem' if is_theorem else 'axiom'}={other}"
                wanted.append([rel, other, address, f"{which} statement: {other}"])
        same(shown["neighbours"], wanted, f"{self.name(label)}: the statements beside it")

    def theorem(self, label: str) -> dict[str, Any]:
        """A theorem: what it rests on, does without and cites."""
        shown = self.browser.show(f"#theorem={label}", label)
        if not self.statement(shown, label):
            return {}
        name, truth = self.name(label), self.truth
        marks = truth.marks(label)
        lines = [line for _, part in shown["rests"] for line in part]
        same(sorted(line[0] for line in lines), sorted(marks), f"{name}: what it rests on")
        for group, part in shown["rests"]:
            wanted = [mark for mark in marks if truth.group(mark) == group]
            same([line[0] for line in part], wanted, f"{name}: the group {group}")
        for axiom, formula, address, _ in lines:
            self.same_formula(formula, truth.formulas[axiom], f"{name}: the formula of {axiom}")
            same(address, f"#axiom={axiom}", f"{name}: the link to {axiom}")
        numbers = [int(number.replace(",", "")) for number in shown["glance"]]
        same(sum(numbers), len(marks), f"{name}: the numbers at a glance")
        if any(truth.group(column) == "axiom" for column in truth.columns):
            self.without(shown, label, marks)
        same(sorted(shown["cites"]), sorted(truth.cited[label]), f"{name}: what it cites")
        return shown

    def without(self, shown: dict[str, Any], label: str, marks: list[str]) -> None:
        """The axioms before it on which a theorem doesn't rest."""
        order = {other: at for at, other in enumerate(self.truth.formulas)}
        wanted = [
            column
            for column in self.truth.columns
            if self.truth.group(column) == "axiom"
            and order[column] < order[label]
            and column not in marks
        ]
        same(shown["avoids"], wanted, f"{self.name(label)}: what it does without")

    def chain(self, theorem: str, axiom: str, is_measured: bool) -> None:
        """The chain shown has only citations of theorems that rest on the axiom; it is shortest."""
        answer = self.browser.call("why", axiom)
        what = f"{self.name(theorem)}: the chain to {axiom}"
        if not check(isinstance(answer, list), f"{what} is shown", answer):
            return
        chain, left = answer
        labels = [label for label, _ in chain]
        if not check(labels[:1] == [theorem] and labels[-1:] == [axiom], what, labels):
            return
        cited, users = self.truth.cited, self.truth.users[axiom]
        for one, other in zip(labels, labels[1:]):
            check(other in cited.get(one, ()), f"{what}: {one} cites {other}")
        check(all(label in users for label in labels[:-1]), f"{what}: each rests on it", labels)
        kinds = ["theorem" if label in cited else "axiom" for label in labels]
        wanted = [f"#{kind}={label}" for kind, label in zip(kinds, labels)]
        same([address for _, address in chain], wanted, f"{what}: its links")
        same(left, 0, f"{what} is closed again")
        if is_measured:
            same(len(labels) - 1, self.truth.distance(theorem, axiom), f"{what}: its length")

    def axiom(self, label: str) -> dict[str, Any]:
        """An axiom: what rests on it, and what falls without it."""
        shown = self.browser.show(f"#axiom={label}", label)
        if not self.statement(shown, label):
            return {}
        users = self.truth.users[label]
        same(shown["usersList"], users, f"{self.name(label)}: its users")
        word = "theorem rests" if len(users) == 1 else "theorems rest"
        heading = f"{len(users):,} {word} on it"
        check(heading in shown["headings"], f"{self.name(label)}: {heading}", shown["headings"])
        self.falls(shown, [label], set(users))
        return shown

    def falls(self, shown: dict[str, Any], axioms: list[str], gone: set[str]) -> None:
        """What falls without axioms, and what is left."""
        what = f"{self.browser.name}: without {', '.join(axioms)}"
        theorems = self.truth.theorems
        fallen = [label for label in theorems if label in gone]
        same(shown["fallen"], fallen, f"{what}: what falls")
        same(shown["left"], [one for one in theorems if one not in gone], f"{what}: what is left")
        told = f"{len(gone):,} of {len(theorems):,} theorem"
        check(told in shown["verdict"], f"{what}: the number", shown["verdict"])

    def conditions(
        self, shown: dict[str, Any], label: str, pairs: tuple[set[str], set[str]]
    ) -> None:
        """The conditions shown are those that metamath.exe lists."""
        name = self.name(label)
        mandatory, optional = pairs
        found = {pair for group in shown["groups"] for pair in both_ways(group)}
        same(found & mandatory, mandatory, f"{name}: mandatory pairs")
        same(len(found), 2 * len(mandatory), f"{name}: the number of mandatory pairs")
        dummies = self.truth.dummies(label)
        known = dummies | self.truth.used(label)
        told = set(shown["dummies"] or [star[0] for star in shown["stars"] or []])
        same(told, dummies, f"{name}: dummy variables of the proof")
        wanted = {
            pair
            for one in dummies
            for other in known
            for pair in (f"{one},{other}", f"{other},{one}")
            if pair in optional
        }
        if shown["dummies"]:
            all_pairs = {frozenset((one, other)) for one in dummies for other in known - {one}}
            same(len(wanted), len(all_pairs), f"{name}: dummy variables distinct from all others")
        else:
            stars = shown["stars"] or []
            stated = {
                pair for star in stars for other in star[1:] for pair in both_ways([star[0], other])
            }
            same(stated & wanted, wanted, f"{name}: pairs of dummy variables")
            same(len(stated), 2 * len(wanted), f"{name}: the number of pairs of dummy variables")

    def comment(self, shown: dict[str, Any], label: str) -> None:
        """All words of the comment are shown, mathematics aside; so are credits, and what is
        discouraged."""
        name = self.name(label)
        raw = self.truth.comments.get(label, "")
        told = " ".join(shown["credits"]) + shown["comment"]
        for date in DATE.findall(raw):
            check(date in told, f"{name}: the date {date}", told)
        sentences = {" ".join(each.split()) for each in SENTENCE.findall(raw)}
        same(len(shown["discouraged"]), len(sentences), f"{name}: what is discouraged")
        if "<" in raw or "``" in raw:
            return
        plain = CREDIT.sub("", SENTENCE.sub("", re.sub(r"`[^`]*`", "", raw)))
        # `~~` stands for `~`, and a single one is before a label or an address.
        plain = re.sub(r"~(~?)", r"\1", plain).replace("[[", "[")
        found, wanted = (re.sub(r"[\s_]", "", text) for text in (shown["comment"], plain))
        if not shown["credits"] or len(DATE.findall(plain)) == 0:
            same(found, wanted, f"{name}: the words of the comment")


def both_ways(group: list[str]) -> set[str]:
    """The pairs of a group as metamath.exe writes them, in both orders."""
    return {f"{one},{other}" for one in group for other in group if one != other}


def check_sample(shown: Shown, theorems: list[str], axioms: list[str], rng: random.Random) -> None:
    """Theorems and axioms, with their comments, and their conditions beside metamath.exe's."""
    pairs = metamath_conditions(shown.truth.path, [*theorems, *axioms])
    for label in theorems:
        view = shown.theorem(label)
        if not view:
            continue
        shown.conditions(view, label, pairs[label])
        shown.comment(view, label)
        marks = shown.truth.marks(label)
        for axiom in rng.sample(marks, min(2, len(marks))):
            shown.chain(label, axiom, rng.random() < 0.3 or len(theorems) < 100)
        for _, part in view["rests"][:1]:
            for axiom, _, _, has_mark in part[:3]:
                if axiom in pairs:
                    given = bool(pairs[axiom][0])
                    same(has_mark, given, f"{shown.name(label)}: the mark of {axiom}")
    for label in axioms:
        view = shown.axiom(label)
        if view:
            shown.conditions(view, label, pairs[label])
            shown.comment(view, label)


def check_colours(browser: Browser, page: Path, label: str, truth: Truth) -> None:
    """Variables have the colours of their classes."""
    browser.open(page, f"#theorem={label}")
    shown = browser.run(
        "return Array.from(document.querySelectorAll('#statement [title]'),"
        " (one) => [one.title, one.className]);"
    )
    for symbol, look in shown:
        code = truth.variables.get(symbol)
        if code in HUES:
            check(f"look-{HUES[code]}" in look.split(), f"{browser.name}: colour of {symbol}", look)


def some(rng: random.Random, labels: list[str], most: int) -> list[str]:
    """Some of the labels, without order."""
    return rng.sample(labels, min(most, len(labels)))
