"""What the page has to show: reports of the program, and a reader of this test's own."""

import html
import os
import re
import subprocess
from collections.abc import Iterable
from functools import cached_property
from pathlib import Path
from unicodedata import category

from tests.shared.metamath import asked

HERE = Path(__file__).resolve().parents[2]
PROGRAM = os.environ.get("MMDEPEND") or str(HERE / "mmdepend")
COMMENT = re.compile(r"(?<!\S)\$\((?=\s).*?(?<=\s)\$\)(?!\S)", re.S)
STATEMENT = re.compile(r"\$\{|\$\}|(?<!\S)(\S+)\s+\$([eapf])\s([^$]*)(?:\$=([^$]*))?\$\.")
KEPT_TAGS = re.compile(r"</?(?:span|font|i|em|b|strong|u|sub|sup|small|big)(?:\s[^<>]*)?>", re.I)
MOST_SPACE = 400  # bytes between a comment and the label behind it, in each database that is tried
PAIR = tuple[str, str]


class Truth:
    """What the program says of a database, and what stands in its text."""

    def __init__(self, path: Path, words: Iterable[str] = ()) -> None:
        self.path = path
        self.raw = path.read_bytes().decode("latin-1")
        # Of each assertion its formula.
        self.formulas: dict[str, str] = {}
        self.lines: dict[str, int] = {}
        self.hypotheses: dict[str, list[PAIR]] = {}
        self.is_proved: dict[str, bool] = {}
        self.variables: dict[str, str] = {}
        self.floating: dict[str, str] = {}
        self.proofs: dict[str, str] = {}
        self.places: dict[str, int] = {}
        self.read(COMMENT.sub(blank, self.raw))
        self.read_reports(list(words))
        self.theorems = list(self.rows)

    def read(self, bare: str) -> None:
        """Formulas and hypotheses, by one pattern over the text without its comments."""
        active: list[PAIR] = []
        blocks: list[int] = []
        line, counted = 1, 0
        for match in STATEMENT.finditer(bare):
            if match[0] == "${":
                blocks.append(len(active))
            elif match[0] == "$}":
                del active[blocks.pop() :]
            elif match[2] == "e":
                active.append((match[1], " ".join(match[3].split())))
            elif match[2] == "f":
                code, variable = match[3].split()
                self.variables[variable] = code
                self.floating[match[1]] = variable
            else:
                line += bare.count("\n", counted, match.start())
                counted = match.start()
                self.places[match[1]] = counted
                self.lines[match[1]] = line
                self.formulas[match[1]] = " ".join(match[3].split())
                self.hypotheses[match[1]] = list(active)
                self.is_proved[match[1]] = match[2] == "p"
                self.proofs[match[1]] = match[4] or ""

    def read_reports(self, words: list[str]) -> None:
        """Matrix and usage in form 1, where the page is made of other sections, and citations."""
        self.rows: dict[str, str] = {}
        self.users: dict[str, list[str]] = {}
        section = ""
        for line in self.report([*words, "--report", "all"]):
            label, colon, rest = line.partition(":")
            if not colon:
                section = line
            elif section == "matrix":
                self.rows[label] = rest
            elif section == "usage":
                self.users[label] = rest.split(":")[1].split()
        self.columns = list(self.users)
        self.cited: dict[str, list[str]] = {}
        common = [word for word in words if word in ("--essential", "--open")]
        for line in self.report([*common, "--report", "citations"]):
            label, colon, rest = line.partition(":")
            if colon:
                self.cited[label] = rest.split(":")[1].split()
        self.citers: dict[str, list[str]] = {}
        for label, cited in self.cited.items():
            for other in cited:
                self.citers.setdefault(other, []).append(label)

    def report(self, words: list[str]) -> list[str]:
        """The lines that the program writes."""
        done = subprocess.run([PROGRAM, *words, str(self.path)], stdout=subprocess.PIPE, check=True)
        return done.stdout.decode().split("\n")

    def marks(self, theorem: str) -> list[str]:
        """The axioms on which a theorem rests."""
        return [label for label, digit in zip(self.columns, self.rows[theorem]) if digit == "1"]

    def group(self, label: str) -> str:
        """The group of an axiom."""
        if self.is_proved[label]:
            return "open"
        if label.startswith("ax-"):
            return "axiom"
        if label.startswith("df-"):
            return "definition"
        return "logic" if self.formulas[label].split()[0] == "|-" else "syntax"

    def distance(self, theorem: str, axiom: str) -> int | None:
        """How many citations the shortest chain has, found level by level over all citations."""
        level, seen, steps = {theorem}, {theorem}, 0
        while level:
            if axiom in level:
                return steps
            steps += 1
            level = {other for label in level for other in self.cited.get(label, ())} - seen
            seen |= level
        return None

    def used(self, label: str) -> set[str]:
        """The variables of an assertion."""
        texts = [self.formulas[label], *(formula for _, formula in self.hypotheses[label])]
        return {symbol for text in texts for symbol in text.split()[1:] if symbol in self.variables}

    def dummies(self, label: str) -> set[str]:
        """The variables that only the proof names: of a compressed one, in its brackets."""
        named = self.proofs[label].split(")")[0].split()
        return {self.floating[word] for word in named if word in self.floating} - self.used(label)

    @cached_property
    def neighbours(self) -> dict[str, tuple[str | None, str | None]]:
        """The statement before each and the one after, in the order of the file."""
        order = sorted(self.places, key=self.places.__getitem__)
        return dict(zip(order, zip([None, *order], [*order[1:], None]), strict=True))

    @cached_property
    def comments(self) -> dict[str, str]:
        """The comment just before each assertion that has one, with nothing but white space, and
        comments that begin with $j, between."""
        found = {}
        ends = {match.end(): match for match in COMMENT.finditer(self.raw)}
        for label, place in self.places.items():
            while True:
                start = max(0, place - MOST_SPACE)
                end = start + len(self.raw[start:place].rstrip())
                match = ends.get(end)
                if match is None:
                    break
                body = match[0][2:-2]
                if body.split()[:1] in (["$j"], ["$t"]):
                    place = match.start()
                    continue
                if not is_heading(body):
                    found[label] = body
                break
        return found

    @cached_property
    def headings(self) -> list[tuple[str, str, int]]:
        """Number, title and place of each heading."""
        found = []
        counts = [0, 0, 0, 0]
        for match in COMMENT.finditer(self.raw):
            lines = match[0][2:-2].split("\n")
            level = heading_level(lines)
            if level is None:
                continue
            counts[level] += 1
            counts[level + 1 :] = [0] * (3 - level)
            number = ".".join(map(str, counts[: level + 1]))
            found.append((number, " ".join(title_of(lines).split()), match.start()))
        return found


DECORATIONS = ["####", "#*#*", "=-=-", "-.-."]


def heading_level(lines: list[str]) -> int | None:
    """The level of a heading, or None."""
    written = [line for line in lines if line.strip()]
    if len(written) < 3:
        return None
    mark = written[0].strip()[:4]
    if mark not in DECORATIONS or not any(line.strip().startswith(mark) for line in written[2:6]):
        return None
    return DECORATIONS.index(mark)


def title_of(lines: list[str]) -> str:
    """What stands between the lines that enclose the title."""
    written = [line for line in lines if line.strip()]
    mark = written[0].strip()[:4]
    end = next(at for at in range(2, len(written)) if written[at].strip().startswith(mark))
    return " ".join(written[1:end])


def is_heading(body: str) -> bool:
    """Whether a comment is a heading."""
    return heading_level(body.split("\n")) is not None


def blank(match: re.Match[str]) -> str:
    """White space as long as a comment, with its lines."""
    return re.sub(r"[^\n]", " ", match[0])


def definitions(raw: str) -> dict[str, str]:
    """What each `althtmldef` shows, by a reader of this test's own: text without white space."""
    start = re.search(r"\$\(\s*\$t\s", raw)
    if not start:
        return {}
    body = re.sub(r"/\*.*?\*/", " ", raw[start.end() : raw.index("$)", start.end())], flags=re.S)
    quoted = r"""(?:"[^"]*"|'[^']*')"""
    found = {}
    pattern = rf"althtmldef\s+({quoted})\s+as\s+({quoted}(?:\s*\+\s*{quoted})*)\s*;"
    for match in re.finditer(pattern, body):
        text = "".join(part[1:-1] for part in re.findall(quoted, match[2]))
        shown = re.sub(r"\s", "", html.unescape(KEPT_TAGS.sub("", text)))
        shown = "".join("\ufffd" if category(sign) in ("Cf", "Cc") else sign for sign in shown)
        found[match[1][1:-1]] = shown
    return found


def as_shown(formula: str, known: dict[str, str]) -> str:
    """What a formula shows, without white space; a symbol that would show nothing as it is."""
    return "".join(known.get(symbol) or symbol for symbol in formula.split())


def metamath_conditions(path: Path, labels: list[str]) -> dict[str, tuple[set[str], set[str]]]:
    """What metamath.exe lists of each statement as its mandatory and its optional pairs, as written
    there without the outer brackets."""
    answers = asked(path, [f"show statement {label} /full" for label in labels])
    texts = [" ".join(answer.split()) for answer in answers]
    assert all(text.startswith("Statement ") for text in texts), f"not all of {labels} are there"
    return {
        label: (listed(text, "mandatory"), listed(text, "optional"))
        for label, text in zip(labels, texts, strict=True)
    }


def listed(text: str, kind: str) -> set[str]:
    """The pairs after one of the headings of `show statement`."""
    end = r"(?= Its optional | The statement and its hypotheses |$)"
    match = re.search(rf"Its {kind} disjoint variable pairs are: (.*?){end}", text)
    return set(match[1].strip()[1:-1].split(">, <")) if match else set()
