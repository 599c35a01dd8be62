"""The file `mmdepend.toml` of a repository: what its maintainers ask of a database.

Each key is read once, by `SHAPE`. An unknown key is named with the nearest known one, a value of
another type with its key, and the line where each stands. Without a file the defaults hold.
"""

from __future__ import annotations

import difflib
import re
import tomllib
from collections.abc import Mapping
from dataclasses import dataclass, field
from pathlib import Path
from typing import Any

from query.answers.errors import NoAnswer, shown
from query.gate.labels import Labels
from query.platform.limits import MOST_GIVEN, Limits

FILE_NAME = "mmdepend.toml"

RULES = (
    "axioms",
    "definitions",
    "watched",
    "newly",
    "new",
    "claims",
    "avoids",
    "open",
    "mathboxes",
    "discouraged",
    "plain",
    "config",
)
"""The rules of the gate, in the order in which it tells what breaks them."""
CHOSEN = "definitions"
"""The rule that counts only where the file says so, by a key of this name."""
DEFAULTS = frozenset(RULES) - {CHOSEN}
"""The rules that count where the file says nothing."""
RESTING = ("newly", "new")
"""The rules on what rests on watched axioms, in that order."""
TO_COME = "watched"
"""The rule whose allowances are watched axioms that needn't be there yet, by their whole labels."""
MAIN = "main"
"""What the file says of such a rule that judges the main part alone."""

TEXT, LABELS, SWITCH, SCOPE, LISTS, NUMBER = (
    "a text",
    "a list of labels",
    "true or false",
    f'true, false or "{MAIN}"',
    "a table of lists of labels",
    f"a whole number from 1 to {MOST_GIVEN}",
)

# The type of each key. A table is one more of these.
Shape = Mapping[str, "str | Shape"]
SHAPE: Shape = {
    "base": TEXT,
    "typecode": TEXT,
    "watch": LABELS,
    CHOSEN: SWITCH,
    "rules": {rule: SCOPE if rule in RESTING else SWITCH for rule in RULES if rule in DEFAULTS},
    "allow": {
        "axioms": LABELS,
        TO_COME: LABELS,
        "newly": LISTS,
        "new": LISTS,
        "avoids": LABELS,
        "open": LABELS,
        "mathboxes": LABELS,
        "discouraged": LABELS,
    },
    "claims": LISTS,
    "limit-time": NUMBER,
    "limit-memory": NUMBER,
}
HEADING = re.compile(r"\s*\[([^\[\]]+)\]\s*(?:#.*)?\Z")
PART = r"""(?:[\w-]+|"[^"]*"|'[^']*')"""
KEY = re.compile(rf"\s*({PART}(?:\s*\.\s*{PART})*)\s*=")
LABEL = re.compile(r"[A-Za-z0-9._-]+\Z")
PATTERN = re.compile(r"[A-Za-z0-9._-]*\*?\Z")
MOST_CONFIG_BYTES = 1 << 20
"""How many bytes of a file are read."""
MOST_DEPTH, MOST_PARTS, MOST_WORD = 8, 8, 10_000
"""How deep brackets may stand in one another, how many parts a key may have, and how many signs a
word. Python's reader of TOML takes the square of the parts, and calls itself for each bracket."""
PIECE = re.compile(
    r"\"{3}(?:[^\\]|\\.)*?(?:\"{3,5}|\Z)|'{3}.*?(?:'{3,5}|\Z)"
    r"|\"(?:[^\"\\\n]|\\.)*\"?|'[^'\n]*'?"
    r"|#[^\n]*|[\[\]{}.=,\n]|[^\s\[\]{}.=,\"'#]+",
    re.DOTALL,
)
"""A piece of the file: a text, a remark, a sign or a word. A text may be one that isn't closed."""


@dataclass(frozen=True)
class Claim:
    """A theorem that is said to avoid axioms; `line` is where the file says so, or 0."""

    theorem: str
    axioms: tuple[str, ...]
    line: int


@dataclass(frozen=True)
class Config:
    """What the file says. `name` is how messages call the file, "" if there is none."""

    name: str = ""
    base: str = "origin/main"
    typecode: str | None = None
    """That of the axioms which the rule `axioms` judges; None for all."""
    watch: tuple[str, ...] = ()
    rules: frozenset[str] = DEFAULTS
    of_main: tuple[str, ...] = ()
    """Those of `RESTING` that judge the main part alone."""
    is_new_as_newly: bool = False
    """Whether the file switches the rule `newly` on or off, and says nothing of `new`, which then
    is as that."""
    allowed: Mapping[str, Labels] = field(default_factory=dict)
    """Of the rules `axioms`, `watched`, `avoids`, `open`, `mathboxes` and `discouraged`: what may
    break them."""
    resting: Mapping[str, Mapping[str, Labels]] = field(default_factory=dict)
    """Of the rules `newly` and `new`: for watched axioms the theorems that may rest on them."""
    claims: tuple[Claim, ...] = ()
    limits: Limits = Limits()
    lines: Mapping[tuple[str, ...], int] = field(default_factory=dict)
    """For each key and table the line where it stands."""

    def allows(self, rule: str, label: str) -> bool:
        """Whether a rule lets this label be."""
        return label in self.allowed.get(rule, Labels())


def find_config(folder: Path) -> Path | None:
    """The file that holds for a folder: there or above it, up to the top of its repository."""
    folder = folder.resolve()
    for each in (folder, *folder.parents):
        if (each / FILE_NAME).is_file():
            return each / FILE_NAME
        if (each / ".git").exists():
            return None
    return None


class Misread(NoAnswer):
    """The file isn't right. Line 0 stands for none."""

    def __init__(self, name: str, reason: str, line: int = 0) -> None:
        super().__init__(f"{name}:{line}: {reason}" if line else f"{name}: {reason}")
        self.line = line
        self.reason = reason


def load_config(path: Path | None) -> Config:
    """Reads the file; the defaults where there is none. NoAnswer where it isn't right."""
    return Config() if path is None else read_config(content_of(path), str(path))


def content_of(path: Path) -> bytes:
    """The bytes of the file; where it is too long, some more than it may have. NoAnswer where it
    can't be read."""
    try:
        with path.open("rb") as file:
            return file.read(MOST_CONFIG_BYTES + 1)
    except OSError as error:
        raise NoAnswer(f"{path}: {error.strerror}") from None


def read_config(data: bytes, name: str) -> Config:
    """Reads the content of the file."""
    if len(data) > MOST_CONFIG_BYTES:
        raise Misread(name, f"longer than {MOST_CONFIG_BYTES} bytes")
    try:
        text = data.decode("utf-8")
        see_small(text, name)
        table = tomllib.loads(text)
    except UnicodeDecodeError:
        raise Misread(name, "not UTF-8") from None
    except ValueError as error:
        raise Misread(name, shown(str(error))) from None
    lines = lines_of(text)
    Checker(lines, name).check(table, SHAPE, ())
    return config_of(table, name, lines)


def see_small(text: str, name: str) -> None:
    """Misread where something in the file is so long or so deep that it would take long to read."""
    depth, parts, line = 0, 1, 1
    for piece in PIECE.finditer(text):
        sign = piece[0]
        if len(sign) > MOST_WORD and not sign.startswith("#"):
            raise Misread(name, f"a word of more than {MOST_WORD} characters", line)
        depth += (sign in ("[", "{")) - (sign in ("]", "}"))
        if depth > MOST_DEPTH:
            raise Misread(name, "nested too deeply", line)
        if sign == ".":
            parts += 1
        elif sign in ("=", ",", "\n", "[", "{"):
            parts = 1
        if parts > MOST_PARTS:
            raise Misread(name, f"a key of more than {MOST_PARTS} parts", line)
        line += sign.count("\n")


def config_of(table: Mapping[str, Any], name: str, lines: Mapping[tuple[str, ...], int]) -> Config:
    """What a table says that has the right shape.

    Where it says nothing of the rule `new`, what it says of `newly` holds for both: files were
    written so when `newly` was the name of both.
    """
    rules = table.get("rules", {})
    allow = table.get("allow", {})
    is_new_as_newly = "newly" in rules and "new" not in rules
    rules = {"new": rules.get("newly", True), **rules, CHOSEN: table.get(CHOSEN, False)}
    resting = {"newly": allow.get("newly", {}), "new": allow.get("new", allow.get("newly", {}))}
    return Config(
        name=name,
        base=table.get("base", Config.base),
        typecode=table.get("typecode", Config.typecode),
        watch=tuple(dict.fromkeys(table.get("watch", ()))),
        rules=frozenset(rule for rule in RULES if rules.get(rule, True)),
        of_main=tuple(rule for rule in RESTING if rules.get(rule) == MAIN),
        is_new_as_newly=is_new_as_newly,
        allowed={
            rule: Labels(tuple(words)) for rule, words in allow.items() if rule not in resting
        },
        resting={
            rule: {axiom: Labels(tuple(words)) for axiom, words in lists.items()}
            for rule, lists in resting.items()
        },
        claims=tuple(
            Claim(theorem, tuple(axioms), lines.get(("claims", theorem), 0))
            for theorem, axioms in table.get("claims", {}).items()
        ),
        limits=Limits(table.get("limit-time"), table.get("limit-memory")),
        lines=lines,
    )


class Checker:
    """Compares a table with its shape."""

    def __init__(self, lines: Mapping[tuple[str, ...], int], name: str) -> None:
        self.lines = lines
        self.name = name

    def fail(self, path: tuple[str, ...], message: str) -> Misread:
        """What is wrong with a key, for `raise`."""
        return Misread(self.name, message, self.lines.get(path, 0))

    def check(self, table: Mapping[str, object], shape: Shape, path: tuple[str, ...]) -> None:
        """Raises Misread where a key is unknown, or a value has another type than it should."""
        for key, value in table.items():
            here = (*path, key)
            wanted = shape.get(key)
            if wanted is None:
                raise self.fail(
                    here, f"there is no key '{shown('.'.join(here))}'{close_or_all(key, shape)}"
                )
            if isinstance(wanted, str):
                self.check_value(value, wanted, here)
            elif isinstance(value, dict):
                self.check(value, wanted, here)
            else:
                raise self.fail(here, f"'{'.'.join(here)}' isn't a table, but {kind_of(value)}")

    def check_value(self, value: object, wanted: str, path: tuple[str, ...]) -> None:
        """The same of a value that isn't a table of keys that are known."""
        if wanted == LISTS and isinstance(value, dict):
            for key, words in value.items():
                here = (*path, key)
                self.check_word(key, here, patterns=path[0] == "allow")
                self.check_value(words, LABELS, here)
            return
        types = {TEXT: str, LABELS: list, SWITCH: bool, SCOPE: bool, LISTS: dict, NUMBER: int}
        key = shown(".".join(path))
        if wanted == SCOPE and value == MAIN:
            return
        is_number = type(value) is int and 1 <= value <= MOST_GIVEN
        if not isinstance(value, types[wanted]) or (wanted == NUMBER and not is_number):
            raise self.fail(path, f"'{key}' isn't {wanted}, but {kind_of(value)}")
        if isinstance(value, list):
            self.check_labels(value, path)
        elif value == "":
            raise self.fail(path, f"'{key}' is empty")

    def check_labels(self, words: list[object], path: tuple[str, ...]) -> None:
        """The same of a list, which has to have labels alone."""
        key = shown(".".join(path))
        for word in words:
            if not isinstance(word, str):
                raise self.fail(path, f"'{key}' isn't {LABELS}: it has {kind_of(word)}")
            may_end_in_star = path[0] != "claims" and path != ("allow", TO_COME)
            self.check_word(word, path, patterns=may_end_in_star)
        if path[0] == "claims" and not words:
            raise self.fail(path, f"'{key}' is empty, so nothing is claimed")

    def check_word(self, word: str, path: tuple[str, ...], *, patterns: bool) -> None:
        """The same of a label; it may end in `*` where patterns are allowed."""
        if LABEL.match(word) or (patterns and word and PATTERN.match(word)):
            return
        kind = "no label, and no beginning of one with '*' after it" if patterns else "no label"
        raise self.fail(path, f"'{shown(word)}' is {kind}")


def close_or_all(key: str, shape: Shape) -> str:
    """What a message about an unknown key says besides."""
    close = difflib.get_close_matches(key, shape, 1)
    return f"; did you mean '{close[0]}'?" if close else f"; there are {', '.join(shape)}"


def kind_of(value: object) -> str:
    """What a value of the file is, in words."""
    kinds: tuple[tuple[type, str], ...] = (
        (bool, "true or false"),
        (int, "a number"),
        (float, "a number"),
        (str, "a text"),
        (list, "a list"),
        (dict, "a table"),
    )
    return next((words for kind, words in kinds if isinstance(value, kind)), "a time")


def lines_of(text: str) -> dict[tuple[str, ...], int]:
    """For each key and table the line, from 1, where it stands, however it is quoted. Keys may be
    found in a text of several lines too."""
    found: dict[tuple[str, ...], int] = {}
    table: tuple[str, ...] = ()
    for number, line in enumerate(text.split("\n"), 1):
        if heading := HEADING.match(line):
            table = keys_in(heading[1])
            found.setdefault(table, number)
        elif key := KEY.match(line):
            found.setdefault((*table, *keys_in(key[1])), number)
    return found


def keys_in(dotted: str) -> tuple[str, ...]:
    """The keys that a dotted key names."""
    found = re.findall(r"\"([^\"]*)\"|'([^']*)'|([\w-]+)", dotted)
    return tuple("".join(parts) for parts in found)
