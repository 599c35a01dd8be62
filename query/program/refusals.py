"""Refusals: what each fault's code means and what to do about it, and which statement has it.

The words of the table stand here alone: `python3 -m tables` puts them wherever else they are told.
"""

import re

from query.answers.errors import NoAnswer
from query.program.source import Source

# Code, meaning, advice.
FAULTS = {
    "E00": (
        "the text is longer than 2,147,483,647 bytes",
        "split it into databases that are each shorter",
    ),
    "E01": (
        "a byte that is neither white space nor printable ASCII",
        "write it in ASCII: a byte above 127 belongs to a letter in UTF-8 or, at 1:1, to a "
        "byte order mark",
    ),
    "E02": (
        "in a comment, a word that contains `$(` or `$)`",
        "put spaces around the `$)` that closes the comment, and write no `$(` inside it",
    ),
    "E03": ("a comment that is not closed", "write ` $)` where it ends"),
    "E04": (
        "a word with `$` that is no keyword, or `$)` outside a comment",
        "put spaces around keywords; a symbol may not contain `$`",
    ),
    "E05": (
        "`$[` or `$]` outside comments: files aren't included",
        "put the text of the file there; metamath.exe's `write source` does that",
    ),
    "E06": (
        "where a statement begins, a word that is no label",
        "labels have letters, digits, `-`, `_` and `.` only; a keyword may be missing before "
        "the word",
    ),
    "E07": (
        "a token that isn't expected here",
        "the statement before it may lack its `$.`, or this one its label or keyword",
    ),
    "E08": (
        "the file ends within a statement",
        "write the rest of it, up to `$.`; the file may be cut off",
    ),
    "E09": ("`$}` without an open block", "remove it, or write the `${` that it closes"),
    "E10": (
        "the file ends while a block is open",
        "write the missing `$}`; the file may be cut off",
    ),
    "E11": ("a `$c` in a block", "move it in front of the outermost `${`"),
    "E12": ("a `$c` or `$v` that declares nothing", "name a symbol, or remove the statement"),
    "E13": (
        "a symbol that is declared already",
        "remove one of the two declarations, or rename the symbol",
    ),
    "E14": ("a label and a symbol that are the same word", "rename one of them"),
    "E15": ("a label that was used before", "rename this statement or the earlier one"),
    "E17": (
        "a formula that doesn't begin with a constant declared before",
        "write the typecode first, and declare it by `$c` before",
    ),
    "E18": (
        "a symbol that is neither a constant nor an active variable",
        "declare it before; a `$v` counts to the end of its block only",
    ),
    "E19": (
        "a `$f` that isn't a constant and an active variable",
        "write the typecode and the variable, and declare both before",
    ),
    "E20": ("a variable that has an active `$f` already", "remove one of the two `$f`"),
    "E21": (
        "a variable whose earlier `$f` has another typecode",
        "use another variable, or the same typecode",
    ),
    "E22": ("a variable without an active `$f`", "give it a `$f` before this statement"),
    "E23": ("a `$d` of fewer than two variables", "name two or more, or remove the statement"),
    "E24": ("in a `$d`, a symbol that is no active variable", "name active variables only"),
    "E25": ("in a `$d`, a variable that is named twice", "name it once"),
    "E31": (
        "a proof without a step",
        "write the proof, or `?` and count the theorem as an axiom by `--open`",
    ),
    "E32": (
        "a `?` in a proof",
        "complete the proof; a theorem whose proof is `?` alone counts as an axiom with "
        "`--open`",
    ),
    "E33": (
        "a word in the proof that is no active hypothesis and no earlier assertion",
        "correct the label, or move what it names in front of the theorem",
    ),
    "E34": (
        "the stack has fewer entries than the assertion has hypotheses",
        "a step before this one is missing, or this one is too many",
    ),
    "E35": (
        "no substitution turns the hypotheses of the assertion into the last entries",
        "another assertion is meant here, or a step before it is wrong or in another order",
    ),
    "E36": (
        "a disjoint variable restriction is violated",
        "add a `$d` for the variables to the theorem, or use other variables",
    ),
    "E37": (
        "the stack doesn't have exactly one entry at the end of the proof",
        "a step is missing or too many",
    ),
    "E38": (
        "what the proof proves isn't the theorem's formula",
        "correct the formula or the proof",
    ),
    "E39": (
        "a formula of more than 1,048,576 symbols",
        "prove the theorem in smaller parts, with definitions or lemmas",
    ),
    "E41": ("the `(` of a compressed proof has no `)`", "write the ` ) ` after its labels"),
    "E42": (
        "in a compressed proof, a byte that is neither a capital letter nor `?`",
        "only `A` to `Z` follow the `)`; the proof may have been changed by hand",
    ),
    "E43": (
        "in a compressed proof, a number without its last letter",
        "a number ends in `A` to `T`; the proof may be cut off",
    ),
    "E44": (
        "in a compressed proof, a `Z` before the first number",
        "remove it: `Z` marks the step before it",
    ),
    "E45": (
        "in a compressed proof, a number for which there is nothing",
        "the letters or the labels in brackets were changed; save the proof once more",
    ),
}
UNKNOWN = ("a fault that mmquery doesn't know", "ask the program's own pages")

COMMENT = re.compile(rb"\$\([^$]*(?:\$(?!\))[^$]*)*\$\)")
LABEL = re.compile(rb"[A-Za-z0-9._-]+")
# What a statement ends in, or is.
ENDS = (b"$.", b"${", b"$}")


class Refused(NoAnswer):
    """The program refused the database. Line and column count from 1, in bytes; the code is `E00`
    to `E45`."""

    def __init__(self, source: Source, line: int, column: int, code: str) -> None:
        super().__init__(f"{source.name}:{line}:{column}: refused {code}")
        self.source = source
        self.line = line
        self.column = column
        self.code = code
        self.meaning, self.advice = FAULTS.get(code, UNKNOWN)

    @property
    def is_of_proof(self) -> bool:
        """Whether a proof has the fault. Other faults come first, wherever they stand."""
        return self.code.startswith(("E3", "E4"))

    def at(self) -> int:
        """The byte offset from 0 of the fault."""
        place = 0
        for _ in range(self.line - 1):
            place = self.source.data.find(b"\n", place) + 1
        return min(place + self.column - 1, len(self.source.data))

    def statement(self) -> str:
        """Which statement has the fault: its label, or `a $c statement`; empty where that can't be
        told."""
        if self.source.is_report() or self.code == "E00":
            return ""
        return statement_at(self.source.data, self.at())

    def said(self) -> str:
        """Which statement is refused, and what the code means."""
        found = self.statement()
        named = found if not found or " " in found else f"'{found}'"
        return f"refused {self.code}{named and f' in {named}'}: {self.meaning}"

    def sentence(self) -> str:
        """The place as compilers write it, what is said, and what to do."""
        return f"{self.source.name}:{self.line}:{self.column}: {self.said()}; {self.advice}"


def statement_at(data: bytes, place: int) -> str:
    """Which statement has a place: its label, or `a $c statement`; empty where that can't be
    told."""
    word = re.compile(rb"[^ \t\n\f\r]*").match(data, place)
    end = word.end() if word else place
    label = first_word(data[:place], data[place:end])
    if LABEL.fullmatch(label):
        return label.decode()
    return f"a {label.decode()} statement" if label in (b"$c", b"$v", b"$d") else ""


def first_word(before: bytes, last: bytes) -> bytes:
    """The first word of the statement in which the text ends and `last` stands; empty in a comment
    between statements."""
    bare = COMMENT.sub(b" ", before)
    comment = bare.find(b"$(")
    if comment >= 0:
        bare, last = bare[:comment], b""
    end = max(bare.rfind(word) for word in ENDS)
    words = bare[end + 2 if end >= 0 else 0 :].split()
    return (words + [last])[0]
