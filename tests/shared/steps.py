"""The steps of a database's proofs, read without the program: a reader for tests, of texts that the
program has accepted. By an example:

    dict(proofs_of(b"... wi2 $p wff ( p -> q ) $= ( wi ) ABC $. "))    # {"wi2": ["wp", "wq", "wi"]}
"""

from __future__ import annotations

import re
from collections.abc import Iterator
from dataclasses import dataclass, field

COMMENT = re.compile(r"(?<!\S)\$\((?!\S).*?(?<!\S)\$\)(?!\S)", re.DOTALL)
OPEN = (["?"], ["(", ")", "?"])


@dataclass
class Scope:
    """What is declared up to some place: the active `$f` and `$e`, in order, each with its keyword,
    its label and its symbols, and all variables."""

    variables: set[str] = field(default_factory=set)
    active: list[tuple[str, str, list[str]]] = field(default_factory=list)
    opened: list[int] = field(default_factory=list)

    def mandatory(self, formula: list[str]) -> list[str]:
        """The labels of the mandatory hypotheses of an assertion with this formula."""
        formulas = [formula, *(symbols for keyword, _, symbols in self.active if keyword == "$e")]
        used = {symbol for each in formulas for symbol in each if symbol in self.variables}
        return [
            label
            for keyword, label, symbols in self.active
            if keyword == "$e" or symbols[1] in used
        ]


def proofs_of(data: bytes, with_open: bool = False) -> Iterator[tuple[str, list[str]]]:
    """Each theorem with the steps of its proof, as a report tells them. `with_open` leaves out
    those whose proof is `?`."""
    words = iter(COMMENT.sub(" ", data.decode("ascii")).split())
    scope = Scope()
    label = ""
    for word in words:
        if word == "${":
            scope.opened.append(len(scope.active))
        elif word == "$}":
            del scope.active[scope.opened.pop() :]
        elif not word.startswith("$"):
            label = word
        else:
            said = list(iter(words.__next__, "$."))
            if word == "$v":
                scope.variables.update(said)
            elif word in ("$f", "$e"):
                scope.active.append((word, label, said))
            elif word == "$p":
                formula, proof = split(said)
                if not (with_open and proof in OPEN):
                    yield label, steps_of(proof, scope.mandatory(formula))


def split(said: list[str]) -> tuple[list[str], list[str]]:
    """The formula of a theorem, and the words of its proof."""
    at = said.index("$=")
    return said[:at], said[at + 1 :]


def steps_of(proof: list[str], mandatory: list[str]) -> list[str]:
    """The steps of a proof: labels, and stars with the numbers of the steps that are repeated."""
    if proof[0] != "(":
        return proof
    close = proof.index(")")
    labels = mandatory + proof[1:close]
    steps: list[str] = []
    marked: list[int] = []
    number = 0
    for letter in "".join(proof[close + 1 :]):
        if letter == "Z":
            marked.append(len(steps))
        elif letter >= "U":
            number = 5 * number + ord(letter) - ord("U") + 1
        else:
            number = 20 * number + ord(letter) - ord("A")
            earlier = number - len(labels)
            steps.append(labels[number] if earlier < 0 else f"*{marked[earlier]}")
            number = 0
    return steps
