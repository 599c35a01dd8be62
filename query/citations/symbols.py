"""Which assertions say something by constants that only some rules of syntax have."""

from __future__ import annotations

import re
from collections.abc import Set

from query.citations.crossing import constants_of
from query.texts.text import Text

FLOATING = re.compile(r" \$f [^ ]+ ([^ ]+) ")


def symbols_of(text: Text, labels: Set[str]) -> dict[str, list[str]]:
    """For each assertion that has a constant which no other rules of syntax have than some of these
    labels: these rules. A rule of syntax is an axiom of the typecode of a variable; of itself it
    isn't told."""
    rules = [one for one in text.assertions if one.label in labels and one.kind == "a"]
    if not rules:
        return {}
    typecodes = {name for one in text.assertions for name in FLOATING.findall(one.said)}
    having: dict[str, list[str]] = {}
    for one in rules:
        if one.typecode in typecodes:
            for constant in constants_of(one) - typecodes:
                having.setdefault(constant, []).append(one.label)
    for one in text.assertions:
        if one.kind == "a" and one.label not in labels and one.typecode in typecodes:
            for constant in constants_of(one) & having.keys():
                del having[constant]
    found = {}
    for one in text.assertions if having else ():
        if having.keys().isdisjoint(one.said.split(" ")):
            continue
        said = {rule for constant in constants_of(one) & having.keys() for rule in having[constant]}
        if said - {one.label}:
            found[one.label] = sorted(said - {one.label})
    return found
