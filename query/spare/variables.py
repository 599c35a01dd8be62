"""The variables that another proof of a theorem may have, and which of them are distinct."""

from __future__ import annotations

from collections.abc import Iterator, Mapping
from itertools import islice, permutations, product

from query.spare.active import Active
from query.spare.rules import Rule, Rules, Scope

MOST_CHOICES = 200
"""So many ways are tried of putting variables in place of unknown ones."""


class Variables:
    """Those of one theorem. What is active there is only looked up where it is needed."""

    def __init__(self, rules: Rules, theorem: Rule, scope: Scope, active: Active) -> None:
        self.rules = rules
        self.theorem = theorem
        self.scope = scope
        self.active = active
        self._apart: dict[int, int] | None = None

    def apart(self, variable: int) -> int:
        """The variables from which one is distinct, as bits."""
        known = self.scope.apart() if self._apart is None else self._apart
        return known.get(variable, 0)

    def declare(self) -> None:
        """Looks up what is active."""
        if self._apart is not None:
            return
        self._apart = dict(self.scope.apart())
        place = self.rules.text.assertions[self.theorem.number].place
        floating, disjoint = self.active.at(place)
        heads = self.rules.trees.heads
        for each in floating:
            variable = ~heads[self.rules.grammar.variable(each.typecode, each.variable)]
            self.scope.add_dummy(variable, each.variable, each.label)
        for symbols in disjoint:
            named = [self.scope.names[symbol] for symbol in symbols if symbol in self.scope.names]
            bits = 0
            for variable in named:
                bits |= 1 << variable
            for variable in named:
                self._apart[variable] = self._apart.get(variable, 0) | bits & ~(1 << variable)

    def choices(self, kinds: Mapping[int, str]) -> Iterator[dict[int, int]]:
        """The ways of putting variables in place of unknown parts of these typecodes, another one
        in each place; at most MOST_CHOICES. Each says for the unknown parts which tree."""
        if not kinds:
            yield {}
            return
        self.declare()
        by_kind: dict[str, list[int]] = {}
        for one, kind in kinds.items():
            by_kind.setdefault(kind, []).append(one)
        ways = [
            islice(permutations(self.pool(kind), len(several)), MOST_CHOICES)
            for kind, several in by_kind.items()
        ]
        places = [one for several in by_kind.values() for one in several]
        for chosen in islice(product(*ways), MOST_CHOICES):
            yield dict(zip(places, (tree for trees in chosen for tree in trees), strict=True))

    def pool(self, kind: str) -> list[int]:
        """The variables of a typecode, as trees. Where nothing else has that typecode, those that
        aren't in the theorem's statement come first, and of these such as are distinct from
        others."""
        variables = self.rules.grammar.variables
        found = [each for each in self.scope.labels if variables[each][0] == kind]
        if all(form.typecode != kind for form in self.rules.grammar.forms):
            own = {*self.theorem.mandatory_variables}
            found.sort(key=lambda each: (each in own, not self.apart(each)))
        return [self.rules.trees.made((~each,)) for each in found]
