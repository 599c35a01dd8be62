"""How one statement is related to another one that has its label in another database, in the words
of `repeats`: whether the one says what the other says, or a special case of it.

Both stand in a small text of their own here, behind the syntax axioms by which they are read. There
the one is proved by the other in one step or not, as `repeats` asks it of an earlier statement.

Where neither is, an inference may lead from the one formula to the other. An inference has a single
`$e`, and no pairs of distinct variables. Either the `$e` is a variable, so that it can be applied
to whatever is proved: that of set.mm which puts an antecedent before a formula is `a1i`. Or what it
gives is a variable, the only one, so that it can give whatever is proved: that of set.mm which
takes an antecedent away is `mptru`, whose `$e` is `( T. -> ph )`. A statement behind an antecedent
that is a variable of its own so is the same as without it. The statement that an inference is
applied to is cited for its `$e` as for a theorem, in one step. Only what both databases say counts:
by a statement that NEW alone has, a change that is wrong could be called harmless, since that
statement may itself rest on what was changed.
"""

from __future__ import annotations

from collections.abc import Container, Iterable, Iterator, Sequence
from dataclasses import replace

from query.citations.bits import joined
from query.platform import progress
from query.spare.conventions import Conventions, is_fit
from query.spare.grammar import Item
from query.spare.index import Budget, GivenUp
from query.spare.repeats import Finder
from query.spare.rules import Rule, Rules, form_of
from query.spare.search import STEPS_OF_FORMULA, Shelf
from query.texts.assertions import Assertion
from query.texts.text import Text

MOST_PAIRS = 2000
"""So many pairs are looked at: a release changes some hundred statements, and a text may be made to
change very many."""
SAME, WEAKER = "same", "weaker"
STRONGER = {WEAKER: "stronger", "instance": "general", SAME: "stronger"}
"""What a statement is of which another one is that."""

Pair = tuple[Assertion, Assertion]
"""The older statement and the newer one."""


def relations(
    syntax: Iterable[Assertion],
    of_both: Iterable[Assertion],
    pairs: Sequence[Pair],
    typecode: str,
) -> Iterator[str | None]:
    """For each pair what the newer statement is of the older one: `same`, `weaker` or an
    `instance`; `stronger` or more `general`, where the older one is that of it; "" where none is
    seen, and None where one of them can't be compared. Their formulas are read by the `syntax`
    axioms of both databases, and the inferences are among what is said `of_both`. `typecode` is
    that of what is proved. Behind the first MOST_PAIRS nothing is said."""
    both = [one for pair in pairs[:MOST_PAIRS] for one in (*pair, pair[0])]
    if not both:
        return
    known = [*inferences_among(of_both, typecode)]
    rules = Rules(text_of([*read_once(syntax, typecode), *known, *both]), typecode)
    first = len(rules) - len(both)
    inferences = shelf_of(rules, range(first - len(known), first))
    for place in progress.counted(range(first, len(rules), 3), "comparing changed statements"):
        old, new, again = range(place, place + 3)
        if not is_fit(rules[old]) or not is_fit(rules[new]):
            yield None
            continue
        found = in_one_word(how(rules, rules[new], old), how(rules, rules[again], new))
        yield found or in_one_word(inferred(inferences, new, old), inferred(inferences, again, new))


def in_one_word(weaker: str, stronger: str) -> str:
    """What a statement is of which it is known how it says what the older one says, and how that
    says what it says."""
    if weaker and stronger:
        return SAME
    return weaker or STRONGER.get(stronger, "")


def how(rules: Rules, theorem: Rule, earlier: int) -> str:
    """How an assertion says what an earlier one says; "" where it doesn't, or that isn't found."""
    alone = Conventions(1 << earlier, -1, lambda number: None, {})
    try:
        found = Finder(rules, Shelf(rules, alone)).repeat(theorem)
    except GivenUp:
        return ""
    return "" if found is None else found.how


def shelf_of(rules: Rules, numbers: Iterable[int]) -> Shelf:
    """The inferences among these numbers, those whose formula isn't read by the syntax left out."""
    read = (each for each in numbers if rules.grammar.typecode(rules[each].tree) is not None)
    return Shelf(rules, Conventions(joined(read), -1, lambda number: None, {}))


def inferred(inferences: Shelf, theorem: int, earlier: int) -> str:
    """`weaker` where an inference gives a theorem from what an earlier assertion says, or from an
    instance of that: what the `$e` becomes then says it under the theorem's hypotheses and
    conditions. Otherwise ""."""
    rules = inferences.rules
    whole = rules[theorem]
    parts = premises_for(inferences, whole.tree)
    is_found = any(how(rules, replace(whole, tree=tree, code=None), earlier) for tree in parts)
    return WEAKER if is_found else ""


def premises_for(inferences: Shelf, tree: int) -> Iterator[int]:
    """From which formulas the inferences give a formula. All variables of an inference stand in
    what it gives, so nothing is left open."""
    wanted, flags = inferences.conventions.citable, "1" * len(inferences.rules)
    try:
        found = inferences.index.find(tree, wanted, flags, Budget(STEPS_OF_FORMULA))
    except GivenUp:
        return
    for number, bound in found:
        citable = inferences.citable[number]
        (premise,) = citable.premises
        binding = dict(zip(citable.variables, bound))
        yield inferences.rules.trees.instance(premise.code, binding)


def inferences_among(assertions: Iterable[Assertion], typecode: str) -> Iterator[Assertion]:
    """The inferences among some assertions; of those with one form the first."""
    known = set()
    for one in assertions:
        # A search of the line for a `$e` spares most of them from being taken apart.
        if one.said.count(" $e ") == 1 and one.typecode == typecode and not one.is_open:
            form = inference_of(one)
            if form is not None and form not in known:
                known.add(form)
                yield one


def inference_of(one: Assertion) -> tuple[tuple[Item, ...], int, tuple[str, ...]] | None:
    """What is the same for inferences that differ in names alone: the symbols of the `$e` and those
    of the formula with numbers for the variables, how many the first ones are, and the typecodes of
    the variables. None for what is no inference, where it is known that there is one `$e`."""
    frame = one.frame()
    floating = [each.formula.split(" ") for each in frame.hypotheses() if each.kind == "f"]
    typecodes = {variable: typecode for typecode, variable in floating}
    ((proved, *given),) = (each.formula.split(" ") for each in frame.essential())
    _, *symbols = one.formula.split(" ")
    is_of_all = is_variable(given, typecodes) and given[0] in symbols
    gives_all = is_variable(symbols, typecodes) and {*typecodes} == {*symbols}
    if frame.disjoint or proved != one.typecode or not (is_of_all or gives_all):
        return None
    both = [*given, *symbols]
    numbers = {variable: number for number, variable in enumerate(dict.fromkeys(both))}
    items: Iterator[Item] = (numbers[e] if e in typecodes else e for e in both)
    return tuple(items), len(given), tuple(typecodes.get(each, "") for each in numbers)


def is_variable(symbols: Sequence[str], variables: Container[str]) -> bool:
    """Whether these symbols are a variable alone."""
    return len(symbols) == 1 and symbols[0] in variables


def read_once(syntax: Iterable[Assertion], typecode: str) -> Iterator[Assertion]:
    """The syntax axioms among some assertions; of two with one form the first."""
    known = set()
    for one in syntax:
        if one.kind == "a" and one.typecode != typecode:
            given = one.frame().hypotheses()
            form = None if any(each.kind == "e" for each in given) else form_of(one, given)
            key = None if form is None else (form.typecode, form.items, form.typecodes)
            if key is not None and key not in known:
                known.add(key)
                yield one


def text_of(assertions: Iterable[Assertion]) -> Text:
    """A text in which the labels of some assertions stand, each behind the `$f` that it has. These
    have numbers for labels, since a `$f` may have another typecode in the other database."""
    data, lines = bytearray(), []
    for one in assertions:
        for each in one.frame().hypotheses():
            if each.kind == "f":
                data += f"{len(data)} $f {each.formula} $.\n".encode()
        place = len(data)
        data += f"{one.label}\n".encode()
        lines.append(f"{one.label}:{one.letter}:{place}:{len(data) - 1}:{one.said}\n")
    return Text(bytes(data), "".join(lines).encode())
