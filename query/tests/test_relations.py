"""How a changed statement is related to the one that its label had before, against trying
everything in databases made by chance."""

import os
import random
from collections import Counter
from collections.abc import Iterator
from unittest import mock

from query.arguments.context import Context
from query.commands.compare import hows_of
from query.comparisons.changes import Comparison, side_by_side
from query.reports.choice import Options
from query.spare.relations import relations
from query.tests.test_repeats import Tried, subterms_of
from query.tests.test_spare_search import (
    FORMULAS,
    Maker,
    Term,
    filled,
    parsed,
    said,
    variables,
    imp,
)
from query.tests.world import World, built_program, database_text
from query.texts.assertions import Assertion

HEAD = """$c ( ) -> |- wff $.
$v p q r $.
wp $f wff p $. wq $f wff q $. wr $f wff r $.
wi $a wff ( p -> q ) $.
"""
CASES = [
    ("one $a |- ( p -> p ) $.", "one $a |- ( ( p -> q ) -> ( p -> q ) ) $.", "instance"),
    ("one $a |- ( p -> q ) $.", "one $a |- ( p -> p ) $.", "instance"),
    ("${ one $a |- p $. $}", "${ h $e |- q $. one $a |- p $. $}", "weaker"),
    ("one $a |- ( p -> q ) $.", "${ $d p q $. one $a |- ( p -> q ) $. $}", "weaker"),
    ("${ h $e |- p $. one $a |- p $. $}", "${ h $e |- q $. one $a |- q $. $}", "same"),
    ("one $a |- ( p -> p ) $.", "one $a |- p $.", "general"),
    ("one $a |- ( p -> p ) $.", "one $a |- ( p -> q ) $.", "general"),
    ("${ h $e |- p $. one $a |- q $. $}", "one $a |- q $.", "stronger"),
    ("one $a |- ( p -> ( q -> p ) ) $.", "one $a |- ( p -> ( p -> q ) ) $.", None),
    ("${ h $e |- p $. g $e |- q $. one $a |- r $. $}", "${ g $e |- p $. one $a |- r $. $}", "same"),
    ("one $a wff ( p -> p ) $.", "one $a wff ( q -> ( p -> p ) ) $.", None),
]
GIVEN = "${ i $e |- p $. a1i $a |- ( q -> p ) $. $}\n"
APART = "${ $d p q $. i $e |- p $. a1i $a |- ( q -> p ) $. $}\n"
OPEN = "${ i $e |- p $. a1i $p |- ( q -> p ) $= ? $. $}\n"
UNREAD = "${ i $e |- p $. a1i $a |- q -> p $. $}\n"
OTHER = "${ i $e |- ( p -> p ) $. a1i $a |- ( q -> ( p -> p ) ) $. $}\n"
TWO = "${ i $e |- p $. j $e |- q $. a1i $a |- ( q -> p ) $. $}\n"
TRUE = "$c T $. wt $a wff T $.\n"
BACK = "${ b $e |- ( T -> p ) $. mptru $a |- p $. $}\n"
BOTH = TRUE + GIVEN + BACK
LEFT_OPEN = "${ b $e |- ( q -> p ) $. mptru $a |- p $. $}\n"
ONE, UNDER = "one $a |- ( r -> r ) $.", "one $a |- ( q -> ( r -> r ) ) $."
INFERRED = [
    (GIVEN, ONE, UNDER, "weaker"),
    (GIVEN, UNDER, ONE, "stronger"),
    *((each, ONE, UNDER, None) for each in ("", APART, OPEN, UNREAD, OTHER, TWO)),
    *((each, UNDER, ONE, None) for each in ("", APART, OPEN, UNREAD, OTHER, TWO)),
    (GIVEN, ONE, "one $a |- ( q -> ( p -> ( r -> r ) ) ) $.", None),
    (GIVEN, ONE, "one $a |- ( ( r -> r ) -> q ) $.", None),
    (UNREAD, "one $a |- r $.", "one $a |- q -> r $.", None),
    # what takes an antecedent away
    (TRUE + BACK, UNDER, ONE, "weaker"),
    (TRUE + BACK, ONE, UNDER, "stronger"),
    (BOTH, ONE, UNDER, "same"),
    (BOTH, UNDER, ONE, "same"),
    (BOTH, ONE, "one $a |- ( ( p -> q ) -> ( r -> r ) ) $.", "weaker"),
    (BOTH, ONE, "one $a |- ( r -> ( r -> r ) ) $.", "weaker"),
    (BOTH, ONE, "${ h $e |- q $. one $a |- ( q -> ( r -> r ) ) $. $}", "weaker"),
    (BOTH, ONE, "${ $d q r $. one $a |- ( q -> ( r -> r ) ) $. $}", "same"),
    # what T stands for is distinct from everything
    (BOTH, "${ $d r p $. one $a |- ( r -> p ) $. $}", "one $a |- ( q -> ( r -> p ) ) $.", "same"),
    (LEFT_OPEN, UNDER, ONE, None),
    # under other names, and an instance
    (GIVEN, "one $a |- ( q -> q ) $.", "one $a |- ( q -> ( r -> r ) ) $.", "weaker"),
    (GIVEN, ONE, "one $a |- ( q -> ( ( p -> q ) -> ( p -> q ) ) ) $.", "weaker"),
    # hypotheses
    (GIVEN, "${ h $e |- q $. one $a |- r $. $}", "one $a |- ( q -> r ) $.", None),
    (GIVEN, "one $a |- ( q -> r ) $.", "${ h $e |- q $. one $a |- r $. $}", None),
    (
        GIVEN,
        "${ h $e |- ( r -> q ) $. one $a |- r $. $}",
        "${ h $e |- ( r -> q ) $. one $a |- ( p -> r ) $. $}",
        "weaker",
    ),
    (
        GIVEN,
        "${ h $e |- ( r -> q ) $. one $a |- r $. $}",
        "${ h $e |- ( q -> r ) $. one $a |- ( p -> r ) $. $}",
        None,
    ),
    (
        GIVEN,
        "one $a |- ( r -> r ) $.",
        "${ h $e |- p $. one $a |- ( q -> ( r -> r ) ) $. $}",
        "weaker",
    ),
    # what follows from its own hypothesis says nothing of the other one
    (GIVEN, ONE, "${ h $e |- p $. one $a |- ( q -> p ) $. $}", None),
    # pairs of distinct variables
    (GIVEN, "${ $d p r $. one $a |- ( p -> r ) $. $}", "one $a |- ( q -> ( p -> r ) ) $.", None),
    (
        GIVEN,
        "${ $d p r $. one $a |- ( p -> r ) $. $}",
        "${ $d p r $. one $a |- ( q -> ( p -> r ) ) $. $}",
        "weaker",
    ),
]
"""What stands before both statements, and then as CASES."""
TYPECODES = "the typecodes of variables changed"
WORDS = {
    "same": "each of both says what the other says",
    "weaker": "the new one is weaker",
    "instance": "the new one is an instance of the old one",
    "stronger": "the new one is stronger",
    "general": "the old one is an instance of the new one",
    None: "whether it is weaker or stronger isn't seen",
}


class Changed(World):
    """What `compare` and `review` say of one assertion that was changed."""

    def test_all_words(self) -> None:
        markdown = ("--all", "--open", "--format=markdown")
        for before, old, new, how in (*(("", *case) for case in CASES), *INFERRED):
            self.write("old.mm", f"{HEAD}{before}{old}\n")
            self.write("new.mm", f"{HEAD}{before}{new}\n")
            case = (before, old, new)
            row = self.row("--all", "--open")
            self.assertEqual((row["change"], row["how"]), ("changed", how), case)
            has_other_names = row["differ"] == "only the names of variables are other"
            is_said = not has_other_names and "$a |-" in new
            words = f"{row['differ']}; {WORDS[how]}" if is_said else row["differ"]
            lines = self.answers("compare", "old.mm", "new.mm", "--all", "--open")
            self.assertIn(f"one: {words}", lines, case)
            comment = self.query("review", "old.mm", "new.mm", *markdown).out
            self.assertIn(f"- `one`: {words}\n", comment, case)

    def row(self, *words: str) -> dict[str, object]:
        """The row of the assertion that was changed."""
        done = self.query("compare", "old.mm", "new.mm", "--format=json", *words)
        (row,) = [row for row in done.rows() if row["label"] == "one"]
        return row

    def test_what_one_has_alone(self) -> None:
        """An inference counts where both databases have it: a statement that was changed, or is
        new, may rest on what is compared."""
        renamed = GIVEN.replace("a1i", "a1iALT")
        changed = GIVEN.replace("( q -> p )", "( q -> ( q -> p ) )")
        for old, new in ((GIVEN, ""), ("", GIVEN), (GIVEN, renamed), (changed, GIVEN)):
            for before, after in ((ONE, UNDER), (UNDER, ONE)):
                self.write("old.mm", f"{HEAD}{old}{before}\n")
                self.write("new.mm", f"{HEAD}{new}{after}\n")
                self.assertEqual(self.row()["how"], None, (old, new, before))

    def test_by_itself(self) -> None:
        """An axiom that gives more than it gave isn't called weaker since it is an inference."""
        self.write("old.mm", HEAD + "${ h $e |- p $. one $a |- p $. $}\n")
        self.write("new.mm", HEAD + "${ h $e |- p $. one $a |- ( p -> q ) $. $}\n")
        self.assertEqual(self.row()["how"], None)

    def test_too_many(self) -> None:
        """Of what isn't looked at it isn't said that nothing is seen."""
        self.write("old.mm", f"{HEAD}one $a |- p $.\ntwo $a |- p $.\n")
        self.write("new.mm", f"{HEAD}one $a |- ( p -> q ) $.\ntwo $a |- ( p -> q ) $.\n")
        surroundings = self.surroundings()
        for most, count in ((2, 2), (1, 1), (0, 0)):
            with (
                mock.patch.dict(os.environ, surroundings),
                mock.patch("query.spare.relations.MOST_PAIRS", most),
            ):
                hows = hows_of(self.compared("old.mm", "new.mm"))
            self.assertEqual([*hows], ["one", "two"][:count])

    def compared(self, *names: str) -> Comparison:
        """Two databases side by side."""
        context = Context(uses_cache=False)
        old, new = (context.database(str(self.folder / name), Options()) for name in names)
        return side_by_side(old, new)

    def test_theorems(self) -> None:
        """`review` has a row for each, and says it there."""
        self.write("old.mm", f"{HEAD}any $a |- p $.\none $p |- ( p -> p ) $= wp wp wi any $.\n")
        self.write("new.mm", f"{HEAD}any $a |- p $.\none $p |- ( p -> q ) $= wp wq wi any $.\n")
        (row,) = self.query("review", "old.mm", "new.mm", "--format=json").rows()
        self.assertEqual(row["how"], "general")

    def test_syntax_of_one_alone(self) -> None:
        """What only OLD can read is read too, and a syntax axiom with another label is one."""
        old = HEAD + "$c ! $. wn $a wff ! p $. one $a |- ! p $.\n"
        self.write("old.mm", old)
        self.write("new.mm", HEAD.replace("wi $a", "wj $a") + "one $a |- p $.\n")
        done = self.query("compare", "old.mm", "new.mm", "--format=json")
        (row,) = [row for row in done.rows() if row["change"] == "changed"]
        self.assertEqual(row["how"], "general")

    def test_other_typecode(self) -> None:
        """A variable that has another typecode in NEW, by a `$f` of one label, is another one."""
        head = HEAD.replace("|- wff", "|- wff set").replace(" r $.\n", " r x $.\n", 1)
        sets = "vx $f set x $. wx $a wff ( x -> p ) $. "
        for given in ("", GIVEN):
            self.write("old.mm", f"{head}vx $f wff x $. {given}one $a |- ( x -> p ) $.\n")
            self.write("new.mm", f"{head}{sets}{given}one $a |- ( x -> p ) $.\n")
            row = self.row()
            self.assertEqual((row["differ"], row["how"]), (TYPECODES, None))


class ByChance(World):
    """Two statements of one database take the places of the older and of the newer one."""

    def test_all(self) -> None:
        counts: Counter[tuple[str | None, bool]] = Counter()
        for seed in range(12):
            back = f"|- {said(imp(imp('p', 'p'), 'p'))}"
            back = f"${{ back.1 $e {back} $. back $a |- p $. $}}\n"
            text = database_text((Maker(seed).text(30) + back).encode())
            tried = Tried(text)
            logical = [one for one in text.assertions if one.typecode == "|-"]
            chance = random.Random(seed)
            pairs = [(chance.choice(logical), chance.choice(logical)) for _ in range(60)]
            with mock.patch.dict(os.environ, {"MMDEPEND": built_program()}):
                found = [*relations(text.assertions, text.assertions, pairs, "|-")]
            for (old, new), how in zip(pairs, found, strict=True):
                direct = expected(tried, old, new)
                wanted = direct or expected_by_inference(tried, old, new)
                self.assertEqual(how, wanted, (seed, old.label, new.label))
                counts[how, direct == ""] += 1
        kinds = {"same", "weaker", "instance", "stronger", "general"}
        by_inference = {(how, True) for how in ("", "weaker", "stronger")}
        self.assertLessEqual({(how, False) for how in kinds} | by_inference, {*counts})
        self.assertGreater(min(counts.values()), 3, counts)


class Limits(World):
    """A text can't be made to take very long."""

    def test_many(self) -> None:
        text = database_text(Maker(1).text(30).encode())
        pairs = [(one, one) for one in text.assertions if one.typecode == "|-"]
        with mock.patch("query.spare.relations.MOST_PAIRS", 2):
            found = [*relations(text.assertions, text.assertions, pairs, "|-")]
        self.assertEqual(found, ["same", "same"])


def expected(tried: Tried, old: Assertion, new: Assertion) -> str:
    """What the newer statement is, by trying everything in both directions."""
    there, back = tried.how(new, old), tried.how(old, new)
    if there and back:
        return "same"
    if there:
        return there
    return {None: "", "instance": "general"}.get(back, "stronger")


def expected_by_inference(tried: Tried, old: Assertion, new: Assertion) -> str:
    """What the newer statement is by one inference, where neither says what the other says."""
    there, back = follows(tried, old, new), follows(tried, new, old)
    if there and back:
        return "same"
    return "weaker" if there else "stronger" if back else ""


def follows(tried: Tried, one: Assertion, other: Assertion) -> bool:
    """Whether a statement proves a part of another one's formula under the hypotheses of that, and
    an inference proves the formula from this part alone."""
    term, given = parsed(other.formula), {parsed(each) for each in tried.given(other)}
    parts = sorted({part for each in {*given, term} for part in subterms_of(each)}, key=str)
    labels = [each.label for each in tried.text.assertions if is_inference(tried, each)]
    steps = tried.everything.has_step
    if any(
        steps(other, one.label, part, given, parts)
        and any(steps(other, label, term, {part}, parts) for label in labels)
        for part in subterms_of(term)
    ):
        return True
    return any(
        steps(other, one.label, whole, given, [*parts, *subterms_of(whole)])
        for whole in wholes(tried, term)
    )


def is_inference(tried: Tried, one: Assertion) -> bool:
    """Whether a statement's only hypothesis is a variable that stands in its formula."""
    given = tried.given(one)
    if one.typecode != "|-" or len(given) != 1 or [*one.frame().pairs()]:
        return False
    return given[0][3:] in {*FORMULAS} & variables(parsed(one.formula))


def wholes(tried: Tried, term: Term) -> Iterator[Term]:
    """From what a statement gives a formula that is the only variable of its only hypothesis."""
    for one in tried.text.assertions:
        given, name = tried.given(one), one.formula[3:]
        if one.typecode == "|-" and len(given) == 1 and name in FORMULAS:
            if variables(parsed(given[0])) == {name}:
                yield filled(parsed(given[0]), {name: term})
