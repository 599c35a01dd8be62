"""What `repeats` says, against trying everything in databases made by chance."""

import itertools
import os
from unittest import mock

from query.answers.output import Output
from query.arguments.context import Context
from query.arguments.filters import filters_of
from query.cli import parser_of
from query.commands import command
from query.commands.repeats import candidates
from query.reports.choice import Options
from query.spare.conventions import conventions_of
from query.spare.repeats import HOW, Finder
from query.spare.rules import Rules
from query.spare.search import Shelf
from query.tests.test_spare_search import SETS, Everything, Maker, Term, filled, parsed, variables
from query.tests.world import World, database_text
from query.texts.assertions import Assertion
from query.texts.text import Text

TEXT = """$c ( ) -> |- wff $.
$v p q r $.
wp $f wff p $. wq $f wff q $. wr $f wff r $.
wi $a wff ( p -> q ) $.
ax $a |- ( p -> p ) $.
ay $a |- ( p -> ( q -> q ) ) $.
${ $d p q $. az $a |- ( p -> ( q -> p ) ) $. $}
t1 $p |- ( q -> q ) $= wq ax $.
t2 $p |- ( ( p -> q ) -> ( p -> q ) ) $= wp wq wi ax $.
${ t3.1 $e |- p $. t3 $p |- ( r -> r ) $= wr ax $. $}
${ $d p q $. t4 $p |- ( q -> ( p -> p ) ) $= wq wp ay $. $}
${ $d q r $. t5 $p |- ( r -> ( q -> r ) ) $= wr wq az $. $}
t6OLD $p |- ( r -> r ) $= wr ax $.
$( (New usage is discouraged.) $)
t7 $p |- ( r -> r ) $= wr ax $.
$( New. $)
${ m.1 $e |- p $. m.2 $e |- ( p -> q ) $. m $a |- q $. $}
${ n.1 $e |- ( r -> q ) $. n.2 $e |- r $. n $p |- q $= wr wq n.2 n.1 m $. $}
"""


class Repeats(World):
    """Over a small database."""

    def rows(self, *words: str) -> list[list[str]]:
        """The rows of an answer."""
        lines = self.answers("repeats", "--format", "tsv", *words)
        self.assertEqual(lines[0].split("\t"), ["theorem", "earlier", "how", "only", "besides"])
        return [line.split("\t") for line in lines[1:]]

    def test_small(self) -> None:
        self.write("db.mm", TEXT)
        wanted = [
            ["t1", "ax", "same", "", ""],
            ["t2", "ax", "instance", "", ""],
            ["t3", "ax", "weaker", "", ""],
            ["t4", "ay", "weaker", "", ""],
            ["t5", "az", "same", "", ""],
            ["n", "m", "same", "", ""],
        ]
        self.assertEqual(self.rows("db.mm"), wanted)
        kept = [["t6OLD", "ax", "same", "", ""], ["t7", "ax", "same", "", ""]]
        self.assertEqual(self.rows("db.mm", "--kept"), [*wanted[:5], *kept, *wanted[5:]])
        self.assertEqual(self.rows("db.mm", "--like", "t*", "--not", "t1,t2,t3"), wanted[3:5])
        for how in HOW:
            told = [row for row in wanted if row[2] == how]
            self.assertEqual(self.rows("db.mm", "--how", how), told)
        said = "mmquery: db.mm: 2 more with --kept --other-mathboxes; the first is t6OLD\n"
        self.assertEqual(self.query("repeats", "db.mm").err, said)
        self.assertEqual(self.query("repeats", "db.mm", "--no-cache").err, said)
        self.assertEqual(self.query("repeats", "db.mm", "--kept").err, "")
        done = self.query("repeats", "db.mm", "--how=weaker", "--before=t3")
        self.assertIn("no theorem says what an earlier statement says in the way", done.err)

    def test_other_mathboxes(self) -> None:
        """What repeats a statement of another mathbox alone is listed where that is asked for."""
        text = TEXT[: TEXT.index("ay $a")] + "k $a |- ( p -> ( q -> p ) ) $.\n"
        text += "${ m.1 $e |- p $. m.2 $e |- ( p -> q ) $. m $a |- q $. $}\n"
        line, proof = "#*" * 10, "wq wq wi wp wq wq wi wi wq ax wq wq wi wp k m"
        for name, label in (("A", "u"), ("B", "v")):
            text += f"$(\n{line}\nMathbox for {name}\n{line}\n$)\n"
            text += f"{label} $p |- ( p -> ( q -> q ) ) $= {proof} $.\n"
        self.write("db.mm", text)
        self.assertEqual(self.rows("db.mm"), [])
        found = [["v", "u", "same", "", ""]]
        self.assertEqual(self.rows("db.mm", "--other-mathboxes"), found)
        self.assertEqual(self.rows("db.mm", "--other-mathboxes"), found, "from what is kept")
        self.assertEqual(self.rows("db.mm"), [])

    def test_what_is_kept(self) -> None:
        """With what is kept the answers are the same, and nothing is sought."""
        self.write("db.mm", TEXT)
        asked: list[list[str]] = [
            [],
            ["--kept"],
            ["--how=same"],
            ["--like=t*"],
            ["--like=x"],
            ["--before=t4"],
        ]
        before = [self.query("repeats", "db.mm", *words, "--no-cache") for words in asked]
        filtered = self.query("repeats", "db.mm", "--like=t*")
        kept = self.cache / "mmquery"
        count = len([*kept.iterdir()])
        self.assertEqual(filtered, before[3])
        self.assertEqual(self.query("repeats", "db.mm"), before[0])
        self.assertEqual(len([*kept.iterdir()]), count + 2, "both that were found are kept")
        for words, wanted in zip(asked, before):
            self.assertEqual(self.query("repeats", "db.mm", *words), wanted, words)
        self.assertEqual(len([*kept.iterdir()]), count + 3, "and that of --kept apart from it")
        path = str(self.folder / "db.mm")
        surroundings = self.surroundings()
        with (
            mock.patch.dict(os.environ, surroundings),
            mock.patch.object(Finder, "repeats", side_effect=AssertionError),
        ):
            arguments = parser_of(command("repeats")).read([path, "--like=t4"])
            context = Context(Output("tsv"), True, filters_of(arguments))
            command("repeats").run(context, arguments)
        self.assertEqual(b"".join(context.out.taken()).count(b"\n"), 2)

    def test_what_each_rests_on(self) -> None:
        text = TEXT[: TEXT.index("t1 $p")]
        text += "u $a |- ( q -> q ) $. v $p |- ( q -> q ) $= wq u $.\n"
        self.write("db.mm", text)
        self.assertEqual(self.rows("db.mm"), [["v", "ax", "same", "u", "ax"]])
        self.refuses("repeats", "db.mm", "--only", "x", why="no axiom of typecode 'x'")
        self.write("report", self.report("db.mm"))
        self.refuses("repeats", "report", why="a report, where the database is wanted")
        self.write("none.mm", text[: text.index("u $a")] + "w $p |- ( p -> ( q -> p ) ) $= ? $.\n")
        done = self.query("repeats", "none.mm")
        self.assertEqual(done.status, 2)


class Tried:
    """What repeats what, by trying everything."""

    def __init__(self, text: Text) -> None:
        self.text = text
        self.everything = Everything(text, {})

    def how(self, theorem: Assertion, earlier: Assertion) -> str | None:
        """How a theorem says what an earlier statement says."""
        given = {parsed(one) for one in self.given(theorem)}
        term = parsed(theorem.formula)
        parts: list[Term] = sorted(
            {part for each in given | {term} for part in subterms_of(each)}, key=str
        )
        if not self.everything.has_step(theorem, earlier.label, term, given, parts):
            return None
        return self.renamed(theorem, earlier, given) or "instance"

    def given(self, one: Assertion) -> list[str]:
        """The `$e` hypotheses of an assertion."""
        return [each.formula for each in one.frame().hypotheses() if each.kind == "e"]

    def renamed(self, theorem: Assertion, earlier: Assertion, given: set[Term]) -> str | None:
        """Whether the earlier statement with other names of variables is the theorem, or says more;
        None for neither."""
        other, premises = parsed(earlier.formula), [parsed(one) for one in self.given(earlier)]
        names = sorted(set().union(variables(other), *map(variables, premises)))
        own = sorted(set().union(*map(variables, [parsed(theorem.formula), *given])))
        for chosen in itertools.permutations(own, len(names)):
            binding: dict[str, Term] = dict(zip(names, chosen))
            if any((name in SETS) != (binding[name] in SETS) for name in names):
                continue
            ones = {filled(each, binding) for each in premises}
            if filled(other, binding) != parsed(theorem.formula) or not ones <= given:
                continue
            if self.everything.keeps(theorem, earlier.label, binding):
                pairs = [len([*one.frame().pairs()]) for one in (theorem, earlier)]
                return "same" if ones == given and pairs[0] == pairs[1] else "weaker"
        return None


def subterms_of(term: Term) -> set[Term]:
    """A term and its parts."""
    if isinstance(term, str):
        return {term}
    return {term, *subterms_of(term[1]), *subterms_of(term[2])}


class ByChance(World):
    """The same theorems are listed, in the same way."""

    def test_all(self) -> None:
        counts = dict.fromkeys((*HOW, None), 0)
        for seed in range(15):
            path = str(self.folder / self.write("chance.mm", Maker(seed).text(40)))
            database = Context(uses_cache=False).database(path, Options())
            rules = Rules(database.text, "|-")
            conventions = conventions_of(rules, cites_discouraged=True, cites_old=True)
            finder = Finder(rules, Shelf(rules, conventions))
            found = {
                one.theorem: one
                for one in finder.repeats(candidates(rules, True, lambda label: True))
            }
            tried = Tried(database_text(database.data()))
            logical = [one for one in tried.text.assertions if one.typecode == "|-"]
            for number, one in enumerate(logical):
                if one.kind == "a":
                    continue
                hows = [(tried.how(one, other), other.label) for other in logical[:number]]
                best = min(
                    (HOW.index(how), place) if how is not None else (len(HOW), place)
                    for place, (how, _) in enumerate(hows)
                )
                how, label = hows[best[1]]
                counts[how] += 1
                same = found.get(one.label)
                told = None if same is None else (same.how, same.earlier)
                self.assertEqual(told, None if how is None else (how, label), f"{seed} {one.label}")
        self.assertGreater(min(counts.values()), 5, counts)
