"""The rule `definitions` of the gate, and who wants past it."""

import json

from query.tests.repositories import Repositories
from query.tests.unsound import BASE, DATABASES, SYMBOLS
from query.tests.world import World

ON = "definitions = true\n"
BY_PATTERN = ON + '[allow]\naxioms = ["*"]\n'
CLASS = "$c Foo $. cfoo $a class Foo $. "
RIGHT = CLASS + "df-foo $a |- Foo = { x | x = x } $.\n"
WRONG = CLASS + "df-foo $a |- Foo = x $.\n"
BAR = "$c Bar $. wbar $a wff Bar y $. ${ $d x y $. df-bar $a |- ( Bar y <-> A. x x = y ) $. $}\n"
UNBOUND = "a new definition that isn't sound (condition `bound`): nothing binds the dummy x"


class Judged(World):
    """What the rule finds of two files."""

    def found(self, old: str, new: str, config: str = ON) -> list[tuple[str, str, str]]:
        """The rule, the label and the reason of each finding."""
        self.write("mmdepend.toml", config)
        self.write("old.mm", old)
        self.write("new.mm", new)
        done = self.query("gate", "old.mm", "new.mm", "--format=json")
        answer = json.loads(done.out)
        self.assertEqual(done.status, 0 if answer["passed"] else 1, done)
        self.assertEqual("definitions" in answer["rules"], ON in config)
        return [(each["rule"], each["label"], each["reason"]) for each in answer["findings"]]


class Rule(Judged):
    """What passes, and what doesn't."""

    def test_a_sound_one_passes(self) -> None:
        """With the syntax axiom of what it defines, and without an allowance; a changed one too."""
        self.assertEqual(self.found(BASE, BASE + RIGHT), [])
        self.assertEqual(self.found(BASE + BAR, BASE + BAR + RIGHT), [])
        other = RIGHT.replace("{ x | x = x }", "{ x | F. }")
        self.assertEqual(self.found(BASE + RIGHT, BASE + other), [])
        for config in ("", "definitions = false\n"):
            found = self.found(BASE, BASE + RIGHT, config)
            self.assertEqual(
                [each[:2] for each in found], [("axioms", "cfoo"), ("axioms", "df-foo")]
            )

    def test_one_that_is_not(self) -> None:
        """A pattern doesn't let it in, a whole label does."""
        syntax = ("axioms", "cfoo", "a new axiom: class Foo")
        finding = ("definitions", "df-foo", UNBOUND)
        self.assertEqual(self.found(BASE, BASE + WRONG), [syntax, finding])
        for allowed in ('"df-*", "c*"', '"*"', '"df-f*", "cfoo"'):
            config = ON + f"[allow]\naxioms = [{allowed}]\n"
            self.assertEqual(self.found(BASE, BASE + WRONG, config), [finding], allowed)
        named = ON + '[allow]\naxioms = ["df-foo", "cfoo"]\n'
        self.assertEqual(self.found(BASE, BASE + WRONG, named), [])
        without = '[allow]\naxioms = ["*"]\n'
        self.assertEqual(self.found(BASE, BASE + WRONG, without), [])
        changed = UNBOUND.replace("a new", "a changed")
        found = self.found(BASE + RIGHT, BASE + WRONG, BY_PATTERN)
        self.assertEqual(found, [("definitions", "df-foo", changed)])
        found = self.found(BASE + WRONG, BASE + WRONG + BAR, BY_PATTERN)
        self.assertEqual(found, [], "what the base has is let be")

    def test_each_wrong_one(self) -> None:
        """All that prove something new, let in by a pattern: each is told with its condition."""
        for each in DATABASES:
            if each.options:
                continue
            base = BASE if "df-" in each.base else each.base
            found = self.found(base, each.database(), BY_PATTERN)
            self.assertEqual({rule for rule, _, _ in found}, {"definitions"}, each.name)
            told = {
                label: reason.partition("(condition `")[2].partition("`")[0]
                for _, label, reason in found
            }
            wanted = {
                label: condition
                for label, (sound, condition) in each.verdicts.items()
                if sound != "yes"
            }
            self.assertEqual(told, wanted, each.name)


class Attacks(Judged):
    """Ways past it."""

    def lost(self, more: str, label: str, why: str, config: str = BY_PATTERN) -> None:
        """What isn't called a definition makes one unsound that was sound."""
        before = BASE + RIGHT + BAR
        found = [each for each in self.found(before, more.format(before)) if each[0] != "axioms"]
        self.assertEqual(found, [], "the rule `axioms` tells what nobody lets in")
        ((rule, told, reason),) = self.found(before, more.format(before), config)
        self.assertEqual((rule, told), ("definitions", label))
        self.assertIn(why, reason)

    def test_a_grammar_that_is_made_ambiguous(self) -> None:
        """By a syntax axiom that a pattern lets in, or that no rule judges."""
        more = "{}$c << >> $. cs $a class << x >> $. ct $a class << A >> $.\n"
        why = "was sound, like 1 more, and now (condition `grammar`) isn't judged: the formula"
        self.lost(more, "df-foo", why)
        self.lost(more, "df-foo", why, ON + 'typecode = "|-"\n')
        self.lost(more, "df-foo", why, ON + "[rules]\naxioms = false\n")
        before = BASE + RIGHT
        named = ON + '[allow]\naxioms = ["cs", "ct"]\n'
        self.assertEqual(self.found(before, more.format(before), named), [])

    def test_what_is_put_before(self) -> None:
        """An axiom that has the form before its definition, or can't be read, or has a `$d`."""
        before = RIGHT.partition("df-foo")[0]
        start, _, end = (BASE + RIGHT + BAR).partition(before)
        use = f"{start}{before}use $a |- Foo = (/) $.\n{end}"
        ((rule, label, reason),) = self.found(BASE + RIGHT + BAR, use, BY_PATTERN)
        self.assertEqual((rule, label), ("definitions", "df-foo"))
        self.assertIn("(condition `new`) isn't sound: use before it has the form cfoo", reason)
        self.lost("{}bad $a |- ( ( $.\n", "df-foo", "(condition `read`) isn't judged: bad")
        pair = "{}$c P $. wp $a wff A P B $. ${{ $d A B $. pair $a |- ( A P B -> F. ) $. $}}\n"
        self.lost(pair, "df-foo", "(condition `pairs`) isn't judged: it has a dummy, and pair")
        self.lost("{}$c s $. cs $a setvar s x $.\n", "df-foo", "(condition `setvar`)")

    def test_what_an_axiom_speaks_of(self) -> None:
        """A definition that is sound by itself makes another axiom of one that was there: with both
        all is proved. It is changed, or new where its form was primitive, or within others."""
        empty, whole = (f"df-foo $a |- Foo = {each} $.\n" for each in ("(/)", "_V"))
        use = "use $a |- ( Foo = _V -> F. ) $.\n"
        bad = "bad $p |- F. $= cfoo cvv wceq wfal df-foo use ax-mp $.\n"
        inner = "$c Bar $. cbar $a class Bar $. df-bar $a |- Bar = Foo $.\n"
        use_bar = use.replace("Foo", "Bar")
        is_whole = "cbar cfoo cvv df-bar df-foo eqtri"
        bad_bar = f"bad $p |- F. $= cbar cvv wceq wfal {is_whole} use ax-mp $.\n"
        for old, new, word in (
            (CLASS + empty + use, CLASS + whole + use + bad, "changed"),
            (CLASS + use, CLASS + whole + use + bad, "new"),
            (CLASS + empty + inner + use_bar, CLASS + whole + inner + use_bar + bad_bar, "changed"),
            (CLASS + inner + use_bar, CLASS + whole + inner + use_bar + bad_bar, "new"),
        ):
            why = f"a {word} definition of cfoo, of which use speaks: that says another thing"
            for config in (ON, BY_PATTERN):
                found = self.found(BASE + old, BASE + new, config)
                self.assertEqual(found, [("definitions", "df-foo", why)], new)
            named = ON + '[allow]\naxioms = ["df-foo"]\n'
            self.assertEqual(self.found(BASE + old, BASE + new, named), [])
            # Where no axiom speaks of it, it passes; and so does one of what is new.
            one, other = (BASE + each.split("use $a")[0] for each in (old, new))
            self.assertEqual(self.found(one, other), [])
        named = ON + '[allow]\naxioms = ["use"]\n'
        self.assertEqual(self.found(BASE, BASE + CLASS + empty + use, named), [])
        self.assertEqual(self.found(BASE + CLASS + empty + use, BASE + CLASS + empty + use), [])
        opened = (
            CLASS + each + use.replace("$a", "$p").replace("$.", "$= ? $.")
            for each in (empty, whole)
        )
        one, other = (BASE + each for each in opened)
        why = "a changed definition of cfoo, of which use speaks: that says another thing"
        config = ON + '[allow]\nopen = ["use"]\n'
        self.assertEqual(self.found(one, other, config), [("definitions", "df-foo", why)])
        # That it is moved before the definition changes nothing.
        old, new = BASE + CLASS + empty + use, BASE + CLASS + use + empty
        self.assertEqual(self.found(old, new), [])

    def test_a_circle(self) -> None:
        """An axiom that is moved before a definition makes its form a primitive one, of which
        another definition may speak then. Both together prove anything."""
        forms = "$c Foo Bar $. wfoo $a wff Foo $. wbar $a wff Bar $.\n"
        foo, use = "df-foo $a |- ( Foo <-> Bar ) $.\n", "use $a |- ( Foo -> Foo ) $.\n"
        bar, circle = (
            f"df-bar $a |- ( Bar <-> {each} ) $.\n" for each in ("( F. -> F. )", "( Foo -> F. )")
        )
        same = "wfoo wbar wfoo wfal wi df-foo df-bar bitri"
        no = f"no $p |- ( Foo -> F. ) $= wfoo wfal wfoo wfoo wfal wi {same} biimpi con $.\n"
        turned = f"wfoo wfoo wfal wi {same} bicomi"
        bad = f"bad $p |- F. $= wfoo wfal wfoo wfal wi wfoo no {turned} mpbi no ax-mp $.\n"
        old = BASE + forms + bar + foo + use
        found = self.found(old, BASE + forms + use + circle + foo + no + bad)
        why = "a changed definition of wbar, of which df-foo speaks: that says another thing"
        self.assertEqual(found, [("definitions", "df-bar", why)])
        self.assertEqual(self.found(old, BASE + forms + use + bar + foo), [])
        found = self.found(old, BASE + forms + circle + foo + use + no + bad)
        self.assertEqual([each[:2] for each in found], [("definitions", "df-bar")])
        self.assertIn("(condition `rests`)", found[0][2])

    def test_labels(self) -> None:
        """Of another typecode, of the same form, and such as are on trust."""
        for axiom, typecode in (
            ("df-foo $a class Foo $.", "class"),
            ("df-foo $a |== Foo $.", "|=="),
        ):
            text = BASE + f"$c Foo |== $. {axiom}\n"
            why = f"called a definition, but isn't of typecode |- (condition `form`): {typecode}"
            self.assertEqual(self.found(BASE, text, BY_PATTERN), [("definitions", "df-foo", why)])
        twice = RIGHT + "cfoo2 $a class Foo $. df-foo2 $a |- Foo = _V $.\n"
        found = self.found(BASE, BASE + twice)
        self.assertEqual(
            [each[:2] for each in found], [("axioms", "cfoo2"), ("definitions", "df-foo2")]
        )
        trusted = "df-clel $a |- ( A e. B <-> F. ) $.\n"
        ((rule, label, reason),) = self.found(BASE, BASE + trusted, BY_PATTERN)
        self.assertEqual((rule, label), ("definitions", "df-clel"))
        self.assertIn("would be on trust (condition `new`)", reason)

    def test_a_new_label(self) -> None:
        """The old one is gone, and that has to be allowed as before."""
        found = self.found(BASE + RIGHT, BASE + RIGHT.replace("df-foo", "df-fo"))
        self.assertEqual([each[:2] for each in found], [("axioms", "df-foo")])
        found = self.found(BASE + RIGHT, BASE + CLASS)
        self.assertEqual([each[:2] for each in found], [("axioms", "df-foo")])

    def test_theorems_that_are_axioms(self) -> None:
        """What says that the equality is one is an axiom of the pull request, and is told."""
        found = self.found(SYMBOLS, SYMBOLS + "eqid $a |- A = A $.\n" + RIGHT)
        self.assertEqual([each[1] for each in found], ["eqid", "cfoo", "df-foo"])
        found = self.found(SYMBOLS, SYMBOLS + "eqid $a |- A = A $.\n" + RIGHT, BY_PATTERN)
        self.assertEqual([each[:2] for each in found], [("definitions", "df-foo")])
        self.assertIn("(condition `equality`)", found[0][2])


class Reviewed(World):
    """What `review` says of the definitions that a change brings."""

    def test_lines(self) -> None:
        tick = "$c ` $. ctick $a class ( A ` B ) $. df-tick $a |- ( A ` B ) = { x | x e. A } $.\n"
        more = "t $p |- ( ph -> ph ) $= wph id $.\n"
        old, new = self.write("old.mm", BASE), self.write("new.mm", BASE + RIGHT + tick + more)
        done = self.query("review", old, new)
        self.assertEqual(
            done.err,
            "mmquery: axioms: 4 new (cfoo, df-foo, ctick, df-tick); df-foo defines Foo as"
            " { x | x = x }; df-tick is a new definition that isn't sound (condition `distinct`)\n",
        )
        lines = self.query("review", old, new, "--format=markdown").lines()
        self.assertIn("- `df-foo` defines `Foo` as `{ x | x = x }`", lines)
        sound = tick.replace("df-tick", "${ $d x A $. $d x B $. df-tick") + "$}\n"
        new = self.write("new.mm", BASE + sound)
        lines = self.query("review", old, new, "--format=markdown").lines()
        self.assertIn("- `df-tick` defines `` ( A ` B ) `` as `{ x | x e. A }`", lines)
        many = "".join(
            f"$c F{n} $. f{n} $a class F{n} $. df-{n} $a |- F{n} = (/) $. " for n in range(70)
        )
        done = self.query("review", old, self.write("new.mm", BASE + many), "--format=markdown")
        told = done.lines()[: done.lines().index("**New statements**:")]
        self.assertEqual(sum(line.startswith("- `df-") for line in told), 60)
        self.assertIn("- 10 more definitions", told)

    def test_labels_that_markdown_means(self) -> None:
        """Those of a form, and of an axiom that speaks of it, are code as well."""
        syntax = "$c Foo $. www.evil.example $a class Foo $. "
        use = "GH-1 $a |- ( Foo = _V -> F. ) $.\n"
        old = self.write("old.mm", BASE + syntax + use)
        new = self.write("new.mm", f"{BASE}{syntax}df-foo $a |- Foo = (/) $. {use}")
        lines = self.query("review", old, new, "--format=markdown").lines()
        told = "- `df-foo` is a new definition of `www.evil.example`, of which `GH-1` speaks"
        self.assertIn(told, lines)

    def test_a_typecode_that_markdown_means(self) -> None:
        """It may be any symbol, and no word of the comment is a link or a mention by it."""
        old = self.write("old.mm", BASE)
        for typecode in ("www.evil.example", "@everyone", "<img/src=x>", "[x](y)"):
            text = f"{BASE}$c Foo {typecode} $. df-foo $a {typecode} Foo $.\n"
            words = ("review", old, self.write("new.mm", text), "--format=markdown")
            lines = self.query(*words).lines()
            told = "- `df-foo` is called a definition, but isn't of typecode |- (condition `form`)"
            self.assertIn(told, lines)
            said = [line for line in lines if typecode in line]
            self.assertEqual(said, [f"- `df-foo`: `{typecode} Foo`"], "as code alone")


class Brought(Repositories):
    """The file that is brought can't switch the rule on for itself."""

    def test_it_is_switched(self) -> None:
        self.ask("")
        self.commit(BASE)
        self.branch()
        self.write("mmdepend.toml", ON)
        self.commit(BASE + RIGHT)
        lines = self.gate(status=1)
        rules = sorted(line.rpartition(" ")[2] for line in lines)
        self.assertEqual(rules, ["[axioms]", "[axioms]", "[config]"])
        self.assertIn("`definitions` lets definitions that are sound in", lines[-1])
        self.git("checkout", "--quiet", "main")
        self.ask(BY_PATTERN)
        self.branch("other")
        self.write("mmdepend.toml", BY_PATTERN.replace("true", "false"))
        self.commit(BASE + WRONG)
        lines = self.gate(status=1)
        rules = [line.rpartition(" ")[2] for line in lines]
        self.assertEqual(rules, ["[definitions]", "[config]"])
        self.assertIn("the rule `definitions` is switched off", lines[-1])
