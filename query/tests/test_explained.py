"""What `verify` says of refused proofs, against a verifier written apart, and against metamath.exe,
on databases whose proofs were damaged by chance."""

import json
import os
import random
import re
import shutil
import unittest
from collections import deque
from unittest import mock

from query.platform import limits
from query.program.refusals import FAULTS
from query.proofs.explained import CODES
from query.proofs.replay import Budget, Replay, Rule, proof_before
from query.proofs.text_before import TextBefore
from query.tests import replay, shapes
from query.tests.world import DATABASES, SMALL, World, answered, built_program, database_text
from query.texts.uncommented import without_comments
from tests.shared import metamath

Row = dict[str, object]
SMALL_ONES = ("demo0.mm", "peano.mm", "big-unifier.mm", "hol.mm", "ql.mm")
"""Debian's small databases that have proofs."""
PROOF = re.compile(r"(?<=\$=)[^$]*(?=\$\.)")
FORMULA = re.compile(r"(?<=\$p)[^$]*(?=\$=)")
SHOWN = re.compile(r"(?m)^ *(\d+) (?:[\d,]+ )?(\S+) +(?:@\d+: )?\$[aefp] ?(.*)$")


def swapped(chance: random.Random, words: list[str]) -> list[str]:
    """Two adjacent words of a list in the other order."""
    place = chance.randrange(max(1, len(words) - 1))
    return words[:place] + words[place : place + 2][::-1] + words[place + 2 :]


def damaged_proof(chance: random.Random, proof: str) -> str:
    """A proof with a step that is another one, lacking, or in another place."""
    words = proof.split()
    start = words.index(")") + 1 if words[0] == "(" else 0
    steps = [*"".join(words[start:])] if start else words
    place, way = chance.randrange(len(steps)), chance.randrange(4)
    if way == 0:
        steps[place] = chance.choice(steps)
    elif way == 1:
        del steps[place]
    elif way == 2:
        steps.insert(place, chance.choice(steps))
    else:
        steps = swapped(chance, steps)
    told = "".join(steps) if start else " ".join(steps)
    return f" {' '.join(words[:start])} {told} "


def damaged(chance: random.Random, text: str, count: int) -> str:
    """A database in which so many proofs or formulas of theorems are others, and some `$d` lack."""
    parts = re.split(r"(\$\(.*?\$\))", text, flags=re.DOTALL)
    text = "".join(part for part in parts if not part.startswith("$("))
    proofs = [*PROOF.finditer(text)]
    edits = [
        (one.span(), damaged_proof(chance, one[0]))
        for one in chance.sample(proofs, min(count, len(proofs)))
    ]
    formulas = [*FORMULA.finditer(text)]
    for one in chance.sample(formulas, min(count // 4, len(formulas))):
        typecode, *symbols = one[0].split()
        edits.append((one.span(), f" {' '.join((typecode, *swapped(chance, symbols)))} "))
    restrictions = [*re.finditer(r"\$d\s[^$]*\$\.", text)]
    for one in chance.sample(restrictions, min(count // 8, len(restrictions))):
        edits.append((one.span(), ""))
    for (start, end), new in sorted(edits, reverse=True):
        text = text[:start] + new + text[end:]
    return text


def short(step: str) -> str:
    """A step whose formula is cut where it is long."""
    number, label, formula = step.split(" ", 2)
    return f"{number} {label} {formula if len(formula) <= 300 else formula[:300] + ' ..'}".strip()


def words_of(value: object) -> list[str]:
    """A value that is a list of words."""
    assert isinstance(value, list)
    return value


class Explained(World):
    """A test that has `verify` explain refusals."""

    def setUp(self) -> None:
        super().setUp()
        patch = mock.patch.dict(os.environ, {"MMDEPEND": built_program()})
        patch.start()
        self.addCleanup(patch.stop)

    def rows(self, text: str, most: int = 1000) -> list[Row]:
        """What is said of each fault of a database."""
        path = str(self.folder / self.write("bad.mm", text))
        words = ("verify", path, "--each", "--most", str(most))
        found: list[Row] = json.loads(answered("json", *words))
        return found

    def lines(self, text: str) -> list[str]:
        """What a person is told of the first fault."""
        self.write("bad.mm", text)
        done = self.query("verify", "bad.mm")
        self.assertEqual((done.status, done.err), (1, ""))
        return done.lines()


def databases() -> list[tuple[str, str]]:
    """The small databases that there are, and one of our own."""
    paths = [DATABASES / name for name in SMALL_ONES]
    found = [(path.name, path.read_text("latin-1")) for path in paths if path.exists()]
    return [("small.mm", SMALL + MORE), *found]


MORE = """$v r $. wr $f wff r $.
${ $d p q $. dist $a |- ( p -> q ) $. $}
${ $d p q r $. dist3 $a |- ( p -> ( q -> r ) ) $. $}
${ $d p q $. d1 $p |- ( p -> q ) $= wp wq dist $. $}
${ $d p q $. $d p r $. d2 $p |- ( p -> ( q -> r ) ) $= wp wq wr wi dist $. $}
${ $d p q $. $d p r $. $d q r $. d3 $p |- ( p -> ( q -> r ) ) $= wp wq wr dist3 $. $}
${ $d p q $. $d p r $. d4 $p |- ( p -> ( q -> r ) ) $= ( wi dist ) ABCDE $. $}
${ h1 $e |- p $. h2 $e |- ( p -> q ) $. mp2 $p |- q $= ( ax-mp ) ABCDE $. $}
${ g1 $e |- ( p -> p ) $. m1 $p |- ( ( p -> p ) -> ( p -> p ) ) $= ( wi ax-1 ax-mp ) AACZFFCZBFFDE
  $. $}
"""
"""Behind `SMALL`, what has `$d` and compressed proofs."""


EACH = (
    (
        "${ e1 $e |- p $. x $p |- ( q -> p ) $= wp wq wp wi e1 wq wp ax-1 ax-mp $. $}",
        """
the step          9, ax-mp
its hypothesis    maj, |- ( p -> q )
it wants          |- ( p -> ( q -> p ) )
step 8 has        |- ( q -> ( p -> q ) )
it takes          1  wp   wff p
                  4  wq   wff ( q -> p )
                  5  min  |- p
                  8  maj  |- ( q -> ( p -> q ) )
the steps before  4  wi    wff ( q -> p )
                  5  e1    |- p
                  6  wq    wff q
                  7  wp    wff p
                  8  ax-1  |- ( q -> ( p -> q ) )
""",
    ),
    (
        "${ e1 $e |- p $. x $p |- ( q -> p ) $= ( wi ax-1 $( a comment $) ) A\n C B D $. $}",
        """
the step          4, wi
its hypothesis    wp, wff p
it wants          wff p
step 2 has        |- p
it takes          2  wp  |- p
                  3  wq  wff q
the steps before  1  wp  wff p
                  2  e1  |- p
                  3  wq  wff q
""",
    ),
    (
        "${ $d q r $. x $p |- ( p -> ( q -> r ) ) $= ( wi dist ) ABCDE $. $}",
        """
the step          5, dist
its $d has        p and q
in place of p     p
in place of q     ( q -> r )
no active $d has  p and q
it takes          1  wp  wff p
                  4  wq  wff ( q -> r )
the steps before  1  wp  wff p
                  2  wq  wff q
                  3  wr  wff r
                  4  wi  wff ( q -> r )
""",
    ),
    (
        "${ $d p q $. x $p |- ( p -> ( p -> p ) ) $= wp wp wp wi dist $. $}",
        """
the step          5, dist
its $d has        p and q
in place of p     p
in place of q     ( p -> p )
both have         p
it takes          1  wp  wff p
                  4  wq  wff ( p -> p )
the steps before  1  wp  wff p
                  2  wp  wff p
                  3  wp  wff p
                  4  wi  wff ( p -> p )
""",
    ),
    (
        "x $p |- ( p -> p ) $= wp ax-1 $.",
        """
the step          2, ax-1
the stack         has 1 of the 2 entries that it takes
the steps before  1  wp  wff p
""",
    ),
    (
        "x $p |- ( p -> p ) $= ax-1 $.",
        """
the step          1, ax-1
the stack         has 0 of the 2 entries that it takes
""",
    ),
    (
        "x $p |- ( p -> p ) $= wp wp wp wp wp wp wp $.",
        """
the stack         has 7 entries, the last of the steps 3, 4, 5, 6, 7
the theorem says  |- ( p -> p )
the last steps    3  wp  wff p
                  4  wp  wff p
                  5  wp  wff p
                  6  wp  wff p
                  7  wp  wff p
""",
    ),
    (
        "x $p wff ( p -> p ) $= ( wi ) AABZCB $.",
        """
the proof proves  wff ( ( p -> p ) -> ( p -> p ) )
the theorem says  wff ( p -> p )
the last steps    1  wp  wff p
                  2  wp  wff p
                  3  wi  wff ( p -> p )
                  4  @3  wff ( p -> p )
                  5  wi  wff ( ( p -> p ) -> ( p -> p ) )
""",
    ),
    (
        "x $p wff p $= wp wp wp wp wp wi wi wi $.",
        """
the stack         has 2 entries, of the steps 1, 8
the theorem says  wff p
the last steps    1  wp  wff p
                  4  wp  wff p
                  5  wp  wff p
                  6  wi  wff ( p -> p )
                  7  wi  wff ( p -> ( p -> p ) )
                  8  wi  wff ( p -> ( p -> ( p -> p ) ) )
""",
    ),
)
"""Theorems behind these databases, and what a person is told of them."""


APART = (
    "$c a $. $v x y $. fx $f a x $. fy $f a y $.\n"
    "${ $d x y $. b $a a x y $. $} t $p a x OTHER $= fx fOTHER b $.\n"
)
PARTS = """$c a w $. $v x y z p $. fx $f a x $. fy $f a y $. fz $f a z $. fp $f w p $.
pair $a w y z $. ${ $d x p $. b $a w x p $. $} t $p w x y z $= fx fy fz pair b $.
"""
ADVICE = (
    (
        APART.replace("OTHER", "x"),
        "use another variable in place of x on one side: no `$d` helps there",
    ),
    (APART.replace("OTHER", "y"), "add `$d x y $.` to the theorem, or use other variables"),
    (PARTS, "add `$d x y $. $d x z $.` to the theorem, or use other variables"),
    (
        PARTS.replace("fy fz", "fx fz").replace("w x y z $=", "w x x z $="),
        "add `$d x z $.` to the theorem, or use other variables; use another variable in place of x"
        " on one side: no `$d` helps there",
    ),
)
"""Databases that are refused for E36, and what is advised."""


class Told(Explained):
    """What a person is told, and where nothing more can be said."""

    HEAD = SMALL + MORE

    def after(self, theorem: str) -> list[str]:
        """The lines behind what the code means and what to do, of a theorem `x` at the end."""
        lines = self.lines(f"{self.HEAD}{theorem}\n")
        self.assertRegex(lines[0], r"\Abad\.mm:\d+:\d+: refused E3\d in 'x': ")
        self.assertRegex(lines[1], r"\A  what to do        ")
        return lines[2:]

    def clause(self, theorem: str) -> str:
        """What the gate says of it behind what to do."""
        self.write("old.mm", self.HEAD)
        self.write("bad.mm", f"{self.HEAD}{theorem}\n")
        done = self.query("gate", "old.mm", "bad.mm")
        match = re.fullmatch(r"(bad\.mm:.*) \[valid\]\n1 finding: .*\n", done.out)
        assert match is not None, done
        self.assertEqual((done.status, done.err), (1, ""))
        advice = self.lines(f"{self.HEAD}{theorem}\n")[1].removeprefix("  what to do        ")
        return match[1].partition(f"; {advice}")[2]

    def test_each_fault(self) -> None:
        for theorem, wanted in EACH:
            lines = [f"  {line}" for line in wanted.strip().splitlines()]
            self.assertEqual(self.after(theorem), lines, theorem)

    def test_what_to_do_with_variables_that_are_not_distinct(self) -> None:
        """A `$d` is advised where it can be, and not for one variable twice."""
        for theorem, wanted in ADVICE:
            self.write("bad.mm", theorem)
            done = self.query("verify", "bad.mm")
            self.assertIn(f"\n  what to do        {wanted}\n", done.out)
            (row,) = json.loads(self.query("verify", "bad.mm", "--format=json").out)
            self.assertEqual(row["advice"], wanted)

    def test_all_that_is_missing(self) -> None:
        """Of all steps; of many pairs the first are named, and the others counted."""
        both = "${ b1 $e |- p $. b2 $e |- q $. both $a |- p $. $}\n"
        proof = "wp wq dist wp wr dist q2 both".replace("q2 ", "")
        theorem = f"x $p |- ( p -> q ) $= wp wq wi wp wr wi {proof} $."
        self.write("bad.mm", f"{self.HEAD}{both}{theorem}\n")
        (row,) = json.loads(self.query("verify", "bad.mm", "--format=json").out)
        self.assertEqual((row["step"], row["missing"]), (9, ["p q", "p r"]))
        self.assertIn("add `$d p q $. $d p r $.` to the theorem", row["advice"])
        for count, more in ((20, ""), (21, " and 1 more"), (1001, " and 980 more")):
            names = [f"z{number}" for number in range(count)]
            text = f"$c a $. $v x y {' '.join(names)} $. fx $f a x $. fy $f a y $.\n"
            text += "".join(f"f{name} $f a {name} $. " for name in names)
            text += f"all $a a {' '.join(names)} $. ${{ $d x y $. b $a a x $. $}}\n"
            text += f"t $p a x $= fx {' '.join(f'f{name}' for name in names)} all b $.\n"
            text = text.replace("b $a a x $.", "b $a a x y $.").replace(
                "t $p a x $=", f"t $p a x {' '.join(names)} $="
            )
            self.write("bad.mm", text)
            (row,) = json.loads(self.query("verify", "bad.mm", "--format=json").out)
            self.assertEqual(len(row["missing"]), min(count, 1000))
            self.assertIn(f"$d x z19 $.`{more} to the theorem", row["advice"])
            unseen = f"what the steps from {count + 3} on lack isn't known"
            self.assertEqual(unseen in row["advice"], count > 1000)

    def test_the_gate_says_it_in_a_clause(self) -> None:
        for theorem, wanted in EACH:
            lines = [re.split(r"  +", line, maxsplit=1) for line in wanted.strip().splitlines()]
            names = [" ".join(line) for line in lines if line[0] and not line[0].endswith(" steps")]
            names = [
                each for each in names if not each.startswith(("the steps before", "it takes"))
            ]
            self.assertEqual(self.clause(theorem), "".join(f"; {name}" for name in names), theorem)

    def doubled(self, times: int) -> str:
        """Letters of a formula that is doubled so many times, with `wi` as the second number."""
        return "AABZ" + "".join(f"{shapes.letters(3 + k) * 2}BZ" for k in range(times))

    def test_giants(self) -> None:
        """Of formulas that are too long it is told which step has them."""
        proof = f"x $p wff ( p -> p ) $= ( wi ) {self.doubled(19)} $."
        lines = self.after(proof)
        self.assertEqual(lines[0], "  the step          57, wi")
        self.assertEqual(lines[1], "  its formula       has 2097150 symbols")
        self.assertRegex(lines[-1], r"\A {20}56  @54  wff \( .{294} \.\.\Z")
        with mock.patch.object(limits, "EXPLAINED_SYMBOLS", 100_000):
            (row,) = self.rows(self.HEAD + proof)
        self.assertEqual((row["code"], row["step"], row["cited"]), ("E39", 57, "wi"))
        self.assertEqual(row["steps"], None)

    def test_formulas_that_differ_late(self) -> None:
        """They are shown from where they differ on, however long they are."""
        for times in (7, 15):
            proved = ["p"]
            for _ in range(times):
                proved = ["(", *proved, "->", *proved, ")"]
            proof = "AAB" + "".join(f"Z{shapes.letters(4 + k)}B" for k in range(times - 1))
            says = " ".join([*proved[: -times - 1], "q", *proved[-times:]])
            lines = self.after(f"x $p wff {says} $= ( wi ) {proof.replace('B', 'C')} $.")
            self.assertRegex(lines[0], r"\A  the proof proves  \.\. .{0,60}p( \))+\Z")
            self.assertRegex(lines[1], r"\A  the theorem says  \.\. .{0,60}q( \))+\Z")

    def told(self) -> list[str]:
        """The lines about the database that was refused, from this process."""
        path = str(self.folder / "bad.mm")
        return answered("text", "verify", path).decode().replace(path, "bad.mm").splitlines()

    def test_limits(self) -> None:
        """At each of them the refusal stays, and what needs no formula is told."""
        wrong = f"{self.HEAD}{EACH[0][0]}\n"
        lines = self.lines(wrong)
        too_long = "  the formulas      are too long to show"
        for name, most, wanted in (
            ("EXPLAINED_SYMBOLS", 70, [*lines[:3], too_long]),
            ("EXPLAINED_PROOF", 10, [*lines[:2], too_long]),
            ("EXPLAINED_BYTES", 100, lines[:2]),
        ):
            with mock.patch.object(limits, name, most):
                self.assertEqual(self.told(), wanted)
        with mock.patch.object(limits, "EXPLAINED_FORMULA", 20):
            (row,) = self.rows(wrong)
        self.assertEqual((row["proved"], row["wanted"], row["step"]), (None, None, 9))

    def test_the_refusal_stays(self) -> None:
        """Where the program fails, says what isn't understood, or tells assertions by which the
        proof has no fault, or another one."""
        self.write("other.mm", SMALL.replace("wi", "wj"))
        said = '"$real" "$@" >said; sed \'{}\' said >new; cmp -s said new && touch same; cat new'
        for number, way in (
            (0, "exit 3"),
            (0, "kill -9 $$"),
            (0, "echo 'refused 1:1 E01'; exit 1"),
            (0, "head -c 1000 /dev/urandom"),
            (0, "while :; do :; done"),
            (0, "exec yes"),
            (0, '"$real" "$@" | head -n 6'),
            (0, '"$real" "$@" other.mm'),
            (0, said.format("s/ax-1/ax-2/")),
            (0, said.format("s/|- ( p -> ( q -> p ) )/|- ( q -> ( p -> q ) )/")),
            (2, said.format("s/ $d p q//")),
            (4, said.format("s/ $f wq wff q $a |- / $a |- /")),
            (7, said.format("s/$p wff .*/$p wff ( ( p -> p ) -> ( p -> p ) )/")),
        ):
            lines = self.lines(f"{self.HEAD}{EACH[number][0]}\n")
            self.assertGreater(len(lines), 2)
            script = f"#!/bin/sh\nreal={built_program()}\n"
            script += (
                f'case " $* " in *" --report=statements "*) {way} ;; *) exec "$real" "$@" ;; esac'
            )
            self.write("fails", script + "\n")
            (self.folder / "fails").chmod(0o755)
            words = ("verify", "bad.mm", "--limit-time", "1")
            done = self.query(*words, MMDEPEND=str(self.folder / "fails"))
            code = lines[0].partition(" refused ")[2][:3]
            wanted = [lines[0], f"  what to do        {FAULTS[code][1]}"]
            self.assertEqual((done.status, done.err, done.lines()), (1, "", wanted), way)
            self.assertFalse((self.folder / "same").exists(), way)

    def test_it_is_told_of_texts_that_are_whole_up_to_there(self) -> None:
        """Whatever comes behind the proof; and of several proofs, each by itself."""
        wrong = f"{self.HEAD}{EACH[0][0]}\n"
        lines = self.lines(wrong)
        for more in ("$( never closed", "$c", "${ ${", "x $p x $.", "$}", "\x00"):
            self.assertEqual(self.lines(wrong + more)[2:] if more else [], lines[2:], more)
        several = "".join(
            re.sub(r"\be1\b", f"e{number}", theorem.replace("x $p", f"x{number} $p")) + "\n"
            for number, (theorem, _) in enumerate(EACH)
        )
        self.write("bad.mm", self.HEAD + several)
        done = self.query("verify", "--each", "bad.mm")
        told = re.split(r"(?m)^bad\.mm.*\n  what to do .*\n", done.out)[1:]
        self.assertEqual(len(told), len(EACH))
        for number, (said, (theorem, wanted)) in enumerate(zip(told, EACH)):
            lines = [f"  {line}".replace("e1 ", f"e{number} ") for line in wanted[1:].splitlines()]
            self.assertEqual(said.splitlines(), lines, theorem)


HYPOTHESIS = """${ e1 $e |- p $. $( e1 $e $) rule $a |- q $.
$} rule2 $a |- p $."""
NAMES = (
    (
        f"{HYPOTHESIS}\nx $p |- p $= e1 $.",
        "the word          e1, which is declared on line 9 as a `$e` of rule; its block ends on"
        " line 10",
        "correct the label, or put the theorem into that block",
    ),
    (
        "${ ${ $v s $. ws $f wff s $. $}\nx $p |- p $= ws $. $}",
        "the word          ws, which is declared on line 9 as a `$f`; its block ends on line 9",
        "correct the label, or put the theorem into that block",
    ),
    (
        "${ x $p |- p $= e1 $.\ne1 $e |- p $. $}",
        "the word          e1, which is declared on line 10",
        FAULTS["E33"][1],
    ),
    (
        "x $p |- p $= rule2 $.\n$( rule2 $a $)\n" + HYPOTHESIS,
        "the word          rule2, which is declared on line 12",
        FAULTS["E33"][1],
    ),
    (
        "x $p |- p $= ( nowhere ) B $.",
        "the word          nowhere, which is declared nowhere",
        "correct the label, or declare what it names in front of the theorem",
    ),
    (
        "x $p |- p $= x $.",
        "the word          x, which is the label of this theorem, on line 9",
        "correct the label; no proof can cite its own theorem",
    ),
)
"""Theorems behind a database whose proofs have words that can't be cited, with what is told."""
NUMBERS = (
    ("( wi ) AABZCD", "D at step 5 is 4; the largest is C, 3: 1 hypothesis, 1 label, 1 Z"),
    ("( ) AA\nU $( a comment $) A", "UA at step 3 is 21; the largest is A, 1: 1 hypothesis"),
    (f"( wi ) {'U' * 9}A", "UUUUUUUUUA at step 1 is 9765621; the largest is B, 2: 1 hypothesis"),
)
"""Compressed proofs in which a number is too large, with what is told."""


class Named(Explained):
    """What is told of words that name something else, and of numbers for which there is nothing."""

    HEAD = SMALL.replace("\n", " ") + "\n" * 8

    def test_words_that_a_proof_cannot_cite(self) -> None:
        for theorem, line, advice in NAMES:
            wanted = [f"  {line}", f"  what to do        {advice}"]
            self.assertEqual(self.lines(f"{self.HEAD}{theorem}\n")[1:], wanted, theorem)
            (row,) = json.loads(self.query("verify", "bad.mm", "--format=json").out)
            self.assertEqual((row["code"], row["advice"]), ("E33", advice))
            self.write("old.mm", self.HEAD)
            told = " ".join(line.split())
            found = self.query("gate", "old.mm", "bad.mm").lines()[0]
            self.assertTrue(found.endswith(f"; {advice}; {told} [valid]"), found)

    def test_a_label_that_was_used_before(self) -> None:
        lines = self.lines(f"{self.HEAD}$( x $a $) y $a wff p $.\nx $a wff p $.\n\nx $a wff q $.")
        self.assertRegex(lines[0], r"\Abad\.mm:12:1: refused E15 in 'x': ")
        wanted = "  what to do        rename this statement or the one on line 10"
        self.assertEqual(lines[1:], ["  the label         x, which is used on line 10", wanted])
        (row,) = json.loads(self.query("verify", "bad.mm", "--format=json").out)
        self.assertEqual((row["word"], row["declared"]), ("x", 10))

    def test_numbers_that_are_too_large(self) -> None:
        for proof, wanted in NUMBERS:
            lines = self.lines(f"{self.HEAD}x $p wff ( p -> p ) $= {proof} $.\n")
            self.assertIn(" refused E45 in 'x': ", lines[0])
            self.assertTrue(lines[2].startswith(f"  the number        {wanted}"), lines)
        (row,) = json.loads(self.query("verify", "bad.mm", "--format=json").out)
        self.assertEqual((row["step"], row["cited"]), (1, None))
        lines = self.lines("$c a $. b $a a $. x $p a $= ( ) A $.")
        self.assertIn("A at step 1 is 1; there are none: 0 hypotheses, 0 labels, 0 Z", lines[2])
        for count in (1000, 1_000_000):
            lines = self.lines(f"{self.HEAD}x $p |- p $= ( wi ) {'U' * count}A $.\n")
            self.assertEqual(lines[1:], [f"  what to do        {FAULTS['E45'][1]}"])


class Outlines(World):
    """The beginning of a text, up to a theorem."""

    TEXT = b"""$c |- wff ( -> ) $. $v p q r $. wp $f wff p $. $d p q $.
    ${ wq $f wff q $. wr $f wff r $. $d q r $. a $a |- ( q -> r ) $. $}
    ${ $d p r $. ${ wr2 $f wff r $. $d p r $. e $e |- p $. t $p |- p $= a b $. $}
    u $p |- p $= ( a ) B $. v $p |- p $= wp c $. $}
    """

    def test_what_is_active(self) -> None:
        places = [self.TEXT.index(word) for word in (b"b $.", b"B $.", b"c $.")]
        outline = TextBefore(self.TEXT, places, {b"a"})
        told = [(one.label, [each.split() for each in one.distinct()]) for one in outline.theorems]
        both, one = [b"p", b"q"], [b"p", b"r"]
        self.assertEqual(told, [("t", [one, one, both]), ("u", [one, both]), ("v", [one, both])])
        self.assertEqual(outline.variables, {"p", "q", "r"})
        self.assertEqual(outline.floating["wr2"], ["wff", "r"])

    def test_the_text_for_the_program(self) -> None:
        """It has what is cited, and each theorem, and is accepted."""
        for word, cited, wanted in (
            (b"b $.", {b"a"}, ["a", "t"]),
            (b"b $.", set[bytes](), ["t"]),
            (b"c $.", {b"a", b"u"}, ["a", "u", "v"]),
        ):
            outline = TextBefore(self.TEXT, [self.TEXT.index(word)], cited)
            told = database_text(outline.text()).assertions
            self.assertEqual([one.label for one in told], wanted)
            self.assertEqual({one.letter for one in told[-1:]}, {"o"})

    def test_what_is_not_lawful(self) -> None:
        for text in (b"$} x $p |- p $= a $.", b"$a |- $. x $p |- p $= a $.", b"a b $a |- p $. x"):
            with self.assertRaises((IndexError, ValueError), msg=text):
                TextBefore(text, [len(text) - 4], set())
        self.assertEqual(TextBefore(b"x $p |- p", [3], set()).theorems, [])

    def test_many_restrictions(self) -> None:
        """A million that are active at each of many theorems take no more than once."""
        many = b"$d p q $. " * 1_000_000
        theorems = b"".join(b"t%d $p |- p $= a $. " % number for number in range(10_000))
        text = b"${ " + many + theorems
        places = [match.end() for match in re.finditer(rb"\$= ", text)]
        outline = TextBefore(text, places, set())
        self.assertEqual(len(outline.theorems), 10_000)
        self.assertEqual(sum(1 for _ in outline.theorems[-1].distinct()), 1_000_000)


class Apart(Explained):
    """Against a verifier written apart."""

    several = 0
    """How many proofs lacked several pairs."""
    others = 0
    """How many proofs had several steps with a hypothesis that isn't met."""

    def check(self, row: Row, fault: replay.Fault, why: str) -> None:
        """What is said is what is so."""
        self.assertEqual(row["code"], fault.code, why)
        for name in ("step", "cited", "hypothesis", "proved", "wanted"):
            self.assertEqual(row[name], getattr(fault, name), f"{why}: {name}")
        self.assertEqual(row["steps"], [*map(short, fault.steps)] or None, why)
        if fault.code == "E36":
            one, other = words_of(row["distinct"])
            first, second = row["first"], row["second"]
            if (one, other) not in fault.clashes:
                one, other, first, second = other, one, second, first
            clash = fault.clashes[one, other]
            self.assertEqual((first, second), clash[:2], why)
            self.assertIn(row["lacking"], clash.lacking, why)
            self.check_missing(row, fault, why)
        else:
            empty = [row[name] for name in ("distinct", "first", "second", "lacking", "missing")]
            self.assertEqual(empty, [None] * 5, why)

    def check_missing(self, row: Row, fault: replay.Fault, why: str) -> None:
        """All that is lacking is told once, and from which step on nothing is known."""
        missing = words_of(row["missing"])
        self.assertEqual(missing[0].split(), row["lacking"], why)
        self.assertEqual({frozenset(each.split()) for each in missing}, fault.missing, why)
        self.assertEqual(len(missing), len(fault.missing), why)
        unseen = re.findall(r"what the steps from (\d+) on lack isn't known", str(row["advice"]))
        self.assertEqual(unseen, [] if fault.unseen is None else [str(fault.unseen)], why)
        self.several += len(missing) > 1

    def test_by_chance(self) -> None:
        codes = dict.fromkeys(CODES, 0)
        for name, text in databases():
            for seed in range(12 if len(text) < 10_000 else 2):
                bad = damaged(random.Random(f"{name} {seed}"), text, 60)
                faults, wrong = replay.faults_of(bad), replay.wrong_steps(bad)
                for row in self.rows(bad):
                    if row["code"] in CODES:
                        codes[str(row["code"])] += 1
                        label = str(row["statement"])
                        why = f"{name}, seed {seed}, {label}"
                        self.check(row, faults[label], why)
                        others = wrong[label][1:] if row["code"] == "E35" else []
                        self.assertEqual(row["others"], others or None, why)
                        self.others += len(others) > 0
        self.assertGreater(min(codes[code] for code in CODES if code != "E39"), 10, codes)
        self.assertGreater(self.several, 4)
        # The small databases alone have one such proof.
        self.assertGreater(self.others, 0)


def told_by_metamath(said: str) -> dict[str, str]:
    """What metamath.exe says of the first fault of each theorem, without the line of the text."""
    found: dict[str, str] = {}
    for part in said.split("?Error on line ")[1:]:
        first, *others = part.split("\n")
        match = re.search(r', label "(.*)", type "\$p":', first)
        lines = [line for line in others[2:] if not re.fullmatch(r"\.*", line)]
        if match is not None:
            found.setdefault(match[1], "\n".join(lines))
    return found


def lacking_by_metamath(said: str) -> dict[str, set[frozenset[str]]]:
    """What all messages of metamath.exe on a theorem say that isn't distinct."""
    found: dict[str, set[frozenset[str]]] = {}
    for part in said.split("?Error on line ")[1:]:
        match = re.search(r', label "(.*)", type "\$p":', part)
        if match is not None:
            pairs = LACKING.findall(part)
            found.setdefault(match[1], set()).update(frozenset(pair) - {""} for pair in pairs)
    return found


NOT_UNIFIED = re.compile(
    r'The hypotheses of statement "(\S+)" at proof step (\d+) cannot be unified'
)
UNIFIED = re.compile(r"(?m)^ *Hypothesis \d+:  (.*)\n *Step (\d+):  (.*)$")
NOT_DISTINCT = re.compile(
    r'disjoint variable \(\$d\) violation at proof step (\d+).\s+Assertion\s+"(\S+)" requires'
    r'\s+that\s+variables\s+"(\S+)" and "(\S+)" be disjoint.\s+But "(\S+)" was substituted with'
    r'\s+"(.*?)"\s+and "(\S+)"\s+was substituted with\s+"(.*?)"\.'
)
LACKING = re.compile(
    r'Variables\s+"(\S+)"\s+and\s+"(\S+)"\s+do\s+not|have\s+variable\s+"(\S+)"\s+in\s+common'
)
NOT_PROVED = re.compile(r'The result is "(.*?)" but\s+the\s+statement\s+is "(.*?)"\.')
TOO_FEW = re.compile(r'At proof step (\d+), statement "(\S+)" requires (\d+) hypothes[ei]s but')
TOO_MANY = re.compile(r"the RPN stack contains (\d+) entries")


@unittest.skipUnless(shutil.which("metamath"), "metamath isn't installed")
@unittest.skipUnless((DATABASES / "ql.mm").exists(), "Debian's databases aren't installed")
class Metamath(Explained):
    """Against what metamath.exe says of the same proofs."""

    def asked(self, commands: list[str]) -> list[str]:
        """What it says of the database that was refused."""
        return metamath.asked(self.folder / "bad.mm", commands)

    def check(self, row: Row, told: str) -> bool:
        """What it says of a fault is what we say; whether it speaks of the same fault at all."""
        code = row["code"]
        if code == "E35" and (match := NOT_UNIFIED.search(told)):
            self.assertEqual([match[1], int(match[2])], [row["cited"], row["step"]], told)
            self.check_unified(row, UNIFIED.findall(told), told)
        elif code == "E36" and (match := NOT_DISTINCT.search(told)):
            self.assertEqual([match[2], int(match[1])], [row["cited"], row["step"]], told)
            self.check_distinct(row, told)
        elif code == "E38" and (match := NOT_PROVED.search(told)):
            self.assertEqual([match[1], match[2]], [row["proved"], row["wanted"]], told)
        elif code == "E34" and (match := TOO_FEW.search(told)):
            self.assertEqual([match[2], int(match[1])], [row["cited"], row["step"]], told)
        else:
            return code == "E37" and TOO_MANY.search(told) is not None
        return True

    def check_unified(self, row: Row, pairs: list[tuple[str, str, str]], told: str) -> None:
        """The hypothesis is the first that doesn't fit, of all that it lists. These are told."""
        takes = [each.split(" ", 2) for each in words_of(row["takes"])]
        wanted_takes = [(number, short(f"0 x {found}")[4:]) for _, number, found in pairs]
        self.assertEqual([(each[0], each[2]) for each in takes], wanted_takes, told)
        values = {
            says.split(" ")[1]: found.partition(" ")[2]
            for says, _, found in pairs
            if says.count(" ") == 1 and not says.startswith("|- ")
        }
        for says, number, found in pairs:
            wanted = replay.replaced(says, values) if says.startswith("|- ") else says
            is_same = wanted.split(" ")[0] == found.split(" ")[0]
            if wanted != found and (says.startswith("|- ") or not is_same):
                self.assertEqual([row["proved"], row["wanted"]], [found, wanted], told)
                for step in words_of(row["steps"]):
                    shown, label, _ = step.split(" ", 2)
                    if shown == number:
                        self.assertEqual(step, short(f"{shown} {label} {found}"))
                return
        self.fail(told)

    def check_distinct(self, row: Row, told: str) -> None:
        """The pair is one of those that it lists."""
        found = []
        for match, names in zip(NOT_DISTINCT.finditer(told), LACKING.finditer(told)):
            pair = {match[5]: match[6], match[7]: match[8]}
            found.append((pair, [each for each in names.groups() if each]))
        one, other = words_of(row["distinct"])
        values = {one: str(row["first"]), other: str(row["second"])}
        lacking = words_of(row["lacking"])
        known = [(pair, sorted(names)) for pair, names in found]
        self.assertIn((values, sorted(lacking)), known, told)

    def test_by_chance(self) -> None:
        codes, several = dict.fromkeys(CODES, 0), 0
        for name, text in databases():
            for seed in range(12 if len(text) < 10_000 else 2):
                rows = self.rows(damaged(random.Random(f"{name} {seed}"), text, 60))
                (said,) = self.asked(["verify proof *"])
                told, lacking = told_by_metamath(said), lacking_by_metamath(said)
                for row in rows:
                    if row["code"] == "E36" and lacking.get(str(row["statement"])):
                        missing = {frozenset(each.split()) for each in words_of(row["missing"])}
                        self.assertEqual(missing, lacking[str(row["statement"])], row)
                        several += len(missing) > 1
                    if row["code"] in CODES and str(row["statement"]) in told:
                        is_same = self.check(row, told[str(row["statement"])])
                        codes[str(row["code"])] += is_same
        self.assertGreater(min(codes[code] for code in CODES if code != "E39"), 10, codes)
        self.assertGreater(several, 4)

    def test_numbers_of_all_steps(self) -> None:
        """Of proofs that are valid, all steps, as `show proof` lists them."""
        for name in ("hol.mm", "ql.mm"):
            if not (DATABASES / name).exists():
                continue
            data = (DATABASES / name).read_bytes()
            text = database_text(data)
            bare_text = without_comments(data)
            rules = {one.label: Rule(one) for one in text.assertions}
            theorems = [one for one in text.assertions if one.letter == "p"]
            chosen = random.Random(name).sample(theorems, 30)
            commands = [f"show proof {one.label} /lemmon /all" for one in chosen]
            for one, said in zip(chosen, metamath.asked(DATABASES / name, commands)):
                place = one.end - len("$.")
                proof = proof_before(bare_text, place)
                assert proof is not None
                floating = TextBefore(bare_text, [place], set()).floating
                replay = Replay(rules[one.label], rules.get, floating, Budget(10**7))
                replay.last = deque()
                replay.carry_out(proof.labels_of(rules[one.label]), proof.numbers)
                told = [
                    (str(each.number), each.label, " ".join(each.formula)) for each in replay.last
                ]
                self.assertEqual(told, SHOWN.findall(said), one.label)
                self.assertEqual(proof.count, len(told))

    def test_numbers_of_steps(self) -> None:
        """Of refused proofs the steps before, as `show proof` lists them."""
        compared = 0
        for name, text in databases():
            rows = self.rows(damaged(random.Random(f"steps of {name}"), text, 60))
            rows = [row for row in rows if row["code"] in CODES and row["steps"]]
            labels = [str(row["statement"]) for row in rows]
            told = self.asked([f"show proof {label} /lemmon /all" for label in labels])
            for row, said in zip(rows, told):
                shown = [short(" ".join(words)) for words in SHOWN.findall(said)]
                if shown:
                    steps = words_of(row["steps"])
                    start = int(steps[0].split(" ")[0]) - 1
                    self.assertEqual(shown[start : start + len(steps)], steps, name)
                    compared += 1
        self.assertGreater(compared, 50)


if __name__ == "__main__":
    unittest.main()
