"""The rules `newly` and `new` of the main part alone, and how a pull request tries to get a theorem
of the main part among those of mathboxes."""

import random
import re

from query.tests.repositories import BASE, WATCH, Repositories

MAIN = WATCH + '[rules]\nnewly = "main"\n'
LABELS = ("m1", "m2", "m3", "a1", "a2", "b1", "n1", "n2")
"""Each says something else. A longer label says what its first two signs do."""
HEADER = "$(\n{0}\n  {1}\n{0}\n$)\n"
BEFORE = ("m1/free", "m2/free", "m3/free", "Ann", "a1/free", "Bo", "b1/free")


def formula(number: int) -> str:
    """The proof that a formula is one."""
    return "wp wp wp wi wi" if number == 0 else f"wq {formula(number - 1)} wi"


def words(number: int) -> str:
    """A formula."""
    return "( p -> ( p -> p ) )" if number == 0 else f"( q -> {words(number - 1)} )"


def proof(number: int, cited: str) -> str:
    """A proof of a formula: from the watched axiom, from none, or with a theorem besides."""
    if cited not in ("ac", "free"):
        other = formula(LABELS.index(cited[:2]) + 1)
        own = formula(number)
        step = f"{own} {other} {proof(number, 'free')} a1i"
        return f"{other} {own} wp wq {cited} {step} ax-mp"
    if number == 0:
        return "wp ax-ac2" if cited == "ac" else "wp wp ax-1"
    return f"{formula(number - 1)} wq {proof(number - 1, cited)} a1i"


def database(*parts: str) -> str:
    """A database of parts: `Ann` is the header of a mathbox, `Main` another one, `a1/b1` a theorem
    with what it cites."""
    text = BASE
    for part in parts:
        label, sign, cited = part.partition("/")
        if sign:
            number = LABELS.index(label[:2]) + 1
            text += f"{label} $p |- {words(number)} $= {proof(number, cited)} $.\n"
        elif part == "Main":
            text += HEADER.format("####", part)
        else:
            text += HEADER.format("=-=-", f"Mathbox for {part}")
    return text


class Tries(Repositories):
    """What the tests share: two files, and the file that judges beside them."""

    takes_long = True

    def told(self, before: tuple[str, ...], after: str | tuple[str, ...]) -> list[str]:
        """What the gate tells of a change, as label and rule, `+` where a mathbox isn't believed,
        and `^` where a header took something in."""
        self.write("old.mm", database(*before))
        self.write("new.mm", after if isinstance(after, str) else database(*after))
        done = self.query("gate", "--all", "old.mm", "new.mm")
        self.assertIn(done.status, (0, 1), done)
        found = []
        for line in done.lines()[:-1]:
            if match := re.match(r"new\.mm:\d+: (\S+): (.*) \[(\w+)\]\Z", line):
                label, reason, rule = match.groups()
                sign = "+" * ("it counts as of the main part" in reason)
                sign += "^" * ("which isn't judged by" in reason)
                found.append(f"{label} {rule}{sign}")
        self.assertEqual(bool(found), bool(done.status), done)
        return found


class OfTheMainPart(Tries):
    """What is judged, and what isn't."""

    def test_what_passes(self) -> None:
        self.write("mmdepend.toml", MAIN)
        for after in (
            (*BEFORE[:4], "a1/ac", "Bo", "b1/free"),
            (*BEFORE[:6], "b1/ac"),
            (*BEFORE[:5], "a2/ac", "Bo", "b1/ac"),
            (*BEFORE[:4], "n1/ac", "a1/n1", "Bo", "b1/free"),
            (*BEFORE[:3], "Cy", "n1/ac", *BEFORE[3:]),
            (*BEFORE[:5], "Cy", "n1/ac", *BEFORE[5:]),
            (*BEFORE, "Cy", "n1/ac"),
            (*BEFORE[:3], "Eve", "a1/ac", "Bo", "b1/free"),
        ):
            self.assertEqual(self.told(BEFORE, after), [], after)
        before = ("m1/free", "m2/free", "Ann", "a1/free", "a2/free")
        after = ("m1/free", "Ann", "a1/free", "a2/free", "m2/free")
        self.assertEqual(self.told(before, after), [])

    def test_what_is_found(self) -> None:
        self.write("mmdepend.toml", MAIN)
        for after, found in (
            (("m1/ac", *BEFORE[1:]), ["m1 newly"]),
            ((*BEFORE[:3], "n1/ac", *BEFORE[3:]), ["n1 new"]),
            ((*BEFORE, "Main", "n1/ac"), ["n1 new"]),
            (("m1/free", "m2/ac", "m3/m2", *BEFORE[3:]), ["m2 newly", "m3 newly"]),
        ):
            self.assertEqual(self.told(BEFORE, after), found, after)

    def test_each_rule_by_itself(self) -> None:
        after = ("m1/ac", "m2/free", "m3/free", "n1/ac", "Ann", "a1/ac", "n2/ac", "Bo", "b1/free")
        for said, found in (
            ("", ["m1 newly", "a1 newly", "n1 new", "n2 new"]),
            ("newly = 'main'", ["m1 newly", "n1 new"]),
            ("newly = 'main'\nnew = 'main'", ["m1 newly", "n1 new"]),
            ("newly = 'main'\nnew = true", ["m1 newly", "n1 new", "n2 new"]),
            ("newly = 'main'\nnew = false", ["m1 newly"]),
            ("new = 'main'", ["m1 newly", "a1 newly", "n1 new"]),
            ("newly = false\nnew = 'main'", ["n1 new"]),
        ):
            self.write("mmdepend.toml", f"{WATCH}[rules]\n{said}\n")
            self.assertEqual(self.told(BEFORE, after), found, said)
        self.write("mmdepend.toml", MAIN + '[allow]\nnewly.ax-ac2 = ["m1", "n1"]\n')
        self.assertEqual(self.told(BEFORE, after), [])
        self.write("mmdepend.toml", MAIN + '[allow]\nnewly.ax-ac2 = ["m1", "n1"]\nnew = {}\n')
        self.assertEqual(self.told(BEFORE, after), ["n1 new"])

    def test_one_finding_for_each_cause(self) -> None:
        self.write("mmdepend.toml", MAIN + "mathboxes = false\n")
        before = ("m1/free", "Ann", "a1/free", "Main", "m2/a1", "m3/m2")
        self.write("old.mm", database(*before))
        self.write("new.mm", database(*before).replace(proof(4, "free"), proof(4, "ac"), 1))
        lines = self.gate("old.mm", "new.mm", status=1)
        reason = "newly rests on ax-ac2: a1, on which it rests, cites ax-ac2; with 1 more theorem"
        self.assertEqual(len(lines), 1)
        self.assertIn(f": m2: {reason} by that [newly]", lines[0])

    def test_a_switch_that_follows_is_told(self) -> None:
        note = "`rules.newly` of mmdepend.toml switches the rule `new` off too"
        for rules, is_told in (("newly = false", True), ("newly = false\nnew = false", False)):
            self.ask(f"{WATCH}[rules]\n{rules}\n")
            done = self.query("gate", "--base", "main", "db.mm")
            self.assertEqual(note in done.out, is_told)


class Attacks(Tries):
    """Ways to bring a theorem of the main part past the rules."""

    def setUp(self) -> None:
        super().setUp()
        self.write("mmdepend.toml", MAIN)

    def test_a_header_that_is_moved_up(self) -> None:
        for after, found in (
            (("m1/free", "m2/free", "Ann", "m3/ac", "a1/free"), ["m3 newly^", "m3 newly+"]),
            (("m1/free", "Ann", "m2/free", "m3/ac", "a1/free"), ["m2 newly^", "m3 newly+"]),
            (
                ("Ann", "m1/free", "n1/ac", "m2/free", "m3/n1"),
                ["m1 newly^", "m3 newly+", "n1 new+"],
            ),
            (("m1/free", "m2/free", "Ann", "n1/ac", "m3/free"), ["m3 newly^", "n1 new+"]),
            (("m1/free", "m2/free", "Ann", "m3/free", "n1/ac"), ["m3 newly^"]),
        ):
            whole = after if "a1/free" in after else (*after, "a1/free")
            self.assertEqual(self.told(BEFORE, (*whole, "Bo", "b1/free")), found, after)

    def test_a_header_that_takes_in_and_a_second_pull_request(self) -> None:
        moved = ("m1/free", "Ann", "m2/free", "m3/free", "a1/free", "Bo", "b1/free")
        self.assertEqual(self.told(BEFORE, moved), ["m2 newly^"])
        last = (*BEFORE, "Main", "n1/free")
        self.assertEqual(self.told(last, (*BEFORE, "n1/free")), ["n1 newly^"])
        self.write("mmdepend.toml", WATCH + '[rules]\nnewly = false\nnew = "main"\n')
        self.assertEqual(self.told(BEFORE, moved), ["m2 new^"])
        self.write("mmdepend.toml", MAIN + '[allow]\nmathboxes = ["m2"]\n')
        self.assertEqual(self.told(BEFORE, moved), ["m3 newly^"])
        self.write("mmdepend.toml", MAIN + '[allow]\nmathboxes = ["m2", "m3"]\n')
        self.assertEqual(self.told(BEFORE, moved), [])

    def test_a_header_that_is_there_twice(self) -> None:
        rest = BEFORE[3:]
        for after, found in (
            (("m1/free", "Ann", "n1/ac", "Main", "m2/free", "m3/free"), ["n1 new+"]),
            (("Ann", "n1/ac", "Main", "m1/free", "m2/n1", "m3/free"), ["m2 newly", "n1 new+"]),
            (("m1/free", "Ann", "m2/ac", "Main", "m3/free"), ["m2 newly^", "m2 newly+"]),
            (("m1/free", "Bo", "Ann", "n1/ac", "Main", "m2/free", "m3/free"), ["n1 new+"]),
        ):
            self.write("mmdepend.toml", MAIN + "mathboxes = false\n")
            self.assertEqual(self.told(BEFORE, (*after, *rest)), found, after)

    def test_a_header_in_another_comment(self) -> None:
        added = database(*BEFORE[:3], "n1/ac", *BEFORE[3:])
        start = added.index("n1 $p")
        lines = "=-=-\n  Mathbox for Ann\n=-=-\n"
        for comment in (
            f"$( Words.\n{lines}$)\n",
            f"$( $j\n{lines}$)\n",
            f"$( $t\n{lines}$)\n",
            "$(\n=-=-\n  A mathbox for Ann\n=-=-\n$)\n",
            "$(\n=-=-\n  MATHBOX FOR Ann\n=-=-\n$)\n",
            "$(\n=-=-\n  Mathbox for Ann\n$)\n",
        ):
            text = added[:start] + comment + added[start:]
            self.assertEqual(self.told(BEFORE, text), ["n1 new"], comment)
        inside = added[:start] + added[start:].replace("n1 $p", f"n1 $(\n{lines}$) $p", 1)
        self.assertEqual(self.told(BEFORE, inside), ["n1 new"])
        # That of the base is hidden: what it had comes out.
        before = (*BEFORE[:4], "a1/ac", "Bo", "b1/free")
        hidden = database(*before).replace("$(\n=-=-\n  Mathbox for Ann", "$( Words.\n=-=-\n  Ann")
        self.assertEqual(self.told(before, hidden), ["a1 new", "a1 mathboxes"])

    def test_a_theorem_that_is_moved_into_a_mathbox(self) -> None:
        """It is judged there, and so is what cites it."""
        self.write("mmdepend.toml", MAIN + "mathboxes = false\n")
        box = ("Ann", "a1/free", "a2/free")
        before = ("m1/free", *box, "Main", "m2/m1", "m3/m2")
        for after, found in (
            ((*box, "m1/ac", "Main", "m2/m1", "m3/m2"), ["m1 newly+", "m2 newly", "m3 newly"]),
            ((*box, "n1/ac", "m1/n1", "Main", "m2/m1"), ["m1 newly+", "m2 newly"]),
            (("m1/free", *box[:2], "a2/ac", "Main", "m2/a2"), ["m2 newly"]),
            (("m1/free", *box, "n1/ac", "Main", "m2/n1", "m3/m2"), ["m2 newly", "m3 newly"]),
            (("m1/free", *box[:2], "n1/ac", "a2/n1", "Main", "m2/a2"), ["m2 newly"]),
            ((*box, "m1x/ac", "Main", "m2/m1x", "m3/m2"), ["m1x newly+", "m2 newly", "m3 newly"]),
            (("Ann", "m1/ac", *box[1:], "Main", "m2/m1"), ["m1 newly^", "m1 newly+", "m2 newly"]),
        ):
            self.assertEqual(self.told(before, after), found, after)
        self.write("mmdepend.toml", MAIN)
        after = (*box, "m1/ac", "Main", "m2/m1", "m3/m2")
        self.assertIn("m2 mathboxes", self.told(before, after))

    def test_a_label_that_another_theorem_gets(self) -> None:
        """Neither the statement nor the label of a theorem of the main part goes to a mathbox."""
        swapped = database("m1/free", "m2/free", "n1/free", "Ann", "m3/ac", "Bo", "b1/free")
        text = swapped.replace("n1 $p", "m3x $p").replace(words(7), words(3), 1)
        text = text.replace(proof(7, "free"), proof(3, "free"), 1)
        self.assertEqual(self.told(BEFORE, text)[-1], "m3 newly+")

    def test_a_base_without_mathboxes(self) -> None:
        before = ("m1/free", "m2/free", "m3/free")
        for after, found in (
            ((*before, "Ann", "n1/ac"), ["n1 new+"]),
            (("Ann", "n1/ac", *before), ["m1 newly^", "n1 new+"]),
            (("Ann", "n1/ac", "Main", *before), ["n1 new+"]),
            (("m1/free", "m2/free", "Ann", "m3/ac"), ["m3 newly^", "m3 newly+"]),
        ):
            self.assertEqual(self.told(before, after), found, after)
        # A mathbox without a statement is one.
        after = (*before, "Ann", "n1/ac")
        self.assertEqual(self.told((*before, "Ann"), after), [])
        self.assertEqual(self.told(("Ann", "Main", *before), after), ["n1 new+"])

    def test_a_theorem_that_comes_out_of_a_mathbox(self) -> None:
        before = (*BEFORE[:4], "a1/ac", "Bo", "b1/free")
        rest = ("Bo", "b1/free")
        for after, found in (
            (("m1/free", "a1/ac", "m2/free", "m3/free", *rest), ["a1 new"]),
            ((*BEFORE[:3], "a1/ac", "Ann", *rest), ["a1 new", "a1 mathboxes"]),
            (("m1/free", "a1x/ac", "m2/free", "m3/free", *rest), ["a1x new"]),
            (("m1/free", "a1x/ac", "m2/free", "m3/free", "Ann", "a1/free", *rest), ["a1x new"]),
            (("m1/free", "a1x/ac", "m2/free", "m3/free", "Ann", "a1/a1x", *rest), ["a1x new"]),
            (("m1/free", "Eve", "a1/ac", "Main", "m2/free", "m3/free", *rest), ["a1 new+"]),
            ((*before, "Main", "a1x/ac"), ["a1x new"]),
        ):
            self.assertEqual(self.told(before, after), found, after)
        self.write("old.mm", database(*before))
        self.write("new.mm", database("a1/ac", *BEFORE[:3], "Bo", "b1/free"))
        reason = "came out of a mathbox, and in the main part it newly rests on ax-ac2: it cites"
        self.assertIn(f": a1: {reason} ax-ac2 [new]", self.gate("old.mm", "new.mm", status=1)[0])

    def test_the_file_that_is_brought(self) -> None:
        after = database(*BEFORE[:4], "a1/ac", "Bo", "b1/free")
        for base, brought, rules in (
            ("", MAIN, ["newly", "config", "config"]),
            ("new = true\n", MAIN, ["newly", "config", "config"]),
            ("newly = 'main'\n", WATCH, ["newly"]),
            ("newly = 'main'\n", WATCH + "[rules]\nnewly = false\n", ["config", "config"]),
            ("newly = 'main'\n", MAIN + "new = 'main'\n", []),
            ("newly = false\n", MAIN, []),
        ):
            self.ask(f"{WATCH}[rules]\n{base}")
            self.commit(database(*BEFORE))
            self.branch()
            self.write("mmdepend.toml", brought)
            self.commit(after)
            lines = self.gate(status=1 if rules else 0)
            self.assertEqual([each.rpartition(" [")[2].rstrip("]") for each in lines], rules)
            self.git("checkout", "--quiet", "main")
            self.git("branch", "--quiet", "-D", "work")

    def test_at_random(self) -> None:
        """Whatever moves, no theorem gets into the main part, or has been there, and comes to rest
        on the axiom without being told."""
        chance = random.Random(7)
        labels = LABELS[:7]
        for _ in range(20):
            before, after = (tuple(self.parts(chance, labels)) for _ in range(2))
            told = {line.partition(" ")[0] for line in self.told(before, after)}
            was_main, was_on = main_and_resting(before)
            is_main, is_on = main_and_resting(after)
            wanted = is_on & (is_main | was_main) - (was_main & was_on)
            self.assertLessEqual(wanted, told, (before, after))

    @staticmethod
    def parts(chance: random.Random, labels: tuple[str, ...]) -> list[str]:
        """Parts of a database."""
        some = chance.sample(labels, chance.randint(4, len(labels)))
        made: list[str] = []
        for number, label in enumerate(some):
            made.append(f"{label}/{chance.choice(('ac', 'free', 'free', *some[:number]))}")
        for name in ("Ann", "Bo", "Main"):
            made.insert(chance.randint(0, len(made)), name)
        return made


def main_and_resting(parts: tuple[str, ...]) -> tuple[set[str], set[str]]:
    """The theorems of parts that are in no mathbox, and those that rest on the axiom."""
    is_in, main, resting = False, set(), {"ac"}
    for part in parts:
        label, sign, cited = part.partition("/")
        if not sign:
            is_in = part != "Main"
        else:
            main |= set() if is_in else {label}
            resting |= {label} if cited in resting else set()
    return main, resting - {"ac"}
