"""Axioms that are watched before they are there, by `allow.watched`: what that lets through, and
that it lets nothing else through; and which key of `mmdepend.toml` would allow a finding."""

import json

from query.tests.repositories import ADDED, BASE, Repositories, changed

EARLY = 'watch = ["ax-ac2", "ax-x"]\n'
TO_COME = EARLY + 'allow.watched = ["ax-x"]\n'
AXIOM = "ax-x $a |- ( p -> q ) $.\n"
RESTS = "onx $p |- ( p -> p ) $= wp wp ax-x $.\n"
MISSING = "mmdepend.toml:1: ax-x: a watched axiom that is missing [watched]"


class ToCome(Repositories):
    """The base watches `ax-x`, which it hasn't."""

    def test_it_is_a_finding_unless_the_file_says_so(self) -> None:
        self.ask(EARLY)
        self.assertEqual(self.gate_of(BASE + ADDED, status=1), [MISSING])
        done = self.query("gate", "--base", "main", "db.mm", "--format=json")
        (finding,) = json.loads(done.out)["findings"]
        self.assertEqual(finding["allow"], "allow.watched")
        self.ask(TO_COME)
        self.assertEqual(self.gate_of(BASE + ADDED, status=0), [])

    def test_it_is_watched_from_the_first_day(self) -> None:
        """Whoever brings the axiom is judged by it."""
        self.ask(TO_COME + 'allow.axioms = ["ax-x"]\n')
        (line,) = self.gate_of(BASE + AXIOM + RESTS, status=1)
        self.assertIn("onx: a new theorem that rests on ax-x: it cites ax-x [new]", line)
        self.assertEqual(self.gate_of(BASE + AXIOM, status=0), [])

    def test_what_the_base_has_is_not_to_come(self) -> None:
        """The allowance may stay in the file: an axiom that goes is told."""
        self.ask(TO_COME)
        self.commit(BASE + AXIOM)
        lines = self.gate_of(BASE, status=1)
        self.assertIn(MISSING, lines)
        lines = self.gate_of(BASE + AXIOM.replace("ax-x", "ax-y"), status=1)
        self.assertIn(
            "mmdepend.toml:1: ax-x: a watched axiom that is missing; its statement has the label"
            " ax-y [watched]",
            lines,
        )

    def test_another_one_of_the_label(self) -> None:
        """A theorem of that label is none that is to come."""
        self.ask(TO_COME)
        theorem = ADDED.replace("new", "ax-x")
        self.assertEqual(
            self.gate_of(BASE + theorem, status=1),
            ["mmdepend.toml:1: ax-x: a watched axiom that is a theorem now [watched]"],
        )

    def test_only_whole_labels(self) -> None:
        self.ask(EARLY + 'allow.watched = ["ax-*"]\n')
        why = "mmdepend.toml:2: 'ax-*' is no label"
        self.has_no_answer("--base", "main", "db.mm", why=why)
        self.ask('watch = ["ax-x*"]\nallow.watched = ["ax-x"]\n')
        (line,) = self.gate_of(BASE + ADDED, status=1)
        self.assertIn("ax-x*: a watched axiom that is missing [watched]", line)

    def brought(self, text: str, status: int) -> list[str]:
        """What is found where a branch brings a file `mmdepend.toml`."""
        self.branch()
        self.ask(text)
        lines = self.gate("--base", "main", "db.mm", status=status)
        self.git("checkout", "--quiet", "main")
        self.git("branch", "--quiet", "-D", "work")
        return lines

    def test_a_file_that_is_brought(self) -> None:
        """A pull request may watch more, also what is to come; and may not allow that something is
        missing which the base watches, or stop to watch what is to come."""
        self.ask('watch = ["ax-ac2"]\n')
        self.assertEqual(self.brought(TO_COME, 0), [])
        (line,) = self.brought('watch = ["ax-ac2"]\nallow.watched = ["ax-ac2"]\n', 1)
        self.assertIn("`allow.watched` has 'ax-ac2' now [config]", line)
        (line,) = self.brought('watch = ["ax-ac2"]\nallow.watched = ["ax-x"]\n', 1)
        self.assertIn("`allow.watched` has 'ax-x' now [config]", line)
        self.ask(TO_COME)
        (line,) = self.brought('watch = ["ax-ac2"]\n', 1)
        self.assertIn("'ax-x' isn't watched any more [config]", line)
        (line,) = self.brought(EARLY, 1)
        self.assertIn("a watched axiom that is missing; by the file that is brought", line)
        self.ask(EARLY)
        self.assertEqual(self.brought('watch = ["ax-ac2"]\n', 0), [], "who takes it back mends it")

    def test_a_branch_that_takes_the_axiom_away_and_allows_that(self) -> None:
        """What is brought judges nothing away."""
        self.ask(EARLY)
        self.commit(BASE + AXIOM)
        self.branch()
        self.write("mmdepend.toml", TO_COME)
        self.commit(BASE)
        lines = self.gate("--base", "main", "db.mm", status=1)
        self.assertTrue(any(line.endswith(MISSING) for line in lines), lines)
        self.assertTrue(any("`allow.watched` has 'ax-x' now [config]" in line for line in lines))


ALLOWED = (
    (BASE + "ax-y $a |- p $.\n", "", "allow.axioms", ["ax-y"]),
    (BASE + "z $p |- ( p -> ( p -> p ) ) $= wp ax-ac2 $.\n", "", "allow.new.ax-ac2", ["z"]),
    (changed(BASE, ("wp wp ax-1 $.\n", "wp ax-ac2 $.\n")), "", "allow.newly.ax-ac2", ["free"]),
    (BASE + "o $p |- p $= ? $.\n", "", "allow.open", ["o"]),
)


class Keys(Repositories):
    """Each finding that can be allowed says by which key, and with that it is."""

    def found(self, text: str) -> list[dict[str, object]]:
        """The findings of a branch."""
        self.branch()
        self.commit(text)
        done = self.query("gate", "--base", "main", "db.mm", "--format=json")
        findings: list[dict[str, object]] = json.loads(done.out)["findings"]
        said = self.query("gate", "--base", "main", "db.mm", "--to-allow").lines()
        for finding in findings:
            if finding["allow"] is not None:
                self.assertIn(f'to allow: {finding["allow"]} = ["{finding["label"]}"]', said)
        lines = self.query("gate", "--base", "main", "db.mm", "--format=github").lines()
        self.assertEqual(
            sum("of mmdepend.toml would allow it" in line for line in lines),
            sum(finding["allow"] is not None for finding in findings),
        )
        self.git("checkout", "--quiet", "main")
        self.git("branch", "--quiet", "-D", "work")
        return findings

    def test_each(self) -> None:
        watch = 'watch = ["ax-ac2"]\n'
        for text, _, key, labels in ALLOWED:
            self.ask(watch)
            found = self.found(text)
            self.assertEqual([(each["allow"], each["label"]) for each in found], [(key, *labels)])
            self.ask(f"{watch}{key} = {json.dumps(labels)}\n")
            self.assertEqual(self.found(text), [], key)

    def test_what_nothing_allows(self) -> None:
        self.ask('[claims]\nzorn = ["ax-ac2"]\n')
        (finding,) = self.found(BASE + ADDED)
        self.assertEqual((finding["rule"], finding["allow"]), ("claims", None))
        (finding,) = self.found(changed(BASE, ("$= df-4 $.", "$= none $.")))
        self.assertEqual((finding["rule"], finding["allow"]), ("valid", None))
