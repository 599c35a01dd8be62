"""`mmdepend.toml`: what is read and what is refused; docs/GATE.md explains each key and rule."""

import re
import tempfile
import unittest
from pathlib import Path

from query.answers.errors import NoAnswer
from query.commands.gate import PAGE
from query.gate.allowances import Resting
from query.gate.config import DEFAULTS, RULES, SHAPE, Claim, Config, Shape, find_config, read_config
from query.gate.labels import Labels
from query.tests.world import TOP

GUIDE = (TOP / "docs" / "GATE.md").read_text()
WHOLE = """# All keys.
base = "upstream/develop"
typecode = "wff"
watch = ["ax-ac2", 'ax-r*', "ax-ac2"]
[rules]
open = false
newly = true
[allow]
axioms = ["df-*"]
newly."ax-ac2" = ["a", "b.*"]
newly.'ax-r*' = ["c"]
  open = [
    "o",
  ]
[ "claims" ]  # a comment
"2p2e4" = ["ax-ac2", "ax-1"]
19 = ["ax-1"]
'9.2' = ["ax-2"]
"""

# What isn't right, and what is said of it.
WRONG = (
    ("wach = []", "m.toml:1: there is no key 'wach'; did you mean 'watch'?"),
    (
        "\nqqq = 1",
        "m.toml:2: there is no key 'qqq'; there are base, typecode, watch, definitions,",
    ),
    (
        "[rules]\nopne = true",
        "m.toml:2: there is no key 'rules.opne'; did you mean 'open'?",
    ),
    ("rules.opne = true", "m.toml:1: there is no key 'rules.opne'"),
    ("[alow]\nopen = []", "m.toml:1: there is no key 'alow'; did you mean 'allow'?"),
    ("watch = 'ax'", "m.toml:1: 'watch' isn't a list of labels, but a text"),
    ("base = 1", "m.toml:1: 'base' isn't a text, but a number"),
    ("base = 1.5", "but a number"),
    ("base = true", "but true or false"),
    ("base = []", "but a list"),
    ("[base]", "m.toml:1: 'base' isn't a text, but a table"),
    ("base = 1979-05-27", "but a time"),
    ("base = ''", "m.toml:1: 'base' is empty"),
    ("typecode = ''", "m.toml:1: 'typecode' is empty"),
    ("[rules]\nopen = 1", "m.toml:2: 'rules.open' isn't true or false, but a number"),
    ("rules = []", "m.toml:1: 'rules' isn't a table, but a list"),
    ("[allow]\nnewly = ['a']", "m.toml:2: 'allow.newly' isn't a table of lists of labels"),
    ("[allow.newly]\nax = 'a'", "m.toml:2: 'allow.newly.ax' isn't a list of labels"),
    ("watch = ['a*b']", "m.toml:1: 'a*b' is no label, and no beginning of one with '*'"),
    ("watch = ['']", "m.toml:1: '' is no label"),
    ("watch = ['a\\u0000']".replace("'", '"'), "'a\\x00' is no label"),
    ("[claims]\na = []", "m.toml:2: 'claims.a' is empty, so nothing is claimed"),
    ("[claims]\na = ['b*']", "m.toml:2: 'b*' is no label"),
    ("[claims]\n'a*' = ['b']", "m.toml:2: 'a*' is no label"),
    ("[claims]\na = [['b']]", "m.toml:2: 'claims.a' isn't a list of labels: it has a list"),
    ("watch = [", "m.toml: "),
    ("watch = []\nwatch = []", "m.toml: "),
)


def may_rest(config: Config, rule: str, theorem: str, axiom: str) -> bool:
    """Whether a rule lets a theorem rest on a watched axiom."""
    return bool(Resting(config.resting[rule], [axiom], len).allowed(theorem))


def keys(shape: Shape, above: str = "") -> set[str]:
    """The keys of a shape, with those above them."""
    found = set()
    for key, value in shape.items():
        found |= {above + key} if isinstance(value, str) else keys(value, f"{above}{key}.")
    return found


class Reading(unittest.TestCase):
    """What is read."""

    def test_all_keys(self) -> None:
        config = read_config(WHOLE.encode(), "m.toml")
        self.assertEqual((config.name, config.base), ("m.toml", "upstream/develop"))
        self.assertEqual(config.typecode, "wff")
        self.assertEqual(config.watch, ("ax-ac2", "ax-r*"))
        self.assertEqual(config.rules, DEFAULTS - {"open"})
        self.assertTrue(config.allows("axioms", "df-x") and not config.allows("axioms", "dfx"))
        self.assertTrue(config.allows("open", "o") and not config.allows("mathboxes", "o"))
        for rule in ("newly", "new"):
            for theorem, axiom in (("a", "ax-ac2"), ("b.1", "ax-ac2"), ("c", "ax-reg")):
                self.assertTrue(may_rest(config, rule, theorem, axiom))
            self.assertFalse(may_rest(config, rule, "c", "ax-ac2"))
        self.assertEqual(
            config.claims,
            (
                Claim("2p2e4", ("ax-ac2", "ax-1"), 16),
                Claim("19", ("ax-1",), 17),
                Claim("9.2", ("ax-2",), 18),
            ),
        )
        self.assertEqual(config.lines[("allow", "newly", "ax-r*")], 11)
        self.assertEqual(config.lines[("watch",)], 4)

    def test_nothing(self) -> None:
        config = read_config(b"", "m.toml")
        resting: dict[str, dict[str, Labels]] = {"newly": {}, "new": {}}
        self.assertEqual(config, Config(name="m.toml", resting=resting, lines=config.lines))
        self.assertEqual(config.rules, DEFAULTS)
        self.assertEqual(read_config(b"definitions = true", "").rules, frozenset(RULES))
        self.assertTrue("anything" in Labels(("*",)) and "" not in Labels(("a",)))

    def test_what_is_refused(self) -> None:
        for text, why in WRONG:
            with self.assertRaises(NoAnswer, msg=text) as raised:
                read_config(text.encode(), "m.toml")
            self.assertIn(why, str(raised.exception))
            self.assertNotIn("\n", str(raised.exception))
        with self.assertRaises(NoAnswer):
            read_config(b"\xff", "m.toml")

    def test_many_claims(self) -> None:
        lines = [f'"t{number}" = ["ax-1"]\n' for number in range(5000)]
        config = read_config(("[claims]\n" + "".join(lines)).encode(), "m.toml")
        self.assertEqual([claim.line for claim in config.claims], list(range(2, 5002)))

    def test_where_the_file_is(self) -> None:
        with tempfile.TemporaryDirectory() as name:
            top = Path(name).resolve()
            inner = top / "a" / "b"
            inner.mkdir(parents=True)
            (top / "mmdepend.toml").write_text("")
            self.assertEqual(find_config(inner), top / "mmdepend.toml")
            (top / "a" / ".git").mkdir()
            self.assertIsNone(find_config(inner))
            (inner / "mmdepend.toml").write_text("")
            self.assertEqual(find_config(inner), inner / "mmdepend.toml")


class Guide(unittest.TestCase):
    """What docs/GATE.md and the page of `gate` say."""

    def test_each_key_is_explained(self) -> None:
        told = set(
            re.findall(
                r"^\| `((?:limit-)?[a-z]+(?:\.[a-z]+)*(?:\.[A-Z]+)?)` \|", GUIDE, re.MULTILINE
            )
        )
        wanted = {
            key for key in keys(SHAPE) if not key.startswith(("rules.", "allow.new", "claims"))
        }
        wanted |= {"rules.RULE", "allow.newly.AXIOM", "allow.new.AXIOM", "claims.THEOREM"}
        wanted -= set(RULES)
        self.assertEqual({each for each in told if each not in (*RULES, "valid")}, wanted)
        self.assertEqual(GUIDE.count("\n| `definitions` |"), 2, "the key, and the rule")

    def test_each_rule_is_explained(self) -> None:
        section = GUIDE.split("\n## The rules\n")[1].split("\n## ")[0]
        told = re.findall(r"^\| `([a-z]+)` \|", section, re.MULTILINE)
        self.assertEqual(told, [*RULES, "valid"])
        self.assertEqual(re.findall(r"^  ([a-z]+)  ", PAGE, re.MULTILINE), [*RULES, "valid"])

    def test_its_example_is_read(self) -> None:
        example = re.findall(r"```toml\n(.*?)```", GUIDE, re.DOTALL)
        self.assertEqual(len(example), 1)
        config = read_config(example[0].encode(), "m.toml")
        self.assertEqual(config.rules, frozenset(RULES) - {"discouraged"})
        self.assertTrue(may_rest(config, "newly", "zorn2", "ax-ac2"))
        self.assertEqual(config.claims[0].theorem, "2p2e4")
