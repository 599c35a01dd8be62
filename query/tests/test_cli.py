"""The command line: options anywhere, help pages, hostile labels, formats, where databases come
from."""

import bz2
import csv
import gzip
import io
import lzma
import shutil
import unittest

from query.answers.errors import NEAR_LABEL, nearest
from query.commands import OTHER_NAMES, command, instead_of, names, summaries
from query.tests.commands import WHOLE, WORDS, words_of
from query.tests.world import HOSTILE, MMQUERY, SMALL, Done, World, invented

import random


class CommandLine(World):
    """Words, options, pages."""

    takes_long = True

    def setUp(self) -> None:
        super().setUp()
        self.write("small.mm", SMALL)
        self.write("whole.mm", WHOLE)

    def test_every_command_has_a_page(self) -> None:
        self.assertEqual(set(names()), set(WORDS))
        listed = self.answers("--help")
        for name in names():
            page = self.answers(name, "--help")
            self.assertTrue(page[0].startswith(f"usage: mmquery {name} "), page[0])
            self.assertTrue(any(f"mmquery {name} " in line + " " for line in page[1:]), name)
            self.assertTrue(any(line.split()[:1] == [name] for line in listed), name)
            self.assertEqual(page, self.answers("help", name))
        self.assertEqual(self.answers(), listed)
        self.assertEqual([command(name).name for name in names()], names())

    def test_other_names_of_commands(self) -> None:
        """None of them is a command, and each means one."""
        others = [other for words in OTHER_NAMES.values() for other in words.split()]
        self.assertEqual(len(others), len(set(others)))
        self.assertFalse(set(others) & set(names()))
        self.assertLessEqual(set(OTHER_NAMES), set(names()))
        for name, words in OTHER_NAMES.items():
            for other in words.split():
                why = f"there is no command {other}; did you mean {name} ({summaries()[name]})?"
                self.assertEqual(instead_of(other), why.partition(other)[2])
        why = "no command Duplicates; did you mean repeats (theorems that say what an earlier"
        self.refuses("Duplicates", "small.mm", why=why)
        self.refuses("trace_back", "small.mm", why="did you mean rests (on which axioms")
        self.refuses("path", "--help", why="did you mean why (")

    def test_version(self) -> None:
        self.assertRegex(self.answers("--version")[0], r"\Ammquery [0-9.]+\Z")

    def test_unknown_words_are_named_with_the_nearest(self) -> None:
        self.refuses("rest", "small.mm", why="no command rest; did you mean rests?")
        self.refuses("rests", "small.mm", "WI2", why="'WI2'; did you mean wi2?")
        self.refuses("xyzzy", why="no command xyzzy; `mmquery --help` lists all commands\n")
        self.refuses("rests", "small.mm", "a2", "--esential", why="did you mean --essential?")
        self.refuses("rests", "--formt=json", "small.mm", "a2", why="did you mean --format?")
        self.refuses("rests", "small.mm", "a2", "--xyzzy", why="no option --xyzzy\n")
        self.refuses("rests", "small.mm", "a2", "--format", "xml", why="xml")
        self.refuses("rests", "--format=xml", why="'xml'")
        self.refuses("rests", "small.mm", "a2", "--format", why="lacks its value")
        self.refuses("rests", why="usage: mmquery rests [OPTIONS] DATABASE LABEL..\n")
        self.refuses(
            "way-out", "small.mm", why="usage: mmquery way-out [OPTIONS] DATABASE [THEOREM] ON"
        )
        self.refuses("export", "small.mm", why="--sqlite")
        for name, words in {
            "cites": "DATABASE LABEL..",
            "frees": "DATABASE ON [THEOREM..]",
            "gate": "[OLD] DATABASE",
            "history": "DATABASE REV..REV [AXIOM..]",
            "export": "DATABASE --sqlite FILE",
            "cache": "[show|clear]",
        }.items():
            head = self.answers(name, "--help")[0]
            self.assertEqual(head, f"usage: mmquery {name} [OPTIONS] {words}")
        for wrong in (("--format", "xml"), ("--only", "wff", "--all"), ("--axioms",)):
            self.assertNotIn("usage", self.refuses("rests", "small.mm", "a2", *wrong))
        self.refuses("--format", "json", why="options stand behind the command")
        self.refuses("chapters", "small.mm", "a2", why="'a2'; it is a theorem")
        self.refuses("rests", "small.mm", why="LABEL")
        order = "no such file; small.mm, which is a file, stands where LABEL is wanted"
        self.refuses("rests", "a2", "small.mm", why=order)
        self.refuses("frees", "ax-1", "small.mm", why=order.replace("LABEL", "ON"))
        self.refuses("rests", "a2", "small", why="a2: there is no such file\n")
        self.refuses("uncited", "small.mm", "a2", why="a2")
        self.refuses("top", "small.mm", "0", why="'0' is no number")
        self.refuses("top", "small.mm", "two", why="'two' is no number")
        self.refuses("rests", "--only", "wff", "--all", "small.mm", "a2", why="--all")

    def test_two_signs_that_are_swapped(self) -> None:
        """They are near however short a word is, but for the shortest."""
        for words in (("rests", "small.mm"), ("graph", "small.mm", "wi2"), ("steps", "small.mm")):
            self.refuses(*words, "iw2", why="'iw2'; did you mean wi2?")
        self.refuses("rests", "small.mm", "2a", why="'2a'\n")
        labels = [f"z{number}" for number in range(50_000)] + ["zorn", "ozrn", "ax-1"]
        self.assertEqual(nearest("zron", labels, NEAR_LABEL), "; did you mean zorn?")
        self.assertEqual(nearest("oznr", labels, NEAR_LABEL), "; did you mean ozrn?")
        self.assertEqual(nearest("nroz", labels, NEAR_LABEL), "")
        self.assertEqual(nearest("ab", ["ba"], NEAR_LABEL), "")
        self.assertEqual(nearest("aab", ["aab" * 200], NEAR_LABEL), "")

    def test_an_option_of_another_command(self) -> None:
        for words, why in {
            ("rests", "--plan", "3", "small.mm", "a2"): "no option --plan; `frees` has it\n",
            ("uncited", "small.mm", "--count"): "no option --count; `falls` has it\n",
            ("rests", "small.mm", "a2", "--by=x"): "; `chapters` and `proofs` have it\n",
            ("verify", "small.mm", "--like=x"): "; `rests`, `falls`, `cites` and others have it\n",
        }.items():
            self.refuses(*words, why=why)

    def test_a_label_where_filters_choose(self) -> None:
        for name in ("repeats", "unneeded", "discouraged", "order"):
            why = "unrecognized arguments: a2; `--like a2` chooses labels; usage: mmquery "
            self.refuses(name, "small.mm", "a2", why=why + name)
        self.refuses("verify", "small.mm", "a2", why="unrecognized arguments: a2; usage: mmquery")

    def test_an_axiom_where_a_theorem_is_wanted(self) -> None:
        why = "'ax-1' is an axiom, where a theorem is wanted"
        order = "THEOREM comes first, and ON behind it"
        self.refuses("graph", "small.mm", "ax-1", "a2", why=f"{why}; {order}\n")
        self.refuses("way-out", "small.mm", "ax-1", "a2", why=f"{why}; {order}\n")
        order = "ON comes first, and THEOREMs behind it"
        self.refuses("frees", "small.mm", "a2", "a1i", "ax-1", why=f"{why}; {order}\n")
        self.refuses("frees", "small.mm", "ax-mp", "ax-1", why=f"{why}\n")
        self.refuses("graph", "small.mm", "ax-1", "ax-mp", why=f"{why}\n")

    def test_what_stands_without_an_option(self) -> None:
        self.refuses("top", "small.mm", "--least", why="no option --least\n")
        for name in ("why", "frees", "way-out"):
            told = "no option --on; ON stands without an option"
            self.refuses(name, "small.mm", "a2", "--on", "ax-1", why=told)

    def test_options_stand_anywhere(self) -> None:
        wanted = ["wi", "ax-1", "ax-mp"]
        several: tuple[tuple[str, ...], ...] = (
            ("--all", "small.mm", "a2"),
            ("small.mm", "--all", "a2"),
            ("small.mm", "a2", "--all"),
            ("small.mm", "a2", "--all", "--format", "text"),
            ("--format=text", "small.mm", "--all", "--", "a2"),
        )
        for words in several:
            self.assertEqual(self.answers("rests", *words), wanted)

    def test_choice_of_axioms(self) -> None:
        self.write("d.mm", SMALL + "df-x $a |- p $.\nt $p |- p $= wp df-x $.\n")
        self.assertEqual(self.answers("rests", "d.mm", "t"), ["df-x"])
        self.assertEqual(self.answers("rests", "d.mm", "t", "--ignore-definitions"), [])
        both = ("rests", "d.mm", "t", "a2", "--format=csv")
        words = (*both, "--axioms", "df-,ax-m")
        self.assertEqual(self.answers(*words), ["axiom,labels", "ax-mp,a2", "df-x,t"])
        self.assertEqual(self.answers(*both, "--axioms", "df-*,ax-m*"), self.answers(*words))
        twice = (*both, "--axioms", "df-", "--axioms", "ax-1")
        self.assertEqual(self.answers(*twice), ["axiom,labels", "ax-1,a2", "df-x,t"])
        self.refuses("rests", "d.mm", "t", "--axioms", "ax-m,dg-", why="begins with 'dg-'")
        self.refuses("rests", "d.mm", "t", "--only", "|--", why="no axiom of typecode '|--'")
        self.assertEqual(self.answers(*both, "--only", "wff"), ["axiom,labels", "wi,a2"])

    def test_labels_that_are_not_there(self) -> None:
        for words in (
            ("rests", "a3"),
            ("falls", "a3"),
            ("falls", "wp"),
            ("cites", "h"),
            ("cites", "a2", "--on", "a3"),
            ("cited-by", "a3"),
            ("why", "a2", "a3"),
            ("why", "a3", "ax-1"),
            ("way-out", "a3"),
            ("way-out", "ax-1", "wi"),
            ("frees", "a3"),
            ("frees", "ax-1", "wi"),
            ("within", "ax-3"),
            ("within", "wi"),
            ("within", "a2"),
            ("same", "a3"),
            ("same", "ax-1"),
            ("graph", "a3"),
            ("graph", "a2", "a3"),
            ("falls", "a2", "--without", "a3"),
        ):
            self.refuses(words[0], "small.mm", *words[1:])

    def test_uncited_axioms_are_known(self) -> None:
        self.write("u.mm", SMALL + "ax-u $a |- p $.\nwu $a wff p $.\n")
        for label in ("ax-u", "wu"):
            for words in (("falls",), ("cites",), ("cited-by",), ("frees",), ("way-out",)):
                self.assertEqual(self.answers(*words, "u.mm", label), [])
            self.assertEqual(self.answers("way-out", "u.mm", "a2", label), [])
            done = self.query("why", "u.mm", "a2", label)
            self.assertEqual((done.out, done.status), ("", 0))
            self.assertEqual(done.err, f"mmquery: a2 doesn't rest on {label}\n")
        self.assertEqual(self.answers("rests", "u.mm", "wu"), [])
        self.assertEqual(self.answers("rests", "u.mm", "--all", "wu"), ["wu"])
        done = self.query("why", "u.mm", "ax-1", "a2")
        self.assertEqual(done.err, "mmquery: ax-1 doesn't rest on a2, but a2 on ax-1\n")

    def test_lists(self) -> None:
        self.write("list", b"# some\r\nax-1 # one\r\n\n  ax-mp")
        self.assertEqual(self.answers("within", "small.mm", "--list", "list", "--all"), ["ax1"])
        words = ("within", "small.mm", "wi", "--list=list", "--all")
        self.assertEqual(self.answers(*words), ["wi2", "ax1", "a1i", "a2"])
        self.write("empty", " # nothing\n")
        self.refuses("within", "small.mm", "--list", "empty", why="the list is empty")
        self.refuses("within", "small.mm", "--list", "nowhere", why="nowhere")
        self.refuses("within", "small.mm", "--list", ".", why="is a folder")
        self.refuses("within", "small.mm", why="LABEL")

    def test_formats(self) -> None:
        words = ("cites", "small.mm", "a2", "a1i")
        pairs = [("a2", "wi"), ("a2", "a1i"), ("a1i", "wi"), ("a1i", "ax-1"), ("a1i", "ax-mp")]
        rows = [{"theorem": one, "cited": other} for one, other in pairs]
        done = self.query(*words, "--format", "json")
        self.assertEqual(done.rows(), rows)
        tabs = ["theorem\tcited"] + ["\t".join(pair) for pair in pairs]
        self.assertEqual(self.answers(*words, "--format=tsv"), tabs)
        text = "\n".join(self.answers(*words, "--format=csv"))
        self.assertEqual(list(csv.DictReader(io.StringIO(text))), rows)
        shown = [line.split() for line in self.answers(*words)]
        self.assertEqual(shown, [["theorem", "cited"], *([*pair] for pair in pairs)])
        self.assertEqual(
            self.query("uncited", "small.mm", "--format=json").rows()[0], {"theorem": "wi2"}
        )
        self.assertEqual(self.query("same", "small.mm", "wi2", "--format=json").rows(), [])

    def test_hostile_labels(self) -> None:
        database = invented(random.Random(3), 10, HOSTILE)
        self.write("hostile.mm", database.text)
        for label in HOSTILE:
            wanted = [
                axiom for axiom in database.axioms if axiom in database.rests(label) | {label}
            ]
            self.assertEqual(self.answers("rests", "hostile.mm", "--", label), wanted)
            self.assertEqual(
                self.answers("falls", "hostile.mm", "--", label), database.users(label)
            )
            done = self.query("falls", "hostile.mm", "--format=json", "--", label)
            self.assertEqual([row["theorem"] for row in done.rows()], database.users(label))
        for form in ("dot", "graphml", "edges"):
            done = self.query("graph", "hostile.mm", f"--as={form}")
            self.assertEqual((done.status, done.err), (0, ""))
            for label in database.cites:
                self.assertIn(label, done.out)

    def test_a_label_is_never_an_option(self) -> None:
        self.write("n.mm", SMALL.replace("a2 ", "--help ").replace("a1i", "-n"))
        self.assertEqual(self.answers("cites", "n.mm", "--", "--help"), ["wi", "-n"])
        self.assertEqual(self.answers("falls", "n.mm", "--", "-n"), ["--help"])
        self.assertEqual(self.answers("falls", "n.mm", "wi", "--without=-n"), ["wi2", "-n"])
        self.assertEqual(self.answers("falls", "n.mm", "wi", "--without", "-n"), ["wi2", "-n"])
        self.refuses("falls", "n.mm", "-n", why="no option -n")


class Places(World):
    """Where a database comes from."""

    def setUp(self) -> None:
        super().setUp()
        self.write("small.mm", SMALL)
        self.wanted = ["ax-1", "ax-mp"]

    def test_compressed(self) -> None:
        data = SMALL.encode()
        for name, packed in {
            "a.gz": gzip.compress(data),
            "a.bz2": bz2.compress(data),
            "a.xz": lzma.compress(data),
            "two.gz": gzip.compress(data[:200]) + gzip.compress(data[200:]),
        }.items():
            self.write(name, packed)
            self.assertEqual(self.answers("rests", name, "a2"), self.wanted)
            done = self.query("rests", "-", "a2", given=packed)
            self.assertEqual((done.lines(), done.err), (self.wanted, ""))
            for cut in (4, len(packed) // 2, len(packed) - 3):
                self.write("cut", packed[:cut])
                if name != "two.gz":
                    self.refuses("rests", "cut", "a2")
        broken = bytearray(gzip.compress(data))
        broken[60] ^= 255
        self.write("broken.gz", bytes(broken))
        self.refuses("rests", "broken.gz", "a2", why="damaged")

    def test_standard_input_and_pipes(self) -> None:
        done = self.query("rests", "-", "a2", given=SMALL.encode())
        self.assertEqual((done.lines(), done.err, done.status), (self.wanted, "", 0))
        done = self.shell("cat small.mm | {} rests /dev/stdin a2")
        self.assertEqual((done.lines(), done.err), (self.wanted, ""))
        done = self.shell("{} rests <(cat small.mm) a2")
        self.assertEqual((done.lines(), done.err), (self.wanted, ""))

    def shell(self, command: str) -> Done:
        """Runs a command of bash with mmquery at each `{}`."""
        return self.ran("bash", "-c", command.format(MMQUERY))

    @unittest.skipUnless(shutil.which("git"), "git isn't installed")
    def test_revisions(self) -> None:
        git = "git -c user.name=a -c user.email=a@b -c init.defaultBranch=main"
        self.shell(f"{git} init -q && git add small.mm && {git} commit -q -m one && git tag v1")
        self.write("small.mm", SMALL.replace("a2 $p", "a3 $p"))
        self.assertEqual(self.answers("rests", "v1:small.mm", "a2"), self.wanted)
        self.assertEqual(self.answers("rests", "HEAD:./small.mm", "a2"), self.wanted)
        self.refuses("rests", "v1:small.mm", "a3", why="v1:small.mm")
        self.refuses("rests", "v2:small.mm", "a2", why="v2")
        self.refuses("rests", "v1:other.mm", "a2", why="other.mm")

    def test_files_that_can_not_be_read(self) -> None:
        self.refuses("rests", "nowhere.mm", "a2", why="nowhere.mm: there is no such file")
        self.refuses("rests", ".", "a2", why="is a folder")
        self.refuses("rests", "a\nb\x1b[31m.mm", "a2", why="a\\x0ab\\x1b[31m.mm")
        self.write("empty.mm", "")
        for name in WORDS:
            if "DB" in WORDS[name] and name not in ("verify", "set-proof"):
                done = self.query(*words_of(name, "empty.mm"))
                self.assertEqual((done.status, done.out, done.err.count("\n")), (2, "", 1), name)

    def test_the_program_is_missing_or_fails(self) -> None:
        self.refuses("rests", "small.mm", "a2", MMDEPEND="/nowhere", why="no program /nowhere")
        for script, why in {
            "exit 3": "status 3",
            "echo 'mmdepend: out of memory' >&2; exit 4": "small.mm: not judged: the text needs",
            "kill -9 $$": "signal 9",
            "echo nonsense": "small.mm: the program said something that isn't understood",
            "exit 1": "status 1",
        }.items():
            (self.folder / "fake").write_text(
                f'#!/bin/sh\n[ "$1" != --version ] || exit 0\n{script}\n'
            )
            (self.folder / "fake").chmod(0o755)
            self.refuses("rests", "small.mm", "a2", MMDEPEND="./fake", why=why)


if __name__ == "__main__":
    unittest.main()
