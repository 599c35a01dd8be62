"""The gate takes one plain text at one plain path, from well-formed trees. Each way by which
another program would take another text is played as a git repository; beside it stands the control,
which passes."""

import bz2
import gzip
import lzma
import random
import re
import shutil
import subprocess
import tarfile
import unittest
from collections.abc import Callable
from io import BytesIO

from query.tests.repositories import ADDED, BASE, changed
from query.tests.test_hostile import CHEAT, CHEAT_FOUND, Hostile
from query.tests.world import TOP, built_program, database_text
from query.texts.discouraged import hidden_marks, is_discouraged
from query.texts.includes import new_includes

EVIL = "$c evil $.\nax-evil $a |- 2 $.\n"
NOTE = "$( A remark. $)\n"
PACKERS: dict[str, Callable[[bytes], bytes]] = {
    "gz": gzip.compress,
    "bz2": bz2.compress,
    "xz": lzma.compress,
}


class Built(Hostile):
    """Commits that are made of objects, whatever git would make of the files."""

    def tree(self, *entries: tuple[str, bytes, str]) -> str:
        """A tree with these entries, as they come: mode, name, id. Returns its id."""
        data = b"".join(
            mode.encode() + b" " + name + b"\0" + bytes.fromhex(each)
            for mode, name, each in entries
        )
        return self.made("tree", data)

    def made(self, kind: str, data: bytes) -> str:
        """Writes an object of git. Returns its id."""
        self.write("object", data)
        name = self.git("hash-object", "-w", "--literally", "-t", kind, "object")
        (self.folder / "object").unlink()
        return name

    def judge(self, tree: str, path: str = "db.mm") -> tuple[str, ...]:
        """The words by which the gate judges a commit with this tree after `main`."""
        commit = self.git("commit-tree", tree, "-p", "main", "-m", "a tree")
        return ("--base", "main", f"{commit}:{path}")

    def setUp(self) -> None:
        super().setUp()
        self.good = self.made("blob", BASE.encode())
        self.evil = self.made("blob", changed(BASE, CHEAT).encode())
        self.asked = self.git("rev-parse", "HEAD:mmdepend.toml")


class Includes(Hostile):
    """Comments that metamath.exe reads as includes."""

    def include(self, *words: str) -> str:
        """The finding of a comment on line 16."""
        return (
            "db.mm:16: a comment that metamath.exe reads as an include:"
            f" $( {' '.join(words)} $) [plain]"
        )

    def metamath(self, file: str) -> str:
        """What metamath.exe says when it reads a file and shows its labels."""
        words = ("metamath", f"read {file}", "show labels *", "exit")
        done = subprocess.run(words, cwd=self.folder, capture_output=True, check=False)
        return done.stdout.decode("latin-1")

    def test_a_file_that_the_pull_request_brings(self) -> None:
        self.branch()
        self.write("evil.mm", EVIL.replace("$c evil $.\n", ""))
        self.commit(BASE + "$( Skip $[ evil.mm $] $)\n")
        self.assertEqual(self.findings(), [self.include("Skip", "$[", "evil.mm", "$]")])
        if shutil.which("metamath"):
            self.assertIn("ax-evil", self.metamath("db.mm"))
        self.commit(BASE + NOTE)
        self.assertEqual(self.findings(status=0), [])

    def test_each_word_behind_any_white_space(self) -> None:
        self.branch()
        for word in ("Begin", "End", "Skip"):
            for space in (" ", "\n", "  \t", "\f", "\r\n"):
                text = BASE + f"$({space}{word}{space}$[ x.mm $] $)\n"
                self.commit(text)
                found = [each.split(": ", 1)[1] for each in self.findings()]
                wanted = self.include(word, "$[", "x.mm", "$]").split(": ", 1)[1]
                self.assertEqual(found, [wanted], (word, space))

    def test_comments_that_are_none(self) -> None:
        self.branch()
        more = "$( begin $[ x $] $)\n$( $[ x $] $)\n$( Begin with x. $)\n$( So Skip $[ x $] $)\n"
        self.commit(BASE + more)
        self.assertEqual(self.findings(status=0), [])

    def test_comments_of_the_base(self) -> None:
        marks = "$( Begin $[ a.mm $] $)\n$( End $[ a.mm $] $)\n"
        self.asks("", before=BASE + marks)
        self.commit(BASE + NOTE + marks + ADDED)
        self.assertEqual(self.findings(status=0), [])
        self.commit(BASE + NOTE + marks + marks.replace("\n", " "))
        self.assertEqual(self.rules(), ["plain", "plain"])

    def test_marks_that_are_taken_away(self) -> None:
        """A `Skip` that was harmless, since its file stood before it, reads the file then."""
        begin, end, skip = (f"$( {word} $[ a.mm $] $)\n" for word in ("Begin", "End", "Skip"))
        self.asks("", before=BASE + begin + NOTE + end + skip)
        for text, count in (
            (BASE + begin + NOTE + end + skip + ADDED, 0),
            (BASE + begin + NOTE + end, 0),
            (BASE + NOTE, 0),
            (BASE + NOTE + skip, 1),
            (BASE + skip + begin + NOTE + end, 2),
            (BASE + begin + NOTE + skip, 1),
            (BASE + end + begin + NOTE + skip, 1),
        ):
            self.write("a.mm", EVIL.replace("$c evil $.\n", ""))
            self.commit(text)
            found = self.findings(status=1 if count else 0)
            self.assertEqual([line.rpartition(" ")[2] for line in found], ["[plain]"] * count, text)

    def test_a_rule_that_is_off(self) -> None:
        self.asks("[rules]\nplain = false\n")
        self.commit(BASE + "$( Skip $[ evil.mm $] $)\n")
        self.assertEqual(self.findings(status=0), [])

    def test_verify_says_it(self) -> None:
        for more, told in (
            ("$( Skip $[ evil.mm $] $)\n", "1 comment by which metamath.exe reads another text"),
            ("$( Begin $[ a $] $)\n$( Begin $[ b $] $)\n$( End $[ a $] $)\n", "2 comments by"),
            (
                "$( Begin $[ a $] $)\n$( Begin $[ b $] $)\n$( End $[ b $] $)\n$( End $[ a $] $)\n",
                "",
            ),
        ):
            self.write("a.mm", BASE + more)
            done = self.query("verify", "a.mm")
            self.assertEqual(done.status, 0)
            self.assertIn(told, done.err)
            self.assertEqual(bool(told), bool(done.err))


NEAR = ("Begin", "Skip", "End", "$[", "$]", "evil.mm", "$t", "$j", "/*", "`", "~", "$", "$!", "x")
BETWEEN = (" ", " ", "\n", "\t", "\r\n", "\f", "  ")
TURNS = 300


@unittest.skipUnless(shutil.which("metamath"), "there is no metamath.exe")
class Near(Hostile):
    """Comments that are nearly includes, made by chance: what the rule lets pass metamath.exe reads
    as we do."""

    def comment(self, chance: random.Random) -> str:
        """A comment that is an include, or nearly so."""
        words = [chance.choice(("Skip", "Skip", "Begin", "End")), "$[", "evil.mm", "$]"]
        for _ in range(chance.choice((0, 1, 1, 2))):
            place = chance.randrange(len(words) + 1)
            words[place : place + chance.randrange(2)] = chance.choices(NEAR, k=chance.randrange(2))
        gaps = [chance.choice(BETWEEN) for _ in range(len(words) + 1)]
        if chance.random() < 0.2:
            gaps[chance.randrange(1, len(gaps))] = ""
        parts = [part for pair in zip(gaps, [*words, ""]) for part in pair]
        return f"$({''.join(parts)}{chance.choice(BETWEEN)}$)"

    def read(self) -> bool:
        """Whether metamath.exe reads the database, and the labels of BASE alone."""
        words = ("metamath", "read db.mm", "show labels *", "verify proof *", "exit")
        done = subprocess.run(words, cwd=self.folder, capture_output=True, check=False)
        labels = re.findall(r"^\d+ .* \$[ap]", done.stdout.decode("latin-1"), re.MULTILINE)
        found = {word for line in labels for word in re.findall(r"\d+ (\S+) \$[ap]", line)}
        is_verified = b"All proofs in the database were verified" in done.stdout
        return is_verified and found == set(re.findall(r"(\S+) \$[ap] ", BASE))

    def test_at_random(self) -> None:
        self.write("evil.mm", EVIL.replace("$c evil $.\n", ""))
        chance = random.Random(7)
        counts = {True: 0, False: 0}
        for _ in range(TURNS):
            place = chance.choice([match.start() for match in re.finditer(r"\s", BASE)])
            comment = self.comment(chance)
            text = f"{BASE[:place]} {comment}{BASE[place:]}".encode("latin-1")
            self.write("db.mm", text)
            done = subprocess.run(
                [built_program(), "--report=counts", self.folder / "db.mm"],
                capture_output=True,
                check=False,
            )
            if done.returncode == 0:
                is_told = any(new_includes(BASE.encode(), text))
                is_read = self.read()
                self.assertTrue(is_told or is_read, text)
                counts[is_read] += 1
        self.assertGreater(min(counts.values()), TURNS // 10)


class Attributes(Built):
    """Attributes of git by which another text is given out."""

    def with_attributes(self, line: str, text: str = BASE, name: bytes = b".gitattributes") -> str:
        """A tree with a line of attributes and a database."""
        entries = [
            ("100644", name, self.made("blob", f"{line}\n".encode())),
            ("100644", b"db.mm", self.made("blob", text.encode())),
            ("100644", b"mmdepend.toml", self.asked),
        ]
        return self.tree(*sorted(entries, key=lambda each: each[1]))

    def gives(self, line: str, text: str = BASE, name: bytes = b".gitattributes") -> list[str]:
        """What is found where a branch brings a line of attributes."""
        words = self.judge(self.with_attributes(line, text, name))
        done = self.query("gate", *words)
        self.assertEqual(done.err, "")
        return [each.partition(": ")[2] for each in done.lines()[:-1]]

    def test_each_that_changes_the_file(self) -> None:
        for given, told in (
            ("export-subst", "export-subst"),
            ("export-ignore", "export-ignore"),
            ("filter=x", "filter=x"),
            ("ident", "ident"),
            ("working-tree-encoding=UTF-16", "working-tree-encoding=UTF-16"),
            ("merge=union", "merge=union"),
            ("-merge", "merge=unset"),
            ("eol=crlf", "eol=crlf"),
            ("text", "text"),
            ("text=auto", "text=auto"),
            ("crlf", "crlf"),
        ):
            found = self.gives(f"*.mm {given}")
            why = f"`.gitattributes` gives it `{told}`, so others may get another text than"
            self.assertEqual([each[: len(why)] for each in found], [why], given)

    def test_those_that_change_nothing(self) -> None:
        for line in (
            "*.mm -text",
            "*.mm text eol=lf",
            "*.mm crlf=input",
            "*.mm diff=x",
            "*.md text",
        ):
            self.assertEqual(self.gives(f"{line}\n*.mm -filter -ident", BASE + ADDED), [], line)

    def test_ends_of_lines_that_are_changed(self) -> None:
        returns = (BASE + ADDED).replace("\n", "\r\n")
        self.assertEqual(self.gives("*.mm -text", returns), [])
        for line in ("*.mm text eol=lf", "*.mm eol=lf", "*.mm crlf=input"):
            self.assertTrue(self.gives(line, returns), line)

    def test_an_archive_with_another_axiom(self) -> None:
        hidden = "$( $Format:%x24) cheat %x24a |- 2 %x24. %x24($ $)\n"
        tree = self.with_attributes("db.mm export-subst", BASE + hidden)
        commit = self.git("commit-tree", tree, "-p", "main", "-m", "a tree")
        self.assertEqual(len(self.findings("--base", "main", f"{commit}:db.mm")), 1)
        packed = subprocess.run(
            ["git", "archive", commit], cwd=self.folder, capture_output=True, check=True
        )
        with tarfile.open(fileobj=BytesIO(packed.stdout)) as archive:
            file = archive.extractfile("db.mm")
            assert file is not None
            self.assertIn(b"cheat $a |- 2 $.", file.read())

    def test_the_attribute_first(self) -> None:
        """In two pull requests: the first has a finding, and where it was merged so has what it was
        made for."""
        line = "db.mm export-subst"
        self.assertEqual(len(self.gives(line)), 1)
        first = self.git("commit-tree", self.with_attributes(line), "-p", "main", "-m", "first")
        self.git("update-ref", "refs/heads/main", first)
        self.assertEqual(self.gives(line, BASE + NOTE), [])
        found = self.gives(line, BASE + "$( $Format:%H$ $)\n")
        self.assertIn("a new `$Format:` makes another text of archives", found[0])

    def test_the_attribute_is_there(self) -> None:
        """And so is a `$Format:`, which becomes another one."""
        line, harmless = "db.mm export-subst", "$( $Format:%H$ $)\n"
        tree = self.with_attributes(line, BASE + harmless)
        first = self.git("commit-tree", tree, "-p", "main", "-m", "first")
        self.git("update-ref", "refs/heads/main", first)
        self.assertEqual(self.gives(line, BASE + NOTE + harmless + ADDED), [])
        self.assertEqual(self.gives(line, BASE + ADDED), [])
        for hidden in (
            "$( $Format:%x24) cheat %x24a |- 2 %x24. %x24($ $)\n",
            "$( $Format:%x24)\ncheat %x24a |- 2 %x24.\n%x24($ $)\n",
            "$( $Format:%x24) cheat %x24a |- 2 %x24. %x24( $)\n",
            harmless + harmless,
        ):
            found = self.gives(line, BASE + hidden)
            self.assertEqual(len(found), 1, hidden)
            self.assertIn("a new `$Format:` makes another text of archives", found[0])

    def test_names_and_macros(self) -> None:
        for line in (
            "* ident",
            "db.mm ident",
            "/db.mm ident",
            "DB.MM ident",
            "[attr]x ident\n*.mm x",
            '"db.mm" ident',
            "*.mm ident\nDB.MM -ident",
            "[dD]b.mm ident",
        ):
            self.assertEqual(len(self.gives(line)), 1, line)

    def test_a_file_in_a_folder(self) -> None:
        (self.folder / "deep").mkdir()
        self.commit(BASE, "deep/db.mm")
        self.branch()
        self.write("deep/.gitattributes", "db.mm filter=x\n")
        self.commit(BASE, "deep/db.mm")
        words = ("--base", "main", "HEAD:deep/db.mm")
        self.assertEqual(len(self.findings(*words)), 1)
        self.write("deep/.gitattributes", "x.mm filter=x\n")
        self.commit(BASE, "deep/db.mm")
        self.assertEqual(self.findings(*words, status=0), [])

    def test_a_folder_that_archives_leave_out(self) -> None:
        """The file has no attribute then, and is in no archive."""
        (self.folder / "deep/er").mkdir(parents=True)
        self.write("deep/er/db.mm", BASE)
        self.commit(BASE)
        self.branch()
        words = ("--base", "main", "HEAD:deep/er/db.mm")
        for line, is_left_out in (
            ("deep export-ignore", True),
            ("/deep/ export-ignore", True),
            ("deep/er export-ignore", True),
            ("d* export-ignore", True),
            ("DEEP export-ignore", True),
            ("er/ export-ignore\ndb.mm -export-ignore", True),
            ("deep -export-ignore", False),
            ("deep/e export-ignore", False),
            ("eep export-ignore", False),
        ):
            self.write(".gitattributes", f"{line}\n")
            self.commit(BASE)
            lines = self.findings(*words, status=1 if is_left_out else 0)
            told = "`.gitattributes` gives it `export-ignore`, so others may get another text than"
            self.assertEqual([told in each for each in lines], [True] * is_left_out, line)
            packed = subprocess.run(
                ["git", "archive", "HEAD"], cwd=self.folder, capture_output=True, check=True
            )
            with tarfile.open(fileobj=BytesIO(packed.stdout)) as archive:
                is_there = "deep/er/db.mm" in archive.getnames()
            self.assertEqual(is_there, not is_left_out or line.startswith("DEEP"), line)

    def test_files_that_others_read_otherwise(self) -> None:
        self.assertIn(
            ".GITATTRIBUTES stands beside it, which some systems take for the same name",
            self.gives("x ident", name=b".GITATTRIBUTES")[0],
        )
        words = self.judge(self.with_attributes("*.mm" + " " * 2100 + "ident"))
        self.is_refused(*words, why=".gitattributes has a line of more than 2000 bytes")
        entries = (
            ("120000", b".gitattributes", self.good),
            ("100644", b"db.mm", self.good),
            ("100644", b"mmdepend.toml", self.asked),
        )
        self.is_refused(*self.judge(self.tree(*entries)), why=".gitattributes is a link")
        # Who takes it away from a base that has it passes.
        base = self.git("commit-tree", self.tree(*entries), "-p", "main", "-m", "a link")
        new = self.git("commit-tree", "main^{tree}", "-p", base, "-m", "none")
        self.assertEqual(self.findings("--base", base, f"{new}:db.mm", status=0), [])


class Trees(Built):
    """Trees that git doesn't write, and names that some systems take for one."""

    def test_the_control(self) -> None:
        words = self.judge(
            self.tree(("100644", b"db.mm", self.good), ("100755", b"mmdepend.toml", self.asked))
        )
        self.assertEqual(self.findings(*words, status=0), [])

    def test_two_entries_of_one_name(self) -> None:
        last = ("100644", b"mmdepend.toml", self.asked)
        for one, other in ((self.good, self.evil), (self.evil, self.good)):
            words = self.judge(
                self.tree(("100644", b"db.mm", one), ("100644", b"db.mm", other), last)
            )
            self.is_refused(*words, why="has two entries of the name db.mm")
        inner = self.tree(("100644", b"x", self.evil))
        words = self.judge(
            self.tree(("100644", b"db.mm", self.good), ("40000", b"db.mm", inner), last)
        )
        self.is_refused(*words, why="has two entries of the name db.mm")

    def test_a_name_with_a_path(self) -> None:
        inner = self.tree(("100644", b"db.mm", self.good))
        self.git("checkout", "--quiet", "--orphan", "other")
        self.commit(BASE, "unused")
        base = self.git("commit-tree", self.tree(("40000", b"db", inner)), "-m", "base")
        tree = self.tree(("40000", b"db", inner), ("100644", b"db/db.mm", self.evil))
        new = self.git("commit-tree", tree, "-p", base, "-m", "new")
        words = ("--base", base, f"{new}:db/db.mm")
        self.is_refused(*words, why="it has an entry of the name db/db.mm")
        again = self.git("commit-tree", f"{base}^{{tree}}", "-p", base, "-m", "same")
        self.assertEqual(self.findings("--base", base, f"{again}:db/db.mm", status=0), [])

    def test_names_and_modes_that_git_refuses(self) -> None:
        db, last = ("100644", b"db.mm", self.good), ("100644", b"mmdepend.toml", self.asked)
        for name in (b".", b"..", b".git", b".GIT", b"git~1", b".git ", b".g\xe2\x80\x8cit"):
            entries = sorted((db, last, ("100644", name, self.evil)), key=lambda each: each[1])
            self.is_refused(*self.judge(self.tree(*entries)), why="it has an entry of the name")
        for mode in ("100664", "644", "0", "040000", "100000", "120777"):
            first, odd = ("100644", b"a", self.good), (mode, b"b", self.evil)
            self.is_refused(*self.judge(self.tree(first, odd, db, last)), why=f"the mode {mode}")

    def test_an_order_that_git_does_not_write(self) -> None:
        db, last = ("100644", b"db.mm", self.good), ("100644", b"mmdepend.toml", self.asked)
        self.is_refused(*self.judge(self.tree(last, db)), why="db.mm isn't in its place")

    def test_a_tree_that_is_cut_off(self) -> None:
        data = b"100644 db.mm\0" + bytes.fromhex(self.good)
        words = self.judge(self.made("tree", data + b"100644 x\0" + b"\1" * 9))
        self.is_refused(*words, why="")

    def test_objects_of_another_kind(self) -> None:
        """A tag that stands where a file is read as the file that it names, which no checkout would
        have; its own size isn't that of the file."""
        last = ("100644", b"mmdepend.toml", self.asked)
        good = self.tree(("100644", b"db.mm", self.good), last)
        self.assertEqual(self.findings(*self.judge(good), status=0), [])
        tag = self.tag("blob", self.good)
        words = self.judge(self.tree(("100644", b"db.mm", tag), last))
        self.is_refused(*words, why=f"not judged: db.mm: {tag[:12]} is a tag, and no blob")
        words = self.judge(self.tree(("100644", b"db.mm", good), last))
        self.is_refused(*words, why=f"not judged: db.mm: {good[:12]} is a tree, and no blob")
        inner = self.tree(("100644", b"db.mm", self.good))
        base = self.git("commit-tree", self.tree(("40000", b"db", inner), last), "-m", "base")
        for kind, name in (("tree", inner), ("commit", base), ("blob", self.good)):
            entry = inner if kind == "tree" else self.tag(kind, name) if kind == "blob" else name
            tree = self.tree(("40000", b"db", entry), last)
            new = self.git("commit-tree", tree, "-p", base, "-m", "new")
            words = ("--base", base, f"{new}:db/db.mm")
            if kind == "tree":
                self.assertEqual(self.findings(*words, status=0), [])
            else:
                self.is_refused(*words, why="not judged: db/db.mm: ")

    def tag(self, kind: str, name: str) -> str:
        """A tag that names an object. Returns its id."""
        text = f"object {name}\ntype {kind}\ntag x\ntagger a <a@b> 1 +0000\n\nx\n"
        return self.made("tag", text.encode())

    def test_names_that_some_systems_take_for_one(self) -> None:
        self.cheats()
        self.assertEqual(self.findings(), [CHEAT_FOUND])
        for name in (
            b"DB.mm",
            b"db.mm.",
            b"db.mm ",
            b"db.mm:x",
            b"d\xe2\x80\x8cb.mm",
            b".\\db.mm",
            b"x\\..\\db.mm",
        ):
            entries = sorted(
                (
                    ("100644", b"db.mm", self.good),
                    ("100644", name, self.evil),
                    ("100644", b"mmdepend.toml", self.asked),
                ),
                key=lambda each: each[1],
            )
            found = self.findings(*self.judge(self.tree(*entries)))
            self.assertEqual(len(found), 1, name)
            self.assertIn("stands beside it, which some systems take for the same name", found[0])

    def test_forms_of_unicode(self) -> None:
        name = "caf\u00e9.mm"
        with open(self.folder / name, "w", encoding="utf-8") as file:
            file.write(BASE)
        self.git("add", "--all")
        self.git("commit", "--quiet", "--message", "a name")
        self.branch()
        with open(self.folder / "cafe\u0301.mm", "w", encoding="utf-8") as file:
            file.write(changed(BASE, CHEAT))
        self.git("add", "--all")
        self.git("commit", "--quiet", "--message", "another form")
        found = self.findings("--base", "main", f"HEAD:{name}")
        self.assertEqual([line.rpartition(" ")[2] for line in found], ["[plain]"])

    def test_settings_of_the_user(self) -> None:
        """Whatever encoding the user's system has, names are compared as UTF-8."""
        one, other = (name.encode() for name in ("caf\u00e9.mm", "CAFE\u0301.MM"))
        line = f"import sys; sys.path.insert(0, {str(TOP)!r}); from query.git.trees import fold; "
        line += f"sys.exit(fold({one!r}) != fold({other!r}))"
        for words in ((), ("-X", "utf8=0"), ("-X", "utf8=1")):
            done = self.ran("python3", *words, "-c", line, LC_ALL="C")
            self.assertEqual((done.status, done.err), (0, ""), words)

    def test_the_files_of_a_bare_repository(self) -> None:
        """Also where only some system finds them."""
        inner = self.tree(("100644", b"x", self.good))
        last = [("100644", b"db.mm", self.good), ("100644", b"mmdepend.toml", self.asked)]
        for head, objects, refs in ((b"HEAD", b"objects", b"refs"), (b"Head", b"OBJECTS", b"refs")):
            folders = [("40000", objects, inner), ("40000", refs, inner)]
            entries = sorted(
                [("100644", head, self.good), *folders, *last], key=lambda each: each[1]
            )
            words = self.judge(self.tree(*entries))
            self.is_refused(*words, why="db.mm: lies beside the files of a bare repository")
            entries.remove(("40000", refs, inner))
            self.assertEqual(self.findings(*self.judge(self.tree(*entries)), status=0), [])

    def test_names_that_the_base_has(self) -> None:
        """Nobody knows which file is meant; who takes one away mends it."""
        self.write("DB.mm", BASE)
        self.commit(BASE)
        self.branch()
        self.commit(BASE + ADDED)
        self.is_refused(why="db.mm: DB.mm stands beside it, which some systems take for the same")
        (self.folder / "DB.mm").unlink()
        self.commit(BASE + ADDED)
        self.assertEqual(self.findings(status=0), [])


class Packed(Hostile):
    """Compressed files."""

    def test_in_git(self) -> None:
        self.branch()
        for pack in PACKERS.values():
            (self.folder / "db.mm").write_bytes(pack(BASE.encode()))
            self.git("add", "--all")
            self.git("commit", "--quiet", "--message", "packed")
            found = self.findings("--base", "main", "HEAD:db.mm")
            self.assertRegex(found[0], r"\AHEAD:db.mm: compressed by \w+; in git .* \[valid\]\Z")
            self.assertEqual(self.findings(), [line.replace("HEAD:", "") for line in found])
            self.refuses("verify", "HEAD:db.mm", why="in git a database is plain text")
        self.git("checkout", "--quiet", "-b", "more")
        self.commit(BASE)
        self.is_refused("--base", "work", "HEAD:db.mm", why="compressed by xz; in git a database")
        self.assertEqual(self.findings(status=0), [])

    def test_what_stands_behind_a_stream(self) -> None:
        first, second = BASE.encode(), b"ax-evil $a |- 2 $.\n"
        for name, pack in PACKERS.items():
            for between in (b"\0" * 4, b"\0" * 512, b"x", pack(b"")[:-1]):
                self.write(f"a.{name}", pack(first) + between + pack(second))
                self.refuses("verify", f"a.{name}", why=f"a.{name}: ")
            self.write(f"a.{name}", pack(first) + b"\0\0\0\0")
            self.refuses("verify", f"a.{name}", why="something stands behind what ")
            self.write(f"a.{name}", pack(first) + pack(second))
            done = self.query("verify", f"a.{name}")
            self.assertEqual(done.out, f"a.{name}: valid, 6 axioms and 6 theorems\n", done)

    def test_few_bytes_of_a_large_text(self) -> None:
        for name, pack in PACKERS.items():
            self.write(f"a.{name}", pack(b" " * 50_000_000))
            self.refuses("verify", f"a.{name}", why="more than 100 times as long as the file")
            self.write(f"a.{name}", pack(b" " * 10_000_000 + BASE.encode()))
            self.assertEqual(self.query("verify", f"a.{name}").status, 0)


class HiddenMarks(Hostile):
    """A comment between a description and the label: metamath.exe takes it for the description."""

    USAGE, PROOF = "(New usage is discouraged.)", "(Proof modification is discouraged.)"

    def test_a_mark_that_is_hidden(self) -> None:
        for mark in (self.USAGE, self.PROOF):
            marked = changed(BASE, ("axac3 $p", f"$( {mark} $)\naxac3 $p"))
            self.asks("", before=marked)
            hidden = changed(marked, ("axac3 $p", "$( $j usage; $)\naxac3 $p"))
            hidden = hidden.replace("$j usage;", "$j syntax 'wff';")
            self.commit(hidden)
            finding = (
                f"db.mm:14: axac3: another comment stands behind that with `{mark}`, so"
                " metamath.exe misses it [discouraged]"
            )
            self.assertEqual(self.findings(), [finding])
            self.commit(
                changed(marked, ("axac3 $p", f"$( $j syntax 'wff'; $)\n$( {mark} $)\naxac3 $p"))
            )
            self.assertEqual(self.findings(status=0), [])
            self.git("checkout", "--quiet", "main")
            self.git("branch", "--delete", "--force", "--quiet", "work")
            self.asks("", before=hidden)
            self.commit(hidden + ADDED)
            self.assertEqual(self.findings(status=0), [])
            self.git("checkout", "--quiet", "main")
            self.git("branch", "--delete", "--force", "--quiet", "work")

    def discouraged(self) -> set[str]:
        """The labels of which metamath.exe says that new usage is discouraged."""
        words = ("metamath", "read db.mm", "show discouraged", "exit")
        done = subprocess.run(words, cwd=self.folder, capture_output=True, check=False)
        told = done.stdout.decode("latin-1")
        return set(re.findall(r'New usage of "(.*?)" is discouraged', told))

    def test_where_metamath_misses_a_mark(self) -> None:
        """A comment behind the label is the description; and ends of lines are left out."""
        for mark in (self.USAGE, self.PROOF):
            line = f"$( A. {mark} $)\naxac3 $p"
            marked = changed(BASE, ("axac3 $p", line))
            self.asks("", before=marked)
            broken = mark.replace(" is ", " is\n")
            for more, told in (
                (line.replace(" $p", " $( x $) $p"), "another comment stands behind that with"),
                (line.replace(" $p", "\n$( $j x; $) $( y $) $p"), "another comment stands behind"),
                (line.replace(mark, broken), "a line ends within"),
                (line.replace(mark, broken.replace("\n", "\r\n")), "a line ends within"),
                (line.replace(mark, broken.replace("\n", "\f")), "a line ends within"),
                (line.replace(mark, broken.replace("\n", "\n  ")), ""),
                (line.replace(mark, broken.replace("\n", " \r\n")), ""),
                (line.replace(mark, broken.replace("\n", "\t")), ""),
                (line.replace(" $p", " $p $( x $)"), ""),
            ):
                self.commit(changed(BASE, ("axac3 $p", more)))
                found = self.findings(status=1 if told else 0)
                self.assertEqual([told in each for each in found], [True] * bool(told), more)
                self.assertTrue(all(f"`{mark}`" in each for each in found))
                if shutil.which("metamath") and mark == self.USAGE:
                    self.assertEqual(self.discouraged(), set() if told else {"axac3"}, more)
            self.git("checkout", "--quiet", "main")
            self.git("branch", "--delete", "--force", "--quiet", "work")

    @unittest.skipUnless(shutil.which("metamath"), "there is no metamath.exe")
    def test_at_random(self) -> None:
        """What is taken for a mark, and isn't told to be hidden, metamath.exe sees."""
        chance = random.Random(8)
        parts = (*[""] * 5, "$( x $)", "$( $j x; $)", "$v r $.", "${", "$( #### $)")
        counts = {True: 0, False: 0}
        for _ in range(300):
            gaps = chance.choices((*"     ", "\n", "\n ", " \n", "\f", "\r\n", "\t"), k=3)
            mark = "(New" + gaps[0] + "usage" + gaps[1] + "is" + gaps[2] + "discouraged.)"
            words = [f"$( A. {mark} $)", "ax-x", "$a |- 2 $."]
            for place in (2, 1, 0):
                words.insert(place, chance.choice(parts if place < 2 else parts[:7]))
            words += ["$}"] * words.count("${") + ["u $p |- 2 $= ax-x $."]
            self.write("db.mm", BASE + "\n".join(words) + "\n")
            try:
                text = database_text((self.folder / "db.mm").read_bytes())
            except subprocess.CalledProcessError:  # it is refused
                continue
            one = text.by_label["ax-x"]
            is_marked = is_discouraged(text, one) and not hidden_marks(text, one)
            is_seen = self.discouraged() == {"ax-x"}
            self.assertTrue(is_seen or not is_marked, words)
            counts[is_seen] += 1
        self.assertGreater(min(counts.values()), 20)
