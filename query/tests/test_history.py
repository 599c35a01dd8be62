"""`history`, over repositories that are made: each revision compared with what is asked of it
alone, renames, merges, faults, and repositories that are made to hurt."""

import json
import os
import random
import unittest
from pathlib import Path

from query.answers.errors import NoAnswer
from query.git.objects import Objects
from query.git.repository import repository_of
from query.tests.repositories import ADDED, BASE, FREED, Repositories, changed
from query.tests.world import MMQUERY, invented, program

OF_AC = ("db.mm", "HEAD", "ax-ac2")
BROKEN = changed(BASE, ("$= df-4 $.", "$= none $."))


class History(Repositories):
    """What the tests share."""

    def rows(self, *words: str) -> list[dict[str, object]]:
        """The rows of an answer."""
        done = self.query("history", "--format=json", *words)
        self.assertEqual((done.status, done.err), (0, ""), done)
        return done.rows()

    def of(self, *words: str, column: str = "rest") -> list[object]:
        """A column of an answer."""
        return [row[column] for row in self.rows(*words)]

    def is_empty(self, *words: str, why: str) -> None:
        """The answer has no row, and standard error says why."""
        done = self.query("history", "--format=json", *words)
        self.assertEqual((done.status, done.out), (0, "[]\n"), done)
        self.assertEqual(done.err, f"mmquery: {why}\n")


class Revisions(History):
    """Which revisions there are, and what each says."""

    def test_counts(self) -> None:
        first = self.git("rev-parse", "HEAD")
        self.ask("# nothing of the database\n")
        self.commit(changed(BASE, FREED))
        self.write("other", "")
        self.commit(changed(BASE, FREED))
        last = self.commit(BASE + ADDED)
        rows = self.rows("db.mm", "HEAD", "ax-ac2", "ax-1")
        day = self.git("show", "--no-patch", "--format=%cs", "HEAD")
        self.assertEqual([row["rest"] for row in rows], [2, 4, 0, 5, 2, 5])
        self.assertEqual([row["theorems"] for row in rows[::2]], [6, 6, 7])
        self.assertEqual([row["axiom"] for row in rows[:2]], ["ax-ac2", "ax-1"])
        self.assertEqual((rows[0]["rev"], rows[-1]["rev"]), (first, last))
        self.assertEqual({row["fault"] for row in rows}, {None})
        self.assertIn(rows[-1]["date"], (day, rows[0]["date"]))
        self.assertEqual(self.of("db.mm", f"{first}..HEAD", "ax-ac2"), [0, 2])
        self.assertEqual(self.of("db.mm", f"{first}..", "ax-ac2"), [0, 2])
        self.assertEqual(self.of("db.mm", f"{first}..HEAD~1", "ax-ac2", "ax-ac2"), [0])
        (row, *_) = self.rows("db.mm", "HEAD")
        self.assertEqual((row["theorems"], row["axiom"], row["rest"]), (6, None, None))

    def test_each_revision_by_itself(self) -> None:
        """The figures are those that `falls` and `rests` give of each revision."""
        chance = random.Random(7)
        for _ in range(6):
            self.commit(invented(chance, 8).text)
        axioms = ["wi", "l0", "l1"]
        for flags in ((), ("--essential",)):
            for row in self.rows("db.mm", "main~5..main", *axioms, *flags):
                words = (f"{row['rev']}:db.mm", str(row["axiom"]))
                lines = self.answers("falls", "--all", *flags, *words)
                self.assertEqual(row["rest"], len(lines), words)
        for number in range(5):
            within = f"main~{number + 1}..main~{number}"
            told = self.query("rests", "--all", f"main~{number}:db.mm", "l3").lines()
            rows = self.rows("db.mm", within, *axioms, "--of", "l3") if told != ["l3"] else []
            for row in rows[-len(axioms) :]:  # before these stands what became of the statement
                self.assertEqual((row["theorem"], row["rests"]), ("l3", row["axiom"] in told))

    def test_since_when(self) -> None:
        without = changed(BASE, ("zorn $p", "zorn3 $p"))
        self.commit(changed(BASE, FREED))
        self.commit(without)
        back = self.commit(BASE)
        self.commit(BASE + ADDED)
        rows = self.rows("db.mm", "HEAD", "ax-ac2", "ax-1", "--of", "zorn")
        told = [(row["axiom"], row["rests"]) for row in rows]
        wanted: list[tuple[object, object]]
        wanted = [("ax-ac2", True), ("ax-1", True), ("ax-ac2", False)]
        wanted += [(None, None), ("ax-ac2", True), (None, None)]
        self.assertEqual(told, wanted)
        self.assertEqual(rows[-1]["rev"], back)
        self.assertEqual([row["theorem"] for row in rows], [*["zorn"] * 3, *["zorn3"] * 2, "zorn"])

    def test_what_is_not_there(self) -> None:
        self.commit(changed(BASE, FREED))
        self.refuses("history", *OF_AC[:2], "ax-x", why="no revision in HEAD of db.mm has an axiom")
        self.refuses("history", *OF_AC, "--of", "x", why="has a theorem 'x'")
        self.refuses("history", *OF_AC, "--of", "ax-1", why="has a theorem 'ax-1'")
        self.refuses("history", "db.mm", "none..HEAD", why="git has no revision 'none'\n")
        order = "git has no revision 'ax'; REV..REV comes before the AXIOM\n"
        self.refuses("history", "db.mm", "ax", why=order)
        self.refuses("history", "db.mm", "ax", "HEAD..HEAD", why=order)
        self.refuses("history", "db.mm", "ax", "ax-1", why="git has no revision 'ax'\n")
        self.refuses("history", "db.mm", "HEAD~1...HEAD", why="REV..REV has two dots")
        self.refuses("history", "-", "HEAD", why="the path of a file")
        self.refuses("history", "HEAD:db.mm", "HEAD", why="the path of a file")
        self.refuses("history", ".", "HEAD", why="the path of a file")
        why = "/etc/passwd: its folder /etc lies in no git repository"
        self.refuses("history", "/etc/passwd", "HEAD", why=why)
        new = changed(BASE, ("ax-ac2 $a |- ( p -> ( p -> p ) ) $.", "ax-x $a |- p $."))
        self.commit(new.replace("wp ax-ac2", "wp wp ax-1"))
        self.assertEqual(self.of("db.mm", "HEAD", "ax-x"), [None, None, 0])

    def test_empty_ranges(self) -> None:
        self.ask("# another\n")
        first, last = (self.git("rev-parse", name)[:12] for name in ("HEAD~1", "HEAD"))
        self.is_empty("db.mm", "HEAD..", why=f"HEAD.. has no revision: both ends are {last}")
        self.is_empty(
            "db.mm", "main..HEAD~1", why=f"main..HEAD~1 has no revision: {first} is before {last}"
        )
        self.is_empty("db.mm", "main~1..main", why="no revision of main~1..main changed db.mm")
        self.is_empty("none.mm", "main", why="no revision of main has none.mm")

    def test_a_revision_that_begins_as_an_option(self) -> None:
        self.git("update-ref", "refs/heads/-x", "HEAD")
        self.commit(changed(BASE, FREED))
        self.assertEqual(self.of("--", "db.mm", "-x..HEAD", "ax-ac2"), [0])
        self.assertEqual(self.of("--", "db.mm", "-x", "ax-ac2"), [2])
        self.refuses("history", "db.mm", "-x..HEAD", why="there is no option -x..HEAD")
        self.refuses("history", "--", "db.mm", "--all..HEAD", why="git has no revision '--all'")
        self.refuses("history", "--", "db.mm", "--output=x", why="git has no revision '--output=x'")
        self.assertFalse((self.folder / "x").exists())

    def test_renames(self) -> None:
        self.git("mv", "db.mm", "set.mm")
        self.commit(BASE, "set.mm")
        (self.folder / "sub").mkdir()
        self.git("mv", "set.mm", "sub/new.mm")
        self.commit(changed(BASE, FREED), "sub/new.mm")
        self.commit(BASE + ADDED, "sub/new.mm")
        self.assertEqual(self.of("sub/new.mm", "HEAD", "ax-ac2"), [2, 2, 0, 2])
        self.assertEqual(self.of("sub/new.mm", "HEAD~2..", "ax-ac2"), [0, 2])
        rows = self.rows("set.mm", "HEAD", "ax-ac2")
        faults = [row["fault"] for row in rows]
        self.assertEqual(faults, [None, None, "there is no set.mm"])
        self.write("db.mm", "$( Another file. $)\n")
        self.git("add", "--all")
        self.git("commit", "--quiet", "--message", "another")
        self.assertEqual(self.of("db.mm", "HEAD", column="theorems"), [6, None, 0])

    def test_names_without_end(self) -> None:
        for number in range(51):
            self.git("mv", f"{number - 1}.mm" if number else "db.mm", f"{number}.mm")
            self.git("commit", "--quiet", "--message", "a name")
        self.refuses("history", "50.mm", "HEAD", why="had more than 50 names before")
        self.assertEqual(len(self.rows("50.mm", "HEAD~40..")), 40)

    def test_merges(self) -> None:
        self.branch()
        self.commit(changed(BASE, FREED))
        self.commit(BASE + ADDED)
        self.commit(changed(BASE, FREED) + ADDED)
        self.git("checkout", "--quiet", "main")
        self.git("merge", "--quiet", "--no-ff", "--no-edit", "work")
        merge = self.git("rev-parse", "HEAD")
        rows = self.rows("db.mm", "main", "ax-ac2")
        self.assertEqual([row["rest"] for row in rows], [2, 0])
        self.assertEqual(rows[-1]["rev"], merge)
        self.assertEqual(self.of("db.mm", "main~1..work", "ax-ac2"), [0, 2, 0])

    def test_faulty_revisions(self) -> None:
        self.commit(BROKEN)
        self.commit(BASE + "x $a nothing $.\n")
        self.git("rm", "--quiet", "db.mm")
        self.git("commit", "--quiet", "--message", "gone")
        (self.folder / "db.mm").symlink_to("elsewhere")
        self.git("add", "--all")
        self.git("commit", "--quiet", "--message", "a link")
        (self.folder / "db.mm").unlink()
        self.commit("version https://git-lfs.github.com/spec/v1\n")
        self.commit("refused 1:1 E00\n")
        self.commit(changed(BASE, FREED))
        rows = self.rows(*OF_AC)
        self.assertEqual([row["rest"] for row in rows], [2, *[None] * 6, 0])
        faults = [str(row["fault"]) for row in rows]
        self.assertRegex(faults[1], r"\Arefused 10:\d+ E3\d\Z")
        self.assertRegex(faults[2], r"\Arefused 16:\d+ E17\Z")
        for fault, part in zip(faults[3:], ("there is no db.mm", "is a link", "Git LFS", "report")):
            self.assertIn(part, fault)
        rows = self.rows(*OF_AC, "--of", "zorn")
        self.assertEqual([row["rests"] for row in rows], [True, *[None] * 6, False])
        self.git("branch", "bad", "HEAD~6")
        done = self.query("history", "db.mm", "main~7..bad", "ax-none", "--format=json")
        self.assertEqual((done.status, done.err, len(done.rows())), (0, "", 1))

    def test_when_faults_began_and_ended(self) -> None:
        """Of a fault only where it began, became another one, and ended; in both forms."""
        longer = changed(BASE + ADDED, ("$= df-4 $.", "$= none $."))
        for text in (BASE + ADDED, BROKEN, "\n" + longer, BASE + "x $a nothing $.\n", BASE):
            self.commit(text)
        rows = self.rows(*OF_AC)
        self.assertEqual([row["fault"] is None for row in rows], [True, True, *[False] * 3, True])
        codes = [str(row["fault"]).split(" ")[-1] for row in rows]
        self.assertEqual(codes[2], codes[3])
        turns = self.rows(*OF_AC, "--faults")
        self.assertEqual(turns, [rows[2], rows[4], rows[5]])
        self.assertEqual(self.rows("db.mm", "HEAD", "--faults")[0]["rev"], rows[2]["rev"])
        turns = self.rows(*OF_AC, "--of", "zorn")
        told = [(row["rev"], row["rests"]) for row in turns]
        wanted = [(rows[0]["rev"], True), (rows[2]["rev"], None), (rows[4]["rev"], None)]
        self.assertEqual(told, [*wanted, (rows[5]["rev"], True)])
        self.git("reset", "--quiet", "--hard", "HEAD~4")
        self.is_empty("db.mm", "HEAD", "--faults", why="no revision of HEAD of db.mm has a fault")
        self.refuses("history", *OF_AC, "--of=zorn", "--faults", why="not allowed with argument")

    def test_who_and_what(self) -> None:
        """The author's name and the first line of the message, whatever signs they have."""
        subject = "one\ttwo \x1b[31m <b> \u00e9 " + "x" * 300
        self.write("db.mm", changed(BASE, FREED))
        self.git("add", "--all")
        author = "An, Author \u00fc <a@b>"
        self.git("commit", "--quiet", f"--author={author}", "--message", f"{subject}\n\nbody\n")
        done = self.ran(str(MMQUERY), "history", "--format=json", "db.mm", "HEAD")
        row = json.loads(done.out)[-1]
        self.assertEqual(row["author"], "An, Author \u00fc")
        self.assertEqual(row["subject"], subject[:200])
        rows = self.rows("db.mm", "HEAD")
        for row in rows:
            told = self.git("show", "--no-patch", "--format=%an%n%s", str(row["rev"])).split("\n")
            self.assertEqual(str(row["author"])[:9], told[0][:9])
        lines = self.query("history", "db.mm", "HEAD", "--format=tsv").lines()
        self.assertEqual({line.count("\t") for line in lines}, {7})

    def test_a_program_that_fails(self) -> None:
        self.write("failing", '#!/bin/sh\n[ "$1" = --version ] || exit 3\n')
        (self.folder / "failing").chmod(0o755)
        why = "the program ended with status 3"
        self.refuses("history", *OF_AC, why=why, MMDEPEND="./failing")

    def test_a_shallow_clone(self) -> None:
        self.commit(changed(BASE, FREED))
        other = self.folder.parent / "other"
        self.git("clone", "--quiet", "--depth=1", f"file://{self.folder}", str(other))
        folder, self.folder = self.folder, other
        done = self.query("history", "--format=json", *OF_AC)
        self.assertEqual([row["rest"] for row in done.rows()], [0])
        self.assertIn("the clone is shallow", done.err)
        done = self.query("history", "--format=json", "db.mm", "HEAD", "--of", "zorn")
        self.assertEqual([row["change"] for row in done.rows()], ["there"])
        self.assertRegex(done.err, r"\A[^\n]*the clone is shallow[^\n]*\n\Z")
        self.folder = folder

    def test_a_bare_repository(self) -> None:
        self.commit(changed(BASE, FREED))
        other = self.folder.parent / "other.git"
        self.git("clone", "--quiet", "--bare", ".", str(other))
        folder, self.folder = self.folder, other
        self.assertEqual(self.of("db.mm", "main", "ax-ac2"), [2, 0])
        self.folder = folder

    def test_from_a_folder(self) -> None:
        (self.folder / "sub").mkdir()
        self.commit(BASE, "sub/db.mm")
        folder, self.folder = self.folder, self.folder / "sub"
        self.assertEqual(self.of(*OF_AC), [2])
        self.assertEqual(self.of("../db.mm", "HEAD", "ax-ac2"), [2])
        self.folder = folder


class Elsewhere(History):
    """The repository is the one in which the file's folder lies. In that of the working folder two
    theorems rest on `ax-ac2`, in the other one none does."""

    def setUp(self) -> None:
        super().setUp()
        self.other = self.folder.parent / "other"
        self.made(self.other)

    def made(self, folder: Path) -> None:
        """Makes a repository in a folder, with a database of its own in it and in `sub`."""
        self.git("init", "--quiet", "--initial-branch=trunk", str(folder))
        (folder / "sub").mkdir()
        for name in ("db.mm", "sub/db.mm", "only.mm"):
            (folder / name).write_text(changed(BASE, FREED))
        self.git("add", "--all", folder=folder)
        self.git("commit", "--quiet", "--message", "another", folder=folder)

    def test_another_repository(self) -> None:
        for name in ("db.mm", "sub/db.mm", "only.mm"):
            for path in (f"../other/{name}", str(self.other / name), f"./../other/sub/../{name}"):
                self.assertEqual(self.of(path, "trunk", "ax-ac2"), [0], path)
                self.refuses("history", path, "main", why="git has no revision 'main'")
        self.assertEqual(self.of("../folder/db.mm", "main", "ax-ac2"), [2])
        self.refuses("history", "db.mm", "trunk", why="git has no revision 'trunk'")
        why = "../out.mm: its folder " + str(self.folder.parent) + " lies in no git repository"
        self.refuses("history", "../out.mm", "trunk", why=why)
        why = "no revision of trunk has gone/x.mm"
        self.is_empty("../other/gone/x.mm", "trunk", why=why)

    def test_outside_of_all_repositories(self) -> None:
        """The working folder needs none."""
        folder, self.folder = self.folder, self.folder.parent
        self.assertEqual(self.of("other/db.mm", "trunk", "ax-ac2"), [0])
        self.assertEqual(self.of("folder/db.mm", "main", "ax-ac2"), [2])
        self.refuses("history", "db.mm", "main", why=f"{self.folder} lies in no git repository")
        self.git("clone", "--quiet", "--bare", "other", "bare.git")
        self.assertEqual(self.of("bare.git/db.mm", "trunk", "ax-ac2"), [0])
        self.assertEqual(self.of("bare.git/sub/db.mm", "trunk", "ax-ac2"), [0])
        self.folder = folder

    def test_a_repository_within(self) -> None:
        """It is the inner one. What a commit brings makes none."""
        inner = self.folder / "inner"
        self.made(inner)
        self.assertEqual(self.of("inner/db.mm", "trunk", "ax-ac2"), [0])
        self.assertEqual(self.of("inner/sub/db.mm", "trunk", "ax-ac2"), [0])
        self.assertEqual(self.of("inner/../db.mm", "main", "ax-ac2"), [2])
        self.git("clone", "--quiet", "--bare", str(inner), str(self.folder / "planted"))
        self.write("planted/db.mm", BASE)
        why = "has the files of a bare repository, and lies in the repository"
        for path in ("planted/db.mm", "planted/sub/db.mm", "planted/refs/db.mm", ".git/db.mm"):
            self.refuses("history", path, "HEAD", why=why)

    def test_settings_of_another_repository(self) -> None:
        """They run nothing, as those of the working folder's don't."""
        marker = self.folder.parent / "marker"
        touch = f"touch {marker}"
        for name in ("core.fsmonitor", "core.pager", "pager.log", "diff.external"):
            self.git("config", name, touch, folder=self.other)
        self.git("config", "alias.log", f"!{touch}", folder=self.other)
        self.assertEqual(self.of("../other/db.mm", "trunk", "ax-ac2"), [0])
        self.assertFalse(marker.exists())

    def test_links(self) -> None:
        """One that lies in a repository may come from a commit, and chooses none."""
        (self.folder / "link").symlink_to("../other")
        (self.folder / "deep").mkdir()
        (self.folder / "deep" / "link").symlink_to("../../other/sub")
        for path in ("link/db.mm", "link/sub/db.mm", "deep/link/db.mm"):
            self.refuses("history", path, "trunk", why="is a link, and lies in a repository")
            self.refuses("history", str(self.folder / path), "trunk", why="link is a link")
        self.refuses("history", "link/../db.mm", "main", why="there is a link on the way")
        (self.folder / "file.mm").symlink_to("../other/db.mm")
        self.refuses("history", "file.mm", "main", why="file.mm is a link")
        (self.folder.parent / "chain").symlink_to("folder/link")
        why = f"{self.folder}/link is a link, and lies in a repository"
        self.refuses("history", "../chain/db.mm", "trunk", why=why)
        (self.folder.parent / "loop").symlink_to("loop")
        self.refuses("history", "../loop/db.mm", "trunk", why="there are too many links on the way")
        outer = self.folder.parent / "outer"
        outer.symlink_to(self.other)
        self.assertEqual(self.of("../outer/db.mm", "trunk", "ax-ac2"), [0])
        (self.folder.parent / "middle").symlink_to("other/sub")
        why = "a link leads into the repository"
        self.refuses("history", "../middle/db.mm", "trunk", why=why)


class Kept(History):
    """What is known of a revision is kept, and what somebody else put there isn't believed. On
    `ax-ac2` rest two theorems of BASE, none where FREED changed it, and two again with ADDED."""

    def setUp(self) -> None:
        super().setUp()
        self.commit(changed(BASE, FREED))
        self.runs = self.folder.parent / "runs"
        self.counting = self.folder.parent / "counting"
        self.counting.write_text(
            f'#!/bin/sh\n[ "$1" = --version ] || echo x >> {self.runs}\n' f'exec {program()} "$@"\n'
        )
        self.counting.chmod(0o755)

    def answer_and_runs(self, *words: str) -> tuple[list[object], int]:
        """The answer, and for how many databases the program ran."""
        self.runs.write_text("")
        done = self.query(
            "history", *(words or OF_AC), "--format=json", MMDEPEND=str(self.counting)
        )
        self.assertEqual((done.status, done.err), (0, ""))
        key = "rests" if "--of" in words else "rest"
        return [row[key] for row in done.rows()], len(self.runs.read_text().split())

    def test_known_revisions(self) -> None:
        self.assertEqual(self.answer_and_runs(), ([2, 0], 2))
        self.assertEqual(self.answer_and_runs(), ([2, 0], 0))
        self.assertEqual(self.answer_and_runs("db.mm", "HEAD", "ax-1"), ([4, 5], 0))
        self.commit(BASE + ADDED)
        self.assertEqual(self.answer_and_runs(), ([2, 0, 2], 1))
        self.assertEqual(self.answer_and_runs(*OF_AC, "--no-cache"), ([2, 0, 2], 3))
        self.assertEqual(self.answer_and_runs(*OF_AC, "--essential"), ([2, 0, 2], 3))
        self.assertEqual(self.answer_and_runs(*OF_AC, "--of", "zorn"), ([True, False, True], 3))
        self.assertEqual(self.answer_and_runs(*OF_AC, "--of", "zorn"), ([True, False, True], 0))

    def test_what_is_before_a_range(self) -> None:
        """It is one file more that is verified, where it is asked what became of a statement."""
        self.commit(BASE + ADDED)
        last = ("db.mm", "HEAD~1..", "ax-ac2")
        self.assertEqual(self.answer_and_runs(*last, "--no-cache"), ([2], 1))
        self.assertEqual(self.answer_and_runs(*last, "--of", "zorn"), ([True], 2))
        self.assertEqual(self.answer_and_runs(*last, "--of", "zorn"), ([True], 0))

    def test_equal_files_are_judged_once(self) -> None:
        for text in (BASE, changed(BASE, FREED), BASE, BROKEN, BASE, BROKEN):
            self.commit(text)
        wanted = [2, 0, 2, 0, 2, None, 2, None]
        self.assertEqual(self.answer_and_runs(), (wanted, 3))
        self.assertEqual(self.answer_and_runs(), (wanted, 0))
        self.assertEqual(self.answer_and_runs(*OF_AC, "--no-cache"), (wanted, 3))

    def test_a_whole_result_is_enough(self) -> None:
        for revision in ("HEAD", "HEAD~1"):
            self.query("rests", f"{revision}:db.mm", "zorn", MMDEPEND=str(self.counting))
        self.assertEqual(self.answer_and_runs(), ([2, 0], 0))
        self.assertEqual(self.answer_and_runs(*OF_AC, "--of", "zorn"), ([True, False], 0))

    def test_it_is_small(self) -> None:
        self.answer_and_runs()
        sizes = [file.stat().st_size for file in (self.cache / "mmquery").iterdir()]
        self.assertEqual(len(sizes), 2)
        self.assertLess(max(sizes), 400)

    def test_what_was_planted(self) -> None:
        self.answer_and_runs()
        files = sorted((self.cache / "mmquery").iterdir())
        contents = [file.read_bytes() for file in files]
        for one, other in zip(files, reversed(contents)):
            one.write_bytes(other)
        self.assertEqual(self.answer_and_runs(), ([2, 0], 2))
        for file in files:
            data = bytearray(file.read_bytes())
            data[-5] ^= 1
            file.write_bytes(data)
        self.assertEqual(self.answer_and_runs(), ([2, 0], 2))
        (self.config / "mmquery" / "secret").unlink()
        self.assertEqual(self.answer_and_runs(), ([2, 0], 2))


class Hostile(History):
    """Nothing of the repository is run, and nothing but what its commits have is believed."""

    def setUp(self) -> None:
        super().setUp()
        self.write(".gitattributes", "*.mm filter=bad diff=bad merge=bad ident -text\n")
        self.commit(changed(BASE, FREED))
        self.git("mv", "db.mm", "new.mm")
        self.commit(BASE + ADDED, "new.mm")
        self.marker = self.folder.parent / "marker"
        self.words = ("new.mm", "HEAD", "ax-ac2")
        self.wanted: list[object] = [2, 0, 2]

    def test_settings(self) -> None:
        touch = f"touch {self.marker}"
        hook = self.folder.parent / "hooks"
        hook.mkdir()
        for name in ("post-checkout", "reference-transaction", "pre-auto-gc"):
            (hook / name).write_text(f"#!/bin/sh\n{touch}\n")
            (hook / name).chmod(0o755)
        for setting in (
            f"core.fsmonitor={touch}",
            f"core.hooksPath={hook}",
            f"core.pager={touch}",
            f"pager.rev-list={touch}",
            f"pager.diff-tree={touch}",
            f"diff.external={touch}",
            f"diff.bad.command={touch}",
            f"diff.bad.textconv={touch}",
            f"filter.bad.smudge={touch}",
            f"filter.bad.process={touch}",
            f"alias.rev-list=!{touch}",
            f"core.sshCommand={touch}",
            f"gpg.program={touch}",
            "log.showSignature=true",
            "diff.renames=false",
            "diff.renameLimit=1",
            "log.excludeDecoration=x",
        ):
            self.git("config", *setting.split("=", 1))
        self.assertEqual(self.of(*self.words), self.wanted)
        self.assertFalse(self.marker.exists())

    def test_a_promise(self) -> None:
        for setting in (
            "extensions.partialClone=origin",
            "core.repositoryFormatVersion=1",
            f"remote.origin.url=ext::touch {self.marker}",
            "remote.origin.promisor=true",
            "protocol.ext.allow=always",
        ):
            self.git("config", *setting.split("=", 1))
        self.commit(changed(BASE, FREED) + ADDED, "new.mm")
        self.remove("HEAD:new.mm")
        rows = self.rows(*self.words)
        self.assertEqual([row["rest"] for row in rows], [*self.wanted, None])
        self.assertIn("git: ", str(rows[-1]["fault"]))
        self.assertNotIn("hint", str(rows[-1]["fault"]))
        self.remove("HEAD~2:db.mm")  # which has to be read to see that it was renamed
        self.refuses("history", *self.words, why="git: ")
        self.assertFalse(self.marker.exists())

    def remove(self, name: str) -> None:
        """Removes an object."""
        blob = self.git("rev-parse", name)
        (self.folder / ".git/objects" / blob[:2] / blob[2:]).unlink()

    def test_what_is_put_in_place(self) -> None:
        tip = self.git("rev-parse", "HEAD")
        old = self.git("rev-parse", "HEAD~2")
        self.git(
            "replace", self.git("rev-parse", "HEAD:new.mm"), self.git("rev-parse", f"{old}:db.mm")
        )
        self.git("replace", "--graft", tip)
        self.assertEqual(self.of(*self.words), self.wanted)
        (self.folder / ".git/info/grafts").write_text(f"{tip}\n")
        self.assertEqual(self.of(*self.words), self.wanted)

    def test_variables(self) -> None:
        other = self.folder.parent / "other"
        self.git("clone", "--quiet", ".", str(other))
        for name, value in (
            ("GIT_DIR", str(other / ".git")),
            ("GIT_OBJECT_DIRECTORY", "/nowhere"),
            ("GIT_EXTERNAL_DIFF", f"touch {self.marker}"),
            ("GIT_GLOB_PATHSPECS", "1"),
            ("GIT_DIFF_OPTS", "--unified=0"),
            ("GIT_SHALLOW_FILE", "/nowhere"),
        ):
            more: dict[str, str] = {name: value}
            done = self.query("history", *self.words, "--format=json", given=b"", **more)
            self.assertEqual([row["rest"] for row in done.rows()], self.wanted, name)
        self.assertFalse(self.marker.exists())

    def test_paths_that_are_patterns(self) -> None:
        for name in ("*.mm", ":(glob)*", ":!new.mm", "a\nb.mm", "-x", "\x1b[31m.mm"):
            self.write(name, BASE)
        self.git("add", "--all")
        self.git("commit", "--quiet", "--message", "names")
        for name in ("./*.mm", "./:(glob)*", "./:!new.mm", "a\nb.mm", "./-x", "\x1b[31m.mm"):
            self.assertEqual(self.of("--", name, "HEAD", "ax-ac2"), [2], name)
        self.is_empty("./n*", "HEAD", why="no revision of HEAD has n*")
        self.is_empty("\x1b.mm", "HEAD", why="no revision of HEAD has \\x1b.mm")

    def test_links_on_the_way(self) -> None:
        (self.folder / "link").symlink_to(".")
        self.refuses("history", "link/new.mm", "HEAD", why="link is a link")
        os.rename(self.folder / "new.mm", self.folder / "aside.mm")
        (self.folder / "new.mm").symlink_to("aside.mm")
        self.refuses("history", "new.mm", "HEAD", why="new.mm is a link")

    def test_dates_that_are_none(self) -> None:
        tree = self.git("rev-parse", "HEAD^{tree}")
        text = f"tree {tree}\nauthor a <a@b> 1 +0000\ncommitter a <a@b> {10**17} +0000\n\nx\n"
        self.write("commit", text)
        commit = self.git("hash-object", "-t", "commit", "-w", "--literally", "commit")
        (row,) = self.rows("new.mm", commit, "ax-ac2")
        self.assertEqual((row["rev"], row["rest"]), (commit, 2))
        self.assertIsNone(row["date"])


class Reading(Repositories):
    """Objects that one call of git reads one after another."""

    def test_many(self) -> None:
        """Each is what a call of its own reads; a longer one begins the call anew."""
        texts = ["", "x", BASE, BASE + ADDED, "\n" * 70_000, BASE]
        names = [self.git("hash-object", "-w", self.write("some", text)) for text in texts]
        with Objects(repository_of(self.folder)) as objects, objects.reader() as reader:
            for name, text in [*zip(names, texts), *zip(names[::-1], texts[::-1])]:
                self.assertEqual(objects.blob(name, "some", reader=reader), text.encode())
            with self.assertRaisesRegex(NoAnswer, "has 1 bytes, and 0 are taken"):
                objects.blob(names[1], "some", 0, reader)
            with self.assertRaisesRegex(NoAnswer, "lacks the object"):
                objects.blob("0" * 40, "some", reader=reader)
            self.assertEqual(objects.blob(names[2], "some", reader=reader), BASE.encode())

    def test_a_call_that_ends(self) -> None:
        """Where git ends, or tells another object, there is no answer, and the next call begins."""
        name = self.git("hash-object", "-w", self.write("some", BASE))
        with Objects(repository_of(self.folder)) as objects, objects.reader() as reader:
            for size in (len(BASE) - 1, len(BASE) + 1):
                with self.assertRaisesRegex(NoAnswer, "isn't read as it was told before"):
                    reader.read("blob", name, size)
            with self.assertRaisesRegex(NoAnswer, "isn't read as it was told before"):
                reader.read("tree", name, len(BASE))
            reader.started(len(BASE)).kill()
            reader.started(len(BASE)).wait()
            with self.assertRaisesRegex(NoAnswer, "git ended before"):
                reader.read("blob", name, len(BASE))
            self.assertEqual(reader.read("blob", name, len(BASE)), BASE.encode())


if __name__ == "__main__":
    unittest.main()
