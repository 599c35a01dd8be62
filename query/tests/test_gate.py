"""The gate, on repositories that the tests make."""

import json
import os
import re
import unittest

from query.tests.repositories import ADDED, BASE, FREED, TAKEN, WATCH, Repositories, changed
from query.tests.world import DATABASES, TOP

CHEAT = (
    "2p2e4 $p |- ( 2 + 2 ) = 4 $= df-4",
    "ax-cheat $a |- ( 2 + 2 ) = 4 $.\n2p2e4 $p |- ( 2 + 2 ) = 4 $= ax-cheat",
)
OTHER_NAMES = "only the names of variables are other than in the base, and it"
BOXES = (
    BASE
    + "".join(
        f"$(\n=-=-\n  Mathbox for {name}\n=-=-\n$)\n"
        f"{name}1 $p |- ( p -> ( q -> p ) ) $= wp wq {cited} $.\n"
        f"{name}2 $p |- ( p -> ( q -> p ) ) $= wp wq {name}1 $.\n"
        for name, cited in (("Ann", "ax1"), ("Bo", "Ann1"))
    )
    + "$(\n####\n  Main again\n####\n$)\nlast $p |- ( p -> ( q -> p ) ) $= wp wq Bo2 $.\n"
)


class TheTwoFailures(Repositories):
    """What a job for watched axioms once let pass."""

    def test_an_axiom_is_added(self) -> None:
        for config in ("", WATCH):
            self.ask(config)
            lines = self.gate_of(changed(BASE, CHEAT), status=1)
            self.assertEqual(lines, ["db.mm:10: ax-cheat: a new axiom: |- ( 2 + 2 ) = 4 [axioms]"])

    def test_a_watched_axiom_is_renamed(self) -> None:
        lines = self.gate_of(BASE.replace("ax-ac2", "ax-ac2x"), status=1)
        self.assertEqual(
            lines,
            [
                "db.mm:9: ax-ac2x: a new label of the axiom ax-ac2: |- ( p -> ( p -> p ) );"
                " 2 theorems rest on it [axioms]",
                "db.mm: ax-ac2: an axiom that is gone; its statement has the label ax-ac2x"
                " [axioms]",
                "mmdepend.toml:1: ax-ac2: a watched axiom that is missing; its statement has the"
                " label ax-ac2x [watched]",
            ],
        )
        self.ask(WATCH + '[allow]\naxioms = ["ax-ac2*"]\n')
        lines = self.gate_of(BASE.replace("ax-ac2", "ax-ac2x"), status=1)
        self.assertEqual([line.rpartition(" ")[2] for line in lines], ["[watched]"])

    def test_both_of_two_files(self) -> None:
        self.write("cheat.mm", changed(BASE, CHEAT))
        self.write("renamed.mm", BASE.replace("ax-ac2", "ax-ac2x"))
        self.assertEqual(len(self.gate("db.mm", "cheat.mm", status=1)), 1)
        self.assertEqual(len(self.gate("db.mm", "renamed.mm", status=1)), 3)
        self.assertEqual(self.gate("db.mm", "db.mm", status=0), [])


class Bases(Repositories):
    """With what a database is compared."""

    def test_nothing_is_changed(self) -> None:
        done = self.query("gate", "--base", "main", "db.mm")
        self.assertEqual(done.status, 0)
        commit = self.git("rev-parse", "HEAD")[:12]
        said = f"passed: db.mm ({commit}) compared with main, {commit}"
        self.assertEqual(done.lines()[-1], said)
        self.assertIn("note: the base has this commit already", done.out)

    def test_what_is_judged_is_told(self) -> None:
        """The commit, whether what isn't committed counts, and that no axiom is watched."""
        base = self.git("rev-parse", "HEAD")[:12]
        self.branch()
        self.commit(BASE + ADDED)
        commit = self.git("rev-parse", "HEAD")[:12]
        for word in ("db.mm", "HEAD:db.mm"):
            (line,) = self.answers("gate", "--base", "main", word)
            self.assertEqual(line, f"passed: {word} ({commit}) compared with main, {base}")
        (self.folder / "db.mm").write_text(BASE + ADDED + ADDED.replace("new", "newer"))
        judged = f"{commit}, with what isn't committed"
        told = json.loads(self.query("gate", "--base", "main", "db.mm", "--format=json").out)
        self.assertEqual((told["judged"], told["watched"]), (judged, ["ax-ac2"]))
        told = self.query("gate", "--base", "main", "db.mm", "--format=markdown").out
        self.assertIn(f"`db.mm` ({judged}) compared with `main, {base}`\n", told)
        (line,) = self.answers("gate", "--base", "main", "HEAD:db.mm")
        self.assertEqual(line, f"passed: HEAD:db.mm ({commit}) compared with main, {base}")
        told = json.loads(self.query("gate", "db.mm", "db.mm", "--format=json").out)
        self.assertEqual(told["judged"], None)
        self.git("checkout", "--quiet", "--force", "main")
        self.ask("")
        said = f"db.mm ({self.git('rev-parse', 'HEAD')[:12]}) compared with main, "
        told = self.answers("gate", "--base", "main", "db.mm")[-1]
        self.assertRegex(told, re.escape(f"passed: {said}") + "[0-9a-f]{12}; no axiom is watched")
        told = json.loads(self.query("gate", "--base", "main", "db.mm", "--format=json").out)
        self.assertEqual(told["watched"], [])

    def test_the_base_freed_a_theorem(self) -> None:
        self.branch()
        self.commit(BASE + ADDED)
        self.git("checkout", "--quiet", "main")
        self.commit(changed(BASE, FREED))
        self.git("checkout", "--quiet", "work")
        self.assertEqual(self.gate(status=0), [])
        self.assertEqual(self.gate("--merge-base", "--base", "main", "db.mm", status=0), [])
        self.write("tip.mm", changed(BASE, FREED))
        lines = self.gate("--all", "tip.mm", "db.mm", status=1)
        self.assertEqual(len(lines), 2)
        self.assertIn("db.mm:12: axac3: newly rests on ax-ac2: it cites ax-ac2 [newly]", lines)

    def test_the_default_is_origin_main(self) -> None:
        self.has_no_answer("db.mm", why="git has no revision 'origin/main'")
        clone = self.folder / "clone"
        self.git("clone", "--quiet", str(self.folder), str(clone))
        self.write("clone/db.mm", changed(BASE, CHEAT))
        self.has_no_answer("clone/db.mm", why="clone is a repository or a submodule of its own")
        self.folder = clone
        self.assertEqual(len(self.gate("db.mm", status=1)), 1)
        self.write("db.mm", BASE + ADDED)
        self.assertEqual(self.gate("db.mm", status=0), [])

    def test_the_base_of_the_file(self) -> None:
        self.ask('base = "main"\n' + WATCH)
        self.has_no_answer("db.mm", why="name it by --base")
        self.git("update-ref", "refs/remotes/origin/main", "HEAD")
        self.assertEqual(len(self.gate_of(changed(BASE, CHEAT), "db.mm", status=1)), 1)
        self.branch()
        self.ask('base = "nowhere"\n' + WATCH)
        told = "mmdepend.toml:1: the base was 'main', and is 'nowhere' [config]"
        self.assertEqual(self.gate("db.mm", status=1), [told])
        self.git("update-ref", "refs/remotes/origin/main", "HEAD")
        self.has_no_answer("db.mm", why="git has no revision 'nowhere'")

    def test_on_a_push_the_commit_before(self) -> None:
        self.commit(changed(BASE, FREED))
        self.commit(BASE)
        lines = self.gate("--base", "HEAD~1", "db.mm", status=1)
        told = "newly rests on ax-ac2: it cites ax-ac2; with 1 more theorem by that [newly]"
        self.assertEqual(lines, [f"db.mm:12: axac3: {told}"])
        lines = self.gate("--all", "--base", "HEAD~1", "db.mm", status=1)
        self.assertEqual([line.split(": ")[1] for line in lines], ["axac3", "zorn"])
        self.assertEqual(self.gate("--base", "HEAD~2", "db.mm", status=0), [])
        self.assertEqual(self.gate("--base", "main", "db.mm", status=0), [])
        self.assertIn("name the commit before", self.query("gate", "--base", "main", "db.mm").out)

    def test_a_revision_is_judged(self) -> None:
        self.branch()
        self.commit(changed(BASE, CHEAT))
        self.git("checkout", "--quiet", "main")
        lines = self.gate("--base", "main", "work:db.mm", status=1)
        self.assertEqual(lines, ["work:db.mm:10: ax-cheat: a new axiom: |- ( 2 + 2 ) = 4 [axioms]"])
        self.assertEqual(self.gate("--base", "main", "main:db.mm", status=0), [])

    def test_a_hook(self) -> None:
        self.write("db.mm", changed(BASE, CHEAT))
        for folder in (".git", "/nowhere"):
            done = self.query("gate", "--base", "main", "db.mm", GIT_DIR=folder, GIT_WORK_TREE="/")
            self.assertEqual((done.status, done.err), (1, ""))

    def test_a_bare_repository(self) -> None:
        self.branch()
        self.commit(changed(BASE, CHEAT))
        bare = self.folder.parent / "bare.git"
        self.git("clone", "--quiet", "--bare", str(self.folder), str(bare))
        self.folder = bare
        self.assertEqual(len(self.gate("--base", "main", "work:db.mm", status=1)), 1)
        self.assertEqual(self.gate("--base", "main", "main:db.mm", status=0), [])

    def test_what_is_not_committed_counts(self) -> None:
        self.write("db.mm", changed(BASE, CHEAT))
        self.assertEqual(len(self.gate(status=1)), 1)

    def test_a_file_of_a_folder(self) -> None:
        (self.folder / "deep" / "down").mkdir(parents=True)
        self.commit(BASE, "deep/down/other.mm")
        self.branch()
        self.commit(changed(BASE, CHEAT), "deep/down/other.mm")
        self.assertEqual(len(self.gate("--base", "main", "deep/down/other.mm", status=1)), 1)
        self.assertEqual(self.gate(status=0), [])


class NoAnswers(Repositories):
    """Why there is no answer: one line, status 2."""

    takes_long = True

    def test_a_revision_that_is_missing(self) -> None:
        for word in ("nowhere", "--help", "-n", "HEAD~9", "a b", "main:db.mm", ""):
            self.has_no_answer(f"--base={word}", "db.mm", why=f"git has no revision '{word}'")
        self.has_no_answer("--base", "0" * 40, "db.mm", why="no commit before a new branch")

    def test_a_shallow_clone(self) -> None:
        self.branch()
        self.commit(BASE + ADDED)
        self.git("checkout", "--quiet", "main")
        self.commit(BASE + "\n")
        clone = self.folder / "shallow"
        self.git(
            "clone",
            "--quiet",
            "--depth=1",
            "--no-single-branch",
            f"file://{self.folder}",
            str(clone),
        )
        self.git("checkout", "--quiet", "work", folder=clone)
        self.folder = clone
        why = "isn't known: the clone is shallow; fetch the whole history (`fetch-depth: 0`)"
        self.has_no_answer("db.mm", why=why)
        self.has_no_answer("--merge-base", "db.mm", why=why)
        self.has_no_answer("--base", "HEAD~3", "db.mm", why="the clone is shallow")
        self.assertEqual(self.gate("--base", "HEAD", "db.mm", status=0), [])

    def test_no_common_history(self) -> None:
        self.git("checkout", "--quiet", "--orphan", "alone")
        self.commit(BASE + ADDED)
        self.has_no_answer("--base", "main", "db.mm", why="have no common history")

    def test_a_file_that_is_new(self) -> None:
        self.branch()
        self.commit(BASE, "other.mm")
        self.has_no_answer("--base", "main", "other.mm", why="other.mm: not in main, ")

    def test_a_file_that_is_missing(self) -> None:
        self.has_no_answer("nowhere.mm", why="nowhere.mm: there is no such file")
        self.has_no_answer("main:nowhere.mm", why="")
        self.has_no_answer("-", why="standard input is in no repository")
        self.has_no_answer("db.mm", "nowhere.mm", why="nowhere.mm: there is no such file")

    def test_no_repository(self) -> None:
        outside = self.folder.parent / "outside"
        outside.mkdir()
        (outside / "db.mm").write_text(BASE)
        word = str(outside / "db.mm")
        why = f"its folder {outside} lies in no git repository; without git name two files"
        self.has_no_answer("--base", "main", word, why=why)
        folder, self.folder = self.folder, outside
        self.has_no_answer("--base", "main", "db.mm", why=why)
        self.folder = folder
        self.assertEqual(self.gate("db.mm", str(outside / "db.mm"), status=0), [])

    def test_no_git(self) -> None:
        os.symlink("/usr/bin/python3", self.temporary / "python3")
        done = self.query("gate", "--base", "main", "db.mm", PATH=str(self.temporary))
        (self.temporary / "python3").unlink()
        self.assertEqual((done.status, done.err), (2, "mmquery: git isn't installed\n"))

    def test_a_base_that_is_refused(self) -> None:
        self.commit(changed(BASE, ("wp ax-ac2 $.", "wp $.")))
        self.branch()
        self.commit(BASE)
        done = self.has_no_answer("--base", "main", "db.mm", why="db.mm:12:")
        self.assertIn("E38", done.err)

    def test_words_and_options(self) -> None:
        self.has_no_answer("db.mm", "db.mm", "db.mm", why="unrecognized arguments: db.mm")
        self.has_no_answer("--base", "main", "db.mm", "db.mm", why="--base goes with one database")
        self.has_no_answer("--config", "nowhere", "db.mm", why="nowhere")
        self.has_no_answer("--summary", "no/where", "--base", "main", "db.mm", why="no/where")
        self.write("report", self.report("db.mm", "--report", "usage"))
        self.has_no_answer("db.mm", "report", why="report: a report, where the database is wanted")

    def test_a_config_that_is_wrong(self) -> None:
        for text, why in (
            ("wach = []", "mmdepend.toml:1: there is no key 'wach'; did you mean 'watch'?"),
            ("watch = 'ax-1'", "mmdepend.toml:1: 'watch' isn't a list of labels, but a text"),
            ("\n[rules]\nopne = true", "mmdepend.toml:3: there is no key 'rules.opne'"),
            ("[rules]\nopen = 0", "'rules.open' isn't true or false, but a number"),
            ("rules = 1", "'rules' isn't a table, but a number"),
            ("[claims]\n'a b' = ['ax-1']", "'a b' is no label"),
            ("watch = [1]", "it has a number"),
            ("x", "mmdepend.toml: "),
            ("\xff", "mmdepend.toml: not UTF-8"),
        ):
            self.ask(WATCH)
            self.write("mmdepend.toml", text)
            line = self.gate(status=1)[-1]
            self.assertTrue(line.startswith("mmdepend.toml") and line.endswith(" [config]"), line)
            self.assertIn(why.removeprefix("mmdepend.toml"), line)
            self.has_no_answer("--base", "main", "--config-of-new", "db.mm", why=why)
            self.ask(text)
            self.has_no_answer("--base", "main", "db.mm", why=why)


class Rules(Repositories):
    """Each rule: what breaks it, what doesn't, and how it is allowed and switched off."""

    takes_long = True

    def breaks(self, rule: str, text: str, *parts: str, allow: str, before: str = BASE) -> None:
        """Checks that a change of the database breaks one rule, unless it is allowed or off."""
        config = (self.folder / "mmdepend.toml").read_text()
        self.commit(before)
        lines = self.gate_of(text, status=1)
        self.assertEqual(len(lines), len(parts), lines)
        for line, part in zip(lines, parts):
            self.assertIn(part, line)
            self.assertTrue(line.endswith(f" [{rule}]"), line)
        for more in (f"[rules]\n{rule} = false\n", allow):
            if more:
                self.write("mmdepend.toml", config + more)
                self.commit(before)
                self.assertEqual(self.gate_of(text, status=0), [])
        self.write("mmdepend.toml", config)
        self.commit(before)

    def test_axioms(self) -> None:
        short = "".join(f"{line}\n" for line in BASE.splitlines()[:9])
        ax1 = "ax-1 $a |- ( p -> ( q -> p ) ) $."
        for change, part in (
            ((ax1, "ax-1 $a |- p $."), "db.mm:7: ax-1: a changed axiom: the formula changed, from"),
            ((ax1, f"${{ $d p q $. {ax1} $}}"), "ax-1: a changed axiom: the $d conditions changed"),
            ((f"{ax1}\n", ""), "db.mm: ax-1: an axiom that is gone ["),
            ((ax1, f"${{ e $e |- p $. {ax1} $}}"), "ax-1: a changed axiom: the hypotheses changed"),
            ((ax1, f"{ax1} ax-1b $a |- 2 = 2 $."), "db.mm:7: ax-1b: a new axiom: |- 2 = 2 ["),
            ((ax1, ax1.replace("|-", "wff")), "ax-1: a changed axiom: the formula changed, from"),
        ):
            allow = '[allow]\naxioms = ["ax-1*"]\n'
            self.breaks("axioms", changed(short, change), part, before=short, allow=allow)
        self.commit(BASE)
        lines = self.gate_of(BASE + "wx $a wff 2 $.\n", status=1)
        self.assertEqual(lines, ["db.mm:16: wx: a new axiom: wff 2 [axioms]"])

    def test_a_variable_that_becomes_another(self) -> None:
        text = "$c |- a b $. $v p $. wp $f a p $. wb $a b p $. ax $a |- p $.\n"
        self.write("mmdepend.toml", "")
        new = text.replace("wp $f a p", "wp $f b p")
        parts = [f"{each}: a changed axiom: the typecodes of variables" for each in ("wb", "ax")]
        self.breaks("axioms", new, *parts, before=text, allow='[allow]\naxioms = ["ax", "wb"]\n')
        self.write("mmdepend.toml", 'typecode = "|-"\n')
        self.breaks("axioms", new, parts[1], before=text, allow='[allow]\naxioms = ["ax"]\n')

    def test_a_hypothesis_of_all_that_follows(self) -> None:
        text = changed(BASE, ("ax-1 $a", "cheat $e |- ( 2 + 2 ) = 4 $.\nax-1 $a")).split("2p2e4")[0]
        self.commit(BASE.split("2p2e4")[0])
        lines = self.gate_of(text, status=1)
        self.assertEqual([line.split(": ")[1] for line in lines], ["ax-1", "ax-mp", "ax-ac2"])

    def test_axioms_that_were_theorems(self) -> None:
        new = changed(
            BASE, ("2p2e4 $p |- ( 2 + 2 ) = 4 $= df-4 $.", "2p2e4 $a |- ( 2 + 2 ) = 4 $.")
        )
        self.breaks(
            "axioms",
            new,
            "2p2e4: an axiom now, and a theorem before",
            allow='[allow]\naxioms = ["2p2e4"]\n',
        )
        self.breaks(
            "axioms",
            BASE,
            "2p2e4: an axiom before, and a theorem now",
            before=new,
            allow='[allow]\naxioms = ["2p2e4"]\n',
        )

    def test_another_typecode(self) -> None:
        self.write("mmdepend.toml", 'typecode = "wff"\n')
        self.breaks(
            "axioms", BASE + "wx $a wff 2 $.\nax-x $a |- 2 $.\n", "wx: a new axiom: wff 2", allow=""
        )

    def test_watched(self) -> None:
        self.write("mmdepend.toml", 'watch = ["ax-a*", "ax-b", "ax1", "wi"]\n')
        self.breaks(
            "watched",
            BASE + ADDED,
            "mmdepend.toml:1: ax-b: a watched axiom that is missing [",
            "ax1: a watched axiom that is a theorem now",
            allow="",
        )

    def test_newly(self) -> None:
        new = changed(
            BASE,
            (
                "free $p |- ( p -> ( p -> p ) ) $= wp wp ax-1 $.",
                "free $p |- ( p -> ( p -> p ) ) $= wp axac3 $.",
            ),
        )
        part = "db.mm:15: free: newly rests on ax-ac2: it cites axac3"
        self.breaks("newly", new, part, allow='[allow.newly]\nax-ac2 = ["free"]\n')
        self.breaks("newly", new, part, allow='[allow.newly]\n"ax-*" = ["fr*"]\n')
        more = "more $p |- ( q -> ( p -> ( p -> p ) ) ) $= wp wq zorn $.\n"
        part = "more: a new theorem that rests on ax-ac2: it cites zorn"
        self.breaks("new", BASE + more, part, allow='[allow.newly]\nax-ac2 = ["more"]\n')
        self.breaks("new", BASE + more, part, allow='[allow.new]\nax-ac2 = ["more"]\n')
        user = "user $p |- ( p -> ( p -> p ) ) $= wp free $.\n"
        both = changed(new, ("= wp axac3 $.\n", "= wp axac3 $.\n" + user))
        self.breaks(
            "newly",
            both,
            "free: newly rests on ax-ac2: it cites axac3; with 1 more theorem by that",
            before=BASE + user,
            allow='[allow.newly]\nax-ac2 = ["free", "user"]\n',
        )
        part = "user: newly rests on ax-ac2: free, on which it rests, cites axac3"
        self.write("mmdepend.toml", WATCH + '[allow.newly]\nax-ac2 = ["free"]\n')
        self.breaks("newly", both, part, before=BASE + user, allow="")

    def test_a_label_that_another_statement_had(self) -> None:
        """What has it now is judged as new, and isn't called so, in any form. Where it says the
        same but for the names of variables, these are told to be other."""
        was, stays = TAKEN[0], TAKEN[1].partition("\n")[0] + "\n"
        for now, how in (
            (
                TAKEN[1].replace("wp freelem", "wp axac3"),
                "says something else than in the base, and",
            ),
            (stays + "free $p |- ( q -> ( q -> q ) ) $= wq axac3 $.\n", OTHER_NAMES),
        ):
            text = changed(BASE, (was, now))
            reason = f"{how} rests on ax-ac2: it cites axac3"
            self.breaks(
                "new", text, f": free: {reason} [", allow='[allow.new]\nax-ac2 = ["free"]\n'
            )
            self.write("new.mm", text)
            for words in ((), ("--all",)):
                done = self.query("gate", "db.mm", "new.mm", "--format=json", *words)
                (found,) = json.loads(done.out)["findings"]
                told = [found[name] for name in ("rule", "label", "axiom", "reason", "allow")]
                self.assertEqual(told, ["new", "free", "ax-ac2", reason, "allow.new.ax-ac2"])
            for form, part in (
                ("log", f": free: {reason} [new]"),
                ("github", f"::free: {reason}; allow.new.ax-ac2 of mmdepend.toml would allow it"),
                ("markdown", f"| `free` | `ax-ac2` | `{reason}` |"),
            ):
                done = self.query("gate", "db.mm", "new.mm", f"--format={form}")
                self.assertIn(part, done.out)
                self.assertNotIn("new theorem", done.out)

    def test_renames(self) -> None:
        self.assertEqual(self.gate_of(BASE.replace("zorn", "zorn1"), status=0), [])
        self.assertEqual(
            self.gate_of(BASE.replace("axac3", "axac4").replace("a1i", "a2i"), status=0), []
        )
        conditions = BASE.replace("zorn $p", "${ $d p q $. zorn $p").replace(
            "axac3 a1i $.", "axac3 a1i $. $}"
        )
        self.commit(conditions)
        self.assertEqual(self.gate_of(conditions.replace("zorn", "zorn1"), status=0), [])
        for text in (
            BASE.replace("zorn", "zorn1"),
            conditions.replace("$d p q", "$d q p")
            .replace("zorn", "zorn1")
            .replace("$d q p $. ", ""),
        ):
            self.assertEqual(len(self.gate_of(text, status=1)), 1)

    def test_renames_of_a_statement_that_is_there_twice(self) -> None:
        twin = (
            BASE
            + "zornALT $p |- ( q -> ( p -> ( p -> p ) ) ) $= wp wp wp wi wi wq wp free a1i $.\n"
        )
        self.commit(twin)
        swapped = twin.replace("zornALT", "x").replace("zorn ", "zornALT ").replace("x ", "zorn ")
        lines = self.gate_of(swapped, status=1)
        self.assertEqual([line.split(": ")[1] for line in lines], ["zornALT"])
        both = twin.replace("zornALT", "c1").replace("zorn ", "c2 ")
        self.assertEqual(self.gate_of(both, status=0), [])

    def test_an_old_proof_that_is_kept(self) -> None:
        old = "axac3 $p |- ( p -> ( p -> p ) ) $= wp ax-ac2 $."
        kept = changed(
            BASE,
            (
                old,
                "axac3 $p |- ( p -> ( p -> p ) ) $= wp wp ax-1 $.\n"
                + old.replace("axac3", "axac3OLD"),
            ),
        )
        self.assertEqual(self.gate_of(kept, status=0), [])
        copied = changed(BASE, (old, old + "\n" + old.replace("axac3", "axac3OLD")))
        self.assertEqual(len(self.gate_of(copied, status=1)), 1)

    def test_what_rests_now_and_what_is_new(self) -> None:
        more = "more $p |- ( q -> ( p -> ( p -> p ) ) ) $= wp wq zorn $.\n"
        both = (
            changed(
                BASE,
                (
                    "free $p |- ( p -> ( p -> p ) ) $= wp wp ax-1",
                    "free $p |- ( p -> ( p -> p ) ) $= wp axac3",
                ),
            )
            + more
        )
        for config, rules in (
            ("", ["[newly]", "[new]"]),
            ("[rules]\nnewly = false\n", []),
            ("[rules]\nnew = false\n", ["[newly]"]),
            ("[rules]\nnewly = false\nnew = true\n", ["[new]"]),
            ('[allow.newly]\nax-ac2 = ["*"]\n', []),
            ('[allow]\nnewly.ax-ac2 = ["*"]\nnew = {}\n', ["[new]"]),
            ('[allow.new]\nax-ac2 = ["*"]\n', ["[newly]"]),
        ):
            self.ask(WATCH + config)
            lines = self.gate_of(both, status=1 if rules else 0)
            self.assertEqual([line.rpartition(" ")[2] for line in lines], rules, config)

    def test_a_watched_axiom_that_was_renamed_in_the_config_too(self) -> None:
        self.branch()
        self.write(
            "mmdepend.toml", 'watch = ["ax-ac2x"]\n[allow]\naxioms = ["ax-ac2", "ax-ac2x"]\n'
        )
        self.commit(BASE.replace("ax-ac2", "ax-ac2x"))
        self.assertEqual(self.gate("--base", "main", "--config-of-new", "db.mm", status=0), [])
        lines = self.gate(status=1)
        rules = ["axioms", "axioms", "watched", "config", "config", "config"]
        self.assertEqual(
            [line.rpartition(" ")[2] for line in lines], [f"[{each}]" for each in rules]
        )

    def test_claims(self) -> None:
        claims = (
            '[claims]\nzorn = ["ax-ac2", "ax-1", "ax-none"]\n"2p2e4" = ["ax-ac2"]\n'
            'none = ["ax-1", "ax1"]\nax-1 = ["wi"]\n'
        )
        self.ask(claims)
        lines = self.gate_of(BASE, status=1)
        self.assertEqual(
            [line.removesuffix(" [claims]") for line in lines],
            [
                "mmdepend.toml:2: zorn: rests on ax-ac2: it cites axac3, which does",
                "mmdepend.toml:2: zorn: rests on ax-1: it cites a1i, which does",
                "mmdepend.toml:2: zorn: there is no axiom 'ax-none'",
                "mmdepend.toml:4: none: there is no theorem 'none'",
                "mmdepend.toml:4: none: 'ax1' is a theorem, where an axiom is wanted",
                "mmdepend.toml:5: ax-1: 'ax-1' is an axiom, where a theorem is wanted",
            ],
        )
        self.ask("[rules]\nclaims = false\n" + claims)
        self.assertEqual(self.gate_of(BASE, status=0), [])

    def test_avoids(self) -> None:
        said = BASE + (
            "$( $j usage 'zorn' avoids 'ax-none' 'ax-ac2'; $)\n"
            "$( $j usage 'nobody' avoids 'ax-1'; usage '2p2e4' avoids\n"
            "   'ax-ac2' \"ax-1\"; /* usage 'zorn' avoids 'ax-ac2'; */ syntax 'wff';\n"
            "   usage 'free' avoids 'ax-1'; $)\n"
            "$( $j usage 'zorn' avoid 'ax-ac2'; usage; usage 'zorn' avoids;"
            " usage 'zorn' avoids ax-1; $)\n"
            "$( Not one: $j usage 'zorn' avoids 'ax-ac2'; $)\n"
            "$( $j usage 'zorn' avoids 'ax-ac2' $)\n"
            "$( $j usage '2p2e4' avoids 'ax-ac2'; $)\n"
            "$( $j usage 'axac3' avoids 'ax-ac2'; $)\n"
        )
        unclear = "a comment `$j usage` that isn't understood"
        self.breaks(
            "avoids",
            said,
            "db.mm:16: zorn: there is no axiom 'ax-none'",
            "db.mm:16: zorn: rests on ax-ac2: it cites axac3, which does",
            "db.mm:17: nobody: there is no theorem 'nobody'",
            "db.mm:19: free: rests on ax-1: it cites it",
            f"db.mm:20: zorn: {unclear}",
            f"db.mm:20: {unclear}",
            f"db.mm:20: zorn: {unclear}",
            f"db.mm:20: zorn: {unclear}",
            f"db.mm:22: zorn: {unclear}",
            "db.mm:24: axac3: rests on ax-ac2: it cites it",
            allow="",
        )

    def test_a_comment_within_a_proof(self) -> None:
        said = BASE.replace("$= df-4 $.", "$= $( $j usage 'zorn' avoids 'ax-ac2'; $) df-4 $.")
        self.breaks("avoids", said, "db.mm:10: zorn: rests on ax-ac2", allow="")

    def test_open(self) -> None:
        for proof in ("?", "( ) ?"):
            new = BASE + f"todo $p |- p $= {proof} $.\n"
            part = "db.mm:16: todo: a theorem whose proof is left open"
            self.breaks("open", new, part, allow='[allow]\nopen = ["todo"]\n')

    def test_mathboxes(self) -> None:
        self.breaks(
            "mathboxes",
            BOXES,
            "Bo1: in the mathbox for Bo, cites Ann1 of the mathbox for Ann",
            "last: cites Bo2 of the mathbox for Bo",
            allow='[allow]\nmathboxes = ["Bo1", "last"]\n',
        )

    def test_discouraged(self) -> None:
        text = BASE.replace("axac3 $p", "$( (New usage is\n  discouraged.) $)\naxac3 $p")
        self.write("mmdepend.toml", "")
        user = "user $p |- ( p -> ( p -> p ) ) $= wp axac3 $.\n"
        self.breaks(
            "discouraged",
            text + user,
            "user: cites axac3, whose new usage is discouraged",
            before=BASE,
            allow='[allow]\ndiscouraged = ["us*"]\n',
        )
        self.commit(text + user)
        renamed = (text + user).replace("user", "usher").replace("axac3", "axac4")
        self.assertEqual(self.gate_of(renamed, status=0), [])

    def test_a_database_that_is_refused(self) -> None:
        lines = self.gate_of(changed(BASE, ("wp ax-ac2 $.", "wp $.")), status=1)
        self.assertEqual(len(lines), 1)
        self.assertRegex(lines[0], r"\Adb\.mm:12:\d+: .*E38.* \[valid\]\Z")
        self.assertEqual(len(self.gate_of("$c", status=1)), 1)


DISTINCT = """$c wff |- ( -> ) $.
$v p q $.
wp $f wff p $.
wq $f wff q $.
wi $a wff ( p -> q ) $.
${ $d p q $. ax-d $a |- ( p -> q ) $. $}
""" + "".join(
    f"${{ $d p q $. t{number} $p |- ( p -> q ) $= wp wq ax-d $. $}}\n" for number in range(20)
)


class Folded(Repositories):
    """What the program tells of each theorem, because it compares labels, is one thing or none."""

    def found(self, old: str, new: str, config: str) -> list[str]:
        """The findings between two texts, which `--all` doesn't make more."""
        self.write("old.mm", old)
        self.write("new.mm", new)
        self.write("mmdepend.toml", config)
        lines = [
            self.query("gate", "old.mm", "new.mm", *more).lines()[:-1] for more in ((), ("--all",))
        ]
        self.assertEqual(lines[0], lines[1])
        return [line.partition(": ")[2] if line.startswith("new.mm") else line for line in lines[0]]

    def test_an_axiom_that_is_changed(self) -> None:
        new = DISTINCT.replace(
            "${ $d p q $. ax-d $a |- ( p -> q ) $. $}", "ax-d $a |- ( p -> q ) $."
        )
        told = "ax-d: a changed axiom: the $d conditions changed, from $d p q $. |- ( p -> q )"
        told += " to |- ( p -> q ); 20 theorems rest on it [axioms]"
        for config in ("", 'watch = ["ax-d"]\n', 'watch = ["*"]\n'):
            self.assertEqual(self.found(DISTINCT, new, config), [told])
        allowed = 'watch = ["ax-d"]\n[allow]\naxioms = ["ax-d"]\n'
        self.assertEqual(self.found(DISTINCT, new, allowed), [])
        more = new + "t $p |- ( q -> p ) $= wq wp ax-d $.\n"
        told = "t: a new theorem that rests on ax-d: it cites ax-d [new]"
        self.assertEqual(self.found(DISTINCT, more, allowed), [told])

    def test_a_theorem_that_came_to_rest_on_it_besides(self) -> None:
        """A changed axiom hides nothing."""
        own = "ax-o $a |- ( p -> q ) $.\n"
        old = changed(DISTINCT, ("wi $a wff ( p -> q ) $.\n", "wi $a wff ( p -> q ) $.\n" + own))
        old = old.replace("t7 $p |- ( p -> q ) $= wp wq ax-d", "t7 $p |- ( p -> q ) $= wp wq ax-o")
        new = old.replace("$d p q $. ax-d", "ax-d").replace("wp wq ax-o $.", "wp wq ax-d $.")
        allowed = 'watch = ["ax-d"]\n[allow]\naxioms = ["ax-d"]\n'
        told = "t7: newly rests on ax-d: it cites ax-d [newly]"
        self.assertEqual(self.found(old, new, allowed), [told])

    def test_an_axiom_that_is_renamed(self) -> None:
        new = DISTINCT.replace("ax-d", "ax-e")
        config = 'watch = ["ax-*"]\n[allow]\naxioms = ["ax-*"]\n'
        self.assertEqual(self.found(DISTINCT, new, config), [])
        t7 = "t7 $p |- ( p -> q ) $= wp wq ax-e"
        more = new.replace(
            "wi $a wff ( p -> q ) $.\n", "wi $a wff ( p -> q ) $.\nax-o $a |- p $.\n"
        )
        more = more.replace(t7, "t7 $p |- ( p -> q ) $= wp wq wi ax-o")
        told = "t7: newly rests on ax-o: it cites ax-o [newly]"
        self.assertEqual(self.found(DISTINCT, more, config), [told])

    def test_only_the_order_of_floating_hypotheses(self) -> None:
        """It is another frame, so it is told; in words."""
        old = DISTINCT.partition("${")[0] + "ax-o $a |- ( p -> q ) $.\n"
        new = changed(old, ("wp $f wff p $.\nwq $f wff q $.", "wq $f wff q $.\nwp $f wff p $."))
        why = "a changed axiom: only the order of `$f` is other, from"
        one, other = "$f wff p $. $f wff q $.", "$f wff q $. $f wff p $."
        told = [
            f"{label}: {why} {one} {kind} ( p -> q ) to {other} {kind} ( p -> q ) [axioms]"
            for label, kind in (("wi", "wff"), ("ax-o", "|-"))
        ]
        self.assertEqual(self.found(old, new, ""), told)
        mixed = "${{ {}wb $f wff q $. {}ax-m $a |- ( p -> q ) $. $}}\n"
        head, hypothesis = (
            old.replace("wq $f wff q $.\n", "").partition("wi $a")[0],
            "m $e |- p $. ",
        )
        found = self.found(
            head + mixed.format(hypothesis, ""), head + mixed.format("", hypothesis), ""
        )
        said, others = "$e |- p $. $f wff q $.", "$f wff q $. $e |- p $."
        both = [f"$f wff p $. {each} |- ( p -> q )" for each in (said, others)]
        self.assertEqual(found, [f"ax-m: {why} {' to '.join(both)} [axioms]"])
        done = self.query("compare", "old.mm", "new.mm")
        self.assertEqual(done.lines()[1].split()[:3], ["changed", "axiom", "ax-m"])
        self.assertIn("of 1 changed only the order of `$f` is other, such as ax-m", done.err)

    def test_a_theorem_that_is_renamed_and_rests_on_more(self) -> None:
        free = "free $p |- ( p -> ( p -> p ) ) $= wp wp ax-1 $."
        self.assertEqual(self.found(BASE, BASE.replace("free", "free1"), WATCH), [])
        new = changed(BASE, (free, "free1 $p |- ( p -> ( p -> p ) ) $= wp axac3 $."))
        told = "free1: newly rests on ax-ac2: it cites axac3 [newly]"
        self.assertEqual(self.found(BASE, new, WATCH), [told])
        off = WATCH + "[rules]\nnewly = false\nnew = false\n"
        self.assertEqual(self.found(BASE, new, off), [])

    def test_labels_that_are_swapped(self) -> None:
        swapped = {"ax1": "axac3", "axac3": "ax1"}
        new = re.sub(r"\S+", lambda word: swapped.get(word[0], word[0]), BASE)
        note = "note: 2 theorems say something else than in the base: axac3, ax1; "
        note += "`review` shows both statements"
        self.assertEqual(self.found(BASE, new, WATCH + "[rules]\naxioms = false\n"), [note])
        swapped = {"ax-1": "ax-ac2", "ax-ac2": "ax-1"}
        new = re.sub(r"\S+", lambda word: swapped.get(word[0], word[0]), BASE)
        lines = self.found(BASE, new, WATCH)
        rules = [line.rpartition(" ")[2] for line in lines]
        self.assertEqual(rules, ["[axioms]"] * 4 + ["[watched]"])
        told = [line.partition(":")[0] + ":" + line.split(":")[1][:10] for line in lines[:4]]
        both = ["{}: a changed", "{}: a new lab"]
        self.assertEqual(
            told, [each.format(label) for label in ("ax-ac2", "ax-1") for each in both]
        )

    def test_a_theorem_that_became_an_axiom(self) -> None:
        old = "axac3 $p |- ( p -> ( p -> p ) ) $= wp ax-ac2 $."
        new = changed(BASE, (old, "axac3 $a |- ( p -> ( p -> p ) ) $."))
        told = [
            "axac3: an axiom now, and a theorem before: |- ( p -> ( p -> p ) ) [axioms]",
            "zorn: newly rests on axac3: it cites axac3 [newly]",
        ]
        self.assertEqual(self.found(BASE, new, 'watch = ["ax-ac2", "axac*"]\n'), told)
        self.assertEqual(self.found(BASE, new, WATCH), told[:1])


class Words(Repositories):
    """Reports aren't asked for where words of proofs show that they needn't be. Nothing gets past
    that."""

    def test_a_comment_among_the_labels_of_a_proof(self) -> None:
        for proof in ("( $( ) $) Ann1 ) ABC", "( Ann1 $( a ) comment $) ) ABC", "( Ann1 ) ABC"):
            new = BOXES + f"more $p |- ( p -> ( q -> p ) ) $= {proof} $.\n"
            self.commit(BOXES)
            told = [line for line in self.gate_of(new, status=1) if "more" in line]
            why = "more: cites Ann1 of the mathbox for Ann [mathboxes]"
            self.assertEqual([line.partition(": ")[2] for line in told], [why], proof)

    def test_a_label_that_was_that_of_a_hypothesis(self) -> None:
        """The text of the theorem that cites is the same."""
        theorem = "|- ( 2 + 2 ) = 4 $. t $p |- ( 2 + 2 ) = 4 $= foo $. $}\n"
        mark = "$( (New usage is discouraged.) $)\n"
        self.commit(BASE + "${ foo $e " + theorem)
        new = BASE + mark + "foo $p |- ( 2 + 2 ) = 4 $= df-4 $.\n${ bar $e " + theorem
        told = "t: cites foo, whose new usage is discouraged [discouraged]"
        self.assertEqual([each.partition(": ")[2] for each in self.gate_of(new, status=1)], [told])

    def test_a_mark_that_goes_with_a_statement_that_is_renamed(self) -> None:
        mark = "$( (New usage is discouraged.) $)\n"
        old = changed(BASE, ("free $p", f"{mark}free $p"))
        self.commit(old)
        self.assertEqual(self.gate_of(old.replace("free", "free1"), status=0), [])
        told = "free1: its comment no longer says `(New usage is discouraged.)` [discouraged]"
        lines = self.gate_of(BASE.replace("free", "free1"), status=1)
        self.assertEqual([each.partition(": ")[2] for each in lines], [told])

    def test_a_comment_within_each_statement(self) -> None:
        """Where they stand is found all the same."""
        new = BASE.replace(" $p ", " $( $p x $. $) $p $( y $= $. $) ")
        self.assertEqual(self.gate_of(new, status=0), [])
        lines = self.gate_of(new + "todo $p |- p $= $( a $) ? $.\n", status=1)
        self.assertEqual(lines, ["db.mm:16: todo: a theorem whose proof is left open [open]"])


class Outputs(Repositories):
    """The forms of the answer."""

    def test_json(self) -> None:
        self.write("db.mm", changed(BASE, CHEAT))
        done = self.query("gate", "--base", "main", "--format", "json", "db.mm")
        self.assertEqual(done.status, 1)
        answer = json.loads(done.out)
        self.assertFalse(answer["passed"])
        self.assertEqual(
            answer["findings"],
            [
                {
                    "rule": "axioms",
                    "file": "db.mm",
                    "line": 10,
                    "label": "ax-cheat",
                    "axiom": "ax-cheat",
                    "reason": "a new axiom: |- ( 2 + 2 ) = 4",
                    "column": None,
                    "allow": "allow.axioms",
                }
            ],
        )
        self.write("db.mm", BASE)
        answer = json.loads(self.query("gate", "--base", "main", "--format", "json", "db.mm").out)
        self.assertEqual((answer["passed"], answer["findings"]), (True, []))

    def test_annotations(self) -> None:
        name = "a,b: 100%.mm"
        (self.folder / "sub").mkdir()
        self.commit(BASE, f"sub/{name}")
        self.branch()
        hostile = changed(BASE, CHEAT).replace("( 2 + 2 ) = 4", "::error::%0A,:<b>")
        hostile = changed(hostile, ("$c wff", "$c ::error::%0A,:<b> wff"))
        self.commit(hostile, f"sub/{name}")
        done = self.query("gate", "--base", "main", "--format", "github", f"sub/{name}")
        self.assertEqual(done.status, 1)
        commands = [line for line in done.lines() if line.startswith("::")]
        self.assertEqual(len(commands), 3)
        note = (
            "1 theorem says something else than in the base: 2p2e4; `review` shows both statements"
        )
        self.assertEqual(commands[2], f"::notice::{note}")
        self.assertEqual(
            commands[0],
            "::error file=sub/a%2Cb%3A 100%25.mm,line=6,title=mmquery gate (axioms)"
            "::df-4: a changed axiom: the formula changed, from |- ( 2 + 2 ) = 4 to"
            r" |- :\x3aerror:\x3a%250A,:<b>; allow.axioms of mmdepend.toml would allow it",
        )
        self.assertEqual(done.lines()[3][:24], "mmquery gate: 2 findings")

    def test_a_file_that_looks_like_a_command(self) -> None:
        name = "::error::x\n::error::y.mm"
        self.commit(BASE, name)
        done = self.query("gate", "--base", "main", "--format", "github", f"./{name}")
        self.assertEqual(done.status, 0, done.err)
        self.assertFalse([line for line in done.lines() if line.startswith("::error")])

    def test_markdown(self) -> None:
        hostile = changed(BASE, CHEAT).replace("( 2 + 2 ) = 4", "|<script>|`*_[x](y)")
        hostile = changed(hostile, ("$c wff", "$c |<script>|`*_[x](y) wff"))
        self.write("db.mm", hostile)
        done = self.query("gate", "--base", "main", "--format", "markdown", "db.mm")
        rows = [line for line in done.lines() if line.startswith("| axioms")]
        self.assertEqual(len(rows), 2)
        self.assertIn(r"``a new axiom: \|- \|<script>\|`*_[x](y)``", rows[1])

    def test_a_summary_is_added(self) -> None:
        self.write("summary.md", "before\n")
        self.write("db.mm", changed(BASE, CHEAT))
        self.gate("--base", "main", "--summary", "summary.md", "db.mm", status=1)
        text = (self.folder / "summary.md").read_text()
        self.assertTrue(text.startswith("before\n### mmquery gate: 1 finding"))
        self.assertIn("| axioms | `db.mm:10` | `ax-cheat` |", text)


class Changed(Repositories):
    """A theorem that says something else breaks no rule, and a note tells of it."""

    WEAK = ("zorn $p", "${ z $e |- 2 = 4 $. zorn $p")
    ENDED = ("axac3 a1i $.", "axac3 a1i $. $}")

    def told(self, old: str, new: str, form: str) -> str:
        """The whole answer, which is `passed`."""
        self.write("old.mm", old)
        self.write("new.mm", new)
        self.write("mmdepend.toml", "")
        done = self.query("gate", "old.mm", "new.mm", f"--format={form}")
        self.assertEqual((done.status, done.err), (0, ""), done)
        return done.out

    def notes(self, old: str, new: str) -> list[str]:
        """The notes of an answer."""
        notes = json.loads(self.told(old, new, "json"))["notes"]
        self.assertIsInstance(notes, list)
        return [str(note) for note in notes]

    def test_all_forms(self) -> None:
        said = (
            "1 theorem says something else than in the base: zorn; `review` shows both statements"
        )
        new = changed(BASE, self.WEAK, self.ENDED)
        for form, line in (
            ("text", f"note: {said}\n"),
            ("log", f"note: {said}\n"),
            ("json", f'"notes": [\n  "{said}"\n ]\n'),
            ("github", f"::notice::{said}\n"),
            ("markdown", f"Note: ``{said}``\n"),
        ):
            self.assertEqual(self.told(BASE, new, form).count(line), 1, form)
            self.assertNotIn("something else", self.told(BASE, BASE, form))
        both = self.told(BASE, changed(BASE, self.WEAK, self.ENDED, TAKEN), "text")
        self.assertIn("note: 2 theorems say something else than in the base: zorn, free; ", both)

    def test_after_a_merge(self) -> None:
        """Also where something is found, with `--all`, and in a summary."""
        self.branch()
        self.commit(changed(BASE, self.WEAK, self.ENDED, CHEAT))
        words = ("gate", "--base", "main", "db.mm", "--all", "--summary", "summary.md")
        done = self.query(*words)
        said = (
            "1 theorem says something else than in the base: zorn; `review` shows both statements"
        )
        self.assertEqual((done.status, done.lines()[1]), (1, f"note: {said}"))
        self.assertIn(f"\nNote: ``{said}``\n", (self.folder / "summary.md").read_text())

    def test_what_says_the_same(self) -> None:
        """Other names of variables, another order of what needs none, another proof or label."""
        names = ("ax1 $p |- ( p -> ( q -> p ) ) $= wp wq", "ax1 $p |- ( q -> ( p -> q ) ) $= wq wp")
        for new in (
            changed(BASE, names),
            changed(BASE, FREED),
            BASE.replace("zorn", "zorn1"),
            BASE + ADDED,
        ):
            self.assertEqual(self.notes(BASE, new), [])
        pair = "wp $f wff p $.\nwq $f wff q $.\n"
        head = BASE.partition(pair)[0] + "any $a |- 2 $.\n"
        one, other = ("wp $f wff p $. wq $f wff q $. ", "wq $f wff q $. wp $f wff p $. ")
        proved = "${{ {}e $e |- ( p -> q ) $. d $e |- 2 $. t $p |- 2 $= d $. $}}\n"
        self.assertEqual(self.notes(head + proved.format(one), head + proved.format(other)), [])

    def test_many_and_long_ones(self) -> None:
        """A few are named, and a long label is cut."""
        labels = [f"t{number}" for number in range(6)] + ["t" * 3000]
        for count in (1, 5, 6, 7):
            chosen = labels[-count:]
            old, new = (
                BASE + "".join(f"{label} $p {says} $= {proof} $.\n" for label in chosen)
                for says, proof in (
                    ("|- ( 2 + 2 ) = 4", "df-4"),
                    ("|- ( p -> ( q -> p ) )", "wp wq ax-1"),
                )
            )
            (note,) = self.notes(old, new)
            self.assertLess(len(note), 400)
            cuts = [each if len(each) < 200 else each[:200] + " .." for each in chosen[:5]]
            more = f" and {count - 5} more; " if count > 5 else "; "
            self.assertIn(f": {', '.join(cuts)}{more}`review` shows", note)
            self.assertIn("1 theorem says" if count == 1 else f"{count} theorems say", note)


class Page(Repositories):
    """docs/GATE.md: its example is what the gate says, but for the line and the commit."""

    def test_the_example(self) -> None:
        text = (TOP / "docs" / "GATE.md").read_text()
        command, *shown = re.findall(r"```console\n(.*?)```", text, re.S)[0].splitlines()
        self.commit(BASE, "set.mm")
        self.git("update-ref", "refs/remotes/origin/main", "HEAD")
        self.branch()
        self.commit(changed(BASE, CHEAT), "set.mm")
        done = self.query(*command.removeprefix("$ mmquery ").split())
        numbers = re.compile(r":\d+:|[0-9a-f]{12}")
        self.assertEqual(
            [numbers.sub("", line) for line in done.lines()],
            [numbers.sub("", line) for line in shown],
        )


@unittest.skipUnless((DATABASES / "set.mm").exists(), "there is no set.mm")
class SetMm(Repositories):
    """The two failures with set.mm."""

    def setUp(self) -> None:
        super().setUp()
        self.git("config", "core.compression", "0")
        self.text = (DATABASES / "set.mm").read_text("latin-1")
        self.write("mmdepend.toml", WATCH)
        self.commit(self.text)
        self.branch()

    def test_an_axiom_is_added(self) -> None:
        start = self.text.index(" 2p2e4 $p |- ( 2 + 2 ) = 4 $=\n")
        end = self.text.index("$.", start)
        cheat = " ax-cheat $a |- ( 2 + 2 ) = 4 $.\n 2p2e4 $p |- ( 2 + 2 ) = 4 $= ax-cheat "
        self.write("db.mm", self.text[:start] + cheat + self.text[end:])
        lines = self.gate(status=1)
        self.assertEqual(len(lines), 1)
        self.assertIn(" ax-cheat: a new axiom: |- ( 2 + 2 ) = 4 [axioms]", lines[0])

    def test_a_watched_axiom_is_renamed(self) -> None:
        self.write("db.mm", self.text.replace("ax-ac2", "ax-ac2x"))
        lines = self.gate(status=1)
        self.assertEqual(len(lines), 3)
        self.assertIn("[watched]", lines[2])
