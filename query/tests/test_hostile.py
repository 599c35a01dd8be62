"""The gate against whoever wants past it: each way played as a git repository, and beside it the
control that is found. The first class has the ways that were passed once, by their numbers; the
others have more."""

import json
import os
import random
import re
import shutil
import subprocess
import tempfile
import unittest
from collections.abc import Mapping
from pathlib import Path

from query.answers.errors import NoAnswer
from query.gate.branch import see_one_merge
from query.gate.forms import in_markdown
from query.git.objects import Objects
from query.git.repository import Repository
from query.tests.repositories import ADDED, BASE, WATCH, Repositories, changed
from query.tests.shapes import proof
from query.tests.world import DATABASES, MMQUERY, TOP, Done

CHEAT = (
    "2p2e4 $p |- ( 2 + 2 ) = 4 $= df-4",
    "ax-cheat $a |- ( 2 + 2 ) = 4 $.\n2p2e4 $p |- ( 2 + 2 ) = 4 $= ax-cheat",
)
CHEAT_FOUND = "db.mm:10: ax-cheat: a new axiom: |- ( 2 + 2 ) = 4 [axioms]"
NEEDS = changed(
    BASE,
    (
        "free $p |- ( p -> ( p -> p ) ) $= wp wp ax-1 $.",
        "free $p |- ( p -> ( p -> p ) ) $= wp axac3 $.",
    ),
)
"""A theorem that was free of `ax-ac2` rests on it."""

# A part of logic in which `( F. -> ph )` and `( ph -> ph )` are known.
LOGIC = """$c wff |- ( -> ) T. F. 2 5 + = $.
$v ph ps $.
wph $f wff ph $.
wps $f wff ps $.
wi $a wff ( ph -> ps ) $.
wtru $a wff T. $.
wfal $a wff F. $.
w5 $a wff ( 2 + 2 ) = 5 $.
${ min $e |- ph $. maj $e |- ( ph -> ps ) $. ax-mp $a |- ps $. $}
tru $a |- T. $.
id $a |- ( ph -> ph ) $.
falim $a |- ( F. -> ph ) $.
"""
# What docs/SYNTAX.md shows. FIVE stands for the steps that make the formula.
WITHOUT_BRACKETS = """wbad $a wff ph -> ps $.
bad1 $p |- ( T. -> F. -> T. -> F. ) $= wtru wfal wbad id $.
bad2 $p |- F. -> T. -> F. $=
  wtru wfal wtru wfal wbad wbad tru bad1 ax-mp $.
bad3 $p |- ( F. -> T. -> F. -> ( 2 + 2 ) = 5 ) $=
  wtru wfal FIVE wbad wbad falim $.
2p2e5 $p |- ( 2 + 2 ) = 5 $=
  wfal wtru wfal wbad wbad FIVE bad2 bad3 ax-mp $.
"""


class Hostile(Repositories):
    """What the tries share."""

    def findings(
        self, *words: str, status: int = 1, more: Mapping[str, str] | None = None
    ) -> list[str]:
        """The lines of the gate on the branch, without notes and the last one."""
        given = words or ("--base", "main", "db.mm")
        done = self.query("gate", *given, given=b"", **(more or {}))
        self.assertEqual((done.status, done.err), (status, ""), done)
        return [line for line in done.lines()[:-1] if not line.startswith("note: ")]

    def cheats(self, name: str = "db.mm") -> None:
        """Commits a new axiom on a branch."""
        self.branch()
        self.commit(changed(BASE, CHEAT), name)

    def asks(self, text: str, before: str = BASE) -> None:
        """Puts a file `mmdepend.toml` and a database on `main`, and a branch beside it."""
        self.ask(text)
        self.commit(before)
        self.branch()

    def rules(self, *words: str) -> list[str]:
        """The rules that the branch breaks."""
        return [line.rpartition(" [")[2].rstrip("]") for line in self.findings(*words)]

    def is_refused(self, *words: str, why: str, **more: str) -> None:
        """The gate says why there is no answer."""
        self.refuses("gate", *(words or ("--base", "main", "db.mm")), why=why, **more)


class TheTwelve(Hostile):
    """What was passed with status 0 once."""

    takes_long = True

    def test_1_a_syntax_axiom(self) -> None:
        self.asks("", before=LOGIC)
        self.commit(LOGIC + WITHOUT_BRACKETS.replace("FIVE", "w5"))
        finding = ["db.mm:13: wbad: a new axiom: wff ph -> ps [axioms]"]
        self.assertEqual(self.findings("--base", "main", "db.mm"), finding)
        self.git("checkout", "--quiet", "main")
        self.git("branch", "--delete", "--force", "--quiet", "work")
        self.asks('typecode = "|-"\n', before=LOGIC)
        self.commit(LOGIC + WITHOUT_BRACKETS.replace("FIVE", "w5"))
        done = self.query("gate", "--base", "main", "db.mm")
        self.assertEqual(done.status, 0)
        self.assertIn("note: `typecode` of mmdepend.toml leaves the axioms of '|-'", done.out)

    def inner(self) -> Path:
        """Puts the files of a bare repository beside the database, whose `main` has what is
        committed there. Returns what exists when its address was called."""
        marker = self.folder.parent / "marker"
        seed, inner = self.folder.parent / "seed", self.folder.parent / "inner.git"
        self.git("init", "--quiet", "--initial-branch=main", str(seed))
        (seed / "set.mm").write_text(changed(BASE, CHEAT))
        self.git("add", "--all", folder=seed)
        self.git("commit", "--quiet", "--message", "all of it", folder=seed)
        self.git("clone", "--quiet", "--bare", str(seed), str(inner))
        for name in ("HEAD", "objects", "refs", "config", "packed-refs"):
            os.rename(inner / name, self.folder / "db" / name)
        commit = self.git("rev-parse", "HEAD", folder=seed)
        (self.folder / "db/refs/heads/main").write_text(f"{commit}\n")
        for setting in (
            "extensions.partialClone=origin",
            "core.repositoryFormatVersion=1",
            f"remote.origin.url=ext::touch {marker}",
            "remote.origin.promisor=true",
            "protocol.ext.allow=always",
        ):
            self.git("config", "--file", "db/config", *setting.split("=", 1))
        return marker

    def test_3_a_repository_within(self) -> None:
        (self.folder / "db").mkdir()
        self.commit(BASE, "db/set.mm")
        self.branch()
        self.commit(changed(BASE, CHEAT), "db/set.mm")
        words = ("--base", "main", "db/set.mm")
        self.assertEqual(len(self.findings(*words)), 1)
        marker = self.inner()
        self.is_refused(*words, why="db is a repository or a submodule")
        blob = self.git("rev-parse", "work:db/set.mm")
        (self.folder / "db/objects" / blob[:2] / blob[2:]).unlink()
        self.is_refused(*words, why="db is a repository or a submodule")
        folder, self.folder = self.folder, self.folder / "db"
        self.is_refused("--base", "main", "set.mm", why="has the files of a bare repository")
        self.is_refused("--base", "main", "HEAD:set.mm", why="has the files of a bare repository")
        self.refuses("rests", "HEAD:set.mm", "zorn", why="has the files of a bare repository")
        self.folder = folder
        self.assertFalse(marker.exists())
        self.git("add", "--all")
        self.git("commit", "--quiet", "--message", "a repository")
        self.is_refused("--base", "main", "HEAD:db/set.mm", why="the files of a bare repository")

    def test_4_a_folder_that_becomes_a_link(self) -> None:
        for name in ("db", "unjudged"):
            (self.folder / name).mkdir()
            self.commit(BASE if name == "db" else changed(BASE, CHEAT), f"{name}/set.mm")
        self.branch()
        self.commit(changed(BASE, CHEAT), "db/set.mm")
        self.assertEqual(len(self.findings("--base", "main", "db/set.mm")), 1)
        (self.folder / "db/set.mm").unlink()
        (self.folder / "db").rmdir()
        (self.folder / "db").symlink_to("unjudged")
        self.is_refused("--base", "main", "db/set.mm", why="db is a link")
        self.git("add", "--all")
        self.git("commit", "--quiet", "--message", "a link")
        self.is_refused("--base", "main", "HEAD:db/set.mm", why="db is a link")
        folder = self.folder
        self.folder = folder / "db"
        self.is_refused(
            "--base", "main", "set.mm", why="was reached by this link", PWD=str(folder / "db")
        )
        self.folder = folder

    def test_5_an_old_commit(self) -> None:
        self.branch("first")
        begun = self.commit(changed(BASE, CHEAT))
        self.commit(BASE)
        self.git("checkout", "--quiet", "main")
        self.git("merge", "--quiet", "--no-ff", "--no-edit", "first")
        self.git("checkout", "--quiet", "-b", "work", begun)
        self.commit(changed(BASE, CHEAT) + ADDED)
        done = self.query("gate", "--base", "main", "db.mm")
        self.assertEqual(done.status, 0)  # the merge doesn't have the axiom
        self.assertIn("note: lines of db.mm are those of its merge with main, ", done.out)
        self.commit(changed(BASE, CHEAT).replace("ax-cheat $a", "ax-cheat  $a"))
        self.is_refused(why="can't be merged: CONFLICT")
        self.git("merge", "--quiet", "--no-edit", "--strategy=ours", "main")
        self.assertEqual(self.findings(), [CHEAT_FOUND])

    def test_5_what_the_merge_base_has(self) -> None:
        self.commit(changed(BASE, CHEAT))
        self.branch()
        self.commit(changed(BASE, CHEAT) + ADDED)
        self.assertEqual(self.findings(status=0), [])
        self.git("checkout", "--quiet", "main")
        self.commit(BASE)
        self.git("checkout", "--quiet", "work")
        self.git("merge", "--quiet", "--no-commit", "--no-ff", "main")
        self.commit(changed(BASE, CHEAT) + ADDED)
        self.assertEqual(self.findings(), [CHEAT_FOUND])

    def test_7_a_label_that_another_axiom_gets(self) -> None:
        text = changed(BASE, ("ax-ac2 $a", "wt $a wff 2 $.\nax-t $a |- 2 $.\nax-ac2 $a"))
        text = text.split("2p2e4 $p")[0]
        new = changed(text, ("wt $a wff 2 $.\nax-t $a |- 2 $.", "ax-t $a wff 2 $."))
        changed_axiom = "db.mm:9: ax-t: a changed axiom: the formula changed, from |- 2 to wff 2"
        renamed_syntax = "db.mm:9: ax-t: a new label of the axiom wt: wff 2"
        for config, found in (
            ("", [changed_axiom, renamed_syntax]),
            ('typecode = "|-"\n', [changed_axiom]),
        ):
            self.asks(config, before=text)
            self.commit(changed(text, ("wt $a wff 2 $.\nax-t $a |- 2 $.", "wt $a wff 2 $.")))
            self.assertEqual(self.findings(), ["db.mm: ax-t: an axiom that is gone [axioms]"])
            self.commit(new)
            lines = [line for line in self.findings() if "ax-t: " in line]
            self.assertEqual(lines, [f"{each} [axioms]" for each in found])
            self.git("checkout", "--quiet", "main")
            self.git("branch", "--delete", "--force", "--quiet", "work")

    def test_7_labels_of_axioms_that_are_swapped(self) -> None:
        swapped = BASE.replace("ax-1 ", "x ").replace("ax-ac2 ", "ax-1 ").replace("x ", "ax-ac2 ")
        self.asks(WATCH + '[allow]\naxioms = ["ax-*"]\n')
        self.commit(swapped)
        finding = (
            "mmdepend.toml:1: ax-ac2: a watched axiom whose label another one has; its statement"
        )
        self.assertTrue(any(line.startswith(finding) for line in self.findings()))

    def test_8_a_file_with_the_name_of_a_revision(self) -> None:
        self.commit(BASE, "HEAD:db.mm")
        self.cheats()
        commit = self.git("rev-parse", "HEAD")
        words = ("--base", "main", "HEAD:db.mm")
        self.write(f"{commit}:db.mm", BASE)
        self.is_refused(
            *words, why="write ./HEAD:db.mm for the file, and the full id of the commit"
        )
        self.assertEqual(len(self.findings("--base", "main", f"{commit}:db.mm")), 1)
        self.refuses("rests", "HEAD:db.mm", "zorn", why="is a file, and of a revision too")
        self.assertEqual(self.findings("./HEAD:db.mm", "db.mm"), [CHEAT_FOUND])
        (self.folder / "HEAD:db.mm").unlink()
        self.assertEqual(self.findings(*words), ["HEAD:" + CHEAT_FOUND])

    def test_9_a_comment_usage_that_is_gone(self) -> None:
        said = "$( $j usage 'free' avoids 'ax-ac2' 'df-4'; $)\n"
        self.asks("", before=BASE + said)
        self.commit(NEEDS + said)
        self.assertEqual(self.rules(), ["avoids"])
        self.commit(BASE + said.replace("usage", "/* usage").replace("; $)", "; */ $)"))
        self.assertEqual(self.rules(), ["avoids", "avoids"])
        self.commit(NEEDS)
        finding = "db.mm:15: free: the comment `$j usage` which says that it avoids ax-ac2 is gone"
        self.assertIn(f"{finding} [avoids]", self.findings())
        self.commit((BASE + said).replace("free", "freed"))
        self.assertEqual(self.findings(status=0), [])
        self.commit((BASE + said).replace("free", "freed").replace("'freed'", "'zorn'"))
        self.assertEqual(self.rules(), ["avoids"] * 3)

    def test_9_a_comment_usage_that_others_pass_over(self) -> None:
        """Within a statement."""
        said = "$( $j usage 'free' avoids 'ax-ac2'; $)"
        self.asks("", before=f"{BASE}{said}\n")
        within = "free: the comment `$j usage` which says that it avoids ax-ac2 stands within a"
        for text in (
            changed(BASE, ("free $p", f"free {said} $p")),
            changed(BASE, ("free $p", f"free $p {said}")),
            changed(BASE, ("$c wff", f"$c {said} wff")),
            changed(BASE, ("$v p", f"$v {said} p")),
            changed(BASE, ("wp $f", f"wp {said} $f")),
            f"{BASE}${{ $d p q {said} $. $}}\n",
            f"{BASE}${{ h $e |- p {said} $. $}}\n",
        ):
            self.commit(text)
            found = self.findings()
            self.assertEqual([within in each for each in found], [True], text)
        base = self.commit(changed(BASE, ("free $p", f"free $p {said}")))
        self.commit(changed(BASE, ("zorn $p", f"zorn {said} $p")))
        self.assertEqual(self.findings("--base", base, "db.mm", status=0), [])

    def test_9_a_comment_usage_that_is_broken(self) -> None:
        """Behind a remark or a quote that isn't closed, and with what is no label."""
        said = "$( $j usage 'free' avoids 'ax-ac2'; $)"
        self.asks("", before=f"{BASE}{said}\n")
        gone = "free: the comment `$j usage` which says that it avoids ax-ac2 is gone"
        for comment in (
            said.replace("$j", "$j x; /* y;"),
            said.replace("$j", '$j x ";'),
            said.replace("ax-ac2'", "ax-ac2' '"),
            said.replace("'free'", "'free '"),
            said.replace("'ax-ac2'", "'ax-ac2\n'"),
            said.replace("'ax-ac2'", "'ax-ac2''df-4'"),
            said.replace(" 'free' avoids ", "'free'avoids"),
            said.replace("usage 'free'", "usage'free'"),
            said.replace("$j", "$j x'y'z;"),
        ):
            self.commit(f"{BASE}{comment}\n")
            found = self.findings()
            unclear = "a comment `$j usage` that isn't understood [avoids]"
            self.assertIn(unclear, found[0], comment)
            self.assertIn(gone, found[-1], comment)
        for text in (
            f"{said}\n{BASE}",
            f"{BASE}{said.replace('$j', '$j x; /* y; */')}\n",
            f"{BASE}{said.replace('; $)', '; /* It is so. $)')}\n",
            f"{BASE}{said.replace(';', '/* It is so. */;x;')}\n".replace("'", '"'),
            changed(BASE, ("free $p", f"{said} free $p")),
            f"{BASE}${{ {said} $d p q $. $}}\n",
            f"{BASE}{said}\n${{ h $e |- p {said} $. $}}\n",
        ):
            self.commit(text)
            self.assertEqual(self.findings(status=0), [], text)

    def test_9_a_comment_usage_that_may_go(self) -> None:
        said = "$( $j usage 'free' avoids 'ax-ac2'; usage 'zorn' avoids 'ax-ac2'; $)\n"
        self.asks('[allow]\navoids = ["free"]\n', before=BASE + said)
        self.commit(BASE)
        self.assertEqual(self.findings(status=0), [])

    def test_9_a_mark_that_is_gone(self) -> None:
        mark = "$( (New usage is discouraged.) $)\n"
        marked = changed(BASE, ("axac3 $p", f"{mark}axac3 $p"))
        user = "user $p |- ( p -> ( p -> p ) ) $= wp axac3 $.\n"
        self.asks("", before=marked)
        self.commit(marked + user)
        self.assertEqual(self.rules(), ["discouraged"])
        gone = "axac3: its comment no longer says `(New usage is discouraged.)` [discouraged]"
        for text in (BASE, marked.replace(mark, mark + "$( A word. $)\n")):
            self.commit(text + user)
            self.assertEqual([line.split(": ", 1)[1] for line in self.findings()], [gone])
        self.commit((BASE + user).replace("axac3", "axac4"))
        self.assertEqual(self.rules(), ["discouraged"])

    def boxes(self, *parts: str) -> str:
        """A database with parts after it: `Ann` is a header, `x/y` a theorem that cites one."""
        text = BASE
        for part in parts:
            label, sign, cited = part.partition("/")
            if sign:
                text += f"{label} $p |- ( p -> ( q -> p ) ) $= wp wq {cited} $.\n"
            else:
                line = "####" if part == "Main" else "-.-." if part.islower() else "=-=-"
                title = part if part == "Main" else f"Mathbox for {part}"
                text += f"$(\n{line}\n  {title}\n{line}\n$)\n"
        return text

    def test_9_headers_of_mathboxes(self) -> None:
        before = ("m/ax1", "Ann", "a1/m", "a2/a1", "Bo", "b1/ax1")
        self.asks("", before=self.boxes(*before))
        self.commit(self.boxes(*before, "b2/a1"))
        self.assertEqual(self.rules(), ["mathboxes"])
        for parts in (
            ("m/ax1", "a1/m", "a2/a1", "Bo", "b1/ax1", "b2/a1"),
            ("m/ax1", "a1/m", "Ann", "a2/a1", "Bo", "b1/ax1", "b2/a1"),
            ("m/ax1", "Ann", "Main", "a1/m", "a2/a1", "Bo", "b1/ax1", "b2/a1"),
            ("m/ax1", "Ann", "a1/m", "a2/a1", "b1/ax1", "b2/a1"),
            ("m/ax1", "Bo", "a1/m", "a2/a1", "b1/ax1", "b2/a1"),
        ):
            self.commit(self.boxes(*parts))
            self.assertEqual(self.rules(), ["mathboxes"], parts)
        for parts in (
            ("m/ax1", "Eve", "a1/m", "a2/a1", "Bo", "b1/ax1"),
            ("m/ax1", "a2/m", "Ann", "a1/a2", "Bo", "b1/ax1", "b2/a2"),
            ("m/ax1", "Ann", "a1/m", "a2/a1", "Bo", "b1/ax1", "Cy", "c1/b1"[:2] + "/ax1"),
        ):
            self.commit(self.boxes(*parts))
            self.assertEqual(self.findings(status=0), [], parts)

    def test_9_a_header_within_a_mathbox(self) -> None:
        before = ("m/ax1", "Ann", "a1/m", "Bo", "b1/ax1")
        self.asks("", before=self.boxes(*before))
        for more in (("Ann", "b2/a1"), ("ann", "b2/a1"), ("x", "Main", "b2/a1")):
            self.commit(self.boxes(*before, *more))
            self.assertEqual(self.rules(), ["mathboxes"], more)
        self.commit(self.boxes("m/ax1", "Ann", "eve", "e/m", "a1/m", "Bo", "b1/ax1", "b2/a1"))
        self.assertEqual(self.rules(), ["mathboxes"])

    def test_10_a_claim_on_an_open_chain(self) -> None:
        config = '[claims]\nzorn = ["ax-ac2"]\n[allow]\nopen = ["axac3", "zorn"]\n'
        said = "$( $j usage 'zorn' avoids 'ax-ac2'; $)\n"
        for text, reason in (
            (BASE, "rests on ax-ac2: it cites axac3, which does"),
            (
                changed(BASE, ("$= wp ax-ac2 $.", "$= ? $.")),
                "rests on axac3, whose proof is left open, so nobody knows what it avoids",
            ),
            (
                changed(BASE, ("$= wp wp wp wi wi wq wp axac3 a1i $.", "$= ? $.")),
                "its proof is left open, so nobody knows what it avoids",
            ),
        ):
            self.asks(config, before=BASE)
            self.commit(text + said)
            lines = [
                f"mmdepend.toml:2: zorn: {reason} [claims]",
                f"db.mm:16: zorn: {reason} [avoids]",
            ]
            self.assertEqual(self.findings(), lines)
            self.git("checkout", "--quiet", "main")
            self.git("branch", "--delete", "--force", "--quiet", "work")

    def test_11_the_file_of_the_branch(self) -> None:
        config = WATCH + '[claims]\nfree = ["ax-ac2"]\n'
        self.asks(config)
        self.commit(changed(BASE, CHEAT))
        self.assertEqual(self.findings(), [CHEAT_FOUND])
        for text, reasons in (
            (config + "[rules]\naxioms = false\n", ["the rule `axioms` is switched off"]),
            ('[claims]\nfree = ["ax-ac2"]\n', ["ax-ac2: 'ax-ac2' isn't watched any more"]),
            (
                config.replace("ax-ac2", "ax-a*", 1),
                ["ax-ac2: 'ax-ac2' isn't watched by itself any"],
            ),
            (WATCH, ["free: the claim that free avoids ax-ac2 is dropped"]),
            (config + '[allow]\naxioms = ["*"]\n', ["*: `allow.axioms` has '*' now"]),
            ('typecode = "wff"\n' + config, ["`typecode` leaves those of 'wff', where all"]),
            (config + "[rules]\nconfig = false\n", ["the rule `config` is switched off"]),
            ("[", ["Invalid"]),
        ):
            self.write("mmdepend.toml", text)
            for self_committed in (False, True):
                if self_committed:
                    self.commit(changed(BASE, CHEAT))
                lines = self.findings()
                self.assertEqual(lines[0], CHEAT_FOUND)
                self.assertEqual(len(lines) - 1, len(reasons), lines)
                for line, part in zip(lines[1:], reasons):
                    self.assertIn(part, line)
                    self.assertTrue(line.startswith("mmdepend.toml") and line.endswith(" [config]"))

    def test_11_a_file_that_is_gone_and_one_that_asks_more(self) -> None:
        self.asks(WATCH + '[allow]\nopen = ["x"]\n')
        self.write("mmdepend.toml", 'watch = ["ax-*", "ax-ac2"]\n')
        self.commit(BASE)
        done = self.query("gate", "--base", "main", "db.mm")
        self.assertEqual(done.status, 0)
        self.assertIn(
            "note: mmdepend.toml isn't that of the base; both judge, and it counts once", done.out
        )
        (self.folder / "mmdepend.toml").unlink()
        self.assertEqual(self.rules(), ["config"])
        self.commit(NEEDS)
        self.assertEqual(self.rules(), ["newly", "config"])

    def test_12_replaced_objects_and_grafts(self) -> None:
        tip = self.git("rev-parse", "HEAD")
        self.cheats()
        head = self.git("rev-parse", "HEAD")
        self.assertEqual(self.findings(), [CHEAT_FOUND])
        old, new = (self.git("rev-parse", f"{commit}:db.mm") for commit in (tip, head))
        self.git("replace", new, old)
        self.assertEqual(self.findings("--base", "main", "HEAD:db.mm"), ["HEAD:" + CHEAT_FOUND])
        self.git("replace", "--delete", new)
        self.git("replace", tip, head)
        self.assertEqual(self.findings(), [CHEAT_FOUND])
        self.git("replace", "--delete", tip)
        (self.folder / ".git/info/grafts").write_text(f"{head}\n{tip} {head}\n")
        self.assertEqual(self.findings(), [CHEAT_FOUND])
        self.assertEqual(self.findings("--base", "HEAD~1", "db.mm"), [CHEAT_FOUND])

    def test_12_variables_of_git(self) -> None:
        self.cheats()
        other = self.folder.parent / "other"
        self.git("clone", "--quiet", "--branch=main", ".", str(other))
        marker = self.folder.parent / "marker"
        for more in (
            {"GIT_DIR": str(other / ".git")},
            {"GIT_COMMON_DIR": str(other / ".git")},
            {"GIT_OBJECT_DIRECTORY": str(other / ".git/objects")},
            {"GIT_NAMESPACE": "x"},
            {"GIT_CEILING_DIRECTORIES": str(self.folder)},
            {
                "GIT_CONFIG_COUNT": "1",
                "GIT_CONFIG_KEY_0": "core.worktree",
                "GIT_CONFIG_VALUE_0": "/",
            },
            {"GIT_CONFIG_PARAMETERS": "'core.bare=true'"},
            {"GIT_EXEC_PATH": str(other)},
            {"GIT_EXTERNAL_DIFF": f"touch {marker}"},
            {"GIT_TRACE": str(marker)},
            {"GIT_LITERAL_PATHSPECS": "1"},
            {"GIT_SHALLOW_FILE": "/nowhere"},
            {"GIT_REPLACE_REF_BASE": "refs/heads/"},
        ):
            self.assertEqual(self.findings(more=more), [CHEAT_FOUND], more)
        self.assertFalse(marker.exists())

    def test_12_attributes(self) -> None:
        self.cheats()
        self.assertEqual(self.findings(), [CHEAT_FOUND])
        self.write(".gitattributes", "*.mm ident working-tree-encoding=UTF-16 filter=x merge=x\n")
        self.git("config", "filter.x.clean", "true")
        self.git("config", "filter.x.smudge", "true")
        self.git("config", "merge.x.driver", "true")
        self.assertEqual(self.findings("--base", "main", "HEAD:db.mm"), ["HEAD:" + CHEAT_FOUND])
        self.write("db.mm", changed(BASE, CHEAT) + ADDED)
        self.is_refused(why="db.mm: .gitattributes gives it a filter, so what lies there isn't")

    def test_12_a_shallow_clone(self) -> None:
        self.cheats()
        clone = self.folder.parent / "clone"
        self.git(
            "clone", "--quiet", "--depth=1", "--branch=work", f"file://{self.folder}", str(clone)
        )
        self.folder = clone
        self.is_refused("--base", "HEAD~1", "db.mm", why="the clone is shallow")
        self.git("fetch", "--quiet", "--depth=1", "origin", "main:main")
        self.is_refused(why="the clone is shallow; fetch the whole history")

    def test_12_a_pointer_of_lfs(self) -> None:
        pointer = "version https://git-lfs.github.com/spec/v1\noid sha256:0\nsize 1\n"
        self.branch()
        self.commit(pointer)
        self.is_refused(why="db.mm: a pointer of Git LFS")
        self.git("checkout", "--quiet", "main")
        self.commit(pointer, "lfs.mm")
        self.write("lfs.mm", BASE)
        self.is_refused("--base", "main", "lfs.mm", why="lfs.mm: a pointer of Git LFS")

    def test_12_a_submodule(self) -> None:
        (self.folder / "db").mkdir()
        self.commit(BASE, "db/set.mm")
        self.branch()
        self.commit(changed(BASE, CHEAT), "db/set.mm")
        commit = self.git("rev-parse", "HEAD")
        self.git("rm", "--quiet", "-r", "--cached", "db")
        self.git("update-index", "--add", "--cacheinfo", f"160000,{commit},db")
        self.git("commit", "--quiet", "--message", "a submodule")
        self.is_refused("--base", "main", "HEAD:db/set.mm", why="db is a submodule")
        (self.folder / "db/.git").write_text("gitdir: ../.git\n")
        self.is_refused("--base", "main", "db/set.mm", why="db is a repository or a submodule")

    def test_12_names_that_differ_in_case(self) -> None:
        self.cheats()
        for name in ("DB.mm", "MMDEPEND.toml"):
            self.write(name, BASE)
            self.git("add", name)
            self.git("commit", "--quiet", "--message", name)
            told = f"{name} stands beside it, which some systems take for the same name [plain]"
            self.assertEqual(self.findings()[1].split(": ", 1)[1], told)
            self.git("reset", "--quiet", "--hard", "HEAD~1")
        self.assertEqual(self.findings(), [CHEAT_FOUND])


class OfGit(Hostile):
    """More tries that git's ways of reading offer."""

    def test_a_tag_with_the_name_of_the_base(self) -> None:
        self.git("update-ref", "refs/remotes/origin/main", "HEAD")
        self.cheats()
        self.assertEqual(self.findings("db.mm"), [CHEAT_FOUND])
        self.git("tag", "origin/main")
        self.is_refused("db.mm", why="'origin/main' names more than one revision")
        self.assertEqual(
            self.findings("--base", "refs/remotes/origin/main", "db.mm"), [CHEAT_FOUND]
        )
        self.git("update-ref", "refs/heads/HEAD", "main")
        self.assertEqual(
            self.findings("--base", "refs/remotes/origin/main", "db.mm"), [CHEAT_FOUND]
        )

    def test_a_git_in_the_working_tree(self) -> None:
        self.cheats()
        self.write("git", "#!/bin/sh\ntouch marker\n")
        os.chmod(self.folder / "git", 0o755)
        path = self.surroundings()["PATH"]
        for more in (f".:{path}", f":{path}"):
            self.assertEqual(self.findings(more={"PATH": more}), [CHEAT_FOUND])
        self.assertFalse((self.folder / "marker").exists())

    def test_settings_that_are_committed(self) -> None:
        self.git("config", "include.path", "../.gitconfig")
        self.cheats()
        driver = '[merge "x"]\n\tdriver = touch marker\n'
        monitor = "[core]\n\tfsmonitor = touch marker\n\thooksPath = .\n"
        monitor += '[filter "x"]\n\tclean = touch marker\n'
        self.write(".gitattributes", "* merge=x\n")
        self.write(".gitconfig", driver + monitor)
        self.assertEqual(self.findings(), [CHEAT_FOUND])
        self.git("checkout", "--quiet", "main")
        self.commit(BASE + ADDED)
        self.git("checkout", "--quiet", "work")
        (self.folder / "marker").unlink(missing_ok=True)
        self.assertEqual(self.findings(), [CHEAT_FOUND])
        self.assertFalse((self.folder / "marker").exists())
        self.write(".gitconfig", "[core]\n\tworktree = /\n")
        self.assertEqual(self.findings(), [CHEAT_FOUND])
        self.git("config", "core.worktree", "/")
        self.is_refused(why="not the top of the working tree that git sees")

    def test_a_merge_by_the_attributes_of_the_branch(self) -> None:
        self.branch()
        self.write(".gitattributes", "*.mm merge=union\n")
        self.commit(changed(BASE, ("( 2 + 2 ) = 4 $.\nax-1", "( 2 + 2 ) = 2 $.\nax-1")))
        self.git("checkout", "--quiet", "main")
        self.commit(changed(BASE, ("( 2 + 2 ) = 4 $.\nax-1", "( 2 + 4 ) = 4 $.\nax-1")))
        self.git("checkout", "--quiet", "work")
        self.is_refused(why="can't be merged: CONFLICT (content): Merge conflict in db.mm")

    def test_a_partial_clone(self) -> None:
        self.cheats()
        self.git("config", "uploadpack.allowFilter", "true")
        clone = self.folder.parent / "clone"
        words = ("--quiet", "--filter=blob:none", "--no-checkout", "--branch=work")
        self.git("clone", *words, f"file://{self.folder}", str(clone))
        marker = self.folder.parent / "marker"
        self.folder = clone
        self.git("config", "remote.origin.url", f"ext::touch {marker}")
        self.git("config", "protocol.ext.allow", "always")
        self.is_refused("--base", "origin/main", "HEAD:db.mm", why="git: ")
        self.assertFalse(marker.exists())

    def test_links(self) -> None:
        self.branch()
        self.write("old.mm", BASE)
        (self.folder / "db.mm").unlink()
        (self.folder / "db.mm").symlink_to("old.mm")
        self.is_refused(why="db.mm is a link")
        self.git("add", "--all")
        self.git("commit", "--quiet", "--message", "a link")
        self.is_refused("--base", "main", "HEAD:db.mm", why="db.mm is a link")
        self.is_refused("old.mm", "db.mm", why="are the same file")
        self.git("reset", "--quiet", "--hard", "main")
        (self.folder / "mmdepend.toml").unlink()
        (self.folder / "mmdepend.toml").symlink_to("/dev/null")
        self.is_refused(why="mmdepend.toml is a link")
        self.git("add", "--all")
        self.git("commit", "--quiet", "--message", "a link")
        self.is_refused("--base", "main", "HEAD:db.mm", why="mmdepend.toml is a link")

    def test_a_link_to_the_top(self) -> None:
        self.cheats()
        (self.folder / "loop").symlink_to(".")
        self.is_refused("--base", "main", "loop/db.mm", why="loop is a link")
        (self.folder / "deep" / "down").mkdir(parents=True)
        self.write("deep/db.mm", BASE)
        (self.folder / "away").symlink_to("deep/down")
        self.is_refused("--base", "main", "away/../db.mm", why="there is a link on the way")

    def test_names_of_every_kind(self) -> None:
        for name in ("-n", "a\nb.mm", "x:y.mm", "\xe9.mm", "#.mm", '"q".mm', "*.mm", ":(top)x.mm"):
            self.git("checkout", "--quiet", "main")
            self.commit(BASE, name)
            self.git("checkout", "--quiet", "-B", "work")
            self.commit(changed(BASE, CHEAT), name)
            done = self.query("gate", "--base", "main", f"./{name}")
            self.assertEqual((done.status, done.err), (1, ""), name)
            self.assertEqual(len(done.lines()), 2, name)

    def test_a_branch_that_names_itself_as_the_base(self) -> None:
        self.git("update-ref", "refs/remotes/origin/main", "HEAD")
        self.cheats()
        for base in ("HEAD", "work"):
            self.ask(f'base = "{base}"\n' + WATCH)
            finding = f"mmdepend.toml:1: the base was 'origin/main', and is '{base}' [config]"
            self.assertEqual(self.findings("db.mm"), [CHEAT_FOUND, finding])

    def test_a_file_that_config_names(self) -> None:
        self.write("own.toml", WATCH)
        self.commit(BASE)
        self.cheats()
        words = ("--base", "main", "--config", "own.toml", "db.mm")
        self.assertEqual(self.findings(*words), [CHEAT_FOUND])
        self.write("own.toml", WATCH + "[rules]\naxioms = false\n")
        self.commit(changed(BASE, CHEAT))
        self.assertEqual(
            self.findings(*words),
            [CHEAT_FOUND, "own.toml:3: the rule `axioms` is switched off [config]"],
        )
        self.write("other.toml", "[rules]\naxioms = false\n")
        other = ("--base", "main", "--config", "other.toml", "db.mm")
        self.assertEqual(self.findings(*other, status=0), [])
        self.commit(changed(BASE, CHEAT))
        self.is_refused(*other, why="other.toml: the branch brings it, and the base has none")

    def test_a_link_that_config_names(self) -> None:
        self.write("own.toml", WATCH)
        self.commit(BASE)
        self.cheats()
        (self.folder / "own.toml").unlink()
        (self.folder / "own.toml").symlink_to("/dev/null")
        words = ("--base", "main", "--config", "own.toml")
        self.is_refused(*words, "db.mm", why="own.toml is a link")
        self.commit(changed(BASE, CHEAT))
        self.is_refused(*words, "HEAD:db.mm", why="own.toml is a link")

    def test_a_file_that_takes_long_to_read(self) -> None:
        self.cheats()
        for text, why in (
            ("x = " + "[" * 100000, "nested too deeply"),
            ("#" * (1 << 20) + "\n", "longer than 1048576 bytes"),
        ):
            self.write("mmdepend.toml", text)
            self.assertIn(why, self.findings()[-1])

    def test_a_pipe_in_place_of_a_file(self) -> None:
        self.branch()
        for name in ("db.mm", "mmdepend.toml"):
            text = (self.folder / name).read_text()
            (self.folder / name).unlink()
            os.mkfifo(self.folder / name)
            self.is_refused(why=f"{name}: is no plain file")
            (self.folder / name).unlink()
            self.write(name, text)
        self.assertEqual(self.findings(status=0), [])

    def test_a_temporary_folder_of_others(self) -> None:
        """Who may rename what is made there could put another repository in its place."""
        self.cheats()
        self.temporary.chmod(0o777)
        self.is_refused(why=f"{self.temporary}, the folder for temporary files (TMPDIR), is one in")
        self.temporary.chmod(0o1777)
        self.assertEqual(self.findings(), [CHEAT_FOUND])
        if os.geteuid() == 0:
            os.chown(self.temporary, 12345, 12345)
            self.is_refused(why="the folder for temporary files (TMPDIR), belongs to somebody else")
            os.chown(self.temporary, 0, 0)
            self.assertEqual(self.findings(), [CHEAT_FOUND])

    def test_files_of_two_gigabytes(self) -> None:
        """They take no room where they lie, and would take it where they are read."""
        self.branch()
        with open(self.folder / "mmdepend.toml", "ab") as file:
            file.truncate(2_000_000_000)
        self.is_refused(why="mmdepend.toml has 2000000000 bytes, and 16777216 are taken")
        self.git("checkout", "--quiet", "mmdepend.toml")
        for size, most in ((3_000_000_000, 2147483647), (200_000_000, 67110052)):
            with open(self.folder / "db.mm", "ab") as file:
                file.truncate(size)
            done = self.query_by_shell(
                'ulimit -v 500000; exec "$@"', "gate", "--base", "main", "db.mm"
            )
            self.assertEqual((done.status, done.out), (2, ""), done)
            self.assertIn(f"db.mm has {size} bytes, and {most} are taken", done.err)
        self.git("checkout", "--quiet", "db.mm")
        self.assertEqual(self.findings(status=0), [])
        with open(self.folder / "mmdepend.toml", "ab") as file:
            file.truncate(2_000_000_000)
        (self.folder / "two").mkdir()
        os.replace(self.folder / "mmdepend.toml", self.folder / "two/mmdepend.toml")
        self.write("two/db.mm", BASE)
        line = 'ulimit -v 1000000; exec "$@"'
        for words in (
            ("gate", "db.mm", "two/db.mm"),
            ("gate", "--config", "two/mmdepend.toml", "db.mm", "two/db.mm"),
        ):
            done = self.query_by_shell(line, *words)
            self.assertIn("mmdepend.toml: longer than 1048576 bytes", done.out + done.err)

    def test_a_branch_that_hides_the_database(self) -> None:
        self.branch()
        self.git("rm", "--quiet", "db.mm")
        self.git("commit", "--quiet", "--message", "gone")
        self.is_refused("--base", "main", "HEAD:db.mm", why="db.mm: ")
        self.is_refused(why="db.mm: there is no such file")


MOVES = """#!/bin/sh
echo >>"{counts}"
[ "$(wc -l <"{counts}")" -ne {at} ] || "{git}" --git-dir="{folder}" update-ref {name} {commit}
exec "{git}" "$@"
"""
"""A git that moves a branch before one of its calls."""


class Moving(Hostile):
    """Branches that move while the gate runs: it reads each once, and what it says is so of the
    commits that it names."""

    takes_long = True

    def setUp(self) -> None:
        super().setUp()
        self.counts = self.folder.parent / "counts"
        self.bin = self.folder.parent / "bin"
        self.bin.mkdir()

    def judged(self, at: int, name: str, commit: str, words: tuple[str, ...]) -> Done:
        """What the gate says where a branch becomes another commit before one call of git."""
        git = shutil.which("git")
        folder = self.folder / ".git"
        given = {"git": git, "folder": folder, "name": name, "commit": commit, "at": at}
        self.counts.write_text("")
        (self.bin / "git").write_text(MOVES.format(counts=self.counts, **given))
        (self.bin / "git").chmod(0o755)
        return self.query("gate", *words, PATH=f"{self.bin}:{self.surroundings()['PATH']}")

    def moves(self, name: str, first: str, second: str, *words: str) -> None:
        """At whichever call of git a branch moves, the answer is that of one of both commits; and
        it is the first one's at the end, and the second one's at the beginning."""
        wanted = []
        for commit in (first, second):
            self.git("update-ref", name, commit)
            wanted.append(self.query("gate", *words))
        self.assertNotEqual(*wanted)
        calls = 1
        found = []
        while True:
            self.git("update-ref", name, first)
            found.append(self.judged(calls, name, second, words))
            self.assertIn(found[-1], wanted, calls)
            if self.counts.read_text().count("\n") < calls:
                break
            calls += 1
        self.assertEqual([found[0], found[-1]], wanted[::-1])
        changes = [one != other for one, other in zip(found, found[1:])]
        self.assertEqual(changes.count(True), 1)
        self.git("update-ref", name, first)

    def test_the_base(self) -> None:
        """The second base has what the branch brings, and asks nothing."""
        first = self.git("rev-parse", "HEAD")
        self.cheats()
        self.git("checkout", "--quiet", "main")
        self.write("mmdepend.toml", "[rules]\naxioms = false\n")
        second = self.commit(changed(BASE, CHEAT))
        self.git("checkout", "--quiet", "work")
        self.moves("refs/heads/main", first, second, "--base", "main", "work:db.mm")
        self.moves("refs/heads/main", second, first, "--base", "main", "work:db.mm")

    def test_the_branch(self) -> None:
        self.branch()
        first = self.commit(BASE + ADDED)
        second = self.commit(changed(BASE, CHEAT) + ADDED)
        self.git("checkout", "--quiet", "main")
        self.commit(changed(BASE, ("4 $.\nax-1", "4 $.\n\nax-1")))
        self.moves("refs/heads/work", first, second, "--base", "main", "work:db.mm")
        self.moves("refs/heads/work", second, first, "--base", "main", "work:db.mm")


NAMES = ("db.mm", "a.mm", "d/db.mm", "d/a.mm", "e/db.mm")
LINES = tuple(f"line {number}\n" for number in range(12))
Tree = dict[str, list[str]]


class Merges(Hostile):
    """What the gate takes for the merge is what git makes by its own settings, which look for files
    that were renamed, or one of the two is a conflict."""

    def changed(self, tree: Tree, chance: random.Random) -> None:
        """Changes files by chance: their lines, their names, or which there are."""
        name, other = chance.choice([*tree]), chance.choice(NAMES)
        what = chance.choice(("lines", "lines", "lines", "rename", "copy", "swap", "folder", "new"))
        if what == "lines" and tree[name]:
            tree[name][chance.randrange(len(tree[name]))] = f"other {chance.randrange(99)}\n"
        elif what == "rename":
            tree[other] = tree.pop(name)
        elif what == "copy":
            tree[other] = [*tree[name]]
        elif what == "swap":
            tree[name], tree[other] = tree.get(other, []), tree[name]
        elif what == "folder":
            for each in [each for each in tree if each.startswith("d/")]:
                tree[f"e/{each[2:]}"] = tree.pop(each)
        elif what == "new":
            tree[other] = [f"new {chance.randrange(99)}\n" for _ in range(8)]

    def committed(self, tree: Tree, *parents: str) -> str:
        """A commit with these files."""
        self.git("read-tree", "--empty")
        for name, lines in tree.items():
            self.write("object", "".join(lines))
            blob = self.git("hash-object", "-w", "object")
            self.git("update-index", "--add", "--cacheinfo", f"100644,{blob},{name}")
        words = [word for parent in parents for word in ("-p", parent)]
        return self.git("commit-tree", self.git("write-tree"), *words, "-m", "x")

    def are_same(self, objects: Objects, tips: list[str], one: str, other: str) -> None:
        """Two merges have the same files where the base had any."""
        for name in NAMES:
            if objects.entry(tips[0], name) is not None:
                found = [objects.entry(tree, name) for tree in (one, other)]
                self.assertEqual(found[0], found[1], f"{name} of the merge of {tips}")

    def by_git(self, *words: str) -> str | None:
        """The tree of a merge by git; None where there is a conflict."""
        done = self.ran("git", *words)
        self.assertIn(done.status, (0, 1), done)
        return done.lines()[0] if done.status == 0 else None

    def test_at_random(self) -> None:
        chance = random.Random(4)
        counts = {"same": 0, "conflict": 0}
        for _ in range(60):
            tree = {name: [*LINES] for name in chance.sample(NAMES, 3)}
            base = self.committed(tree)
            tips = []
            for _ in range(2):
                mine = {name: [*lines] for name, lines in tree.items()}
                for _ in range(chance.randrange(1, 4)):
                    self.changed(mine, chance)
                tips.append(self.committed(mine, base))
            with Objects(Repository(self.folder, self.folder / ".git")) as objects:
                try:
                    merged = objects.merged(tips[0], tips[1])
                except NoAnswer as why:
                    self.assertIn("can't be merged: CONFLICT", why.sentence())
                    counts["conflict"] += 1
                    continue
                for more in ((), ("-c", "merge.directoryRenames=true")):
                    theirs = self.by_git(*more, "merge-tree", "--write-tree", *tips)
                    if theirs is not None:
                        self.are_same(objects, tips, merged, theirs)
                        counts["same"] += 1
        self.assertGreater(min(counts.values()), 10)


class Bases(Hostile):
    """Two merge bases: one is the base's removal of an axiom, the other a commit in which the
    database has another name. git merges them first. Where it looks for renamed files, what the
    base removed is back after the merge."""

    def crossed(self, name: str) -> tuple[str, str]:
        """Two such branches, whose other merge base has the database at a path."""
        self.commit(changed(BASE, CHEAT))
        self.git("checkout", "--quiet", "-b", "first")
        other = self.renamed(name)
        self.commit((self.folder / "db.mm").read_text() + "\n$( A remark. $)\n")
        self.git("checkout", "--quiet", "main")
        removal = self.commit(BASE)
        self.git("merge", "--quiet", "--no-ff", "--no-edit", "first")
        self.assertEqual((self.folder / "db.mm").read_text(), BASE + "\n$( A remark. $)\n")
        self.git("checkout", "--quiet", "-b", "work", other)
        self.git("merge", "--quiet", "--no-commit", "--strategy=ours", removal)
        if name != "db.mm":
            self.git("mv", name, "db.mm")
        self.git("commit", "--quiet", "--message", "another change")
        bases = self.git("merge-base", "--all", "main", "work").split()
        self.assertEqual(sorted(bases), sorted((removal, other)))
        return self.git("rev-parse", "main"), self.git("rev-parse", "work")

    def renamed(self, name: str) -> str:
        """A commit in which the database has another path, and the next one in which it is back."""
        if name != "db.mm":
            self.git("mv", "db.mm", name)
        self.git("commit", "--quiet", "--allow-empty", "--message", "another path")
        other = self.git("rev-parse", "HEAD")
        if name != "db.mm":
            self.git("mv", name, "db.mm")
        return other

    def test_a_path_that_changes_and_is_back(self) -> None:
        """Versions of git that look for renamed files in any case show the axiom; others don't, and
        then there is no answer."""
        self.crossed("other.mm")
        done = self.query("gate", "--base", "main", "db.mm")
        self.assertIn(done.status, (1, 2), done)
        shown = done.out if done.status == 1 else done.err
        why = "ax-cheat: a new axiom" if done.status == 1 else "there are several merge bases of"
        self.assertIn(why, shown)

    def test_a_path_that_stays(self) -> None:
        """The same without another name: the axiom is back; or the branch has taken its removal."""
        self.crossed("db.mm")
        self.assertEqual(self.findings(), [CHEAT_FOUND])
        self.commit(BASE)
        self.assertGreater(len(self.git("merge-base", "--all", "main", "work").split()), 1)
        self.assertEqual(self.findings(status=0), [])

    def test_merges_that_differ(self) -> None:
        commits = self.crossed("db.mm")
        with Objects(Repository(self.folder, self.folder / ".git")) as objects:
            see_one_merge(objects, "db.mm", commits, objects.merged(*commits), 0)
            with self.assertRaisesRegex(NoAnswer, "db.mm differs by how these are merged"):
                see_one_merge(objects, "db.mm", commits, commits[0], 0)


class OfTexts(Hostile):
    """More tries that the text of a database offers."""

    def test_an_axiom_that_differs_in_one_thing(self) -> None:
        ax = "ax-1 $a |- ( p -> ( q -> p ) ) $."
        two = "${ e1 $e |- p $. e2 $e |- q $. ax-2h $a |- ( p -> q ) $. $}\n"
        apart = "${ $d p q $. ax-d $a |- ( q -> p ) $. $}\n"
        before = changed(BASE.split("2p2e4")[0], (ax, two + apart + ax))
        self.asks("", before=before)
        for change in (
            ("$d p q $. ", ""),
            ("e1 $e |- p $. e2 $e |- q $.", "e2 $e |- q $. e1 $e |- p $."),
            (two, two.replace("e2 $e |- q $. ", "")),
            (ax, "${ h $e |- q $. " + ax + " $}"),
            (ax, ax.replace("|-", "wff")),
            (ax, ax.replace("q -> p", "q $( -> q ) $) -> p").replace("( q", "( p")),
        ):
            self.commit(changed(before, change))
            lines = self.findings()
            self.assertEqual(len(lines), 1, change)
            self.assertIn("a changed axiom", lines[0])
        self.commit(changed(before, (ax, ax.replace("q -> p", "q $( x $) -> p"))))
        self.assertEqual(self.findings(status=0), [])

    def test_an_axiom_behind_what_looks_like_a_comment(self) -> None:
        self.branch()
        for hidden in (
            "$( a $)ax-x $a |- 2 $.\n",
            "$( a $( ax-x $a |- 2 $. $)\n",
            "$( $)\n$( b$) ax-x $a |- 2 $. $)\n",
            "$( x $[ y $) ax-x $a |- 2 $. $( $] $)\n",
            "$(x$) ax-x $a |- 2 $.\n",
            "ax-x$a |- 2 $.\n",
        ):
            self.commit(BASE + hidden)
            done = self.query("gate", "--base", "main", "db.mm")
            self.assertEqual((done.status, done.err), (1, ""), hidden)

    def test_a_variable_of_two_typecodes(self) -> None:
        text = (
            "$c |- a b $. ${ $v x $. wx $f a x $. ax-x $a |- x $. $}\n"
            "${ $v x $. vx $f a x $. ax-y $a |- x x $. $}\n"
        )
        self.asks("", before=text)
        self.commit(changed(text, ("wx $f a x", "wx $f b x")))
        self.assertEqual(self.rules(), ["valid"])
        self.commit(text.replace("$f a x", "$f b x"))
        self.assertEqual(self.rules(), ["axioms", "axioms"])

    def test_a_watched_axiom_that_a_new_one_proves(self) -> None:
        self.asks(WATCH)
        text = changed(
            BASE,
            (
                "ax-ac2 $a |- ( p -> ( p -> p ) ) $.",
                "ax-x $a |- ( p -> ( p -> p ) ) $.\nax-ac2 $p |- ( p -> ( p -> p ) ) $= wp ax-x $.",
            ),
        )
        self.commit(text)
        self.assertEqual(self.rules(), ["axioms", "axioms", "watched", "new"])

    def test_a_pattern_that_no_longer_means_an_axiom(self) -> None:
        self.asks('watch = ["ax-a*"]\n[allow]\naxioms = ["*"]\n')
        text = BASE.replace("ax-ac2", "choice") + "ax-any $a |- 2 $.\n"
        self.commit(text)
        finding = (
            "mmdepend.toml:1: ax-ac2: a watched axiom whose statement has the label choice, which"
        )
        self.assertIn(finding, self.findings()[0])

    def test_an_axiom_that_is_there_twice(self) -> None:
        self.asks(WATCH)
        again = "ax-free $a |- ( p -> ( p -> p ) ) $.\n"
        self.commit(
            changed(BASE, ("ax-ac2 $a", again + "ax-ac2 $a"), ("= wp ax-ac2", "= wp ax-free"))
        )
        self.assertEqual(self.rules(), ["axioms"])

    def test_a_claim_whose_label_another_theorem_gets(self) -> None:
        self.asks('[claims]\nfree = ["ax-ac2"]\n')
        swapped = NEEDS.replace("free ", "freed ") + "free $p |- ( 2 + 2 ) = 4 $= 2p2e4 $.\n"
        self.commit(swapped)
        finding = (
            "mmdepend.toml:2: free: the label free is another statement's now, which isn't what"
        )
        self.assertEqual([line[: len(finding)] for line in self.findings()], [finding])
        self.commit(BASE)
        self.assertEqual(self.findings(status=0), [])

    def test_a_theorem_that_is_moved_across_a_label(self) -> None:
        self.asks(WATCH + "[rules]\nnew = false\n")
        self.commit(NEEDS)
        self.assertEqual(self.rules(), ["newly"])
        self.commit(NEEDS.replace("free", "freed"))
        self.assertEqual(self.rules(), ["newly"])
        swapped = BASE.replace("free ", "x ").replace("axac3 ", "free ").replace("x ", "axac3 ")
        self.commit(swapped)
        self.assertEqual(self.rules(), ["newly", "newly"][: len(self.rules())])

    def test_notes_of_what_is_not_text(self) -> None:
        self.branch()
        for text in ("mmdepend 1\naxioms 0\ntheorems 0\nend\n", "refused 1:1 E00\n"):
            self.commit(text)
            self.is_refused(why="db.mm: a report, where the database is wanted")

    def test_two_files_of_a_folder_that_is_brought(self) -> None:
        for name, config in (("base", WATCH), ("brought", WATCH + "[rules]\naxioms = false\n")):
            (self.folder / name).mkdir()
            self.write(f"{name}/mmdepend.toml", config)
            self.write(f"{name}/db.mm", BASE if name == "base" else changed(BASE, CHEAT))
        lines = self.findings("base/db.mm", "brought/db.mm")
        self.assertEqual([line.rpartition(" ")[2] for line in lines], ["[axioms]", "[config]"])
        self.assertEqual(
            self.findings("--config-of-new", "base/db.mm", "brought/db.mm", status=0), []
        )


class Files(Hostile):
    """Files `mmdepend.toml` that are brought, and what they would do to later pull requests."""

    def test_one_that_asks_what_is_not_so(self) -> None:
        self.asks(WATCH)
        for more, found in (
            ('[claims]\nzorn = ["ax-ac2"]\n', "zorn: rests on ax-ac2: it cites axac3, which does"),
            ('[claims]\nnone = ["ax-ac2"]\n', "none: there is no theorem 'none'"),
            ("", ""),
        ):
            self.write("mmdepend.toml", WATCH + more)
            self.commit(BASE + ADDED)
            lines = self.findings(status=1 if found else 0)
            told = f"mmdepend.toml:3: {found}; by the file that is brought [claims]"
            self.assertEqual(lines, [told] if found else [])
        self.write("mmdepend.toml", 'watch = ["ax-ac2", "ax-none"]\n')
        self.commit(BASE)
        told = "ax-none: a watched axiom that is missing; by the file that is brought [watched]"
        self.assertEqual(self.findings(), [f"mmdepend.toml:1: {told}"])

    def test_one_that_switches_a_rule_on(self) -> None:
        todo = BASE + "todo $p |- p $= ? $.\n"
        self.asks("[rules]\nopen = false\n", before=todo)
        self.write("mmdepend.toml", "")
        self.commit(todo)
        told = "todo: a theorem whose proof is left open; by the file that is brought [open]"
        self.assertEqual(self.findings(), [f"db.mm:16: {told}"])
        self.write("mmdepend.toml", '[allow]\nopen = ["todo"]\n')
        self.commit(todo)
        told = "mmdepend.toml:2: todo: `allow.open` has 'todo' now [config]"
        self.assertEqual(self.findings(), [told])

    def test_a_mend_of_what_is_broken(self) -> None:
        """Who takes back what the base itself breaks passes; the rest of the file still counts."""
        broken = 'watch = ["ax-ac2", "ax-none"]\n[claims]\n'
        broken += 'zorn = ["ax-ac2", "df-4"]\nnone = ["ax-1"]\nfree = ["ax-ac2"]\n'
        self.asks(broken)
        self.commit(BASE + ADDED)
        self.assertEqual(self.rules(), ["watched", "claims", "claims"])
        mended = 'watch = ["ax-ac2"]\n[claims]\nzorn = ["df-4"]\nfree = ["ax-ac2"]\n'
        self.write("mmdepend.toml", mended)
        self.commit(BASE + ADDED)
        self.assertEqual(self.findings(status=0), [])
        self.write("mmdepend.toml", mended.replace('free = ["ax-ac2"]\n', ""))
        self.commit(BASE + ADDED)
        told = "mmdepend.toml: free: the claim that free avoids ax-ac2 is dropped [config]"
        self.assertEqual(self.findings(), [told])
        self.write("mmdepend.toml", mended)
        self.commit(changed(BASE, CHEAT))
        self.assertEqual(self.findings(), [CHEAT_FOUND])

    def test_what_breaks_nothing_is_not_mended(self) -> None:
        """While its rule is off, what isn't so breaks nothing, and may be meant for later."""
        broken = 'watch = ["ax-none"]\n[claims]\nzorn = ["ax-ac2"]\n'
        self.asks("[rules]\nwatched = false\nclaims = false\n")
        self.git("checkout", "--quiet", "main")
        self.ask(broken + "[rules]\nwatched = false\nclaims = false\n")
        self.git("checkout", "--quiet", "-B", "work", "main")
        self.write("mmdepend.toml", "[rules]\nwatched = false\nclaims = false\n")
        self.commit(BASE)
        self.assertEqual(self.rules(), ["config", "config"])

    def test_what_a_pull_request_breaks_it_does_not_mend(self) -> None:
        """To drop a claim that only NEW breaks is no mend."""
        self.asks(WATCH + '[claims]\nfree = ["ax-ac2"]\n')
        self.write("mmdepend.toml", WATCH)
        self.commit(NEEDS)
        self.assertEqual(self.rules(), ["newly", "claims", "config"])

    def test_keys_that_take_long_to_read(self) -> None:
        self.asks(WATCH)
        for text, why in (
            (".".join("a" * 30_000) + " = 1\n", "a key of more than 8 parts"),
            (f"[{'.'.join('a' * 30_000)}]\n", "a key of more than 8 parts"),
            ("x = " + "[" * 30_000, "nested too deeply"),
            ("x = " + "{a=" * 30_000, "nested too deeply"),
            (f"base = '{'a' * 30_000}'\n", "a word of more than 10000 characters"),
            ('"\\' * 30_000, "a word of more than 10000 characters"),
        ):
            self.write("mmdepend.toml", text)
            self.commit(BASE)
            lines = self.findings()
            self.assertEqual(len(lines), 1)
            self.assertTrue(lines[0].startswith("mmdepend.toml:1: ") and why in lines[0], lines)
        self.write("mmdepend.toml", WATCH + "[claims]\n'19.2' = ['a.b.c.d.e.f.g.h.i.j']\n")
        self.commit(BASE)
        self.assertIn("there is no theorem '19.2'", self.findings()[0])

    def test_a_label_that_is_watched_by_its_beginning_alone(self) -> None:
        """The axiom might go then, and come back as another one that isn't watched."""
        config = WATCH + "[rules]\naxioms = false\n"
        self.asks(config)
        gone = changed(
            BASE,
            ("ax-ac2 $a |- ( p -> ( p -> p ) ) $.\n", ""),
            ("= wp ax-ac2 $.", "= wp wp ax-1 $."),
        )
        self.commit(gone)
        self.assertEqual(self.rules(), ["watched"])
        for words, told in (
            ('"ax-*"', "isn't watched by itself any more"),
            ('"ax-ac*", "ax-ac"', "isn't watched by itself any more"),
            ('"ax-mp"', "isn't watched any more"),
            ('"ax-*", "ax-ac2"', ""),
        ):
            self.write("mmdepend.toml", config.replace('"ax-ac2"', words))
            self.commit(BASE + "ax-ac $a |- 2 $.\n")
            found = self.findings(status=1 if told else 0)
            wanted = f"mmdepend.toml:1: ax-ac2: 'ax-ac2' {told} [config]"
            self.assertEqual(found, [wanted] if told else [], words)
        self.git("checkout", "--quiet", "main")
        self.ask(config.replace("ax-ac2", "ax-a*"))
        self.commit(BASE + "ax-ac $a |- 2 $.\n")
        self.git("checkout", "--quiet", "-B", "work", "main")
        self.commit(gone + "ax-ac $a |- 2 $.\n")
        self.assertEqual(self.findings(status=0), [])

    def test_forms_of_the_file(self) -> None:
        """Only UTF-8 without a mark before it, with ends of lines as TOML has them, is taken."""
        self.asks(WATCH)
        for data, why in (
            (b"\xef\xbb\xbf" + WATCH.encode(), "Invalid statement"),
            (WATCH.encode("utf-16"), "not UTF-8"),
            (WATCH.replace("\n", "\r").encode(), "Expected newline or end of document"),
            (WATCH.encode() + b"\0", "Invalid statement"),
            (b"# \0\n" + WATCH.encode(), "Found invalid character"),
            (b"\xc2\x85" + WATCH.encode(), "Invalid statement"),
            (WATCH.encode() * 2, "Cannot overwrite a value"),
            (WATCH.replace("\n", "\r\n").encode(), ""),
            (b'# \xe2\x80\xa8[rules]\r\n"\\u0077atch" = ["ax-ac2"]', ""),
        ):
            (self.folder / "mmdepend.toml").write_bytes(data)
            self.commit(NEEDS)
            found = self.findings()
            self.assertEqual(found[0].rpartition(" ")[2], "[newly]")
            self.assertEqual(len(found), 2 if why else 1, found)
            self.assertIn(why, found[-1])
            base = self.git("rev-parse", "HEAD")
            self.commit(changed(NEEDS, CHEAT))
            words = ("--base", base, "db.mm")
            if why:
                self.is_refused(*words, why=f"mmdepend.toml: {why}")
            else:
                self.assertEqual(self.findings(*words), [CHEAT_FOUND])


class Surroundings(Hostile):
    """Limits and folders that the system, or whoever starts mmquery, gives it."""

    def test_limits_of_the_system(self) -> None:
        """Under each the answer is the right one, or there is none."""
        self.cheats()
        whole = self.query("gate", "--base", "main", "work:db.mm")
        self.assertEqual(whole.status, 1)
        refused = set()
        for kind, limits in (
            ("-n", (6, 9, 12, 16, 64)),
            ("-f", (0, 1, 8)),
            ("-v", (22_000, 30_000, 40_000, 60_000, 400_000)),
            ("-s", (64, 256, 8192)),
            *(("-t", (9,)), ("-u", (1,)), ("-l", (0,)), ("-q", (0,)), ("-c", (0,))),
        ):
            for limit in limits:
                line = f'ulimit {kind} {limit}; exec "$@"'
                words = ("gate", "--no-cache", "--base", "main", "work:db.mm")
                done = self.ran("bash", "-c", line, "sh", str(MMQUERY), *words)
                if done.status == 2:
                    refused.add(kind)
                    self.assertRegex(done.err, r"\Ammquery: [^\n]+\n\Z", line)
                    self.assertEqual(done.out, "", line)
                else:
                    self.assertEqual(done, whole, line)
        self.assertLessEqual({"-n", "-v"}, refused)

    def test_homes(self) -> None:
        """No folder of the user's has a say, whether something can be kept there or not."""
        self.cheats()
        (self.folder / ".gitconfig").write_text("[core]\n\tbare = true\n")
        self.write("file", "")
        for home in ("/nowhere", "/dev/null", "/proc", "", ".", str(self.folder / "file")):
            more = {"HOME": home, "XDG_CACHE_HOME": "", "XDG_CONFIG_HOME": ""}
            if os.geteuid() == 0 and home == "/nowhere":
                more["HOME"] = "/proc/nowhere"  # who may do anything would make the other one
            self.assertEqual(self.findings(more=more), [CHEAT_FOUND], home)


class Many(Hostile):
    """Findings without end."""

    def test_one_proof(self) -> None:
        cited = ["free", *(f"u{number}" for number in range(1499))]
        users = "".join(
            f"u{number} $p |- ( p -> ( p -> p ) ) $= wp {label} $.\n"
            for number, label in enumerate(cited)
        )
        self.asks(WATCH, before=BASE + users)
        self.commit(NEEDS + users)
        told = "newly rests on ax-ac2: it cites axac3; with 1500 more theorems by that [newly]"
        self.assertEqual(self.findings(), [f"db.mm:15: free: {told}"])
        words = ("--base", "main", "db.mm", "--all")
        lines = self.findings(*words)
        self.assertEqual(len(lines), 1501)
        last = "u1499: newly rests on ax-ac2: free, on which it rests, cites axac3 [newly]"
        self.assertEqual(lines[-1], f"db.mm:1515: {last}")
        done = self.query("gate", *words, "--format", "json")
        found = json.loads(done.out)
        self.assertEqual((len(found["findings"]), found["more"]), (1501, 0))

    def test_many_axioms(self) -> None:
        """A finding for each theorem, and no more than 1000."""
        axioms = "".join(f"ax-x{number} $a |- p $.\n" for number in range(40))
        cited = proof([f"ax-x{number}" for number in range(40)])
        proofs = "".join(f"t{number} $p |- p $= {cited}$.\n" for number in range(1200))
        two = "${ two.1 $e |- p $. two.2 $e |- p $. two $a |- p $. $}\n"
        self.asks('watch = ["ax-*"]\n[allow]\naxioms = ["*"]\n')
        self.commit(BASE + two + axioms + proofs)
        done = self.query("gate", "--base", "main", "db.mm")
        lines = done.lines()
        reason = "a new theorem that rests on ax-x0 and 39 more watched axioms: it cites ax-x0"
        self.assertEqual(lines[0], f"db.mm:57: t0: {reason} [new]")
        self.assertEqual(lines[1000], "and 200 more findings, which --all tells")
        self.assertRegex(lines[1001], r"\A1200 findings: ")
        self.assertEqual(len(lines), 1002)
        for form in ("json", "github", "markdown", "log"):
            done = self.query("gate", "--base", "main", "db.mm", "--format", form)
            self.assertLess(len(done.out), 500_000)
            self.assertIn("200", done.out)
        done = self.query("gate", "--base", "main", "db.mm", "--all")
        self.assertEqual(done.lines()[-1][:14], "48000 findings")
        self.assertEqual(len(done.lines()), 48001)

    def test_a_label_that_is_as_long_as_the_text(self) -> None:
        self.asks('watch = ["ax-*"]\n[allow]\naxioms = ["*"]\n')
        label = "ax-" + "x" * 100_000
        users = "".join(f"t{number} $p |- p $= wp {label} $.\n" for number in range(5))
        self.commit(BASE + f"{label} $a |- p $.\n" + users)
        for form in ("text", "json", "github", "markdown", "log"):
            done = self.query("gate", "--base", "main", "db.mm", "--format", form)
            self.assertEqual(done.status, 1)
            self.assertLess(len(done.out), 50_000, form)


class Logs(Hostile):
    """Words that servers obey in what is logged."""

    WORDS = (
        "##vso[task.setvariable]x",
        "##[error]x",
        "##teamcity[x]",
        "::error::x",
        ":::x",
        "#[x]",
    )

    def test_symbols(self) -> None:
        self.branch()
        words = " ".join(self.WORDS)
        text = changed(BASE, ("$c wff", f"$c {words} wff"))
        self.commit(text + f"ax-cheat $a |- {words} $.\n")
        for form in ("log", "github"):
            done = self.query("gate", "--base", "main", "db.mm", "--format", form)
            self.assertEqual(done.status, 1)
            for line in done.lines():
                self.assertNotRegex(line.removeprefix("::error"), r"##|#\[")
                if form == "log":
                    self.assertNotIn("::", line)
            self.assertIn(r"#\x23vso[task.setvariable]x", done.out)
        plain = self.query("gate", "--base", "main", "db.mm")
        self.assertIn(words, plain.out)

    def test_code_in_tables(self) -> None:
        """No cell is ended by what stands in it, and so no code."""
        for text, wanted in (
            ("a|b", r"`a\|b`"),
            (r"a\|b", r"`a\\x7cb`"),
            (r"a\\|b", r"`a\\\x7cb`"),
            ("||", r"`\|\|`"),
            ("`", "`` ` ``"),
            ("a``b`", "``` a``b` ```"),
            ("", ""),
        ):
            self.assertEqual(in_markdown(text), wanted)
            self.assertNotRegex(in_markdown(text), r"(?<!\\)(?:\\\\)*\|")

    def test_standard_error(self) -> None:
        self.branch()
        self.commit(BASE, "##[error]x")
        done = self.query("gate", "--base", "main", "HEAD:##[error]x")
        self.assertEqual(done.status, 2)
        self.assertNotRegex(done.err, r"##|#\[")
        self.assertIn(r"#\x23[error]x", done.err)


class Honest(Hostile):
    """What has to pass."""

    def test_changes_that_pass(self) -> None:
        self.asks(WATCH + '[allow]\naxioms = ["df-*", "wnew"]\n')
        for text in (
            BASE.replace("zorn", "zorn1"),
            changed(BASE, ("$= wp ax-ac2 $.", "$= wp wp ax-1 $.")),
            BASE + ADDED,
            BASE + "df-new $a |- ( 2 -> 2 ) $.\n",
            BASE + "wnew $a wff 2 $.\n",
            BASE.replace("\n", "\r\n"),
        ):
            self.commit(text)
            self.assertEqual(self.findings(status=0), [])

    def test_merges_of_three(self) -> None:
        """What a commit with three parents has is judged, whatever its parents have."""
        for name in ("one", "two"):
            self.git("checkout", "--quiet", "-B", name, "main")
            self.commit(BASE, name)
        for text, found in ((BASE + ADDED, []), (changed(BASE, CHEAT), [CHEAT_FOUND])):
            self.git("checkout", "--quiet", "-B", "work", "main")
            self.git("merge", "--quiet", "--no-commit", "--no-ff", "one", "two")
            self.commit(text)
            self.assertEqual(len(self.git("log", "-1", "--format=%P").split()), 3)
            self.assertEqual(self.findings(status=1 if found else 0), found)

    def test_files_in_a_circle(self) -> None:
        """Each path has what stands there, whoever had it before."""
        self.write("one.mm", changed(BASE, CHEAT))
        self.commit(BASE + ADDED, "two.mm")
        for turn, found in ((1, [CHEAT_FOUND]), (2, [])):
            self.git("checkout", "--quiet", "-B", "work", "main")
            for _ in range(turn):
                for old, new in (("db", "x"), ("one", "db"), ("two", "one"), ("x", "two")):
                    self.git("mv", f"{old}.mm", f"{new}.mm")
            self.git("commit", "--quiet", "--message", "a circle")
            self.assertEqual(self.findings(status=1 if found else 0), found)
        self.git("checkout", "--quiet", "main")
        self.commit(BASE + "$( A remark. $)\n")
        self.git("checkout", "--quiet", "work")
        self.is_refused(why="can't be merged: CONFLICT")

    def test_labels_in_a_circle(self) -> None:
        three = BASE + "ax-a $a |- 2 $.\nax-b $a |- ( 2 + 2 ) $.\nax-c $a |- 4 $.\n"
        circle = three.replace("ax-a ", "x ").replace("ax-c ", "ax-a ")
        circle = circle.replace("ax-b ", "ax-c ").replace("x ", "ax-b ")
        self.asks('watch = ["ax-a", "ax-b", "ax-c"]\n', before=three)
        self.commit(circle)
        lines = self.findings()
        for words, rule in (
            ("a changed axiom: ", "axioms"),
            ("a new label of the axiom ", "axioms"),
            ("", "watched"),
        ):
            found = [line for line in lines if words in line and line.endswith(f"[{rule}]")]
            self.assertEqual(len(found), 3, (words, lines))
        self.commit(three + ADDED)
        self.assertEqual(self.findings(status=0), [])

    def test_a_base_that_goes_on(self) -> None:
        self.branch()
        self.commit(BASE + ADDED)
        self.git("checkout", "--quiet", "main")
        self.commit(
            changed(
                BASE,
                ("$= wp ax-ac2 $.", "$= wp wp ax-1 $."),
                ("ax-1 $a", "wn $a wff 2 $.\nax-1 $a"),
            )
        )
        self.git("checkout", "--quiet", "work")
        for words in ((), ("--merge-base", "--base", "main", "db.mm")):
            self.assertEqual(self.findings(*words, status=0), [])
        done = self.query("gate", "--base", "main", "db.mm")
        self.assertIn("note: lines of db.mm are those of its merge with main, ", done.out)
        self.git("merge", "--quiet", "--no-edit", "main")
        self.assertEqual(self.findings(status=0), [])
        self.write("db.mm", (self.folder / "db.mm").read_text() + "% $( x $)\n".replace("% ", ""))
        self.assertEqual(self.findings(status=0), [])

    def test_nothing_is_written_to_the_repository(self) -> None:
        self.cheats()
        self.write("db.mm", changed(BASE, CHEAT) + ADDED)
        before = sorted(str(each) for each in (self.folder / ".git").rglob("*"))
        self.assertEqual(len(self.findings()), 1)
        self.assertEqual(sorted(str(each) for each in (self.folder / ".git").rglob("*")), before)

    def test_a_working_tree_of_its_own(self) -> None:
        other = self.folder.parent / "other"
        self.git("worktree", "add", "--quiet", "-b", "work", str(other))
        self.folder = other
        self.write("db.mm", changed(BASE, CHEAT))
        self.assertEqual(self.findings(), [CHEAT_FOUND])


GUIDE = (TOP / "docs" / "SYNTAX.md").read_text()
OF_SET_MM = WITHOUT_BRACKETS.replace("FIVE", "c2 c2 caddc co c5 wceq")


class Guide(unittest.TestCase):
    """docs/SYNTAX.md: its example is the one that is tried here."""

    def test_the_example(self) -> None:
        self.assertEqual(GUIDE.split("```\n")[1], OF_SET_MM)


@unittest.skipUnless((DATABASES / "set.mm").exists(), "there is no set.mm")
class SetMm(Hostile):
    """What docs/SYNTAX.md shows of set.mm, but for the line and the commit."""

    def test_a_syntax_axiom_without_brackets(self) -> None:
        self.git("config", "core.compression", "0")
        (self.folder / "db.mm").unlink()
        self.ask("")
        text = (DATABASES / "set.mm").read_text("latin-1")
        self.commit(text, "set.mm")
        self.git("update-ref", "refs/remotes/origin/main", "HEAD")
        self.branch()
        after = text.index("$.", text.index(" 2p2e4 $p ")) + len("$.\n")
        self.commit(text[:after] + OF_SET_MM + text[after:], "set.mm")
        numbers = re.compile(r":\d+:|[0-9a-f]{12}")
        for block in re.findall(r"^```console\n(.*?)^```", GUIDE, re.DOTALL | re.MULTILINE):
            for part in block.split("$ mmquery ")[1:]:
                command, *shown = part.splitlines()
                done = self.query(*command.split())
                lines = [numbers.sub("", line) for line in done.lines()]
                self.assertEqual(lines, [numbers.sub("", line) for line in shown], command)


def has_metamath() -> bool:
    """Whether metamath.exe is there."""
    return Path("/usr/bin/metamath").exists()


@unittest.skipUnless(has_metamath(), "there is no metamath.exe")
class Metamath(unittest.TestCase):
    """The example of docs/SYNTAX.md is valid for metamath.exe too."""

    def test_the_small_database(self) -> None:
        with tempfile.TemporaryDirectory() as folder:
            (Path(folder) / "db.mm").write_text(LOGIC + WITHOUT_BRACKETS.replace("FIVE", "w5"))
            done = subprocess.run(
                ["/usr/bin/metamath", "read db.mm", "verify proof *", "exit"],
                cwd=folder,
                stdin=subprocess.DEVNULL,
                capture_output=True,
                check=False,
            )
        self.assertIn(b"All proofs in the database were verified", done.stdout)
