"""`gate`, and `REV:PATH` as DATABASE, asked from another folder than that of the repository; and
that nothing which a commit brings chooses a repository."""

from pathlib import Path

from query.tests.repositories import BASE, FREED, Repositories, changed

CHEAT = "ax-cheat $a |- p $.\n"


class Elsewhere(Repositories):
    """A second repository lies beside that of the test: there the branch `work` brings an axiom to
    what `trunk` has, in which nothing rests on `ax-ac2`."""

    def setUp(self) -> None:
        super().setUp()
        self.other = self.folder.parent / "other"
        self.made(self.other)

    def made(self, folder: Path) -> None:
        """Makes such a repository in a folder, with the database there and in `sub`."""
        self.git("init", "--quiet", "--initial-branch=trunk", str(folder))
        (folder / "sub").mkdir()
        self.put(folder, changed(BASE, FREED))
        self.git("checkout", "--quiet", "-b", "work", folder=folder)
        self.put(folder, changed(BASE, FREED) + CHEAT)

    def put(self, folder: Path, text: str) -> None:
        """Commits a database, there and in `sub`."""
        for name in ("db.mm", "sub/db.mm"):
            (folder / name).write_text(text)
        self.git("add", "--all", folder=folder)
        self.git("commit", "--quiet", "--message", "a change", folder=folder)

    def finds_cheat(self, word: str) -> None:
        """The gate judges the other repository's branch."""
        (line,) = self.gate("--base", "trunk", word, status=1)
        self.assertIn("ax-cheat: a new axiom: |- p [axioms]", line)

    def test_gate_of_a_file(self) -> None:
        paths = ("../other/db.mm", str(self.other / "sub/db.mm"), "./../other/sub/../db.mm")
        for path in paths:
            self.finds_cheat(path)
            self.has_no_answer("--base", "main", path, why="git has no revision 'main'")
        self.assertEqual(self.gate("--base", "main", "db.mm", status=0), [])

    def test_gate_of_a_revision(self) -> None:
        for path in ("../other/db.mm", str(self.other / "sub/db.mm")):
            self.finds_cheat(f"work:{path}")
            self.assertEqual(self.gate("--base", "trunk", f"trunk:{path}", status=0), [])
        self.has_no_answer("--base", "trunk", "work:db.mm", why="git has no revision")

    def test_outside_of_all_repositories(self) -> None:
        folder, self.folder = self.folder, self.folder.parent
        self.finds_cheat("other/db.mm")
        self.finds_cheat("work:./other/sub/db.mm")
        why = "with a whole path, or one that begins with ./ or ../, REV:PATH is of any"
        self.refuses("verify", "work:db.mm", why=why)
        self.folder = folder

    def test_databases_of_revisions(self) -> None:
        """In which folder the question is asked makes no difference."""
        for path in ("../other/db.mm", f"{self.other}/sub/db.mm"):
            rows = self.query("compare", f"trunk:{path}", f"work:{path}", "--format=tsv").lines()
            self.assertEqual([row.split("\t")[:3] for row in rows[1:]], [self.NEW], path)
        rows = self.query("compare", "main:db.mm", "work:../other/db.mm", "--format=tsv").lines()
        changes = {row.split("\t")[0] for row in rows[1:]}
        self.assertEqual(changes, {"new", "gained", "lost"})
        self.assertEqual(self.answers("falls", "HEAD:./db.mm", "ax-ac2"), ["axac3", "zorn"])
        count = self.answers("falls", f"HEAD:{self.folder}/db.mm", "ax-ac2", "--count")
        self.assertEqual(count, ["2"])
        self.refuses("verify", "main:../out.mm", why="lies in no git repository")
        self.refuses("verify", "trunk:../other/none.mm", why="has no such file")

    NEW = ["new", "axiom", "ax-cheat"]

    def test_what_lies_within(self) -> None:
        """What lies in the repository of the working folder is of no other one."""
        self.made(self.folder / "inner")
        why = "inner is a repository or a submodule of its own; go there"
        self.has_no_answer("--base", "trunk", "inner/db.mm", why=why)
        for path in ("./inner/db.mm", str(self.folder / "inner/db.mm")):
            self.has_no_answer("--base", "main", f"main:{path}", why=why)
            self.refuses("verify", f"main:{path}", why=why)
        (self.folder / "inner").rename(self.folder / "planted")
        (self.folder / "planted/.git").rename(self.folder.parent / "away")
        self.git("clone", "--quiet", "--bare", str(self.other), str(self.folder / "planted/bare"))
        self.write("planted/bare/db.mm", BASE)
        why = "planted/bare is a repository or a submodule of its own"
        self.has_no_answer("--base", "main", "planted/bare/db.mm", why=why)
        self.refuses("verify", "main:./planted/bare/db.mm", why=why)

    def test_links(self) -> None:
        """One that lies in a repository may come from a commit, and leads to no other one."""
        (self.folder / "link").symlink_to("../other")
        for path in ("link/db.mm", "./link/sub/db.mm"):
            self.has_no_answer("--base", "trunk", path, why="link is a link")
            self.refuses("verify", f"main:./{path}", why="link is a link")
        self.has_no_answer("--base", "main", "link/../other/db.mm", why="a link on the way")
        (self.folder.parent / "chain").symlink_to("folder/link")
        self.has_no_answer("--base", "trunk", "../chain/db.mm", why="is a link, and lies in a rep")
        (self.folder.parent / "middle").symlink_to("other/sub")
        self.has_no_answer("--base", "trunk", "../middle/db.mm", why="a link leads into the rep")

    def test_what_is_asked_is_of_that_repository(self) -> None:
        """The file that judges is that of the repository that is judged."""
        self.write("mmdepend.toml", 'allow.axioms = ["ax-*"]\n')
        self.git("add", "--all")
        self.git("commit", "--quiet", "--message", "all is allowed here")
        self.finds_cheat("../other/db.mm")
